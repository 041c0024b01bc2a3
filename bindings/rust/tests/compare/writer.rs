// Cases of the writer: records that exist and others, and each value at its limits.
use crate::paper::{self, Values, BLOCK};
use crate::questions::{compare_clock, compare_time};
use crate::random::records::{limits, maybe_record, record};
use crate::random::Random;
use crate::tally::Tally;
use lnav::raw;

/// Both polarities of a record, and reading what was written.
fn compare_write(tally: &mut Tally, random: &mut Random, kind: u8, values: &Values) {
    let usual = random.pick(&[0, 1, 300, 301, 303, 310]);
    let length = random.rarely(2, &[BLOCK], usual);
    let lent = random.bytes(length);
    for inverted in [false, true] {
        let (mut one, mut two) = (lent.clone(), lent.clone());
        let paper = paper::write(kind, values, inverted, &mut one);
        let library = raw::write(kind, values, inverted, &mut two);
        tally.compare("write", (paper, one), (library, two.clone()), || {
            format!("kind {kind}, values {values:?}, inverted {inverted}, lent {lent:?}")
        });
        if library.is_ok() && random.once_in(4) {
            let mut read = [0; 25];
            let answer = raw::read(&two, 0, &mut read);
            let right = answer == Ok(kind)
                && read == *values
                && raw::inverted(&two, 0) == Ok(inverted)
                && paper::read(&two, 0) == Ok((kind, *values))
                && paper::inverted(&two, 0) == Ok(inverted);
            tally.count("written, read", right, || {
                format!("kind {kind}, values {values:?}, read {answer:?} {read:?}")
            });
        }
    }
}

pub fn writes(tally: &mut Tally, random: &mut Random) {
    for _ in 0..100_000 {
        let kind = random.kind();
        let (kind, values, sort) = maybe_record(random, kind);
        tally.sort = sort;
        compare_write(tally, random, kind, &values);
    }
    tally.sort = "each entry at its limits";
    for _ in 0..5 {
        for kind in 1..=6 {
            for entry in 0..25 {
                each_limit(tally, random, kind, entry);
            }
        }
    }
}

/// One entry of a record at each limit and beyond, for all functions of records.
fn each_limit(tally: &mut Tally, random: &mut Random, kind: u8, entry: usize) {
    let (low, high) = limits(kind, entry);
    let far = [i64::MIN, i64::MAX, low - (1 << 32), high + (1 << 32)];
    for value in [low, high, low - 1, high + 1, 0].into_iter().chain(far) {
        let mut values = record(random, kind);
        values[entry] = value;
        compare_write(tally, random, kind, &values);
        match kind {
            1 => compare_clock(tally, &values),
            5 => compare_time(tally, &values, 2_000, 0),
            _ => {}
        }
    }
}
