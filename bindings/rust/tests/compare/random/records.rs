// Random records: those that exist, and those with something odd.
use super::Random;
use crate::paper::{self, Values};

/// A random record that exists.
pub fn record(random: &mut Random, kind: u8) -> Values {
    loop {
        let mut values = [0; 25];
        for (value, field) in values.iter_mut().zip(paper::fields(kind)) {
            let (low, high) = (field.lowest(), field.highest());
            let usual = random.between(low, high);
            *value = random.rarely(6, &[low, high, low.max(-1), 1], usual);
        }
        let usual = random.between(0, 100_799);
        values[2] = random.rarely(8, &[0, 1, 100_798, 100_799], usual);
        values[5] = match kind {
            1..=3 => i64::from(kind),
            5 => 4,
            _ => random.pick(&[4, 5]),
        };
        let usual = random.between(1, 32);
        match kind {
            4 => values[6..8].copy_from_slice(&[1, random.rarely(4, &[1, 32], usual)]),
            5 => values[6..8].copy_from_slice(&[1, 56]),
            6 => values[6] = random.rarely(2, &[1], values[6]),
            _ => {}
        }
        if kind == 6 {
            values[7] = random.rarely(3, &[0, 1, 32, 33, 55, 56, 57, 63], values[7]);
        }
        if paper::is_record(kind, &values) {
            return values;
        }
    }
}

/// Lowest and highest value of an entry.
pub fn limits(kind: u8, entry: usize) -> (i64, i64) {
    match paper::fields(kind).nth(entry) {
        Some(field) => (field.lowest(), field.highest()),
        None => (0, 0),
    }
}

/// A value at a border of its field, outside it, or anything.
fn odd_value(random: &mut Random, kind: u8, entry: usize) -> i64 {
    let (low, high) = limits(kind, entry);
    let power = 1 << random.below(63);
    match random.below(5) {
        0 => random.pick(&[low, high, low - 1, high + 1, 0, 1, -1]),
        1 => random.pick(&[i64::MIN, i64::MAX, i64::MIN + 1]),
        2 => random.pick(&[power, power - 1, -power, -power - 1]),
        3 => random.pick(&[low + power, low - power, high - power]),
        _ => random.next() as i64,
    }
}

/// Kind, values and sort of a call that takes a record: half of them exist.
pub fn maybe_record(random: &mut Random, kind: u8) -> (u8, Values, &'static str) {
    let mut values = record(random, kind);
    match random.below(10) {
        0..=4 => (kind, values, "record"),
        5 => {
            for _ in 0..1 + random.below(2) {
                let entry = random.below(25);
                values[entry] = odd_value(random, kind, entry);
            }
            (kind, values, "odd entries")
        }
        6 => {
            values[2] = random.pick(&[100_799, 100_800, 100_801, 131_071, 131_072]);
            (kind, values, "odd count")
        }
        7 => {
            values[5] = random.between(-1, 8);
            (kind, values, "odd subframe number")
        }
        8 => {
            values[6] = random.pick(&[0, 1, 1, 1, 2, 3]);
            values[7] = random.pick(&[0, 1, 2, 31, 32, 33, 55, 56, 57, 63]);
            (kind, values, "odd IDs")
        }
        _ => {
            let other = random.pick(&[0, 1, 2, 3, 4, 5, 6, 7, 8, 128, 254, 255]);
            (other, values, "odd kind")
        }
    }
}
