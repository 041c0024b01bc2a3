// Cases of the questions to one record: clock terms, accuracy and the UTC time of day.
use crate::paper::{self, Values};
use crate::random::records::{maybe_record, record};
use crate::random::Random;
use crate::tally::Tally;
use lnav::raw;

pub fn compare_clock(tally: &mut Tally, values: &Values) {
    let paper = paper::clock_terms(values).map(|terms| terms.map(f64::to_bits));
    let library = raw::clock_terms(values).map(|t| [t.tgd, t.af0, t.af1, t.af2]);
    let library = library.map(|terms| terms.map(f64::to_bits));
    tally.answers("clock_terms", paper, library, || format!("{values:?}"));
    let paper = paper::accuracy(values).map(|metres| metres.map(f64::to_bits));
    let library = raw::accuracy(values).map(|accuracy| match accuracy {
        lnav::Accuracy::Metres(metres) => Some(metres.to_bits()),
        lnav::Accuracy::NoPrediction => None,
    });
    tally.answers("accuracy", paper, library, || format!("{values:?}"));
}

pub fn compare_time(tally: &mut Tally, values: &Values, week: u32, second: u32) {
    let paper = paper::time_of_day(values, week, second);
    let library = raw::time_of_day(values, week, second);
    let library = library.map(|time| [time.hour, time.minute, time.second]);
    tally.answers("time_of_day", paper, library, || {
        format!("week {week}, second {second}, {values:?}")
    });
}

pub fn clocks(tally: &mut Tally, random: &mut Random) {
    for _ in 0..80_000 {
        let kind = random.rarely(20, &[1, 2, 3, 4, 5, 6], 1);
        let (_, values, sort) = maybe_record(random, kind);
        tally.sort = if kind == 1 { sort } else { "other kind" };
        compare_clock(tally, &values);
    }
    tally.sort = "each value of one field";
    for (entry, low, high) in [(16, -128, 127), (19, -128, 127), (8, 0, 15)] {
        let mut values = record(random, 1);
        for value in low..=high {
            values[entry] = value;
            compare_clock(tally, &values);
        }
    }
}

/// A UTC page, mostly with DN 1 to 7, and a week difference near 0 or near -128.
fn utc_page(random: &mut Random, week: u32) -> Values {
    let mut values = record(random, 5);
    if !random.once_in(6) {
        values[22] = random.between(1, 7);
    }
    if !random.once_in(4) {
        let difference = random.pick(&[-128, -127, -2, -1, 0, 0, 0, 1, 2, 126, 127]);
        values[21] = (i64::from(week) + difference).rem_euclid(256);
    }
    values
}

fn any_moment(random: &mut Random) -> (u32, u32) {
    let weeks = [0, 1, 127, 128, 255, 256, 8_191, 8_192, u32::MAX];
    let seconds = [0, 1, 17, 86_399, 604_799, 604_800, u32::MAX];
    let (week, second) = (random.below(8_192), random.below(604_800));
    (
        random.rarely(4, &weeks, week as u32),
        random.rarely(4, &seconds, second as u32),
    )
}

pub fn times(tally: &mut Tally, random: &mut Random) {
    for _ in 0..80_000 {
        let (week, second) = any_moment(random);
        tally.sort = "any moment";
        compare_time(tally, &utc_page(random, week), week, second);
        if random.once_in(4) {
            tally.sort = "maybe no record";
            compare_time(tally, &maybe_record(random, 5).1, week, second);
        }
    }
    tally.sort = "each WNLSF and DN";
    for value in 0..=255 {
        let mut values = record(random, 5);
        for entry in [21, 22] {
            values[22] = 7;
            values[entry] = value;
            compare_time(tally, &values, 2_000, 0);
        }
    }
    tally.sort = "leap moment";
    for _ in 0..15_000 {
        leap_moment(tally, random);
    }
}

/// The second before a leap moment, the moment, and the second after.
fn leap_moment(tally: &mut Tally, random: &mut Random) {
    let usual = random.between(0, 8_191);
    let week = random.rarely(2, &[-1, 0, 1, 255, 256, 8_190, 8_191], usual);
    let mut values = record(random, 5);
    values[21] = week.rem_euclid(256);
    values[22] = random.between(1, 7);
    if week == -1 {
        // Only the end of the week before week 0 can be asked about.
        values[22] = 7;
    }
    let leap = week * 604_800 + values[22] * 86_400;
    for now in (leap - 1..=leap + 1).filter(|now| *now >= 0) {
        let (week, second) = (now / 604_800, now % 604_800);
        compare_time(tally, &values, week as u32, second as u32);
    }
}
