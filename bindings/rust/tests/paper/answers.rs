// Answers from one record: clock terms, accuracy, and the UTC time of day.
use super::record::is_record;
use super::{refuse, Refusal, Values};

// Indices of values.
const URA: usize = 8;
const TGD: usize = 16;
const AF2: usize = 19;
const AF1: usize = 20;
const AF0: usize = 21;
const DT_LS: usize = 20;
const WN_LSF: usize = 21;
const DN: usize = 22;
const DT_LSF: usize = 23;

const DAY: i64 = 86_400;
const WEEK: i64 = 604_800;

const METRES: [f64; 15] = [
    2.0, 2.8, 4.0, 5.7, 8.0, 11.3, 16.0, 32.0, 64.0, 128.0, 256.0, 512.0, 1024.0, 2048.0, 4096.0,
];

/// Refuse what the writer would refuse by 11.
fn check_record(kind: u8, values: &Values) -> Result<(), Refusal> {
    if !is_record(kind, values) {
        return refuse(11, 0);
    }
    Ok(())
}

/// value times 2^-shift. Both are exact doubles and so is the quotient.
fn scaled(value: i64, shift: u32) -> f64 {
    value as f64 / (1u64 << shift) as f64
}

/// TGD, af0, af1 and af2 of a subframe 1.
pub fn clock_terms(values: &Values) -> Result<[f64; 4], Refusal> {
    check_record(1, values)?;
    Ok([
        scaled(values[TGD], 31),
        scaled(values[AF0], 31),
        scaled(values[AF1], 43),
        scaled(values[AF2], 55),
    ])
}

/// The accuracy in metres of a subframe 1; None when no prediction exists.
pub fn accuracy(values: &Values) -> Result<Option<f64>, Refusal> {
    check_record(1, values)?;
    Ok(METRES.get(values[URA] as usize).copied())
}

/// Hour, minute and second of UTC at a GPS second, by a UTC page.
pub fn time_of_day(values: &Values, week: u32, second: u32) -> Result<[u32; 3], Refusal> {
    check_record(5, values)?;
    if week > 8_191 || second > 604_799 {
        return refuse(14, 0);
    }
    let dn = values[DN];
    if !(1..=7).contains(&dn) {
        return refuse(15, dn as usize);
    }
    let week = i64::from(week);
    let mut difference = (values[WN_LSF] - week % 256).rem_euclid(256);
    if difference > 127 {
        difference -= 256;
    }
    if difference == -128 {
        return refuse(16, 0);
    }
    let now = week * WEEK + i64::from(second);
    let leap = (week + difference) * WEEK + dn * DAY;
    let offset = values[if now < leap { DT_LS } else { DT_LSF }];
    let utc = (now - offset).rem_euclid(DAY) as u32;
    Ok([utc / 3_600, utc / 60 % 60, utc % 60])
}
