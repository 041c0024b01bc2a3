//! The functions of the static library, one for one, over numbers and slices.
//!
//! A record is its kind, 1 to 6, and 25 [`Values`]: six of the header (message, reserved, count, flag18, flag19, subframe), then the fields
//! of its struct in [`record`](crate::record), in order, then zeros. Given values may be any numbers: those that no record of the kind has
//! are refused by 11, as every record that the writer refuses. Where a call is refused, the buffers that it was lent stay as they were.
//!
//! A history is a slice of places and one of satellites: the blocks at those places of the log are fed for those satellites, one after the
//! other, to the empty collector, as far as both slices go. A refused feed changes nothing.
#![allow(unsafe_code)]

use crate::clock::{Accuracy, ClockTerms};
use crate::ffi;
use crate::refusal::Refusal;
use crate::time::TimeOfDay;

/// The values of a record.
pub type Values = [i64; 25];

// Each SAFETY comment below rests on this: a slice's pointer and length are those of its elements, `&mut` overlaps nothing else that is lent,
// and the static library keeps no pointer after the call.

/// The block check: whether the block at the place is accepted, or refused by 1 to 9.
///
/// ```
/// assert_eq!(lnav::raw::check(&[0; 302], 0).unwrap_err().number, 6);
/// ```
pub fn check(log: &[u8], place: usize) -> Result<(), Refusal> {
    // SAFETY: a slice, read only, and numbers.
    unsafe { ffi::lnav_check(log.as_ptr(), log.len(), place) }.give(())
}

/// The place of the first accepted block at or after the given place. Refused by 1 or 10.
///
/// ```
/// assert_eq!(lnav::raw::find(&[0; 302], 7).unwrap_err(), lnav::Refusal { number: 10, detail: 7 });
/// ```
pub fn find(log: &[u8], place: usize) -> Result<usize, Refusal> {
    // SAFETY: a slice, read only, and numbers.
    let found = unsafe { ffi::lnav_find(log.as_ptr(), log.len(), place) };
    found.answer.give(found.place)
}

/// Whether the block at the place is inverted: its start pair is 11, and 00 where it is upright. Refused as the block check refuses.
///
/// ```
/// # use lnav::raw;
/// let mut sent = [0; 25];
/// sent[5] = 1;
/// let mut block = [0; 302];
/// raw::write(1, &sent, true, &mut block)?;
/// assert!(raw::inverted(&block, 0)?);
/// assert_eq!(raw::inverted(&block, 1).unwrap_err(), lnav::Refusal { number: 3, detail: 1 });
/// # Ok::<(), lnav::Refusal>(())
/// ```
pub fn inverted(log: &[u8], place: usize) -> Result<bool, Refusal> {
    // SAFETY: a slice, read only, and numbers.
    let polarity = unsafe { ffi::lnav_inverted(log.as_ptr(), log.len(), place) };
    polarity.answer.give(polarity.inverted)
}

/// Reads the record of the block at the place, and gives its kind. Refused as the block check refuses.
///
/// ```
/// # use lnav::raw;
/// let mut sent = [0; 25];
/// sent[5] = 1;
/// let mut block = [0; 302];
/// raw::write(1, &sent, true, &mut block)?;
/// let mut values = [-1; 25];
/// assert_eq!(raw::read(&block, 0, &mut values)?, 1);
/// assert_eq!(values, sent);
/// # Ok::<(), lnav::Refusal>(())
/// ```
pub fn read(log: &[u8], place: usize, values: &mut Values) -> Result<u8, Refusal> {
    // SAFETY: a slice, read only, a number, and values that are lent for this call alone.
    let reading = unsafe { ffi::lnav_read(log.as_ptr(), log.len(), place, values) };
    reading.answer.give(reading.kind)
}

/// Writes the block of a record, upright or inverted, into the first 302 bytes of the buffer; bytes after them stay as they were. Refused by
/// 11 or 12.
///
/// ```
/// # use lnav::raw;
/// let mut block = [7; 302];
/// assert_eq!(raw::write(1, &[0; 25], false, &mut block).unwrap_err().number, 11);
/// assert_eq!(block, [7; 302]);
/// ```
pub fn write(kind: u8, values: &Values, inverted: bool, block: &mut [u8]) -> Result<(), Refusal> {
    // SAFETY: values, read only, and a slice that is lent for this call alone.
    unsafe { ffi::lnav_write(kind, values, inverted, block.as_mut_ptr(), block.len()) }.give(())
}

/// Puts the listing of the log, a header line and a line for each accepted block, at the start of the buffer, and gives its length. The bytes
/// after it stay as they were. Refused by 1.
///
/// ```
/// let mut text = [0; 4096];
/// let length = lnav::raw::list(&[], &mut text)?;
/// assert_eq!(&text[..length], b"place\tid\tcount\tpolarity\n");
/// # Ok::<(), lnav::Refusal>(())
/// ```
pub fn list(log: &[u8], text: &mut [u8; 4096]) -> Result<usize, Refusal> {
    // SAFETY: a slice, read only, and an array that is lent for this call alone.
    let listing = unsafe { ffi::lnav_list(log.as_ptr(), log.len(), text) };
    listing.answer.give(listing.length)
}

/// The clock terms of a subframe 1. Refused by 11.
///
/// ```
/// let mut values = [0; 25];
/// values[5] = 1;
/// assert_eq!(lnav::raw::clock_terms(&values)?.tgd, 0.0);
/// # Ok::<(), lnav::Refusal>(())
/// ```
pub fn clock_terms(values: &Values) -> Result<ClockTerms, Refusal> {
    // SAFETY: values, read only.
    let terms = unsafe { ffi::lnav_clock_terms(values) };
    terms.answer.give(ClockTerms {
        tgd: terms.tgd,
        af0: terms.af0,
        af1: terms.af1,
        af2: terms.af2,
    })
}

/// The accuracy for the URA index of a subframe 1. Refused by 11.
///
/// ```
/// let mut values = [0; 25];
/// values[5] = 1;
/// assert_eq!(lnav::raw::accuracy(&values)?, lnav::Accuracy::Metres(2.0));
/// # Ok::<(), lnav::Refusal>(())
/// ```
pub fn accuracy(values: &Values) -> Result<Accuracy, Refusal> {
    // SAFETY: values, read only.
    let accuracy = unsafe { ffi::lnav_accuracy(values) };
    accuracy.answer.give(if accuracy.predicted {
        Accuracy::Metres(accuracy.metres)
    } else {
        Accuracy::NoPrediction
    })
}

/// The UTC time of day of a full GPS week and second of the week, by a UTC page. Refused by 11, 14, 15 or 16.
///
/// ```
/// assert_eq!(lnav::raw::time_of_day(&[0; 25], 2000, 0).unwrap_err().number, 11);
/// ```
pub fn time_of_day(values: &Values, week: u32, second: u32) -> Result<TimeOfDay, Refusal> {
    // SAFETY: values, read only, and numbers.
    let time = unsafe { ffi::lnav_time_of_day(values, week, second) };
    time.answer.give(TimeOfDay {
        hour: time.hour,
        minute: time.minute,
        second: time.second,
    })
}

/// What a feed of the block at the place, for the satellite, answers. Refused by 13, or as the block check refuses.
///
/// ```
/// assert_eq!(lnav::raw::feed(&[0; 302], 0, 33).unwrap_err(), lnav::Refusal { number: 13, detail: 33 });
/// ```
pub fn feed(log: &[u8], place: usize, satellite: usize) -> Result<(), Refusal> {
    // SAFETY: a slice, read only, and numbers.
    unsafe { ffi::lnav_feed(log.as_ptr(), log.len(), place, satellite) }.give(())
}

/// The latest subframes 1, 2 and 3 of the satellite, after a history. Refused by 13, 17, 18 or 19.
///
/// ```
/// let mut set = [[0; 25]; 3];
/// assert_eq!(lnav::raw::set(&[], &[], &[], 5, &mut set).unwrap_err(), lnav::Refusal { number: 17, detail: 1 });
/// ```
pub fn set(
    log: &[u8],
    places: &[usize],
    satellites: &[usize],
    satellite: usize,
    set: &mut [Values; 3],
) -> Result<(), Refusal> {
    let [subframe1, subframe2, subframe3] = set;
    // SAFETY: three slices, read only, a number, and three separate arrays that are lent for this call alone.
    let answer = unsafe {
        ffi::lnav_set(
            log.as_ptr(),
            log.len(),
            places.as_ptr(),
            places.len(),
            satellites.as_ptr(),
            satellites.len(),
            satellite,
            subframe1,
            subframe2,
            subframe3,
        )
    };
    answer.give(())
}

/// The latest almanac page of the SV ID, after a history, whichever satellite sent it. Refused by 13 or 20.
///
/// ```
/// let mut values = [0; 25];
/// assert_eq!(lnav::raw::almanac(&[], &[], &[], 5, &mut values).unwrap_err().number, 20);
/// ```
pub fn almanac(
    log: &[u8],
    places: &[usize],
    satellites: &[usize],
    id: usize,
    values: &mut Values,
) -> Result<(), Refusal> {
    // SAFETY: three slices, read only, a number, and values that are lent for this call alone.
    let answer = unsafe {
        ffi::lnav_almanac(
            log.as_ptr(),
            log.len(),
            places.as_ptr(),
            places.len(),
            satellites.as_ptr(),
            satellites.len(),
            id,
            values,
        )
    };
    answer.give(())
}

/// The latest UTC page, after a history. Refused by 20.
///
/// ```
/// let mut values = [0; 25];
/// assert_eq!(lnav::raw::utc_page(&[], &[], &[], &mut values).unwrap_err().number, 20);
/// ```
pub fn utc_page(
    log: &[u8],
    places: &[usize],
    satellites: &[usize],
    values: &mut Values,
) -> Result<(), Refusal> {
    // SAFETY: three slices, read only, and values that are lent for this call alone.
    let answer = unsafe {
        ffi::lnav_utc_page(
            log.as_ptr(),
            log.len(),
            places.as_ptr(),
            places.len(),
            satellites.as_ptr(),
            satellites.len(),
            values,
        )
    };
    answer.give(())
}
