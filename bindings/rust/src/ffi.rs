// The functions of the static library, as C sees them. The structs are laid out as those of `bindings/c/lnav.h`.
use crate::raw::Values;
use crate::refusal::Refusal;

/// Number 0 and detail 0 where the call accepts, else those of the refusal.
#[repr(C)]
pub struct Answer {
    number: u8,
    detail: usize,
}

impl Answer {
    /// This value where the call accepts, else the refusal.
    pub fn give<T>(self, value: T) -> Result<T, Refusal> {
        match self.number {
            0 => Ok(value),
            number => Err(Refusal {
                number,
                detail: self.detail,
            }),
        }
    }
}

#[repr(C)]
pub struct Found {
    pub answer: Answer,
    pub place: usize,
}

#[repr(C)]
pub struct Polarity {
    pub answer: Answer,
    pub inverted: bool,
}

#[repr(C)]
pub struct Reading {
    pub answer: Answer,
    pub kind: u8,
}

#[repr(C)]
pub struct Listing {
    pub answer: Answer,
    pub length: usize,
}

#[repr(C)]
pub struct Terms {
    pub answer: Answer,
    pub tgd: f64,
    pub af0: f64,
    pub af1: f64,
    pub af2: f64,
}

#[repr(C)]
pub struct RangeAccuracy {
    pub answer: Answer,
    pub predicted: bool,
    pub metres: f64,
}

#[repr(C)]
pub struct Time {
    pub answer: Answer,
    pub hour: u32,
    pub minute: u32,
    pub second: u32,
}

// A caller owes that each pointer with a length beside it points to that many elements, and that what is written overlaps nothing else.
extern "C" {
    pub fn lnav_check(log: *const u8, length: usize, place: usize) -> Answer;
    pub fn lnav_find(log: *const u8, length: usize, place: usize) -> Found;
    pub fn lnav_inverted(log: *const u8, length: usize, place: usize) -> Polarity;
    pub fn lnav_read(log: *const u8, length: usize, place: usize, values: &mut Values) -> Reading;
    pub fn lnav_write(
        kind: u8,
        values: &Values,
        inverted: bool,
        block: *mut u8,
        length: usize,
    ) -> Answer;
    pub fn lnav_list(log: *const u8, length: usize, text: &mut [u8; 4096]) -> Listing;
    pub fn lnav_clock_terms(values: &Values) -> Terms;
    pub fn lnav_accuracy(values: &Values) -> RangeAccuracy;
    pub fn lnav_time_of_day(values: &Values, week: u32, second: u32) -> Time;
    pub fn lnav_feed(log: *const u8, length: usize, place: usize, satellite: usize) -> Answer;
    pub fn lnav_set(
        log: *const u8,
        length: usize,
        places: *const usize,
        places_length: usize,
        satellites: *const usize,
        satellites_length: usize,
        satellite: usize,
        subframe1: &mut Values,
        subframe2: &mut Values,
        subframe3: &mut Values,
    ) -> Answer;
    pub fn lnav_almanac(
        log: *const u8,
        length: usize,
        places: *const usize,
        places_length: usize,
        satellites: *const usize,
        satellites_length: usize,
        id: usize,
        values: &mut Values,
    ) -> Answer;
    pub fn lnav_utc_page(
        log: *const u8,
        length: usize,
        places: *const usize,
        places_length: usize,
        satellites: *const usize,
        satellites_length: usize,
        values: &mut Values,
    ) -> Answer;
}
