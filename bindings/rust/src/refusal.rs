// What a refused call gives: document 01's number and detail.
use std::error::Error;
use std::fmt::{self, Display, Formatter};

/// A refusal: document 01's number of the check that failed, and its detail.
///
/// ```
/// let refusal = lnav::check(&[0; 301], 0).unwrap_err();
/// assert_eq!(refusal, lnav::Refusal { number: 3, detail: 0 });
/// assert_eq!(refusal.to_string(), "refused by 3: there are fewer than 302 bytes from place 0 on");
/// ```
#[derive(Debug, Clone, Copy, PartialEq, Eq)]
pub struct Refusal {
    /// The number, 1 or more.
    pub number: u8,
    /// What document 01's table names as the detail of the number; 0 where it names none.
    pub detail: usize,
}

impl Display for Refusal {
    fn fmt(&self, f: &mut Formatter<'_>) -> fmt::Result {
        let detail = self.detail;
        write!(f, "refused by {}: ", self.number)?;
        match self.number {
            1 => write!(f, "the log has {detail} bytes, more than 65,536"),
            2 => write!(f, "the byte at index {detail} of the log is above 1"),
            3 => write!(f, "there are fewer than 302 bytes from place {detail} on"),
            4 => write!(f, "the start pair at place {detail} is unequal"),
            5 => write!(f, "word {detail} breaks the parity table"),
            6 => write!(f, "the preamble differs"),
            7 => write!(f, "word {detail} ends unlike the start pair"),
            8 => write!(f, "the subframe number is {detail}, none of 1 to 5"),
            9 => write!(f, "the count is {detail}, above 100,799"),
            10 => write!(f, "no block at or after place {detail} is accepted"),
            11 => write!(f, "a value is outside its field, or the subframe number or the IDs are not those of the kind"),
            12 => write!(f, "the buffer has {detail} bytes, fewer than 302"),
            13 => write!(f, "the satellite or SV ID is {detail}, none of 1 to 32"),
            14 => write!(f, "the week is above 8,191 or the second above 604,799"),
            15 => write!(f, "DN is {detail}, none of 1 to 7"),
            16 => write!(f, "the week difference is -128"),
            17 => write!(f, "subframe {detail} is not held"),
            18 => write!(f, "IODC low, IODE of subframe 2 and IODE of subframe 3 are not all equal"),
            19 => write!(f, "the first health bit is 1, the health {detail}"),
            20 => write!(f, "the almanac or UTC page is not held"),
            _ => write!(f, "the detail is {detail}"),
        }
    }
}

impl Error for Refusal {}
