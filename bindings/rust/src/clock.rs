// Clock terms and accuracy of a subframe 1.
use crate::fields::Subframe1;
use crate::raw;
use crate::refusal::Refusal;

/// The clock terms, each exactly the field times its scale.
#[derive(Debug, Clone, Copy, PartialEq)]
pub struct ClockTerms {
    /// TGD, in s.
    pub tgd: f64,
    /// af0, in s.
    pub af0: f64,
    /// af1, in s/s.
    pub af1: f64,
    /// af2, in s/s^2.
    pub af2: f64,
}

/// What a URA index says.
#[derive(Debug, Clone, Copy, PartialEq)]
pub enum Accuracy {
    /// A length in metres: indices 0 to 14.
    Metres(f64),
    /// No prediction exists: index 15.
    NoPrediction,
}

/// The clock terms of a subframe 1. Refused by 11.
///
/// ```
/// # use lnav::Subframe1;
/// let mut record = Subframe1::default();
/// record.header.subframe = 1;
/// record.tgd = -128;
/// assert_eq!(lnav::clock_terms(&record)?.tgd, -128.0 / 2147483648.0);
/// # Ok::<(), lnav::Refusal>(())
/// ```
pub fn clock_terms(record: &Subframe1) -> Result<ClockTerms, Refusal> {
    raw::clock_terms(&record.values())
}

/// The accuracy for the URA index of a subframe 1. Refused by 11.
///
/// ```
/// # use lnav::{Accuracy, Subframe1};
/// let mut record = Subframe1::default();
/// record.header.subframe = 1;
/// record.ura = 3;
/// assert_eq!(lnav::accuracy(&record)?, Accuracy::Metres(5.7));
/// record.ura = 15;
/// assert_eq!(lnav::accuracy(&record)?, Accuracy::NoPrediction);
/// # Ok::<(), lnav::Refusal>(())
/// ```
pub fn accuracy(record: &Subframe1) -> Result<Accuracy, Refusal> {
    raw::accuracy(&record.values())
}
