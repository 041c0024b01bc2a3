// From a GPS second to UTC.
use crate::fields::UtcPage;
use crate::raw;
use crate::refusal::Refusal;

/// A UTC time of day.
#[derive(Debug, Clone, Copy, PartialEq, Eq)]
pub struct TimeOfDay {
    /// The hour, 0 to 23.
    pub hour: u32,
    /// The minute, 0 to 59.
    pub minute: u32,
    /// The second, 0 to 59.
    pub second: u32,
}

/// The UTC time of day of a full GPS week and second of the week, by a UTC page. Refused by 11, 14, 15 or 16.
///
/// ```
/// # use lnav::{Header, TimeOfDay, UtcPage};
/// let page = UtcPage {
///     header: Header { subframe: 4, ..Header::default() },
///     data_id: 1,
///     id: 56,
///     dtls: 18,
///     wnlsf: 137,
///     dn: 7,
///     dtlsf: 18,
///     ..UtcPage::default()
/// };
/// assert_eq!(lnav::time_of_day(&page, 2000, 0)?, TimeOfDay { hour: 23, minute: 59, second: 42 });
/// # Ok::<(), lnav::Refusal>(())
/// ```
pub fn time_of_day(page: &UtcPage, week: u32, second: u32) -> Result<TimeOfDay, Refusal> {
    raw::time_of_day(&page.values(), week, second)
}
