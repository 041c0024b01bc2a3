// The questions to one record: clock terms, accuracy and the UTC time of day.
use crate::extreme::Extreme;
use crate::refused;
use lnav::{Accuracy, ClockTerms, Subframe1, TimeOfDay, UtcPage};

#[test]
fn clock() {
    for extreme in [Extreme::Highest, Extreme::Lowest] {
        let record = extreme.subframe1();
        let expected = ClockTerms {
            tgd: f64::from(record.tgd) / 2f64.powi(31),
            af0: f64::from(record.af0) / 2f64.powi(31),
            af1: f64::from(record.af1) / 2f64.powi(43),
            af2: f64::from(record.af2) / 2f64.powi(55),
        };
        assert_eq!(lnav::clock_terms(&record), Ok(expected));
    }
    let bad = Subframe1 {
        week: 1024,
        ..Extreme::Lowest.subframe1()
    };
    assert_eq!(lnav::clock_terms(&bad), refused(11, 0));
    assert_eq!(lnav::accuracy(&bad), refused(11, 0));
}

#[test]
fn accuracy() {
    let metres = [
        2.0, 2.8, 4.0, 5.7, 8.0, 11.3, 16.0, 32.0, 64.0, 128.0, 256.0, 512.0, 1024.0, 2048.0,
        4096.0,
    ];
    for (ura, metres) in (0..).zip(metres) {
        let record = Subframe1 {
            ura,
            ..Extreme::Lowest.subframe1()
        };
        assert_eq!(lnav::accuracy(&record), Ok(Accuracy::Metres(metres)));
    }
    let record = Subframe1 {
        ura: 15,
        ..Extreme::Lowest.subframe1()
    };
    assert_eq!(lnav::accuracy(&record), Ok(Accuracy::NoPrediction));
}

#[test]
fn time() {
    let page = UtcPage {
        dtls: 17,
        wnlsf: 208,
        dn: 1,
        dtlsf: 18,
        ..Extreme::Lowest.utc_page()
    };
    let last = Ok(TimeOfDay {
        hour: 23,
        minute: 59,
        second: 42,
    });
    assert_eq!(lnav::time_of_day(&page, 2000, 86_399), last);
    assert_eq!(lnav::time_of_day(&page, 2000, 86_400), last);
    assert_eq!(lnav::time_of_day(&page, 8192, 0), refused(14, 0));
    assert_eq!(lnav::time_of_day(&page, 0, 604_800), refused(14, 0));
    assert_eq!(
        lnav::time_of_day(&UtcPage { dn: 8, ..page }, 2000, 0),
        refused(15, 8)
    );
    assert_eq!(
        lnav::time_of_day(&UtcPage { wnlsf: 80, ..page }, 2000, 0),
        refused(16, 0)
    );
    assert_eq!(
        lnav::time_of_day(&UtcPage { wnlsf: 256, ..page }, 8192, 0),
        refused(11, 0)
    );
}
