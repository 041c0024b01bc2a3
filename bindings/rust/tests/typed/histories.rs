// Histories of feeds, and the sets and pages after them.
use crate::extreme::Extreme;
use crate::refused;
use lnav::{History, OrbitSet, Polarity, Record, Subframe1, Subframe2, Subframe3};

// A log of the blocks of these records, one after the other.
fn log_of(records: &[Record]) -> Vec<u8> {
    records
        .iter()
        .flat_map(|record| lnav::block(record, Polarity::Inverted).unwrap())
        .collect()
}

// The three subframes of issue 7, the first with this health.
fn set_with(health: u32) -> OrbitSet {
    OrbitSet {
        subframe1: Subframe1 {
            iodc_low: 7,
            health,
            ..Extreme::Lowest.subframe1()
        },
        subframe2: Subframe2 {
            iode: 7,
            ..Extreme::Highest.subframe2()
        },
        subframe3: Subframe3 {
            iode: 7,
            ..Extreme::Highest.subframe3()
        },
    }
}

#[test]
fn sets() {
    let set = set_with(31);
    let log = log_of(&[
        set.subframe1.into(),
        set.subframe2.into(),
        set.subframe3.into(),
        set_with(32).subframe1.into(),
        Extreme::Highest.subframe2().into(),
    ]);
    // Each block that is fed, the satellite, and satellite 5's set after it.
    let feeds = [
        (0, 5, refused(17, 2)),
        (1, 5, refused(17, 3)),
        (2, 5, Ok(set)),
        (3, 6, Ok(set)),
        (3, 5, refused(19, 32)),
        (4, 5, refused(18, 0)),
        (0, 5, refused(18, 0)),
        (1, 5, Ok(set)),
    ];
    let mut history = History::new(&log);
    assert_eq!(history.set(5), refused(17, 1));
    for (block, satellite, expected) in feeds {
        assert_eq!(history.feed(302 * block, satellite), Ok(()));
        assert_eq!(history.set(5), expected);
    }
    assert_eq!(history.set(6), refused(17, 2));
    assert_eq!(history.set(33), refused(13, 33));
}

#[test]
fn refused_feeds_change_nothing() {
    let log = log_of(&[Extreme::Lowest.subframe1().into()]);
    let mut history = History::new(&log);
    assert_eq!(history.feed(0, 0), refused(13, 0));
    assert_eq!(history.feed(usize::MAX, 33), refused(13, 33));
    assert_eq!(history.feed(1, 5), refused(3, 1));
    assert_eq!(history.set(5), refused(17, 1));
}

#[test]
fn pages() {
    let pages = [
        Extreme::Lowest.almanac_page(9),
        Extreme::Highest.almanac_page(9),
    ];
    let utc = Extreme::Highest.utc_page();
    let log = log_of(&[
        pages[0].into(),
        pages[1].into(),
        utc.into(),
        Extreme::Highest.other_page().into(),
    ]);
    let mut history = History::new(&log);
    history.feed(302 * 3, 1).unwrap();
    assert_eq!(history.almanac(9), refused(20, 0));
    assert_eq!(history.utc_page(), refused(20, 0));
    for (block, page) in pages.into_iter().enumerate() {
        history.feed(302 * block, 32).unwrap();
        assert_eq!(history.almanac(9), Ok(page));
    }
    history.feed(302 * 2, 32).unwrap();
    assert_eq!(history.utc_page(), Ok(utc));
    assert_eq!(history.almanac(32), refused(20, 0));
    assert_eq!(history.almanac(33), refused(13, 33));
}
