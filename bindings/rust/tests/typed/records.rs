// Records and the writer: what is written is read again, and what is no record is refused.
use crate::extreme::Extreme;
use crate::refused;
use lnav::{OtherPage, Polarity, Record, Refusal, Subframe1, Subframe3};

const POLARITIES: [Polarity; 2] = [Polarity::Upright, Polarity::Inverted];

// The block of the record reads as the record at both polarities, and the one is the other with its bits swapped.
pub fn round_trip(record: Record) {
    for polarity in POLARITIES {
        let mut buffer = [7; 310];
        assert_eq!(
            lnav::write(&record, polarity, &mut buffer),
            Ok(()),
            "{record:?}"
        );
        assert_eq!(buffer[302..], [7; 8]);
        let block = lnav::block(&record, polarity).unwrap();
        assert_eq!(buffer[..302], block);
        assert_eq!(lnav::check(&block, 0), Ok(()));
        assert_eq!(lnav::polarity(&block, 0), Ok(polarity));
        assert_eq!(lnav::read(&block, 0), Ok(record));
    }
    let [upright, inverted] = POLARITIES.map(|polarity| lnav::block(&record, polarity).unwrap());
    assert_eq!(upright.map(|bit| 1 - bit), inverted);
}

#[test]
fn extreme_values_round_trip() {
    for extreme in [Extreme::Highest, Extreme::Lowest] {
        for record in extreme.records() {
            round_trip(record);
        }
    }
}

#[test]
fn kinds_and_values() {
    for (record, kind) in Extreme::Lowest.records().into_iter().zip(1..) {
        assert_eq!(record.kind(), kind);
        let mut values = record.values();
        assert_eq!(Record::from_values(kind, &values), Some(record));
        assert_eq!(Record::from_values(0, &values), None);
        for outside in [-1, 1 << 32, i64::MIN, i64::MAX] {
            values[0] = outside;
            assert_eq!(Record::from_values(kind, &values), None);
        }
    }
    let mut values = Extreme::Highest.subframe3().values();
    values[24] = 1;
    assert_eq!(Subframe3::from_values(&values), None);
}

// What the writer answers at this length of buffer. A refusal leaves the buffer as it was.
fn written(record: impl Into<Record>, length: usize) -> Result<(), Refusal> {
    let mut buffer = vec![7; length];
    let answer = lnav::write(&record.into(), Polarity::Inverted, &mut buffer);
    if answer.is_err() {
        assert_eq!(buffer, vec![7; length]);
    }
    answer
}

#[test]
fn writer_refusals() {
    let good = Extreme::Highest.subframe1();
    let bad = Subframe1 { week: 1024, ..good };
    assert_eq!(written(good, 302), Ok(()));
    assert_eq!(written(good, 301), refused(12, 301));
    assert_eq!(written(good, 0), refused(12, 0));
    assert_eq!(written(bad, 302), refused(11, 0));
    assert_eq!(written(bad, 301), refused(11, 0));
    assert_eq!(written(Subframe1::default(), 302), refused(11, 0));
    assert_eq!(
        written(Extreme::Lowest.almanac_page(33), 302),
        refused(11, 0)
    );
    for (id, expected) in [
        (0, Ok(())),
        (32, refused(11, 0)),
        (33, Ok(())),
        (56, refused(11, 0)),
    ] {
        let page = OtherPage {
            data_id: 1,
            id,
            ..Extreme::Lowest.other_page()
        };
        assert_eq!(written(page, 302), expected);
    }
}
