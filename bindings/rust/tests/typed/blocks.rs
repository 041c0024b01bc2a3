// Blocks, the search and the listing.
use crate::refused;
use lnav::{Polarity, Subframe1};

// Document 01's example: five zeros, then the upright subframe 1 with all fields but the subframe number 0.
fn example() -> Vec<u8> {
    let mut record = Subframe1::default();
    record.header.subframe = 1;
    let mut log = vec![0; 5];
    log.extend(lnav::block(&record.into(), Polarity::Upright).unwrap());
    log
}

#[test]
fn block_refusals() {
    assert_eq!(lnav::check(&[0; 302], 0), refused(6, 0));
    assert_eq!(lnav::check(&[0; 301], 0), refused(3, 0));
    assert_eq!(lnav::check(&[], usize::MAX), refused(3, usize::MAX));
    assert_eq!(lnav::check(&[0; 65_537], 0), refused(1, 65_537));
    assert_eq!(lnav::read(&[0; 302], 0), refused(6, 0));
    let cases = [(5, 1, 4, 5), (7, 1, 5, 1), (306, 1, 5, 10), (40, 3, 2, 40)];
    for (index, flip, number, detail) in cases {
        let mut log = example();
        log[index] ^= flip;
        assert_eq!(lnav::check(&log, 5), refused(number, detail));
        assert_eq!(lnav::read(&log, 5), refused(number, detail));
        assert_eq!(lnav::polarity(&log, 5), refused(number, detail));
    }
}

#[test]
fn search() {
    let log = example();
    assert_eq!(lnav::find(&log, 0), Ok(5));
    assert_eq!(lnav::find(&log, 5), Ok(5));
    assert_eq!(lnav::find(&log, 6), refused(10, 6));
    assert_eq!(lnav::find(&log, usize::MAX), refused(10, usize::MAX));
    assert_eq!(lnav::find(&[], 0), refused(10, 0));
    assert_eq!(lnav::find(&[0; 65_537], 9), refused(1, 65_537));
    let part = lnav::find_part(&log, 0).unwrap();
    assert_eq!((part.as_ptr(), part.len()), (log[5..].as_ptr(), 302));
    assert_eq!(lnav::find_part(&log, 6), refused(10, 6));
}

#[test]
fn polarity_and_listing() {
    let log = example();
    let inverted: Vec<u8> = log.iter().map(|bit| 1 - bit).collect();
    assert_eq!(lnav::polarity(&log, 5), Ok(Polarity::Upright));
    assert_eq!(lnav::polarity(&inverted, 5), Ok(Polarity::Inverted));
    let header = "place\tid\tcount\tpolarity\n";
    assert_eq!(lnav::list(&log), Ok(format!("{header}5\t1\t0\tU\n")));
    assert_eq!(lnav::list(&inverted), Ok(format!("{header}5\t1\t0\tI\n")));
    assert_eq!(lnav::list(&[0; 65_536]), Ok(header.to_string()));
    assert_eq!(lnav::list(&[0; 65_537]), refused(1, 65_537));
}
