// The recorded logs of the repository.
use crate::records::round_trip;
use crate::refused;
use lnav::{History, Record};
use std::fs;

// A file of the repository's crates.
fn file(path: &str) -> Vec<u8> {
    let path = format!("{}/../../crates/{path}", env!("CARGO_MANIFEST_DIR"));
    fs::read(&path).unwrap_or_else(|error| panic!("{path}: {error}"))
}

// The recording has 40 blocks, 300 apart, of satellite 5: a set of issue 47 from the fourth on, one of issue 48 from the ninth on.
#[test]
fn recording() {
    let log = file("lnav/data/ublox-2008-sv05.log");
    let mut history = History::new(&log);
    for fed in 1..=40usize {
        let place = 300 * (fed - 1);
        assert_eq!(lnav::find(&log, (place + 1).saturating_sub(300)), Ok(place));
        let record = lnav::read(&log, place).unwrap();
        let block = lnav::block(&record, lnav::polarity(&log, place).unwrap()).unwrap();
        assert_eq!(block, log[place..place + 302]);
        history.feed(place, 5).unwrap();
        let issue = history.set(5).map(|set| set.subframe1.iodc_low);
        match fed {
            1..=3 => assert_eq!(issue, refused(17, fed)),
            7 | 8 => assert_eq!(issue, refused(18, 0)),
            _ => assert_eq!(issue, Ok(if fed < 7 { 47 } else { 48 })),
        }
    }
    assert_eq!(
        history.almanac(24).map(|page| (page.header.count, page.e)),
        Ok((17995, 16158))
    );
    assert_eq!(history.utc_page(), refused(20, 0));
    let listing = lnav::list(&log).unwrap();
    assert_eq!(listing.lines().count(), 41);
    assert!(listing.ends_with("\n11700\t4\t18034\tU\n"));
}

// The fields of a record as `name number` each, in their order, out of its debug text.
fn named_values(record: &Record) -> Vec<String> {
    let text = format!("{record:?}").replace(['{', '}', '(', ')', ','], " ");
    let words: Vec<&str> = text.split_whitespace().collect();
    let pairs = words
        .windows(2)
        .filter(|pair| pair[0].ends_with(':') && pair[1].parse::<i64>().is_ok());
    pairs
        .map(|pair| format!("{} {}", pair[0].trim_end_matches(':'), pair[1]))
        .collect()
}

// The first two words of each line that `lnav` is held to for the commands `read` of records.txt. Lines with tabs are listings.
fn expected_fields(commands: &str) -> Vec<String> {
    let heading = commands.lines().find(|line| line.starts_with('#')).unwrap();
    let output = String::from_utf8(file("lnav/stdout")).unwrap();
    let lines = output.lines().skip_while(|line| *line != heading);
    lines
        .filter(|line| !line.starts_with('#') && !line.contains('\t'))
        .map(|line| line.split(' ').take(2).collect::<Vec<_>>().join(" "))
        .collect()
}

// Every field by its name: the records of the recordings and of their inverses are those that the program `lnav` is held to, most of them another decoder's.
#[test]
fn named_fields() {
    let names = [
        "subframe1",
        "subframe2",
        "subframe3",
        "almanac",
        "utc",
        "other",
    ];
    let commands = String::from_utf8(file("lnav/data/records.txt")).unwrap();
    let expected = expected_fields(&commands);
    let mut at = 0;
    let mut kinds = [0; 6];
    for command in commands.lines().filter(|line| line.starts_with("read ")) {
        let words: Vec<&str> = command.split(' ').collect();
        let log = file(&format!("lnav/data/{}", words[1]));
        let inverse: Vec<u8> = log.iter().map(|bit| 1 - bit).collect();
        let place = words[2].parse().unwrap();
        let record = lnav::read(&log, place).unwrap();
        assert_eq!(lnav::read(&inverse, place).as_ref(), Ok(&record));
        let kind = usize::from(record.kind()) - 1;
        let fields = named_values(&record);
        assert_eq!(expected[at], format!("kind {}", names[kind]));
        assert_eq!(expected[at + 1..at + 1 + fields.len()], fields);
        at += 1 + fields.len();
        round_trip(record);
        kinds[kind] += 1;
    }
    assert_eq!(kinds, [70, 70, 70, 88, 2, 38]);
}

#[test]
fn any_thread_may_call() {
    let log = file("lnav/data/ublox-2008-sv05.log");
    let listing = lnav::list(&log);
    std::thread::scope(|scope| {
        for _ in 0..4 {
            scope.spawn(|| assert_eq!(lnav::list(&log), listing));
        }
    });
}
