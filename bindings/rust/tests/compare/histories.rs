// Cases of the collector: random histories of feeds, and the questions after each.
use crate::blocks::compare_feed;
use crate::paper::{self, Values};
use crate::random::blocks::{block_of, flip};
use crate::random::logs::{extreme_place, odd_satellite, surroundings};
use crate::random::records::record;
use crate::random::Random;
use crate::tally::{digits, Tally};
use lnav::raw;

struct History {
    log: Vec<u8>,
    places: Vec<usize>,
    satellites: Vec<usize>,
}

impl History {
    fn collect(&self) -> paper::Collector {
        let mut collector = paper::Collector::new();
        for (p, satellite) in self.places.iter().zip(&self.satellites) {
            // A refused feed leaves the collector as it was.
            let _ = collector.feed(&self.log, *p, *satellite);
        }
        collector
    }

    fn show(&self) -> String {
        let (places, satellites) = (&self.places, &self.satellites);
        let log = digits(&self.log);
        format!("places {places:?}, satellites {satellites:?}, log {log}")
    }
}

/// A record for a history: few issues, few SV IDs, health bits both ways.
fn history_record(random: &mut Random, kind: u8) -> Values {
    let mut values = record(random, kind);
    let issue = random.rarely(15, &[135], 7);
    match kind {
        1 => {
            values[17] = issue;
            values[9] = random.pick(&[0, 0, 1, 16, 30, 31, 31, 32, 33, 63]);
        }
        2 => values[6] = issue,
        3 => values[13] = issue,
        4 => values[7] = random.pick(&[1, 2, 32]),
        _ => {}
    }
    values
}

/// A log of several blocks, most of them whole, and the places of all.
fn history_log(random: &mut Random) -> (Vec<u8>, Vec<usize>) {
    let mut log = surroundings(random);
    let mut places = vec![];
    for i in 0..1 + random.below(20) {
        let mut kind = random.pick(&[1, 2, 3, 1, 2, 3, 1, 2, 3, 4, 4, 5, 6]);
        if i < 3 && !random.once_in(4) {
            // One of each subframe, so that whole sets occur.
            kind = i as u8 + 1;
        }
        let mut block = block_of(kind, &history_record(random, kind), random.once_in(2));
        if random.once_in(15) {
            flip(random, &mut block);
        }
        if log.ends_with(&block[..2]) && random.once_in(2) {
            log.truncate(log.len() - 2);
        }
        places.push(log.len());
        log.extend(block);
    }
    if random.once_in(300) {
        log.resize(paper::LONGEST_LOG + random.below(2), 1);
    }
    (log, places)
}

pub fn histories(tally: &mut Tally, random: &mut Random) {
    for _ in 0..10_000 {
        tally.sort = "history";
        let (log, blocks) = history_log(random);
        let pool = random.pick(&[[5, 5, 5], [1, 2, 32]]);
        let (mut places, mut satellites) = (vec![], vec![]);
        for _ in 0..random.below(31) {
            let (odd, usual) = (extreme_place(random, log.len()), random.pick(&blocks));
            let place = random.rarely(20, &[odd], usual);
            let (odd, usual) = (odd_satellite(random), random.pick(&pool));
            let satellite = random.rarely(20, &[odd], usual);
            if random.once_in(4) {
                compare_feed(tally, &log, place, satellite);
            }
            places.push(place);
            satellites.push(satellite);
        }
        if random.once_in(5) {
            tally.sort = "history, unequal slices";
            places.truncate(random.below(31));
            satellites.truncate(random.below(31));
        }
        let history = History {
            log,
            places,
            satellites,
        };
        compare_questions(tally, random, &history);
    }
}

/// The questions to the collector after one history.
fn compare_questions(tally: &mut Tally, random: &mut Random, history: &History) {
    let History {
        log,
        places,
        satellites,
    } = history;
    let collector = history.collect();
    let lent = [random.values(), random.values(), random.values()];
    for satellite in [1, 2, 5, 32, odd_satellite(random), 1 + random.below(32)] {
        let paper = collector.set(satellite);
        let mut values = lent;
        let library = raw::set(log, places, satellites, satellite, &mut values);
        let paper = (paper.map(|_| ()), paper.unwrap_or(lent));
        tally.compare("set", paper, (library, values), || {
            format!("satellite {satellite}, {}", history.show())
        });
    }
    let lent = lent[0];
    for id in [1, 2, 32, odd_satellite(random), 1 + random.below(32)] {
        let paper = collector.almanac(id);
        let mut values = lent;
        let library = raw::almanac(log, places, satellites, id, &mut values);
        let paper = (paper.map(|_| ()), paper.unwrap_or(lent));
        tally.compare("almanac", paper, (library, values), || {
            format!("SV ID {id}, {}", history.show())
        });
    }
    let paper = collector.utc_page();
    let mut values = lent;
    let library = raw::utc_page(log, places, satellites, &mut values);
    let paper = (paper.map(|_| ()), paper.unwrap_or(lent));
    tally.compare("utc_page", paper, (library, values), || history.show());
}
