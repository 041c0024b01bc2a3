// Cases of blocks and logs: check, read, feed, polarity, search and listing.
use crate::paper::{self, BLOCK};
use crate::random::blocks::{any_valid_block, invert};
use crate::random::logs::{
    extreme_place, full_log, odd_satellite, one_block_log, several_blocks_log,
};
use crate::random::Random;
use crate::tally::{show, Tally};
use lnav::raw;

fn compare_check(tally: &mut Tally, log: &[u8], p: usize) {
    let (paper, library) = (paper::check(log, p), raw::check(log, p));
    tally.answers("check", paper, library, || show(log, p));
}

fn compare_find(tally: &mut Tally, log: &[u8], p: usize) {
    let library = raw::find(log, p);
    let (paper, tuned) = (paper::find(log, p), paper::find_tuned(log, p));
    tally.answers("find", paper, library, || show(log, p));
    tally.answers("find_tuned", tuned, library, || show(log, p));
}

fn compare_read(tally: &mut Tally, random: &mut Random, log: &[u8], p: usize) {
    let lent = random.values();
    let paper = match paper::read(log, p) {
        Ok((kind, values)) => (Ok(kind), values),
        Err(refusal) => (Err(refusal), lent),
    };
    let mut values = lent;
    let answer = raw::read(log, p, &mut values);
    tally.compare("read", paper, (answer, values), || show(log, p));
}

pub fn compare_feed(tally: &mut Tally, log: &[u8], p: usize, satellite: usize) {
    let paper = paper::Collector::new().feed(log, p, satellite);
    let library = raw::feed(log, p, satellite);
    tally.answers("feed", paper, library, || {
        format!("satellite {satellite}, {}", show(log, p))
    });
}

fn compare_list(tally: &mut Tally, random: &mut Random, log: &[u8]) {
    let mut out = [random.next() as u8; 4096];
    let mut wanted = out.to_vec();
    let length = paper::list(log).map(|text| {
        wanted[..text.len()].copy_from_slice(&text);
        text.len()
    });
    let answer = raw::list(log, &mut out);
    let (paper, library) = ((length, wanted), (answer, out.to_vec()));
    tally.compare("list", paper, library, || show(log, 0));
}

fn compare_inverted(tally: &mut Tally, log: &[u8], p: usize) {
    let (paper, library) = (paper::inverted(log, p), raw::inverted(log, p));
    tally.answers("inverted", paper, library, || show(log, p));
}

/// The inverse of an accepted block: the same record, the other polarity.
fn compare_accepted(tally: &mut Tally, log: &[u8], p: usize) {
    let mut inverse = log.to_vec();
    invert(&mut inverse[p..p + BLOCK]);
    let by_paper = paper::inverted(&inverse, p) == paper::inverted(log, p).map(|i| !i)
        && paper::read(&inverse, p) == paper::read(log, p);
    let (mut one, mut two) = ([0; 25], [0; 25]);
    let kind = raw::read(log, p, &mut one);
    let by_library = raw::inverted(&inverse, p) == raw::inverted(log, p).map(|i| !i)
        && raw::read(&inverse, p, &mut two) == kind
        && kind.is_ok()
        && one == two;
    tally.count("inverse block", by_paper && by_library, || {
        let at = show(log, p);
        format!("holds by paper: {by_paper}, by library: {by_library}; {at}")
    });
}

/// All functions of one block.
fn compare_at(tally: &mut Tally, random: &mut Random, log: &[u8], p: usize) {
    compare_check(tally, log, p);
    compare_inverted(tally, log, p);
    compare_read(tally, random, log, p);
    let (odd, usual) = (odd_satellite(random), 1 + random.below(32));
    let satellite = random.rarely(8, &[odd], usual);
    compare_feed(tally, log, p, satellite);
    if paper::check(log, p).is_ok() && random.once_in(4) {
        compare_accepted(tally, log, p);
    }
}

pub fn blocks(tally: &mut Tally, random: &mut Random) {
    for _ in 0..150_000 {
        let (log, place, sort) = one_block_log(random);
        tally.sort = sort;
        compare_at(tally, random, &log, place);
    }
    for _ in 0..30_000 {
        let (mut log, place, _) = one_block_log(random);
        let p = match random.below(3) {
            0 => {
                tally.sort = "shortened log";
                let usual = random.pick(&[place, place + 301, place + 302]);
                log.truncate(random.rarely(2, &[0, 1, 2, 300, 301, 302, 303], usual));
                random.pick(&[0, place])
            }
            1 => {
                tally.sort = "extreme place";
                extreme_place(random, log.len())
            }
            _ => {
                tally.sort = "any place";
                random.below(log.len() + 2)
            }
        };
        compare_at(tally, random, &log, p);
    }
}

pub fn searches(tally: &mut Tally, random: &mut Random) {
    for _ in 0..15_000 {
        let (log, place, sort) = one_block_log(random);
        tally.sort = sort;
        let p = random.pick(&[0, place, place + 1, place.saturating_sub(1)]);
        compare_find(tally, &log, p);
        compare_list(tally, random, &log);
    }
    for _ in 0..5_000 {
        let log = several_blocks_log(random);
        tally.sort = "several blocks";
        let p = random.below(log.len());
        compare_find(tally, &log, p);
        compare_list(tally, random, &log);
        if let Ok(found) = paper::find(&log, p) {
            tally.sort = "after a found block";
            compare_find(tally, &log, found + 1);
            compare_at(tally, random, &log, found);
        }
        tally.sort = "extreme place";
        let p = extreme_place(random, log.len());
        compare_find(tally, &log, p);
    }
}

/// Logs at and beyond the greatest length: random, constant, and full of blocks.
pub fn long_logs(tally: &mut Tally, random: &mut Random) {
    tally.sort = "long log";
    for length in [65_535, 65_536, 65_537, 65_838, 131_072, 1_000_000] {
        for sort in 0..6 {
            let mut log = match sort {
                0 => random.bits(length),
                1 => random.bytes(length),
                2 | 3 => full_log(random, length, sort == 3),
                _ => vec![0; length],
            };
            if sort % 2 == 0 {
                log[length - BLOCK..].copy_from_slice(&any_valid_block(random));
            }
            compare_list(tally, random, &log);
            let end = length - BLOCK;
            let near_end = [end - 1, end, end + 1, length, usize::MAX];
            for p in [0, 1, 300, 301, 600].into_iter().chain(near_end) {
                compare_find(tally, &log, p);
                compare_at(tally, random, &log, p);
            }
        }
    }
}
