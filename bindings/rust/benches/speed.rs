// Prints one table of times: the library beside the implementation from the paper, all in one run.
// Each entry is the shortest of many rounds in which the implementations take turns.
#[path = "../tests/paper/mod.rs"]
mod paper;

use lnav::raw;
use std::hint::black_box;
use std::time::Instant;

const ROUNDS: usize = 200;
const LOG: usize = 65_536;

/// The shortest time in ns of each task, over rounds in which they take turns.
fn shortest(tasks: &mut [(&str, &mut dyn FnMut())]) -> Vec<f64> {
    let mut best = vec![f64::MAX; tasks.len()];
    for _ in 0..ROUNDS {
        for (task, best) in tasks.iter_mut().zip(&mut best) {
            let start = Instant::now();
            (task.1)();
            *best = best.min(start.elapsed().as_nanos() as f64);
        }
    }
    best
}

/// Prints a line for each task: its time for one unit, and how many times the last task's that is.
fn line(what: &str, unit: &str, units: usize, tasks: &mut [(&str, &mut dyn FnMut())]) {
    let times = shortest(tasks);
    let last = times[times.len() - 1];
    for (task, time) in tasks.iter().zip(&times) {
        println!(
            "{what:<34}{:<22}{:>10.2} {unit:<12}{:>8.2}",
            task.0,
            time / units as f64,
            time / last
        );
    }
}

/// Bits of a fixed sequence (xorshift).
fn random_bits(length: usize) -> Vec<u8> {
    let mut state = 0x9e37_79b9_7f4a_7c15_u64;
    let mut bit = || {
        state ^= state << 13;
        state ^= state >> 7;
        state ^= state << 17;
        (state >> 40) as u8 & 1
    };
    (0..length).map(|_| bit()).collect()
}

fn recording() -> Vec<u8> {
    let path = concat!(
        env!("CARGO_MANIFEST_DIR"),
        "/../../crates/lnav/data/ublox-m8t-sv03.log"
    );
    std::fs::read(path).expect("the recording is in the repository")
}

/// Searches on from the place after each block that is found, so that every place is tried once.
fn walk<E>(log: &[u8], find: impl Fn(&[u8], usize) -> Result<usize, E>) {
    let mut place = 0;
    while let Ok(found) = find(black_box(log), place) {
        place = found + 1;
    }
    black_box(place);
}

fn search(what: &str, log: &[u8]) {
    let tasks: &mut [(&str, &mut dyn FnMut())] = &mut [
        ("library", &mut || walk(log, raw::find)),
        ("as the rule reads", &mut || walk(log, paper::find)),
        ("tuned", &mut || walk(log, paper::find_tuned)),
    ];
    line(what, "ns a place", log.len(), tasks);
}

fn read_and_write(log: &[u8], places: &[usize]) {
    let mut values = [0; 25];
    let tasks: &mut [(&str, &mut dyn FnMut())] = &mut [
        ("library", &mut || {
            for &p in places {
                black_box(raw::read(black_box(log), p, &mut values)).unwrap();
            }
        }),
        ("as the rule reads", &mut || {
            for &p in places {
                black_box(paper::read(black_box(log), p)).unwrap();
            }
        }),
    ];
    line("read a recorded block", "ns a block", places.len(), tasks);
    let records: Vec<_> = places
        .iter()
        .map(|&p| paper::read(log, p).unwrap())
        .collect();
    let mut block = [0; 302];
    let mut other = [0; 302];
    let tasks: &mut [(&str, &mut dyn FnMut())] = &mut [
        ("library", &mut || {
            for (kind, values) in &records {
                raw::write(*kind, black_box(values), false, &mut block).unwrap();
                black_box(&block);
            }
        }),
        ("as the rule reads", &mut || {
            for (kind, values) in &records {
                paper::write(*kind, black_box(values), false, &mut other).unwrap();
                black_box(&other);
            }
        }),
    ];
    line("write its record", "ns a block", places.len(), tasks);
}

/// The history of all blocks, and the question for the set after it.
fn feed(log: &[u8], places: &[usize]) {
    let satellites = vec![3; places.len()];
    let mut values = [[0; 25]; 3];
    let tasks: &mut [(&str, &mut dyn FnMut())] = &mut [
        ("library", &mut || {
            raw::set(black_box(log), places, &satellites, 3, &mut values).unwrap();
        }),
        ("as the rule reads", &mut || {
            let mut collector = paper::Collector::new();
            for &p in places {
                collector.feed(black_box(log), p, 3).unwrap();
            }
            black_box(collector.set(3)).unwrap();
        }),
    ];
    line(
        "feed a recorded block",
        "µs a feed",
        1000 * places.len(),
        tasks,
    );
}

fn main() {
    println!(
        "{:<34}{:<22}{:>10} {:<12}{:>8}",
        "what", "who", "time", "", "ratio"
    );
    search("search random bits", &random_bits(LOG));
    search("search zeros", &vec![0; LOG]);
    let log = recording();
    let mut lost = log.clone();
    lost.remove(5_000);
    search("search a recording, one bit lost", &lost);
    let places: Vec<usize> = (0..log.len() - 301).step_by(300).collect();
    read_and_write(&log, &places);
    feed(&log, &places);
}
