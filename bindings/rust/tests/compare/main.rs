// Random comparison of the library with the implementation under tests/paper.
// Run in bindings/rust: cargo test --release --offline --locked --test compare -- --nocapture (SEED=n chooses other cases).
mod blocks;
mod examples;
mod histories;
#[path = "../paper/mod.rs"]
mod paper;
mod questions;
mod random;
mod tally;
mod writer;

use random::Random;
use tally::Tally;

const SEED: u64 = 20_240_229;

type Group = fn(&mut Tally, &mut Random);

#[test]
fn random_cases() {
    let seed = std::env::var("SEED").map_or(SEED, |text| text.parse().expect("a number"));
    let mut random = Random(seed);
    let mut tally = Tally::default();
    tally.seed = seed;
    let groups: [(&str, Group); 7] = [
        ("blocks", blocks::blocks),
        ("searches", blocks::searches),
        ("long logs", blocks::long_logs),
        ("writes", writer::writes),
        ("clocks", questions::clocks),
        ("times", questions::times),
        ("histories", histories::histories),
    ];
    for (name, group) in groups {
        let start = std::time::Instant::now();
        group(&mut tally, &mut random);
        println!("{name}: {:.1} s", start.elapsed().as_secs_f64());
    }
    tally.print();
    tally.judge();
}
