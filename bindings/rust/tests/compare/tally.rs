// Counts the cases and differences, prints them, and judges the run.
use crate::paper::{Refusal, BLOCK};
use std::collections::{BTreeMap, BTreeSet};
use std::fmt::Debug;

const MOST_SHOWN: u64 = 10;

#[derive(Default)]
pub struct Tally {
    pub seed: u64,
    pub sort: &'static str,
    cases: u64,
    differences: u64,
    // By function and sort: cases and differences.
    rows: BTreeMap<(&'static str, &'static str), [u64; 2]>,
    // By function: how often the paper's answer had each number.
    numbers: BTreeMap<&'static str, [u64; 21]>,
    // Details seen with the numbers that have few of them.
    details: BTreeSet<(u8, usize)>,
}

impl Tally {
    /// Compare two answers and what each call left in the lent buffer.
    pub fn compare<T: PartialEq + Debug, B: PartialEq + Debug>(
        &mut self,
        function: &'static str,
        paper: (Result<T, Refusal>, B),
        library: (Result<T, lnav::Refusal>, B),
        case: impl FnOnce() -> String,
    ) {
        let library = (ours(library.0), library.1);
        let refusal = paper.0.as_ref().err();
        let number = refusal.map_or(0, |refusal| refusal.number);
        self.numbers.entry(function).or_default()[usize::from(number)] += 1;
        if let (5 | 7 | 8 | 17, Some(refusal)) = (number, refusal) {
            self.details.insert((number, refusal.detail));
        }
        self.count(function, paper == library, || {
            let case = case();
            format!("{case}\n  paper:   {paper:?}\n  library: {library:?}")
        });
    }

    /// Compare the answers of calls without a buffer.
    pub fn answers<T: PartialEq + Debug>(
        &mut self,
        function: &'static str,
        paper: Result<T, Refusal>,
        library: Result<T, lnav::Refusal>,
        case: impl FnOnce() -> String,
    ) {
        self.compare(function, (paper, ()), (library, ()), case);
    }

    /// Count one case and print it when it is wrong.
    pub fn count(&mut self, function: &'static str, right: bool, report: impl FnOnce() -> String) {
        self.cases += 1;
        let row = self.rows.entry((function, self.sort)).or_default();
        row[0] += 1;
        if right {
            return;
        }
        row[1] += 1;
        self.differences += 1;
        if self.differences <= MOST_SHOWN {
            let (number, sort) = (self.cases, self.sort);
            println!(
                "DIFFERENCE in case {number}, {function}, {sort}: {}",
                report()
            );
        }
    }

    pub fn print(&self) {
        println!("\nseed {}\n", self.seed);
        println!("function      sort of case                        cases  differences");
        for ((function, sort), [cases, differences]) in &self.rows {
            println!("{function:<14}{sort:<32}{cases:>9}{differences:>13}");
        }
        println!("{:<46}{:>9}{:>13}", "total", self.cases, self.differences);
        println!("\nnumbers answered (0: accepted), as number:cases");
        let mut all = [0; 21];
        for (function, numbers) in &self.numbers {
            println!("{function:<14}{}", seen(numbers));
            for (sum, n) in all.iter_mut().zip(numbers) {
                *sum += n;
            }
        }
        println!("{:<14}{}", "all", seen(&all));
        println!("\nnumber and detail seen: {:?}", self.details);
    }

    /// That the run was large and wide enough, and found no difference.
    pub fn judge(&self) {
        for number in 0..=20 {
            let found = self.numbers.values().any(|n| n[number] > 0);
            assert!(found, "number {number} not seen");
        }
        let mut wanted: Vec<(u8, usize)> = (1..=10).map(|word| (5, word)).collect();
        wanted.extend([(7, 2), (7, 10), (8, 0), (8, 6), (8, 7)]);
        wanted.extend([(17, 1), (17, 2), (17, 3)]);
        assert!(self.details.iter().eq(&wanted), "details missing");
        assert!(self.cases >= 1_000_000, "only {} cases", self.cases);
        assert_eq!(self.differences, 0, "differences");
    }
}

// A panic inside a call names no case by itself.
impl Drop for Tally {
    fn drop(&mut self) {
        if std::thread::panicking() {
            let (cases, sort, seed) = (self.cases, self.sort, self.seed);
            println!("stopped after case {cases}, {sort}, seed {seed}");
        }
    }
}

fn seen(numbers: &[u64; 21]) -> String {
    let print = |number| match numbers[number] {
        0 => String::new(),
        cases => format!(" {number}:{cases}"),
    };
    (0..21).map(print).collect()
}

/// Bytes in print: digits, and those above 9 in brackets.
pub fn digits(bytes: &[u8]) -> String {
    let print = |byte: &u8| match byte {
        0..=9 => format!("{byte}"),
        _ => format!("[{byte}]"),
    };
    bytes.iter().map(print).collect()
}

/// A log and a place in print; of a long log the block only.
pub fn show(log: &[u8], p: usize) -> String {
    let mut part = 0..log.len();
    if log.len() > 10_000 {
        part = p.min(log.len())..p.saturating_add(BLOCK).min(log.len());
    }
    let bytes = digits(&log[part.clone()]);
    format!(
        "place {p}, log length {}, bytes {part:?}: {bytes}",
        log.len()
    )
}

pub fn ours<T>(answer: Result<T, lnav::Refusal>) -> Result<T, Refusal> {
    answer.map_err(|lnav::Refusal { number, detail }| Refusal { number, detail })
}
