// An implementation of document 01 written from the paper alone.
// It shares nothing with the library and is compared with it by tests/compare.
#![allow(dead_code)]

mod answers;
mod block;
mod collector;
mod listing;
mod record;

// Not every includer uses every name.
#[allow(unused_imports)]
pub use self::{
    answers::{accuracy, clock_terms, time_of_day},
    block::{
        check, encode, find, find_tuned, inverted, parity, source_bits, word, BLOCK, LONGEST_LOG,
    },
    collector::Collector,
    listing::list,
    record::{fields, is_record, kind_of, read, write, Field},
};

/// A number of the paper's table, with its detail.
#[derive(Debug, Clone, Copy, PartialEq, Eq)]
pub struct Refusal {
    pub number: u8,
    pub detail: usize,
}

/// A record's whole numbers: six of the header, then those of words 3 to 10, then zeros.
pub type Values = [i64; 25];

fn refuse<T>(number: u8, detail: usize) -> Result<T, Refusal> {
    Err(Refusal { number, detail })
}
