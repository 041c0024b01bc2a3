//! The GPS LNAV message, from raw bits to records and back, over a static library of proved functions. Document 01, the scope paper,
//! decides what every function answers.
//!
//! A log is a slice with one byte, 0 or 1, for each received bit, oldest first. A place is an index in it. The block at a place is the 302
//! bytes from there on. A call that document 01 refuses gives a [`Refusal`]. No function panics on any log, place or record.
//!
//! The functions here take and give records as structs. Those of [`raw`] take and give them as numbers, as the static library does.
//!
//! ```
//! use lnav::{Polarity, Record, Subframe1};
//!
//! let mut sent = Subframe1::default();
//! sent.header.subframe = 1;
//! let mut log = vec![0; 5];
//! log.extend(lnav::block(&Record::Subframe1(sent), Polarity::Upright)?);
//!
//! let place = lnav::find(&log, 0)?;
//! assert_eq!(place, 5);
//! assert_eq!(lnav::read(&log, place)?, Record::Subframe1(sent));
//! assert_eq!(lnav::list(&log)?, "place\tid\tcount\tpolarity\n5\t1\t0\tU\n");
//! # Ok::<(), lnav::Refusal>(())
//! ```
#![deny(missing_docs)]
#![deny(unsafe_code)]

mod block;
mod clock;
mod collector;
mod ffi;
pub mod fields;
pub mod raw;
mod record;
mod refusal;
mod time;

pub use block::{
    block, check, find, find_part, list, polarity, read, write, Polarity, BLOCK, LONGEST_LOG,
};
pub use clock::{accuracy, clock_terms, Accuracy, ClockTerms};
pub use collector::{History, OrbitSet};
pub use fields::{AlmanacPage, Header, OtherPage, Subframe1, Subframe2, Subframe3, UtcPage};
pub use record::Record;
pub use refusal::Refusal;
pub use time::{time_of_day, TimeOfDay};

// Runs the Rust example of the bindings' README with those of the documentation.
#[cfg(doctest)]
#[doc = include_str!("../../README.md")]
struct Readme;
