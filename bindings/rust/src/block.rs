// Blocks and records: the block check, the search, the reader, the writer and the listing.
use crate::raw;
use crate::record::Record;
use crate::refusal::Refusal;

/// The bytes of a block.
pub const BLOCK: usize = 302;

/// The bytes of the longest log that is not refused by 1.
pub const LONGEST_LOG: usize = 65_536;

/// Whether the stream has its bits swapped. The start pair of an accepted block is 00 upright and 11 inverted.
#[derive(Debug, Clone, Copy, PartialEq, Eq)]
pub enum Polarity {
    /// The bits are as they were sent.
    Upright,
    /// 0 and 1 are swapped throughout.
    Inverted,
}

/// The block check: whether the block at the place is accepted, or refused by 1 to 9.
///
/// ```
/// assert_eq!(lnav::check(&[0; 302], 0), Err(lnav::Refusal { number: 6, detail: 0 }));
/// ```
pub fn check(log: &[u8], place: usize) -> Result<(), Refusal> {
    raw::check(log, place)
}

/// The place of the first accepted block at or after the given place. Refused by 1, or by 10 where there is none.
///
/// ```
/// # use lnav::{Polarity, Record, Subframe1};
/// # let mut sent = Subframe1::default();
/// # sent.header.subframe = 1;
/// let mut log = vec![0; 5];
/// log.extend(lnav::block(&Record::Subframe1(sent), Polarity::Inverted)?);
/// assert_eq!(lnav::find(&log, 0), Ok(5));
/// assert_eq!(lnav::find(&log, 6), Err(lnav::Refusal { number: 10, detail: 6 }));
/// # Ok::<(), lnav::Refusal>(())
/// ```
pub fn find(log: &[u8], place: usize) -> Result<usize, Refusal> {
    raw::find(log, place)
}

/// The 302 bytes of the block that [`find`] finds, a part of the log itself.
///
/// ```
/// # use lnav::{Polarity, Record, Subframe1};
/// # let mut sent = Subframe1::default();
/// # sent.header.subframe = 1;
/// let mut log = vec![0; 5];
/// log.extend(lnav::block(&Record::Subframe1(sent), Polarity::Upright)?);
/// assert_eq!(lnav::find_part(&log, 0)?, &log[5..307]);
/// # Ok::<(), lnav::Refusal>(())
/// ```
pub fn find_part(log: &[u8], place: usize) -> Result<&[u8], Refusal> {
    find(log, place).map(|found| &log[found..found + BLOCK])
}

/// The polarity of the block at the place. Refused as the block check refuses.
///
/// ```
/// # use lnav::{Polarity, Record, Subframe1};
/// # let mut sent = Subframe1::default();
/// # sent.header.subframe = 1;
/// let log = lnav::block(&Record::Subframe1(sent), Polarity::Inverted)?;
/// assert_eq!(lnav::polarity(&log, 0), Ok(Polarity::Inverted));
/// assert_eq!(lnav::polarity(&[1; 302], 0), Err(lnav::Refusal { number: 6, detail: 0 }));
/// # Ok::<(), lnav::Refusal>(())
/// ```
pub fn polarity(log: &[u8], place: usize) -> Result<Polarity, Refusal> {
    Ok(if raw::inverted(log, place)? {
        Polarity::Inverted
    } else {
        Polarity::Upright
    })
}

/// The record of the block at the place. Refused as the block check refuses.
///
/// ```
/// # use lnav::{Polarity, Record, Subframe1};
/// let mut sent = Subframe1::default();
/// sent.header.subframe = 1;
/// sent.week = 1023;
/// let log = lnav::block(&sent.into(), Polarity::Inverted)?;
/// match lnav::read(&log, 0)? {
///     Record::Subframe1(read) => assert_eq!(read.week, 1023),
///     _ => unreachable!(),
/// }
/// # Ok::<(), lnav::Refusal>(())
/// ```
pub fn read(log: &[u8], place: usize) -> Result<Record, Refusal> {
    let mut values = [0; 25];
    let kind = raw::read(log, place, &mut values)?;
    Ok(Record::from_values(kind, &values).expect("the reader gives values of its kind"))
}

/// Writes the block of the record into the first 302 bytes of the buffer; bytes after them stay as they were. Refused by 11, or by 12 where the
/// buffer is shorter; it then stays as it was.
///
/// ```
/// # use lnav::{Polarity, Record, Subframe1};
/// # let mut sent = Subframe1::default();
/// # sent.header.subframe = 1;
/// let mut buffer = [7; 303];
/// lnav::write(&Record::Subframe1(sent), Polarity::Upright, &mut buffer)?;
/// assert_eq!(buffer[..10], [0, 0, 1, 0, 0, 0, 1, 0, 1, 1]);
/// assert_eq!(buffer[302], 7);
/// # Ok::<(), lnav::Refusal>(())
/// ```
pub fn write(record: &Record, polarity: Polarity, buffer: &mut [u8]) -> Result<(), Refusal> {
    raw::write(
        record.kind(),
        &record.values(),
        polarity == Polarity::Inverted,
        buffer,
    )
}

/// The block of the record. Refused by 11.
///
/// ```
/// # use lnav::{Polarity, Subframe1};
/// let refusal = lnav::block(&Subframe1::default().into(), Polarity::Upright).unwrap_err();
/// assert_eq!(refusal, lnav::Refusal { number: 11, detail: 0 }); // the subframe number is not 1
/// ```
pub fn block(record: &Record, polarity: Polarity) -> Result<[u8; BLOCK], Refusal> {
    let mut block = [0; BLOCK];
    write(record, polarity, &mut block)?;
    Ok(block)
}

/// The listing of the log: a header line, then place, subframe number, count and polarity of each accepted block. Refused by 1.
///
/// ```
/// assert_eq!(lnav::list(&[0; 500])?, "place\tid\tcount\tpolarity\n");
/// assert_eq!(lnav::list(&[0; 65_537]), Err(lnav::Refusal { number: 1, detail: 65_537 }));
/// # Ok::<(), lnav::Refusal>(())
/// ```
pub fn list(log: &[u8]) -> Result<String, Refusal> {
    let mut text = [0; 4096];
    let length = raw::list(log, &mut text)?;
    Ok(text[..length]
        .iter()
        .map(|&byte| char::from(byte))
        .collect())
}
