// The examples that the paper gives.
use crate::paper::{self, Refusal};
use crate::random::blocks::{block_of, put};
use crate::tally::ours;
use lnav::raw;

fn refused<T>(number: u8, detail: usize) -> Result<T, Refusal> {
    Err(Refusal { number, detail })
}

/// The paper's board examples of the parity table.
#[test]
fn board_examples_of_parity() {
    let bit = |i: usize| std::array::from_fn(|k| u8::from(k + 1 == i));
    assert_eq!(paper::word(0, 0, &[0; 24]), [0; 30]);
    assert_eq!(paper::word(1, 1, &[0; 24]), [1; 30]);
    assert_eq!(paper::parity(0, 0, &bit(1)), [1, 0, 1, 0, 1, 0]);
    assert_eq!(paper::parity(0, 0, &bit(3)), [1, 1, 1, 0, 1, 1]);
    assert_eq!(paper::parity(1, 0, &[0; 24]), [1, 0, 1, 0, 0, 1]);
    assert_eq!(paper::word(0, 1, &[0; 24])[..24], [1; 24]);
    assert_eq!(paper::word(0, 1, &[0; 24])[24..], [0, 1, 0, 1, 1, 0]);
}

/// The board examples of the checks: counts at the limit, and a short log, by both.
#[test]
fn board_examples_of_checks() {
    let mut values = [0; 25];
    values[5] = 1;
    let mut block = block_of(1, &values, false);
    let mut source = paper::source_bits(&block);
    for (count, wanted) in [(100_799, Ok(())), (100_800, refused(9, 100_800))] {
        put(&mut source[24..41], count);
        block = paper::encode(&source, 0, true);
        assert_eq!(paper::check(&block, 0), wanted);
        assert_eq!(ours(raw::check(&block, 0)), wanted);
    }
    assert_eq!(paper::check(&block[..301], 0), refused(3, 0));
    assert_eq!(ours(raw::check(&block[..301], 0)), refused(3, 0));
}

/// The listing example, and words 1 and 2 of the block in it, by both.
#[test]
fn listing_example() {
    let mut values = [0; 25];
    values[5] = 1;
    let (mut one, mut two) = ([0; 307], [0; 307]);
    assert!(paper::write(1, &values, false, &mut one[5..]).is_ok());
    assert!(raw::write(1, &values, false, &mut two[5..]).is_ok());
    assert_eq!(one, two);
    assert_eq!(one[31..37], [0, 1, 0, 0, 1, 0]);
    assert_eq!(one[59..67], [1, 1, 0, 1, 0, 1, 0, 0]);
    let text = b"place\tid\tcount\tpolarity\n5\t1\t0\tU\n";
    let mut out = [0; 4096];
    let length = raw::list(&one, &mut out).expect("a listing");
    assert_eq!(out[..length], text[..]);
    assert_eq!(paper::list(&one), Ok(text.to_vec()));
}

/// The board examples of the UTC time, by both.
#[test]
fn board_examples_of_time() {
    let mut values = [0; 25];
    values[5..8].copy_from_slice(&[4, 1, 56]);
    values[20..24].copy_from_slice(&[18, 137, 7, 18]);
    assert_eq!(paper::time_of_day(&values, 2_000, 0), Ok([23, 59, 42]));
    let time = raw::time_of_day(&values, 2_000, 0).expect("a time");
    assert_eq!([time.hour, time.minute, time.second], [23, 59, 42]);
    values[21] = 80;
    assert_eq!(paper::time_of_day(&values, 2_000, 0), refused(16, 0));
    let library = raw::time_of_day(&values, 2_000, 0).map(|_| ());
    assert_eq!(ours(library), refused(16, 0));
}
