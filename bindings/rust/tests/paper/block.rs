// Blocks: the parity table, the checks of the places 'log' and 'block', the search,
// and the encoding of 240 source bits as 302 received bits.
use super::{refuse, Refusal};

pub const LONGEST_LOG: usize = 65_536;
pub const BLOCK: usize = 302;
pub const HIGHEST_COUNT: usize = 100_799;
pub const PREAMBLE: [u8; 8] = [1, 0, 0, 0, 1, 0, 1, 1];

// Start pair and preamble as received, for the tuned search.
const UPRIGHT: [u8; 10] = [0, 0, 1, 0, 0, 0, 1, 0, 1, 1];
const INVERTED: [u8; 10] = [1, 1, 0, 1, 1, 1, 0, 1, 0, 0];

enum With {
    P,
    Q,
}
use With::{P, Q};

// Bits 25 to 30: the bit of the word before that enters, and the source bits from 1.
const WITH: [With; 6] = [P, Q, P, Q, Q, P];
const ROWS: [&[usize]; 6] = [
    &[1, 2, 3, 5, 6, 10, 11, 12, 13, 14, 17, 18, 20, 23],
    &[2, 3, 4, 6, 7, 11, 12, 13, 14, 15, 18, 19, 21, 24],
    &[1, 3, 4, 5, 7, 8, 12, 13, 14, 15, 16, 19, 20, 22],
    &[2, 4, 5, 6, 8, 9, 13, 14, 15, 16, 17, 20, 21, 23],
    &[1, 3, 5, 6, 7, 9, 10, 14, 15, 16, 17, 18, 21, 22, 24],
    &[3, 5, 6, 8, 9, 10, 11, 13, 15, 19, 22, 23, 24],
];

/// Bits 25 to 30 of a word with these source bits after the bits p and q.
pub fn parity(p: u8, q: u8, source: &[u8; 24]) -> [u8; 6] {
    std::array::from_fn(|row| {
        let first = match WITH[row] {
            P => p,
            Q => q,
        };
        ROWS[row].iter().fold(first, |sum, &i| sum ^ source[i - 1])
    })
}

/// The source bits of word k (1 to 10) of a block.
fn source_word(block: &[u8], k: usize) -> [u8; 24] {
    let start = 30 * k - 28;
    let q = block[start - 1];
    std::array::from_fn(|i| block[start + i] ^ q)
}

/// The 240 source bits of a block.
pub fn source_bits(block: &[u8]) -> [u8; 240] {
    let mut source = [0; 240];
    for k in 1..=10 {
        source[24 * (k - 1)..24 * k].copy_from_slice(&source_word(block, k));
    }
    source
}

fn word_passes(block: &[u8], k: usize) -> bool {
    let start = 30 * k - 28;
    let (p, q) = (block[start - 2], block[start - 1]);
    block[start + 24..start + 30] == parity(p, q, &source_word(block, k))
}

/// The number that these bits write, most significant first.
pub fn unsigned(bits: &[u8]) -> usize {
    bits.iter().fold(0, |n, &bit| 2 * n + usize::from(bit))
}

pub fn check_log(log: &[u8]) -> Result<(), Refusal> {
    if log.len() > LONGEST_LOG {
        return refuse(1, log.len());
    }
    Ok(())
}

fn check_block(log: &[u8], p: usize) -> Result<(), Refusal> {
    let Some(block) = log.get(p..).and_then(|rest| rest.get(..BLOCK)) else {
        return refuse(3, p);
    };
    if let Some(i) = block.iter().position(|&byte| byte > 1) {
        return refuse(2, p + i);
    }
    if block[0] != block[1] {
        return refuse(4, p);
    }
    if let Some(k) = (1..=10).find(|&k| !word_passes(block, k)) {
        return refuse(5, k);
    }
    if source_word(block, 1)[..8] != PREAMBLE {
        return refuse(6, 0);
    }
    for k in [2, 10] {
        if block[30 * k..30 * k + 2] != block[..2] {
            return refuse(7, k);
        }
    }
    let word2 = source_word(block, 2);
    let number = unsigned(&word2[19..22]);
    if !(1..=5).contains(&number) {
        return refuse(8, number);
    }
    let count = unsigned(&word2[..17]);
    if count > HIGHEST_COUNT {
        return refuse(9, count);
    }
    Ok(())
}

/// The checks of the places 'log' and 'block'.
pub fn check(log: &[u8], p: usize) -> Result<(), Refusal> {
    check_log(log)?;
    check_block(log, p)
}

/// The first accepted place from p on: the full check at each place.
pub fn find(log: &[u8], p: usize) -> Result<usize, Refusal> {
    check_log(log)?;
    for place in p..log.len() {
        if check_block(log, place).is_ok() {
            return Ok(place);
        }
    }
    refuse(10, p)
}

/// The same answer, with start pair and preamble looked at before the full check.
pub fn find_tuned(log: &[u8], p: usize) -> Result<usize, Refusal> {
    check_log(log)?;
    let rest = log.get(p..).unwrap_or(&[]);
    for (i, window) in rest.windows(BLOCK).enumerate() {
        let begins = window[..10] == UPRIGHT || window[..10] == INVERTED;
        if begins && check_block(rest, i).is_ok() {
            return Ok(p + i);
        }
    }
    refuse(10, p)
}

/// Whether the block at p has the start pair 11, where it is accepted.
pub fn inverted(log: &[u8], p: usize) -> Result<bool, Refusal> {
    check(log, p)?;
    Ok(log[p..p + 2] == [1, 1])
}

/// The 30 received bits of a word with these source bits after the bits p and q.
pub fn word(p: u8, q: u8, source: &[u8; 24]) -> [u8; 30] {
    let end = parity(p, q, source);
    std::array::from_fn(|i| if i < 24 { source[i] ^ q } else { end[i - 24] })
}

/// The one word among the four choices of fillers that ends with the start pair.
fn word_with_fillers(p: u8, q: u8, source: &[u8; 24], pair: u8) -> [u8; 30] {
    let mut source = *source;
    for (bit23, bit24) in [(0, 0), (0, 1), (1, 0), (1, 1)] {
        source[22] = bit23;
        source[23] = bit24;
        let word = word(p, q, &source);
        if word[28..] == [pair, pair] {
            return word;
        }
    }
    unreachable!("bits 23 and 24 set bits 29 and 30 freely")
}

/// The block of these source bits after the start pair (pair, pair).
/// With fill the fillers are chosen by the rule, else they are sent as given.
pub fn encode(source: &[u8; 240], pair: u8, fill: bool) -> [u8; BLOCK] {
    let mut block = [pair; BLOCK];
    for k in 1..=10 {
        let bits = std::array::from_fn(|i| source[24 * (k - 1) + i]);
        let start = 30 * k - 28;
        let (p, q) = (block[start - 2], block[start - 1]);
        let word = if fill && (k == 2 || k == 10) {
            word_with_fillers(p, q, &bits, pair)
        } else {
            word(p, q, &bits)
        };
        block[start..start + 30].copy_from_slice(&word);
    }
    block
}
