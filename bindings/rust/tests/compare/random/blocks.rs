// Random blocks: whole, broken before the encoding, of random bits, or changed after it.
use super::records::record;
use super::Random;
use crate::paper::{self, Values, BLOCK};

pub fn block_of(kind: u8, values: &Values, inverted: bool) -> [u8; BLOCK] {
    let mut block = [0; BLOCK];
    paper::write(kind, values, inverted, &mut block).expect("the record exists");
    block
}

pub fn valid_block(random: &mut Random, inverted: bool) -> [u8; BLOCK] {
    let kind = random.kind();
    block_of(kind, &record(random, kind), inverted)
}

pub fn any_valid_block(random: &mut Random) -> [u8; BLOCK] {
    let inverted = random.once_in(2);
    valid_block(random, inverted)
}

pub fn put(bits: &mut [u8], value: usize) {
    let mut rest = value;
    for bit in bits.iter_mut().rev() {
        *bit = (rest & 1) as u8;
        rest >>= 1;
    }
}

/// A block with right parity and one to three breaks of the later checks.
pub fn broken_block(random: &mut Random) -> [u8; BLOCK] {
    let block = any_valid_block(random);
    let mut source = paper::source_bits(&block);
    let mut fill = true;
    for _ in 0..random.pick(&[1, 1, 1, 2, 3]) {
        let above = 100_800 + random.below(131_072 - 100_800);
        match random.below(6) {
            0 => put(&mut source[43..46], random.pick(&[0, 6, 7])),
            1 => put(
                &mut source[24..41],
                random.pick(&[100_799, 100_800, 131_071]),
            ),
            2 => put(&mut source[24..41], above),
            3 => source[random.below(8)] ^= 1,
            4 => put(&mut source[46..48], random.below(4)),
            _ => put(&mut source[238..240], random.below(4)),
        }
        fill = random.once_in(2);
    }
    paper::encode(&source, block[0], fill)
}

/// 302 random bits, or random source bits with right parity.
pub fn random_block(random: &mut Random) -> [u8; BLOCK] {
    if random.once_in(2) {
        return std::array::from_fn(|_| random.bit());
    }
    let source = std::array::from_fn(|_| random.bit());
    let pair = random.bit();
    paper::encode(&source, pair, random.once_in(2))
}

/// Flip one to five bits; more often than by chance in the start pair.
pub fn flip(random: &mut Random, bytes: &mut [u8]) {
    for _ in 0..1 + random.below(5) {
        let usual = random.below(bytes.len());
        bytes[random.rarely(8, &[0, 1], usual)] ^= 1;
    }
}

/// Set one to three bytes above 1.
pub fn damage(random: &mut Random, bytes: &mut [u8]) {
    for _ in 0..1 + random.below(3) {
        if !bytes.is_empty() {
            let i = random.below(bytes.len());
            bytes[i] = random.pick(&[2, 3, 48, 49, 128, 254, 255]);
        }
    }
}

pub fn invert(bytes: &mut [u8]) {
    bytes.iter_mut().for_each(|bit| *bit ^= 1);
}
