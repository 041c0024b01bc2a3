// Random logs of blocks, places in them, and numbers of satellites.
use super::blocks::{
    any_valid_block, broken_block, damage, flip, invert, random_block, valid_block,
};
use super::Random;
use crate::paper::{self, BLOCK};

/// Random bits for the places around a block; often none.
pub fn surroundings(random: &mut Random) -> Vec<u8> {
    let usual = random.below(40);
    let length = random.rarely(3, &[0], usual);
    random.bits(length)
}

/// A log with one block, whole or not, its place, and its sort.
pub fn one_block_log(random: &mut Random) -> (Vec<u8>, usize, &'static str) {
    let mut before = surroundings(random);
    let mut after = surroundings(random);
    let mut block = any_valid_block(random);
    let sort = match random.below(10) {
        0..=2 => "valid block",
        3 | 4 => {
            flip(random, &mut block);
            "flipped bits"
        }
        5 => {
            let broken = broken_block(random);
            block = random.pick(&[block, broken]);
            damage(random, &mut block);
            "damaged byte in the block"
        }
        6 => {
            damage(random, &mut before);
            damage(random, &mut after);
            "damaged byte outside"
        }
        7 | 8 => {
            block = broken_block(random);
            "broken before encoding"
        }
        _ => {
            block = random_block(random);
            "random bits"
        }
    };
    let log = [&before[..], &block[..], &after[..]].concat();
    (log, before.len(), sort)
}

/// Two accepted blocks 270 apart: word 10 of the first is word 1 of the second.
fn sharing_blocks(random: &mut Random) -> Vec<u8> {
    loop {
        let mut source = paper::source_bits(&any_valid_block(random));
        source.copy_within(..8, 216);
        let pair = random.bit();
        let first = paper::encode(&source, pair, true);
        if first[270] == first[271] {
            let mut next = paper::source_bits(&any_valid_block(random));
            next[..24].copy_from_slice(&paper::source_bits(&first)[216..]);
            let second = paper::encode(&next, first[270], true);
            return [&first[..270], &second[..]].concat();
        }
    }
}

/// A log of one to six blocks: 300 apart, with gaps, cut short, or sharing a word.
pub fn several_blocks_log(random: &mut Random) -> Vec<u8> {
    let mut log = surroundings(random);
    for _ in 0..1 + random.below(6) {
        let (valid, broken) = (any_valid_block(random), broken_block(random));
        let block = random.rarely(4, &[broken], valid);
        match random.below(6) {
            0..=2 if log.ends_with(&block[..2]) => log.extend(&block[2..]),
            3 => {
                log.truncate(log.len().saturating_sub(random.below(BLOCK)));
                log.extend(block);
            }
            4 => log.extend(sharing_blocks(random)),
            _ => {
                log.extend(surroundings(random));
                log.extend(block);
            }
        }
    }
    log.extend(surroundings(random));
    match random.below(6) {
        0 => flip(random, &mut log),
        1 => damage(random, &mut log),
        2 => invert(&mut log),
        _ => {}
    }
    log
}

/// A log of this length filled with blocks 300 apart, in one polarity.
pub fn full_log(random: &mut Random, length: usize, inverted: bool) -> Vec<u8> {
    let mut log = vec![u8::from(inverted); 2];
    while log.len() + 300 <= length {
        log.extend(&valid_block(random, inverted)[2..]);
    }
    log.resize(length, 0);
    log
}

/// A place near the ends of the log or of the numbers.
pub fn extreme_place(random: &mut Random, length: usize) -> usize {
    let below = random.pick(&[0, 1, 2, 300, 301, 302, 303]);
    let end = random.pick(&[length, usize::MAX, usize::MAX - length]);
    match random.below(4) {
        0 => random.pick(&[0, 1, length + 1, usize::MAX / 2, 1 << 31, 1 << 32]),
        _ => end.wrapping_sub(below),
    }
}

pub fn odd_satellite(random: &mut Random) -> usize {
    match random.below(3) {
        0 => random.pick(&[1, 32, 33, 34, 255, 256, 257]),
        1 => random.pick(&[usize::MAX, usize::MAX - 254, (1 << 32) + 1]),
        _ => 0,
    }
}
