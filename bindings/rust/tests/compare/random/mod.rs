// Random numbers (splitmix64), and in the modules the records, blocks and logs that are made of them.
pub mod blocks;
pub mod logs;
pub mod records;

use crate::paper::Values;

pub struct Random(pub u64);

impl Random {
    pub fn next(&mut self) -> u64 {
        self.0 = self.0.wrapping_add(0x9e37_79b9_7f4a_7c15);
        let mut z = self.0;
        z = (z ^ (z >> 30)).wrapping_mul(0xbf58_476d_1ce4_e5b9);
        z = (z ^ (z >> 27)).wrapping_mul(0x94d0_49bb_1331_11eb);
        z ^ (z >> 31)
    }

    pub fn below(&mut self, n: usize) -> usize {
        (self.next() % n as u64) as usize
    }

    pub fn between(&mut self, low: i64, high: i64) -> i64 {
        low + (self.next() % (high - low + 1) as u64) as i64
    }

    /// True once in n.
    pub fn once_in(&mut self, n: usize) -> bool {
        self.below(n) == 0
    }

    pub fn pick<T: Copy>(&mut self, choices: &[T]) -> T {
        choices[self.below(choices.len())]
    }

    /// One of the rare choices once in n, else the usual one.
    pub fn rarely<T: Copy>(&mut self, n: usize, rare: &[T], usual: T) -> T {
        let rare = self.pick(rare);
        if self.once_in(n) {
            return rare;
        }
        usual
    }

    pub fn kind(&mut self) -> u8 {
        1 + self.below(6) as u8
    }

    pub fn bit(&mut self) -> u8 {
        self.below(2) as u8
    }

    pub fn bits(&mut self, n: usize) -> Vec<u8> {
        (0..n).map(|_| self.bit()).collect()
    }

    pub fn bytes(&mut self, n: usize) -> Vec<u8> {
        (0..n).map(|_| self.next() as u8).collect()
    }

    pub fn values(&mut self) -> Values {
        std::array::from_fn(|_| self.next() as i64)
    }
}
