//! Random numbers for the tests: any two runs draw the same.
#![allow(dead_code)]

/// What a draw begins with.
pub const SEED: u64 = 0x9E3779B97F4A7C15;

/// For a test's own tally, which holds the seed.
pub trait Draw {
    fn seed(&mut self) -> &mut u64;
    fn random(&mut self) -> u64 {
        let seed = self.seed();
        *seed ^= *seed << 13; *seed ^= *seed >> 7; *seed ^= *seed << 17;
        seed.wrapping_mul(0x2545F4914F6CDD1D).rotate_left(29)
    }
    fn below(&mut self, n: u64) -> u64 { self.random() % n }
    fn from(&mut self, least: i64, most: i64) -> i64 { least + self.below((most - least + 1) as u64) as i64 }
    fn pick<T: Copy>(&mut self, from: &[T]) -> T { from[self.below(from.len() as u64) as usize] }
}
