//! A small deterministic generator (splitmix64): the same seed gives the same run.
use std::ops::RangeInclusive;

/// The seed of a run in which the environment names no other.
const SEED: u64 = 0x5eed_d1b0_0001;
/// The variable that names another seed, in decimal.
const VARIABLE: &str = "DIBWUNEK_SEED";

/// The seed of this run.
pub fn seed() -> u64 {
    match std::env::var(VARIABLE) {
        Ok(text) => text.parse().unwrap_or_else(|_| panic!("{VARIABLE} is a decimal u64, not {text:?}")),
        Err(_) => SEED,
    }
}

pub struct Random {
    state: u64,
}

impl Random {
    pub fn new(seed: u64) -> Random {
        Random { state: seed }
    }

    /// The generator of one test: of this run's seed and the test's name, so that no test's order matters.
    pub fn of_test(name: &str) -> Random {
        name.bytes().fold(Random::new(seed()), |mut random, byte| Random::new(random.word() ^ u64::from(byte)))
    }

    pub fn word(&mut self) -> u64 {
        self.state = self.state.wrapping_add(0x9e37_79b9_7f4a_7c15);
        let z = (self.state ^ (self.state >> 30)).wrapping_mul(0xbf58_476d_1ce4_e5b9);
        let z = (z ^ (z >> 27)).wrapping_mul(0x94d0_49bb_1331_11eb);
        z ^ (z >> 31)
    }

    /// A number of the range, each about as likely.
    pub fn within(&mut self, range: RangeInclusive<usize>) -> usize {
        let count = (range.end() - range.start()) as u64 + 1;
        range.start() + (self.word() % count) as usize
    }

    /// A number of the range, its ends and their neighbours far more likely.
    pub fn skewed(&mut self, range: RangeInclusive<usize>) -> usize {
        let (low, high) = (*range.start(), *range.end());
        match self.within(0..=7) {
            0 | 1 => low,
            2 | 3 => high,
            4 => self.within(low..=high.min(low + 10)),
            5 => self.within(low.max(high.saturating_sub(10))..=high),
            _ => self.within(range),
        }
    }

    /// True once in `count` times.
    pub fn once_in(&mut self, count: usize) -> bool {
        self.within(1..=count) == 1
    }

    pub fn pick<'a, T>(&mut self, items: &'a [T]) -> &'a T {
        &items[self.within(0..=items.len() - 1)]
    }

    pub fn bytes(&mut self, length: usize) -> Vec<u8> {
        (0..length).map(|_| self.word() as u8).collect()
    }
}

#[cfg(test)]
mod tests {
    use super::*;

    #[test]
    fn the_words_are_those_of_splitmix64() {
        let mut random = Random::new(1_234_567);
        assert_eq!([random.word(), random.word()], [6_457_827_717_110_365_317, 3_203_168_211_198_807_973]);
    }

    #[test]
    fn the_same_name_gives_the_same_run() {
        let run = |name| Random::of_test(name).bytes(100);
        assert_eq!(run("a test"), run("a test"));
        assert_ne!(run("a test"), run("another"));
    }
}
