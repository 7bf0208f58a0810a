//! A small generator of random numbers (splitmix64), the same on every machine for one seed.

use std::env;

pub struct Random {
    state: u64,
}

impl Random {
    pub fn new(seed: u64) -> Random {
        Random { state: seed }
    }

    /// The generator of one test, from BELLACUSH_SEED (1 if unset) and the test's name. It says
    /// the seed, which the harness shows if the test fails.
    pub fn of_test(name: &str) -> Random {
        let seed = setting("BELLACUSH_SEED", 1);
        println!("{name}: BELLACUSH_SEED={seed}");
        let mut random = Random::new(seed);
        for byte in name.bytes() {
            random.state = random.draw() ^ u64::from(byte);
        }
        random
    }

    pub fn draw(&mut self) -> u64 {
        self.state = self.state.wrapping_add(0x9E37_79B9_7F4A_7C15);
        let mut mixed = self.state;
        mixed = (mixed ^ (mixed >> 30)).wrapping_mul(0xBF58_476D_1CE4_E5B9);
        mixed = (mixed ^ (mixed >> 27)).wrapping_mul(0x94D0_49BB_1331_11EB);
        mixed ^ (mixed >> 31)
    }

    /// Below `bound`, which is not 0.
    pub fn below(&mut self, bound: usize) -> usize {
        (self.draw() % bound as u64) as usize
    }

    /// From `low` to `high`, both possible.
    pub fn between(&mut self, low: usize, high: usize) -> usize {
        low + self.below(high - low + 1)
    }

    /// True `part` times in `whole`.
    pub fn chance(&mut self, part: usize, whole: usize) -> bool {
        self.below(whole) < part
    }

    pub fn pick<T: Copy>(&mut self, of: &[T]) -> T {
        of[self.below(of.len())]
    }

    pub fn word(&mut self) -> u16 {
        self.draw() as u16
    }

    pub fn long(&mut self) -> u32 {
        self.draw() as u32
    }

    pub fn bytes(&mut self, len: usize) -> Vec<u8> {
        (0..len).map(|_| self.draw() as u8).collect()
    }

    /// A word in which each bit is set `part` times in `whole`.
    pub fn bits(&mut self, part: usize, whole: usize) -> u16 {
        (0..16).fold(0, |word, _| {
            (word << 1) | u16::from(self.chance(part, whole))
        })
    }
}

/// How many cases a random test tries: `usual` times BELLACUSH_CASES (1 if unset).
pub fn cases(usual: usize) -> usize {
    usual * setting("BELLACUSH_CASES", 1) as usize
}

fn setting(name: &str, default: u64) -> u64 {
    match env::var(name) {
        Ok(text) => text
            .parse()
            .unwrap_or_else(|_| panic!("{name} is to be a whole number, not '{text}'")),
        Err(_) => default,
    }
}
