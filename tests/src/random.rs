//! Random numbers that anyone can draw again from their seed.

use crate::telling::Telling;

/// Words at which arithmetic on 32 bits, or a comparison of halves, would go wrong.
pub const EDGES: [u32; 9] =
    [0, 1, 2, 65_535, 65_536, (1 << 31) - 1, 1 << 31, u32::MAX - 1, u32::MAX];

/// A generator of the kind xorshift64*.
pub struct Random {
    state: u64,
}

impl Random {
    /// Makes a generator. Neighbouring seeds are spread first, so that their numbers have nothing
    /// in common.
    pub fn new(seed: u64) -> Random {
        let mut random = Random { state: seed.wrapping_mul(0x9E37_79B9_7F4A_7C15) | 1 };
        for _ in 0..4 {
            random.any();
        }
        random
    }

    pub fn any(&mut self) -> u32 {
        self.state ^= self.state >> 12;
        self.state ^= self.state << 25;
        self.state ^= self.state >> 27;
        (self.state.wrapping_mul(0x2545_F491_4F6C_DD1D) >> 32) as u32
    }

    /// Returns a number from 0 up to the limit, which is left out.
    pub fn small(&mut self, limit: u32) -> u32 {
        ((u64::from(self.any()) * u64::from(limit)) >> 32) as u32
    }

    /// Returns the same for lengths.
    pub fn below(&mut self, limit: usize) -> usize {
        self.small(limit as u32) as usize
    }

    pub fn one_in(&mut self, times: usize) -> bool {
        self.below(times) == 0
    }

    pub fn pick<T: Copy>(&mut self, among: &[T]) -> T {
        among[self.below(among.len())]
    }

    /// Returns any word, a small one, or one of the edges.
    pub fn word(&mut self) -> u32 {
        match self.below(4) {
            0 => self.any(),
            1 => self.small(10),
            _ => self.pick(&EDGES),
        }
    }

    /// Returns a word that differs from this one a little, high up or wholly.
    pub fn other_than(&mut self, word: u32) -> u32 {
        match self.below(4) {
            0 => word.wrapping_add(1),
            1 => word.wrapping_sub(1),
            2 => word ^ 1 << (16 + self.small(16)),
            _ => self.word(),
        }
    }

    /// Returns mostly one of these words, if there are any, and now and then another.
    pub fn mostly_of(&mut self, words: &[u32]) -> u32 {
        if words.is_empty() || self.one_in(8) {
            self.word()
        } else {
            self.pick(words)
        }
    }

    /// Returns the length of an output for a result of this length: just as long, one less, one
    /// more, shorter, or longer.
    pub fn around(&mut self, needed: usize) -> usize {
        match self.below(8) {
            0 => needed.saturating_sub(1),
            1 => needed + 1,
            2 => self.below(needed + 1),
            3 | 4 => needed,
            _ => needed + self.below(20),
        }
    }
}

/// Runs the case with each of `cases` seeds, from the first seed on.
pub fn each_case(first_seed: u64, cases: u64, mut case: impl FnMut(&mut Random)) {
    for seed in first_seed..first_seed + cases {
        let telling = Telling { kind: "case of seed", case: seed };
        case(&mut Random::new(telling.case));
    }
}
