//! Random numbers by a 64-bit xorshift generator, the same in each run.

/// Each part that draws numbers starts again from this seed.
pub const SEED: u64 = 15_200_319;

pub struct Random {
    state: u64,
}

impl Random {
    pub fn from_seed() -> Random {
        Random { state: SEED }
    }

    /// Marsaglia's xorshift with the shifts 13, 7, 17; the upper half is handed out.
    pub fn number(&mut self) -> u32 {
        self.state ^= self.state << 13;
        self.state ^= self.state >> 7;
        self.state ^= self.state << 17;
        (self.state >> 32) as u32
    }

    /// A number from 0 up to, and without, `end`.
    pub fn below(&mut self, end: u32) -> u32 {
        self.number() % end
    }

    /// A number from `first` to `last`, both counted.
    pub fn between(&mut self, first: u32, last: u32) -> u32 {
        first + self.below(last - first + 1)
    }

    /// True once in `times`.
    pub fn once_in(&mut self, times: u32) -> bool {
        self.below(times) == 0
    }

    pub fn one_of<T: Copy>(&mut self, choices: &[T]) -> T {
        choices[self.below(choices.len() as u32) as usize]
    }
}
