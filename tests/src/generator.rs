//! A small deterministic generator, so that every run compares the same cases.

/// SplitMix64: a counter, scrambled.
pub struct Generator {
    state: u64,
}

impl Generator {
    pub fn new(seed: u64) -> Generator {
        Generator { state: seed }
    }

    pub fn word(&mut self) -> u32 {
        self.state = self.state.wrapping_add(0x9E3779B97F4A7C15);
        let mut mixed = self.state;
        mixed = (mixed ^ (mixed >> 30)).wrapping_mul(0xBF58476D1CE4E5B9);
        mixed = (mixed ^ (mixed >> 27)).wrapping_mul(0x94D049BB133111EB);
        ((mixed ^ (mixed >> 31)) >> 32) as u32
    }

    /// A number from `low` to `high`, both included.
    pub fn between(&mut self, low: u32, high: u32) -> u32 {
        let span = u64::from(high - low) + 1;
        low + ((u64::from(self.word()) * span) >> 32) as u32
    }

    pub fn words(&mut self, count: usize) -> Vec<u32> {
        (0..count).map(|_| self.word()).collect()
    }

    /// True once in so many times.
    pub fn one_in(&mut self, times: u32) -> bool {
        self.between(1, times) == 1
    }

    pub fn one_of<T: Copy>(&mut self, choices: &[T]) -> T {
        choices[self.between(0, choices.len() as u32 - 1) as usize]
    }

    /// A number from -1 to 1.
    pub fn unit(&mut self) -> f32 {
        (self.word() as i32) as f32 / (1u32 << 31) as f32
    }

    /// 2 to a power from `low` to `high`, both included and both those of a normal f32.
    pub fn power_of_two(&mut self, low: i32, high: i32) -> f32 {
        let exponent = low + self.between(0, (high - low) as u32) as i32;
        f32::from_bits(((exponent + 127) as u32) << 23)
    }
}
