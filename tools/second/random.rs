//! A small seeded source of numbers, so that a seed always gives the same scripts.

pub struct Random {
    state: u64,
}

impl Random {
    /// Each case has a source of its own: it is the same however many cases are asked for.
    pub fn of_case(seed: u64, case: u64) -> Random {
        let mut of_seed = Random { state: seed };
        let start = of_seed.next();
        let mut random = Random { state: start ^ case.wrapping_mul(0xD134_2543_DE82_EF95) };
        random.next();
        random
    }

    /// A counter with an odd step, its bits mixed by shifts and multiplications.
    pub fn next(&mut self) -> u64 {
        self.state = self.state.wrapping_add(0x9E37_79B9_7F4A_7C15);
        let mixed = (self.state ^ (self.state >> 30)).wrapping_mul(0xBF58_476D_1CE4_E5B9);
        let mixed = (mixed ^ (mixed >> 27)).wrapping_mul(0x94D0_49BB_1331_11EB);
        mixed ^ (mixed >> 31)
    }

    /// A number below `bound`, which is not 0.
    pub fn below(&mut self, bound: usize) -> usize {
        (self.next() % bound as u64) as usize
    }

    pub fn between(&mut self, least: usize, most: usize) -> usize {
        least + self.below(most - least + 1)
    }

    pub fn one_in(&mut self, times: usize) -> bool {
        self.below(times) == 0
    }

    pub fn pick<T: Copy>(&mut self, choices: &[T]) -> T {
        choices[self.below(choices.len())]
    }
}
