//! A seeded xorshift generator.

/// The generator's state, never zero.
pub struct Rng {
    state: u64,
}

impl Rng {
    /// A generator for a seed; seeds next to each other give unlike numbers.
    pub fn new(seed: u64) -> Rng {
        let mixed = (seed ^ 0x9E37_79B9_7F4A_7C15).wrapping_mul(0xBF58_476D_1CE4_E5B9);
        let mut rng = Rng { state: (mixed ^ (mixed >> 31)).max(1) };
        for _ in 0..4 {
            rng.draw();
        }
        rng
    }

    /// A generator of other numbers, which leaves this one's as they are.
    pub fn beside(&self) -> Rng {
        Rng::new(!self.state)
    }

    /// The next number.
    pub fn draw(&mut self) -> u64 {
        self.state ^= self.state << 13;
        self.state ^= self.state >> 7;
        self.state ^= self.state << 17;
        self.state.wrapping_mul(0x2545_F491_4F6C_DD1D)
    }

    /// A number below a bound, 0 if the bound is 0.
    pub fn below(&mut self, bound: usize) -> usize {
        ((u128::from(self.draw()) * bound as u128) >> 64) as usize
    }

    /// A number from `low` to `high`, both included.
    pub fn between(&mut self, low: usize, high: usize) -> usize {
        low + self.below(high.saturating_sub(low) + 1)
    }

    /// True one time in `n`.
    pub fn one_in(&mut self, n: usize) -> bool {
        self.below(n) == 0
    }

    /// One of a slice's elements, if it has any.
    pub fn pick<'a, T>(&mut self, from: &'a [T]) -> Option<&'a T> {
        from.get(self.below(from.len()))
    }

    /// A number near an edge of its range, or any number.
    pub fn edge_word(&mut self) -> u32 {
        let near = [0, 1, 2, 8, 64, 128, 4096, 1 << 16, 1 << 24, 1 << 31, u32::MAX];
        match self.pick(&near) {
            Some(&edge) if !self.one_in(4) => {
                edge.wrapping_add(self.below(3) as u32).wrapping_sub(1)
            }
            _ => self.draw() as u32,
        }
    }
}
