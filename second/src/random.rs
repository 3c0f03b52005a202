//! Numbers that look random and are the same in every run.

/// A source of numbers with a fixed seed (xorshift with a multiplied answer).
pub struct Random {
    state: u64,
}

impl Random {
    /// A source for a seed other than 0.
    pub fn new(seed: u64) -> Self {
        Random { state: seed }
    }

    /// The next 64 bits.
    pub fn draw(&mut self) -> u64 {
        self.state ^= self.state >> 12;
        self.state ^= self.state << 25;
        self.state ^= self.state >> 27;
        self.state.wrapping_mul(0x2545_f491_4f6c_dd1d)
    }

    /// A number from 0 up to, not including, the limit.
    pub fn below(&mut self, limit: u64) -> u64 {
        (self.draw() >> 16) % limit
    }

    /// A number between two, both included.
    pub fn between(&mut self, low: i64, high: i64) -> i64 {
        low + self.below((high - low + 1) as u64) as i64
    }

    /// A place on a list of this length.
    pub fn place(&mut self, length: usize) -> usize {
        self.below(length as u64) as usize
    }

    /// One entry of a list.
    pub fn pick<V: Copy>(&mut self, list: &[V]) -> V {
        list[self.place(list.len())]
    }
}
