//! A seeded source of random numbers: the same seed gives the same run on every machine.

/// The splitmix64 generator.
#[derive(Clone, Debug)]
pub struct Source {
    state: u64,
}

impl Source {
    /// A source for one case of one suite. What failed can be drawn again from these three alone.
    pub fn new(seed: u64, suite: &str, case: u64) -> Self {
        let mut source = Source { state: seed };
        for byte in suite.bytes() {
            source.state = source.next() ^ u64::from(byte);
        }
        source.state = source.next() ^ case;
        source.next();
        source
    }

    pub fn next(&mut self) -> u64 {
        self.state = self.state.wrapping_add(0x9e37_79b9_7f4a_7c15);
        let mut mixed = self.state;
        mixed = (mixed ^ (mixed >> 30)).wrapping_mul(0xbf58_476d_1ce4_e5b9);
        mixed = (mixed ^ (mixed >> 27)).wrapping_mul(0x94d0_49bb_1331_11eb);
        mixed ^ (mixed >> 31)
    }

    /// A number below n, which is not 0.
    pub fn below(&mut self, n: usize) -> usize {
        (self.next() % n as u64) as usize
    }

    /// A number of low to high.
    pub fn between(&mut self, low: usize, high: usize) -> usize {
        low + self.below(high - low + 1)
    }

    /// True `n` times in `of`.
    pub fn chance(&mut self, n: usize, of: usize) -> bool {
        self.below(of) < n
    }

    pub fn byte(&mut self) -> u8 {
        self.next() as u8
    }

    pub fn pick<T: Clone>(&mut self, items: &[T]) -> T {
        items[self.below(items.len())].clone()
    }
}
