//! A small generator of numbers (splitmix64). The same seed gives the same calls on every machine.

pub struct Random {
    state: u64,
}

impl Random {
    pub fn new(seed: u64) -> Random {
        Random { state: seed }
    }

    /// A stream of its own for each pair of seed and number, so that session 17 of a seed is the same
    /// whatever was drawn before it.
    pub fn of(seed: u64, number: u64) -> Random {
        let mut first = Random::new(seed);
        let mixed = first.next() ^ number.wrapping_mul(0xd134_2543_de82_ef95);
        Random::new(mixed)
    }

    pub fn next(&mut self) -> u64 {
        self.state = self.state.wrapping_add(0x9e37_79b9_7f4a_7c15);
        let mut z = self.state;
        z = (z ^ (z >> 30)).wrapping_mul(0xbf58_476d_1ce4_e5b9);
        z = (z ^ (z >> 27)).wrapping_mul(0x94d0_49bb_1331_11eb);
        z ^ (z >> 31)
    }

    pub fn word(&mut self) -> u32 {
        (self.next() >> 32) as u32
    }

    /// 0 to n - 1; n is at least 1.
    pub fn below(&mut self, n: usize) -> usize {
        (self.next() % n as u64) as usize
    }

    /// Both ends included.
    pub fn between(&mut self, low: u32, high: u32) -> u32 {
        let many = u64::from(high) - u64::from(low) + 1;
        (u64::from(low) + self.next() % many) as u32
    }

    /// True once in `times` draws, on the whole.
    pub fn once_in(&mut self, times: usize) -> bool {
        self.below(times) == 0
    }

    pub fn pick<T: Copy>(&mut self, from: &[T]) -> T {
        from[self.below(from.len())]
    }

    pub fn shuffle<T>(&mut self, list: &mut [T]) {
        for k in (1..list.len()).rev() {
            let other = self.below(k + 1);
            list.swap(k, other);
        }
    }
}
