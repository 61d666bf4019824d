//! A small random source, the same on every machine for the same seed.

pub struct Random(u64);

fn mix(mut z: u64) -> u64 {
    z = (z ^ z >> 30).wrapping_mul(0xbf58_476d_1ce4_e5b9);
    z = (z ^ z >> 27).wrapping_mul(0x94d0_49bb_1331_11eb);
    z ^ z >> 31
}

impl Random {
    /// A source of its own for each list of numbers.
    pub fn of(numbers: &[u64]) -> Self {
        Self(
            numbers
                .iter()
                .fold(0, |seed, n| mix(seed ^ mix(n.wrapping_add(0x9e37_79b9_7f4a_7c15)))),
        )
    }

    pub fn next(&mut self) -> u64 {
        self.0 = self.0.wrapping_add(0x9e37_79b9_7f4a_7c15);
        mix(self.0)
    }

    pub fn word(&mut self) -> u16 {
        self.next() as u16
    }

    pub fn byte(&mut self) -> u8 {
        self.next() as u8
    }

    /// From 0 up to, and without, `count`.
    pub fn below(&mut self, count: u64) -> u64 {
        ((self.next() >> 32) * count) >> 32
    }

    pub fn one_in(&mut self, count: u64) -> bool {
        self.below(count) == 0
    }

    /// True with a chance of `chance` in 1024.
    pub fn chance(&mut self, chance: u16) -> bool {
        self.below(1024) < chance as u64
    }

    pub fn pick<T: Copy>(&mut self, choices: &[T]) -> T {
        choices[self.below(choices.len() as u64) as usize]
    }

    pub fn bytes(&mut self, count: usize) -> Vec<u8> {
        let mut bytes = vec![0; count];
        for part in bytes.chunks_mut(8) {
            let random = self.next().to_le_bytes();
            part.copy_from_slice(&random[..part.len()]);
        }
        bytes
    }
}
