//! Numbers that look random and follow from a seed alone (splitmix64), so that a run can be made again anywhere.

pub struct Random(u64);

impl Random {
    /// Any text is a seed (its FNV-1a hash is taken).
    pub fn new(seed: &str) -> Self {
        Self(seed.bytes().fold(0xcbf2_9ce4_8422_2325, |hash, byte| (hash ^ u64::from(byte)).wrapping_mul(0x100_0000_01b3)))
    }

    pub fn bits(&mut self, width: usize) -> i64 {
        self.0 = self.0.wrapping_add(0x9e37_79b9_7f4a_7c15);
        let mut z = self.0;
        z = (z ^ (z >> 30)).wrapping_mul(0xbf58_476d_1ce4_e5b9);
        z = (z ^ (z >> 27)).wrapping_mul(0x94d0_49bb_1331_11eb);
        ((z ^ (z >> 31)) >> (64 - width)) as i64
    }

    /// A number below `most`.
    pub fn below(&mut self, most: usize) -> usize {
        self.bits(32) as usize % most
    }

    pub fn once_in(&mut self, times: usize) -> bool {
        self.below(times) == 0
    }

    pub fn pick<T: Clone>(&mut self, from: &[T]) -> T {
        from[self.below(from.len())].clone()
    }

    pub fn byte(&mut self) -> u8 {
        self.bits(8) as u8
    }

    /// A count that is often one of those given, and else any up to `most`.
    pub fn length(&mut self, often: &[usize], most: usize) -> usize {
        if self.once_in(2) {
            self.pick(often)
        } else {
            self.below(most + 1)
        }
    }
}
