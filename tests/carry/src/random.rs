// A small generator, so that a seed gives the same inputs everywhere (splitmix64).

pub struct Random(u64);

impl Random {
    pub fn new(seed: u64) -> Self {
        Random(seed)
    }

    pub fn next(&mut self) -> u64 {
        self.0 = self.0.wrapping_add(0x9e37_79b9_7f4a_7c15);
        let mut z = self.0;
        z = (z ^ (z >> 30)).wrapping_mul(0xbf58_476d_1ce4_e5b9);
        z = (z ^ (z >> 27)).wrapping_mul(0x94d0_49bb_1331_11eb);
        z ^ (z >> 31)
    }

    /// From 0 to n - 1.
    pub fn below(&mut self, n: usize) -> usize {
        (self.next() % n as u64) as usize
    }

    pub fn one_in(&mut self, n: usize) -> bool {
        self.below(n) == 0
    }

    pub fn byte(&mut self) -> u8 {
        self.next() as u8
    }

    pub fn pick<'a, T>(&mut self, from: &'a [T]) -> &'a T {
        &from[self.below(from.len())]
    }

    pub fn shuffle<T>(&mut self, all: &mut [T]) {
        for i in (1..all.len()).rev() {
            let j = self.below(i + 1);
            all.swap(i, j);
        }
    }

    /// A number of a width in bytes that stands at an edge more often than chance would have it.
    pub fn edge(&mut self, width: usize) -> u64 {
        let all = if width == 8 { u64::MAX } else { (1u64 << (8 * width)) - 1 };
        let n = match self.below(7) {
            0 => 0,
            1 => all,
            2 => all / 2,
            3 => all / 2 + 1,
            4 => 250 + self.next() % 12,
            5 => 65_530 + self.next() % 12,
            _ => self.next(),
        };
        n & all
    }
}
