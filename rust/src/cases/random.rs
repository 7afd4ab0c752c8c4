//! Seeded random numbers (splitmix64), so that a seed gives the same cases again.

pub struct Random(u64);

impl Random {
    /// A source of its own for each part of a run.
    pub fn new(seed: u64, part: u64) -> Random {
        let mut random = Random(seed);
        let start = random.whole() ^ part;
        Random(start.wrapping_mul(0xd134_2543_de82_ef95))
    }

    /// Any 64-bit number.
    pub fn whole(&mut self) -> u64 {
        self.0 = self.0.wrapping_add(0x9e37_79b9_7f4a_7c15);
        let mut z = self.0;
        z = (z ^ z >> 30).wrapping_mul(0xbf58_476d_1ce4_e5b9);
        z = (z ^ z >> 27).wrapping_mul(0x94d0_49bb_1331_11eb);
        z ^ z >> 31
    }

    /// A number below `end`, which is not 0.
    pub fn below(&mut self, end: usize) -> usize {
        (self.whole() % end as u64) as usize
    }

    pub fn between(&mut self, first: usize, last: usize) -> usize {
        first + self.below(last - first + 1)
    }

    /// True once in `many` times.
    pub fn once_in(&mut self, many: usize) -> bool {
        self.below(many) == 0
    }

    pub fn one_of<T: Copy>(&mut self, things: &[T]) -> T {
        things[self.below(things.len())]
    }

    /// A 32-bit number, often at an edge, so that sums wrap and signs matter.
    pub fn number(&mut self) -> i32 {
        match self.below(8) {
            0 => self.one_of(&[i32::MAX, i32::MIN, i32::MAX - 1, i32::MIN + 1]),
            1 => self.whole() as i32,
            2 => self.one_of(&[0, -1, 1]),
            3 => -(self.below(1000) as i32),
            _ => self.below(12) as i32,
        }
    }

    pub fn bytes(&mut self, count: usize) -> Vec<u8> {
        (0..count).map(|_| self.whole() as u8).collect()
    }
}
