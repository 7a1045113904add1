//! Numbers that look random and follow from a seed (splitmix64).

pub struct Random {
    state: u64,
}

impl Random {
    /// Each database has numbers of its own, so that one can be made without
    /// those before it.
    pub fn new(seed: u64, index: u64) -> Random {
        let mut of_seed = Random { state: seed };
        let state = of_seed.next() ^ index.wrapping_mul(0xd1b5_4a32_d192_ed03);
        Random { state }
    }

    pub fn next(&mut self) -> u64 {
        self.state = self.state.wrapping_add(0x9e37_79b9_7f4a_7c15);
        let mut z = self.state;
        z = (z ^ (z >> 30)).wrapping_mul(0xbf58_476d_1ce4_e5b9);
        z = (z ^ (z >> 27)).wrapping_mul(0x94d0_49bb_1331_11eb);
        z ^ (z >> 31)
    }

    /// From 0 to `bound` - 1. The small favour for low numbers does not matter.
    pub fn below(&mut self, bound: usize) -> usize {
        (self.next() % bound as u64) as usize
    }

    /// True once in `times`.
    pub fn once_in(&mut self, times: usize) -> bool {
        self.below(times) == 0
    }

    pub fn byte(&mut self) -> u8 {
        (self.next() >> 56) as u8
    }

    pub fn bytes(&mut self, count: usize) -> Vec<u8> {
        (0..count).map(|_| self.byte()).collect()
    }

    pub fn pick<T: Copy>(&mut self, items: &[T]) -> T {
        items[self.below(items.len())]
    }

    /// Often one at which a reading changes.
    pub fn edge_byte(&mut self) -> u8 {
        const EDGES: [u8; 24] = [
            0, 1, 2, 3, 4, 5, 6, 7, 8, 9, 10, 11, 12, 13, 14, 15, 99, 100, 0x7f, 0x80, 0x81, 0x82,
            0xfe, 0xff,
        ];
        if self.once_in(3) {
            self.byte()
        } else {
            self.pick(&EDGES)
        }
    }
}
