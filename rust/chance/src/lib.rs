//! Random numbers (splitmix64), the same for the same seed.

pub struct Chance {
    state: u64,
}

impl Chance {
    pub fn new(seed: u64) -> Chance {
        Chance { state: seed }
    }

    pub fn number(&mut self) -> u64 {
        self.state = self.state.wrapping_add(0x9E37_79B9_7F4A_7C15);
        let mut mixed = self.state;
        mixed = (mixed ^ (mixed >> 30)).wrapping_mul(0xBF58_476D_1CE4_E5B9);
        mixed = (mixed ^ (mixed >> 27)).wrapping_mul(0x94D0_49BB_1331_11EB);
        mixed ^ (mixed >> 31)
    }

    /// 0..limit; limit is not 0.
    pub fn below(&mut self, limit: usize) -> usize {
        (self.number() % limit as u64) as usize
    }

    pub fn between(&mut self, lowest: u64, highest: u64) -> u64 {
        lowest + self.number() % (highest - lowest + 1)
    }

    /// True once in `times`.
    pub fn one_in(&mut self, times: usize) -> bool {
        self.below(times) == 0
    }

    pub fn byte(&mut self) -> u8 {
        self.number() as u8
    }

    pub fn bytes(&mut self, length: usize) -> Vec<u8> {
        let mut bytes = Vec::with_capacity(length + 8);
        while bytes.len() < length {
            bytes.extend_from_slice(&self.number().to_le_bytes());
        }
        bytes.truncate(length);
        bytes
    }

    /// One of a list that is not empty.
    pub fn pick<'a, T>(&mut self, list: &'a [T]) -> &'a T {
        &list[self.below(list.len())]
    }

    /// The newer, the likelier, so that old ones come late and seldom.
    pub fn recent<'a, T>(&mut self, list: &'a [T]) -> &'a T {
        if self.one_in(5) {
            return self.pick(list);
        }
        let back = self.below(list.len().min(6));
        &list[list.len() - 1 - back]
    }

    /// A number of 0..=limit, or one just or far above it.
    pub fn near(&mut self, limit: u64) -> u64 {
        match self.below(12) {
            0 => 0,
            1 => limit,
            2 => limit + 1,
            3 => u64::MAX,
            4 => limit + (1 << 32),
            _ => self.number() % (limit + 1),
        }
    }

    /// A byte that a host may lend for a bad signature: every value but 1.
    pub fn bad_verdict(&mut self) -> u8 {
        match self.byte() {
            1 => 0,
            value if value < 64 => 2,
            value => value,
        }
    }
}
