//! Numbers that follow from a seed (splitmix64).

#[derive(Debug, Clone)]
pub(super) struct Random {
    state: u64,
}

impl Random {
    pub fn new(seed: u64) -> Random {
        Random { state: seed }
    }

    pub fn number(&mut self) -> u64 {
        self.state = self.state.wrapping_add(0x9E37_79B9_7F4A_7C15);
        let mut z = self.state;
        z = (z ^ (z >> 30)).wrapping_mul(0xBF58_476D_1CE4_E5B9);
        z = (z ^ (z >> 27)).wrapping_mul(0x94D0_49BB_1331_11EB);
        z ^ (z >> 31)
    }

    /// A number below the bound, and 0 if there is none.
    pub fn below(&mut self, bound: usize) -> usize {
        (self.number() % bound.max(1) as u64) as usize
    }

    /// A number from the first to the last, both included.
    pub fn within(&mut self, first: usize, last: usize) -> usize {
        first + self.below(last + 1 - first)
    }

    pub fn one_in(&mut self, many: usize) -> bool {
        self.below(many) == 0
    }

    pub fn pick<T: Copy>(&mut self, choices: &[T]) -> T {
        choices[self.below(choices.len())]
    }

    pub fn byte(&mut self) -> u8 {
        self.number() as u8
    }

    /// Bytes of one kind: all drawn, all equal, or drawn with zeros before.
    pub fn bytes(&mut self, count: usize) -> Vec<u8> {
        let same = self.pick(&[0x00, 0xFF, 0x80, 0xDC]);
        let zeros = self.below(count + 1);
        match self.below(8) {
            0 => vec![same; count],
            1 => (0..count).map(|index| if index < zeros { 0 } else { self.byte() }).collect(),
            _ => (0..count).map(|_| self.byte()).collect(),
        }
    }

    /// So many characters of an alphabet.
    pub fn text(&mut self, count: usize, alphabet: &[u8]) -> Vec<u8> {
        (0..count).map(|_| self.pick(alphabet)).collect()
    }

    /// A room for so much: none, short, one short, exact or more.
    pub fn room(&mut self, needed: usize) -> usize {
        match self.below(10) {
            0 => 0,
            1 => self.below(needed + 1),
            2 => needed.saturating_sub(1),
            3 | 4 => needed,
            5 => needed + 1,
            _ => needed + self.below(40),
        }
    }
}
