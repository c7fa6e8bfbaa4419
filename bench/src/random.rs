//! Numbers that look random and are the same in every run.

pub struct Random(u64);

impl Random {
    pub fn new() -> Random {
        Random(0x9e37_79b9_7f4a_7c15)
    }

    pub fn below(&mut self, most: u64) -> u64 {
        self.0 ^= self.0 << 13;
        self.0 ^= self.0 >> 7;
        self.0 ^= self.0 << 17;
        (self.0 >> 11) % most
    }

    pub fn pick(&mut self, from: &[char]) -> char {
        from[self.below(from.len() as u64) as usize]
    }

    /// A glyph's name: 4 to 12 letters.
    pub fn name(&mut self) -> String {
        (0..4 + self.below(9))
            .map(|_| (b'a' + self.below(26) as u8) as char)
            .collect()
    }
}

pub fn letters(text: &str) -> Vec<char> {
    text.chars().collect()
}
