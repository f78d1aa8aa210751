//! The counts of a problem file.

#[derive(Clone, Copy, Debug, PartialEq, Eq)]
pub struct Header {
    pub symbols: usize,
    pub strings: usize,
    pub numbers: usize,
    pub automata: usize,
    pub constraints: usize,
}

impl Header {
    /// Words in a table.
    pub fn words(&self) -> usize {
        64 * self.strings + self.numbers
    }

    /// Whether every count lies within its limits.
    pub fn in_range(&self) -> bool {
        1 <= self.symbols
            && self.symbols <= 64
            && self.strings <= 16
            && self.numbers <= 16
            && self.automata <= 8
            && self.constraints <= 64
    }
}
