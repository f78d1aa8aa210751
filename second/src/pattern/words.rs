//! Which words a pattern accepts: for every part of the pattern, the stretches
//! of the word that it can stand for. There are no states in it.

use super::tree::{Part, Pattern};
use crate::domain::{bit, bits, has};

impl Pattern {
    /// For words as long as a string can be, 63 symbols at most.
    pub fn accepts(&self, word: &[u8]) -> bool {
        let mut chart = Chart::new(self, word.len());
        for &symbol in word.iter().rev() {
            chart.put_row(Some(symbol));
        }
        chart.accepts()
    }

    /// Calls `act` with every word of at most `longest` of these symbols, and
    /// whether it is accepted. Much faster than one by one.
    pub fn for_every_word(&self, symbols: &[u8], longest: usize, act: &mut dyn FnMut(&[u8], bool)) {
        let mut chart = Chart::new(self, longest);
        chart.lengthen(symbols, &mut vec![0; longest], longest, act);
    }
}

/// A row for every ending of a word, the empty one first, with a cell for
/// every part. Bit e of a cell: the part can be read from where the ending
/// starts to where e symbols are left. A longer word only adds rows.
struct Chart<'a> {
    parts: &'a [Part],
    cells: Vec<u64>,
}

impl<'a> Chart<'a> {
    /// For the empty word, which may grow up to `longest`.
    fn new(pattern: &'a Pattern, longest: usize) -> Chart<'a> {
        assert!(longest < 64, "a cell has 64 bits");
        let parts = &pattern.parts[..];
        let cells = Vec::with_capacity((longest + 1) * parts.len());
        let mut chart = Chart { parts, cells };
        chart.put_row(None);
        chart
    }

    /// Puts a symbol before the word. No symbol: the row of the empty word.
    fn put_row(&mut self, symbol: Option<u8>) {
        let row = self.cells.len();
        let width = self.parts.len();
        let left = row / width;
        for (this, part) in self.parts.iter().enumerate() {
            let cells = &self.cells;
            let cell = match *part {
                Part::Empty => bit(left),
                Part::Letter { symbol: own, .. } if Some(own) == symbol => bit(left - 1),
                Part::Letter { .. } => 0,
                Part::Either(a, b) => cells[row + a] | cells[row + b],
                Part::Both(a, b) => {
                    bits(cells[row + a]).fold(0, |ends, e| ends | cells[width * e + b])
                }
                // A round that reads nothing leads to nothing new.
                Part::Star(a) => bits(cells[row + a] & !bit(left))
                    .fold(bit(left), |ends, e| ends | cells[width * e + this]),
            };
            self.cells.push(cell);
        }
    }

    /// Whether the whole pattern can be read from the word's start to its end.
    fn accepts(&self) -> bool {
        self.cells.last().is_some_and(|&cell| has(cell, 0))
    }

    /// Acts on the word, which is `buffer` from `start` on, and on all that
    /// come of it by symbols put before.
    fn lengthen(
        &mut self,
        symbols: &[u8],
        buffer: &mut [u8],
        start: usize,
        act: &mut dyn FnMut(&[u8], bool),
    ) {
        act(&buffer[start..], self.accepts());
        if start == 0 {
            return;
        }
        for &symbol in symbols {
            buffer[start - 1] = symbol;
            let row = self.cells.len();
            self.put_row(Some(symbol));
            self.lengthen(symbols, buffer, start - 1, act);
            self.cells.truncate(row);
        }
    }
}
