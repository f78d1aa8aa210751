//! The domains of variables, as a [`Builder`](crate::Builder) takes them.

use crate::BuildError;

/// The greatest length, place, symbol and value.
const GREATEST: u8 = 63;

/// Some of the numbers 0 to 63: the lengths of a string, the symbols of a place, the values of a number, the accepting states of an automaton.
#[derive(Clone, Copy, Debug, Default, PartialEq, Eq)]
pub struct Values(u64);

impl Values {
    pub const NONE: Values = Values(0);
    pub const EVERY: Values = Values(u64::MAX);

    /// These numbers, in any order. [`BuildError::Value`] where one is above 63.
    pub fn of(values: impl IntoIterator<Item = u8>) -> Result<Values, BuildError> {
        let mut word = 0;
        for value in values {
            if value > GREATEST {
                return Err(BuildError::Value(value));
            }
            word |= 1 << value;
        }
        Ok(Values(word))
    }

    /// The numbers v whose bit v of the word is set.
    pub fn from_word(word: u64) -> Values {
        Values(word)
    }

    pub fn word(self) -> u64 {
        self.0
    }

    /// The least of them that is not below the count, if there is one.
    pub(crate) fn beyond(self, count: u8) -> Option<u8> {
        (count..=GREATEST).find(|value| self.0 >> value & 1 == 1)
    }
}

/// The domain of a string: its lengths, and the symbols of each place. Places count from 1.
#[derive(Clone, Copy, Debug, PartialEq, Eq)]
pub struct Row([u64; 64]);

impl Row {
    /// Strings of these lengths, with these symbols at each place up to the greatest length.
    pub fn new(lengths: Values, symbols: Values) -> Row {
        let mut words = [0; 64];
        let longest = lengths.0.checked_ilog2().unwrap_or(0) as usize;
        words[1..=longest].fill(symbols.0);
        words[0] = lengths.0;
        Row(words)
    }

    /// Just this string. [`BuildError::TextLength`] where it has more than 63 symbols, [`BuildError::Symbol`] where one is above 63.
    pub fn text(symbols: &[u8]) -> Result<Row, BuildError> {
        if symbols.len() > usize::from(GREATEST) {
            return Err(BuildError::TextLength(symbols.len()));
        }
        let mut words = [0; 64];
        words[0] = 1 << symbols.len();
        for (word, &symbol) in words[1..].iter_mut().zip(symbols) {
            *word = Values::of([symbol]).map_err(|_| BuildError::Symbol(symbol))?.0;
        }
        Ok(Row(words))
    }

    /// The same with other symbols at this place. It may lie past the greatest length, where no string uses it. [`BuildError::Place`] where it is not 1 to 63.
    pub fn at(mut self, place: usize, symbols: Values) -> Result<Row, BuildError> {
        if place == 0 || place > usize::from(GREATEST) {
            return Err(BuildError::Place(place));
        }
        self.0[place] = symbols.0;
        Ok(self)
    }

    /// A row by its words: bit l of word 0 allows the length l, bit a of word i (1 to 63) allows the symbol a at place i.
    pub fn from_words(words: [u64; 64]) -> Row {
        Row(words)
    }

    pub fn words(&self) -> &[u64; 64] {
        &self.0
    }

    /// A symbol of some place that is not below the count, if there is one.
    pub(crate) fn symbol_beyond(&self, count: u8) -> Option<u8> {
        self.0[1..].iter().find_map(|&word| Values(word).beyond(count))
    }
}
