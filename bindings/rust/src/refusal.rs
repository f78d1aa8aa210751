//! The numbers by which an entry refuses.

use std::error::Error;
use std::fmt;

/// The first refusal that applies, by its number from 1 to 19. Whatever was lent is as it was.
#[derive(Clone, Copy, Debug, PartialEq, Eq, Hash)]
pub struct Refusal(u8);

impl Refusal {
    /// 0 is no refusal: the entry accepted.
    pub(crate) fn check(number: u8) -> Result<(), Refusal> {
        match number {
            0 => Ok(()),
            _ => Err(Refusal(number)),
        }
    }

    pub fn number(self) -> u8 {
        self.0
    }

    /// What the number means.
    pub fn meaning(self) -> &'static str {
        match self.0 {
            1 => "the file has less than 24 bytes",
            2 => "the file does not end in the bytes TAIL",
            3 => "a count of the file is out of range, or bytes 6 and 7 of its trailer are not 0",
            4 => "the parts of the file do not lie one behind the other as its distances must say",
            5 => "the automata of the file are not exactly as many as it counts, each with 1 to 32 states and every next state one of them, or 255 for no move",
            6 => "a symbol word of the file's table has a bit at the count of symbols or above",
            7 => "a constraint has a kind outside 1 to 7, an argument that names nothing, or an unused one that is not 0",
            8 => "a constraint names one string twice",
            9 => "the table has not as many words as the problem",
            10 => "a symbol word of the table has a bit at the count of symbols or above",
            11 => "there is no step of this number",
            12 => "the room has less than three times the words of the problem",
            13 => "the answer table has not as many words as the problem",
            14 => "the text has more than 63 bytes, or is no pattern",
            15 => "the number of symbols is not 1 to 64, or a letter's symbol is not below it",
            16 => "the automaton has more than 32 states",
            17 => "the buffer is shorter than the automaton's bytes",
            18 => "the index has not two words for each variable of the problem",
            19 => "the words of the index are not the index of this file",
            _ => "no entry refuses by this number",
        }
    }
}

impl fmt::Display for Refusal {
    fn fmt(&self, to: &mut fmt::Formatter<'_>) -> fmt::Result {
        write!(to, "refused {}: {}", self.0, self.meaning())
    }
}

impl Error for Refusal {}
