//! What a builder does not take.

use crate::Refusal;
use std::error::Error;
use std::fmt;

/// Why a builder did not take what it was given. It is as it was before the call.
#[derive(Clone, Copy, Debug, PartialEq, Eq, Hash)]
pub enum BuildError {
    /// The count of symbols of an alphabet, which is not 1 to 64.
    Alphabet(usize),
    /// A length, a symbol, a value or a state above 63.
    Value(u8),
    /// A place that is not 1 to 63.
    Place(usize),
    /// A symbol that is not in the alphabet.
    Symbol(u8),
    /// The length of a text of more than 63 symbols.
    TextLength(usize),
    /// The problem has 16 strings already.
    Strings,
    /// The problem has 16 numbers already.
    Numbers,
    /// The problem has 8 automata already.
    Automata,
    /// The problem has 64 constraints already.
    Constraints,
    /// The count of states of an automaton, which is not 1 to 32.
    States(usize),
    /// A state whose moves are not as many as the symbols of the alphabet.
    Moves { state: usize, moves: usize },
    /// A next state that is no state of its automaton, and no gap.
    Next { state: usize, symbol: usize, next: u8 },
    /// An accepting state that is no state of its automaton.
    Accepting(u8),
    /// The refusal, 14 to 16, of a text that gives no automaton.
    Pattern(Refusal),
    /// A handle that another builder made.
    Foreign,
    /// A constraint that names one string twice.
    Twice,
}

impl fmt::Display for BuildError {
    fn fmt(&self, to: &mut fmt::Formatter<'_>) -> fmt::Result {
        match self {
            BuildError::Alphabet(count) => write!(to, "an alphabet has 1 to 64 symbols, not {count}"),
            BuildError::Value(value) => write!(to, "lengths, symbols, values and states are 0 to 63, not {value}"),
            BuildError::Place(place) => write!(to, "places are 1 to 63, not {place}"),
            BuildError::Symbol(symbol) => write!(to, "symbol {symbol} is not in the alphabet"),
            BuildError::TextLength(length) => write!(to, "a text has at most 63 symbols, not {length}"),
            BuildError::Strings => write!(to, "a problem has at most 16 strings"),
            BuildError::Numbers => write!(to, "a problem has at most 16 numbers"),
            BuildError::Automata => write!(to, "a problem has at most 8 automata"),
            BuildError::Constraints => write!(to, "a problem has at most 64 constraints"),
            BuildError::States(count) => write!(to, "an automaton has 1 to 32 states, not {count}"),
            BuildError::Moves { state, moves } => write!(to, "state {state} has a move for each symbol of the alphabet, not {moves}"),
            BuildError::Next { state, symbol, next } => write!(to, "symbol {symbol} leads from state {state} to {next}, which is no state"),
            BuildError::Accepting(state) => write!(to, "state {state} is to accept, and is no state"),
            BuildError::Pattern(refusal) => write!(to, "a text gives no automaton: {refusal}"),
            BuildError::Foreign => write!(to, "a constraint names a variable or an automaton of another builder"),
            BuildError::Twice => write!(to, "a constraint names one string twice"),
        }
    }
}

impl Error for BuildError {}
