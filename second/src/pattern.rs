//! Patterns as text, and the automata made of them. Which words a pattern
//! accepts (`words`) and its automaton (`states`) are found in two ways that
//! share only the tree, so that each can be held against the other.

mod states;
mod tree;
mod words;

use crate::relations::GAP;
pub use tree::{symbol, Part, Pattern, LONGEST_TEXT};

/// The automaton's bytes, for a buffer of `room` bytes. Refusals 14 to 17.
pub fn compile(text: &[u8], k: usize, room: usize) -> Result<Vec<u8>, u8> {
    let pattern = Pattern::read(text).ok_or(14)?;
    let foreign = pattern
        .letters()
        .any(|(_, symbol)| usize::from(symbol) >= k);
    if k < 1 || k > 64 || foreign {
        return Err(15);
    }
    // These are 5 + qk bytes.
    let bytes = states::automaton(&pattern, k).ok_or(16)?;
    if room < bytes.len() {
        return Err(17);
    }
    Ok(bytes)
}

/// Where an automaton's bytes lead by a word; `None` if a symbol of it is not
/// below k, or a move is missing. Those that are compiled have every move.
pub fn state_after(bytes: &[u8], k: usize, word: &[u8]) -> Option<usize> {
    word.iter().try_fold(0, |state, &symbol| {
        let symbol = usize::from(symbol);
        let next = (symbol < k).then(|| bytes[5 + k * state + symbol])?;
        (next != GAP).then_some(usize::from(next))
    })
}

pub fn automaton_accepts(bytes: &[u8], k: usize, word: &[u8]) -> bool {
    let accepting = |state: usize| bytes[1 + state / 8] >> (state % 8) & 1 == 1;
    state_after(bytes, k, word).is_some_and(accepting)
}
