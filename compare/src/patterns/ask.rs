//! The number of symbols and the size of the buffer that a text is given with.

use super::{symbols as symbols_of, LARGEST, LETTERS, MOST_STATES, MOST_SYMBOLS};
use crate::random::Random;
use second::pattern::compile;

/// The least number of symbols that all letters of the text are below.
pub fn least(text: &[u8]) -> usize {
    symbols_of(text).last().map_or(1, |greatest| greatest + 1)
}

/// A number of symbols that no text is refused for.
pub fn symbols(random: &mut Random, text: &[u8]) -> usize {
    let least = least(text);
    let any = random.between(least, MOST_SYMBOLS);
    *random.pick(&[least, least, least + 1, least.max(LETTERS.len()), MOST_SYMBOLS, any])
}

/// The ends of the ranges that the letters have and those of the numbers themselves, and numbers of which some of the bits would be good.
pub fn odd_symbols(random: &mut Random, text: &[u8]) -> usize {
    let (least, good) = (least(text), symbols(random, text));
    let past = 1 << *random.pick(&[7, 8, 16, 31, 32, 63]);
    let fixed = *random.pick(&[0, 1, 10, 11, 37, 38, 39, 40, 63, 64, 65, 1 << 32, usize::MAX]);
    *random.pick(&[least - 1, least - 1, least, least, 0, 65, past, past + good, fixed, fixed, fixed])
}

/// A number of symbols that the text is refused for.
pub fn wrong_symbols(random: &mut Random, text: &[u8]) -> usize {
    let (least, good) = (least(text), symbols(random, text));
    let any = random.below(least);
    *random.pick(&[0, least - 1, any, 65, usize::MAX, (1 << 32) + good])
}

/// How many bytes the automaton takes; as many as a larger one would, where there is none.
fn needed(random: &mut Random, text: &[u8], symbols: usize) -> usize {
    let states = random.between(1, MOST_STATES + 1);
    compile(text, symbols, usize::MAX).map_or(5 + states * symbols.min(MOST_SYMBOLS), |bytes| bytes.len())
}

/// A buffer that no text is refused for: as large as it must be in one of four, and with bytes beyond elsewhere.
pub fn room(random: &mut Random, text: &[u8], symbols: usize) -> usize {
    let beyond = *random.pick(&[0, 1, 7, 300]);
    match random.below(4) {
        0 => needed(random, text, symbols),
        1 => needed(random, text, symbols) + beyond,
        _ => LARGEST + beyond,
    }
}

/// The least and the greatest buffers, those around what is needed, and those that have too few bytes for one part of it or for some of its bits.
pub fn odd_room(random: &mut Random, text: &[u8], symbols: usize) -> usize {
    let needed = needed(random, text, symbols);
    let (any, row) = (random.below(needed + 1), symbols.min(needed));
    let fixed = *random.pick(&[0, 1, 4, 5, 6]);
    *random.pick(&[needed, needed, needed - 1, needed - 1, needed + 1, needed - 5, needed - row, needed & 255, fixed, fixed, any, needed + 1000, 40_000])
}

/// A buffer that every automaton with more states than there may be is too large for.
pub fn short_room(random: &mut Random, symbols: usize) -> usize {
    let full = 5 + MOST_STATES * symbols.min(MOST_SYMBOLS);
    let any = random.below(full + 1);
    *random.pick(&[0, 4, full - 1, full, any])
}

#[cfg(test)]
mod tests {
    use super::super::grow;
    use super::*;

    #[test]
    fn numbers_of_symbols_are_right_or_wrong() {
        for index in 0..1000 {
            let random = &mut Random::new(27, index);
            let text = grow::any(random, 20);
            let room = usize::MAX;
            let (right, wrong) = (symbols(random, &text), wrong_symbols(random, &text));
            assert_ne!(compile(&text, right, room), Err(15));
            assert_eq!(compile(&text, wrong, room), Err(15), "{} with {wrong}", text.escape_ascii());
        }
    }

    #[test]
    fn rooms_are_large_enough_or_not() {
        for index in 0..1000 {
            let random = &mut Random::new(28, index);
            let text = grow::small(random);
            let symbols = symbols(random, &text);
            let enough = room(random, &text, symbols);
            assert_ne!(compile(&text, symbols, enough), Err(17));
            assert!(odd_room(random, &text, symbols) <= 40_000);
        }
    }
}
