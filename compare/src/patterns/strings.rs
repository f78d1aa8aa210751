//! The strings that an automaton is tried on.

use super::symbols;
use crate::random::Random;

/// The most strings of which none is left out, and the length that they end at: over one symbol they would go on.
const MOST: usize = 400;
const LONGEST: usize = 40;
/// How many longer ones there are.
const LONGER: usize = 24;

/// All strings up to some length over the symbols of the text's letters and one other, if there is another; and longer ones, of which more are accepted.
pub fn tried(random: &mut Random, text: &[u8], symbols: usize, automaton: &[u8]) -> Vec<Vec<u8>> {
    let alphabet = alphabet(random, text, symbols);
    let mut strings = all(&alphabet);
    strings.extend((0..LONGER).map(|_| along(random, automaton, symbols, &alphabet)));
    strings
}

fn alphabet(random: &mut Random, text: &[u8], k: usize) -> Vec<u8> {
    let mut alphabet = symbols(text);
    let others: Vec<usize> = (0..k).filter(|symbol| !alphabet.contains(symbol)).collect();
    if !others.is_empty() {
        alphabet.push(*random.pick(&others));
    }
    alphabet.into_iter().map(|symbol| symbol as u8).collect()
}

fn all(alphabet: &[u8]) -> Vec<Vec<u8>> {
    let mut strings = vec![Vec::new()];
    let mut from = 0;
    while strings.len() + (strings.len() - from) * alphabet.len() <= MOST && strings[from].len() < LONGEST {
        let shorter = from..strings.len();
        from = strings.len();
        for at in shorter {
            for &symbol in alphabet {
                strings.push([&strings[at][..], &[symbol]].concat());
            }
        }
    }
    strings
}

/// A string along the moves of the automaton. Most of its symbols lead to where something may still be accepted, and one in two ends where it is, if it can.
fn along(random: &mut Random, automaton: &[u8], symbols: usize, alphabet: &[u8]) -> Vec<u8> {
    let next = |state: u8, symbol: u8| automaton[5 + usize::from(state) * symbols + usize::from(symbol)];
    let accepts = |state: u8| automaton[1 + usize::from(state / 8)] >> (state % 8) & 1 == 1;
    let lost = |state: u8| !accepts(state) && alphabet.iter().all(|&symbol| next(state, symbol) == state);
    let longest = *random.pick(&[5, 12, LONGEST]);
    let (mut string, mut state, mut accepted) = (Vec::new(), 0, 0);
    for _ in 0..random.between(2, longest) {
        let good: Vec<u8> = alphabet.iter().copied().filter(|&symbol| !lost(next(state, symbol))).collect();
        let symbol = if good.is_empty() || random.once_in(16) { *random.pick(alphabet) } else { *random.pick(&good) };
        string.push(symbol);
        state = next(state, symbol);
        accepted = if accepts(state) { string.len() } else { accepted };
    }
    if accepted > 0 && random.once_in(2) {
        string.truncate(accepted);
    }
    string
}

#[cfg(test)]
mod tests {
    use super::*;

    #[test]
    fn all_strings_up_to_some_length() {
        assert_eq!(all(&[3, 5])[..7], [&[][..], &[3], &[5], &[3, 3], &[3, 5], &[5, 3], &[5, 5]]);
        for (symbols, strings) in [(1, LONGEST + 1), (2, 255), (3, 364), (19, 381), (20, 21)] {
            let alphabet: Vec<u8> = (0..symbols).collect();
            assert_eq!(all(&alphabet).len(), strings);
        }
    }

    #[test]
    fn one_other_symbol_is_tried_if_there_is_one() {
        let random = &mut Random::new(31, 0);
        assert_eq!(alphabet(random, b"0|2", 4).len(), 3);
        assert_eq!(alphabet(random, b"1(0|2)", 3), [0, 1, 2]);
    }

    #[test]
    fn longer_strings_follow_the_moves() {
        // 01, 0101 and so on over two symbols; state 3 is the empty set.
        let automaton = [4, 0b100, 0, 0, 0, 1, 3, 3, 2, 1, 3, 3, 3];
        let random = &mut Random::new(32, 0);
        let accepted = (0..200).filter(|_| crate::rules::accepts(&automaton, 2, &along(random, &automaton, 2, &[0, 1]))).count();
        assert!(accepted > 80, "{accepted}");
    }
}
