//! Texts of patterns, each with a number of symbols and the size of a buffer, made from a seed and an index alone.

mod ask;
mod broken;
mod check;
mod form;
mod grow;
mod kind;
mod strings;
mod tally;
mod twice;

use crate::random::Random;
use broken::Fault;
use form::Known;
pub use kind::Kind;
pub use tally::Texts;

/// The letters by their symbols.
const LETTERS: &[u8; 39] = b"0123456789.abcdefghijklmnopqrstuvwxyz-/";
/// The bytes that are no letters and have a place in patterns all the same.
const OPERATORS: &[u8; 4] = b"|*()";

const LONGEST: usize = 63;
const DEEPEST: usize = 31;
const MOST_SYMBOLS: usize = 64;
const MOST_STATES: usize = 32;
/// The bytes of the largest automaton.
const LARGEST: usize = 5 + MOST_STATES * MOST_SYMBOLS;

/// Keeps the random words of a text apart from those of the case with the same index.
const APART: u64 = 1 << 63;

/// A text, and what is asked for it.
pub struct Text {
    pub kind: Kind,
    pub text: Vec<u8>,
    pub symbols: usize,
    /// The bytes of the buffer.
    pub room: usize,
    meant: Meant,
    random: Random,
}

/// What a text was made to show, beside its kind.
#[derive(Clone, Copy, Default)]
struct Meant {
    /// How many states its automaton has, where its form says it.
    known: Option<Known>,
    /// How it breaks the grammar.
    fault: Option<Fault>,
    /// Which two refusals apply.
    pair: Option<(u8, u8)>,
}

impl Text {
    pub fn new(seed: u64, index: u64) -> Text {
        let mut random = Random::new(seed, index ^ APART);
        let kind = Kind::of(index, &mut random);
        if kind == Kind::Twice {
            let (text, symbols, room, meant) = twice::faults(&mut random);
            return Text { kind, text, symbols, room, meant, random };
        }
        let (text, meant) = if kind == Kind::Byte { (vec![index as u8], Meant::default()) } else { made(kind, &mut random) };
        let symbols = if kind == Kind::Symbols || random.once_in(16) { ask::odd_symbols(&mut random, &text) } else { ask::symbols(&mut random, &text) };
        let room = if kind == Kind::Rooms || random.once_in(16) { ask::odd_room(&mut random, &text, symbols) } else { ask::room(&mut random, &text, symbols) };
        Text { kind, text, symbols, room, meant, random }
    }

    /// The text as it can be printed, cut where it is long.
    pub fn shown(&self) -> String {
        let cut = if self.text.len() > LONGEST + 1 { "..." } else { "" };
        format!("{}{cut}", self.text[..self.text.len().min(LONGEST + 1)].escape_ascii())
    }
}

fn made(kind: Kind, random: &mut Random) -> (Vec<u8>, Meant) {
    match kind {
        Kind::States => {
            let (text, known) = form::any(random);
            (text, Meant { known: Some(known), ..Meant::default() })
        }
        Kind::Broken => {
            let text = grow::any(random, LONGEST - broken::MORE);
            let fault = Fault::any(random);
            (fault.plant(random, text), Meant { fault: Some(fault), ..Meant::default() })
        }
        _ => (text(kind, random), Meant::default()),
    }
}

fn text(kind: Kind, random: &mut Random) -> Vec<u8> {
    match kind {
        Kind::Long => grow::long(random),
        Kind::Deep => grow::deep(random, LONGEST),
        Kind::Wide => grow::wide(random),
        Kind::Symbols => grow::up_to_letter(random),
        Kind::Rooms => grow::any(random, LONGEST),
        Kind::TooLong => grow::too_long(random),
        Kind::Changed => {
            let text = grow::any(random, LONGEST);
            broken::changed(random, text)
        }
        Kind::Noise => broken::noise(random),
        _ => grow::small(random),
    }
}

/// The symbol of a letter; nothing where the byte is none.
fn symbol(byte: u8) -> Option<usize> {
    LETTERS.iter().position(|&letter| letter == byte)
}

/// The symbols of all letters of a text, upwards, each once.
fn symbols(text: &[u8]) -> Vec<usize> {
    let mut all: Vec<usize> = text.iter().filter_map(|&byte| symbol(byte)).collect();
    all.sort_unstable();
    all.dedup();
    all
}

/// How many groups lie in one another at most. What the text closes too often does not count.
fn depth(text: &[u8]) -> usize {
    let (mut open, mut deepest) = (0usize, 0);
    for byte in text {
        match byte {
            b'(' => open += 1,
            b')' => open = open.saturating_sub(1),
            _ => {}
        }
        deepest = deepest.max(open);
    }
    deepest
}

#[cfg(test)]
mod tests {
    use super::*;
    use second::pattern::{compile, Pattern};

    fn texts(seed: u64, count: u64) -> impl Iterator<Item = (u64, Text)> {
        (0..count).map(move |index| (index, Text::new(seed, index)))
    }

    #[test]
    fn a_text_is_its_seed_and_index() {
        let asked = |text: &Text| (text.kind as usize, text.text.clone(), text.symbols, text.room);
        for index in 0..200 {
            assert_eq!(asked(&Text::new(3, index)), asked(&Text::new(3, index)));
        }
        assert!((0..50).any(|index| asked(&Text::new(3, index)) != asked(&Text::new(4, index))));
    }

    #[test]
    fn the_letters_have_their_symbols() {
        for (letter, number) in [(b'0', 0), (b'9', 9), (b'.', 10), (b'a', 11), (b'z', 36), (b'-', 37), (b'/', 38)] {
            assert_eq!(symbol(letter), Some(number));
        }
        assert_eq!(symbols(b"(b|a*)/b"), [11, 12, 38]);
        assert_eq!(OPERATORS.map(symbol), [None; 4]);
        assert_eq!([depth(b""), depth(b"(a)(b)"), depth(b"((a)|(b(c)))")], [0, 1, 3]);
    }

    #[test]
    fn texts_are_patterns_or_not_as_their_kind_says() {
        for (index, text) in texts(21, 6000) {
            let read = text.text.len() <= LONGEST && Pattern::read(&text.text).is_some();
            match text.kind {
                Kind::Broken | Kind::TooLong => assert!(!read, "text {index}: {}", text.shown()),
                Kind::Byte => assert_eq!(read, symbol(text.text[0]).is_some() || text.text == b"|", "text {index}: {}", text.shown()),
                Kind::Twice | Kind::Changed | Kind::Noise => {}
                _ => assert!(read, "text {index}: {}", text.shown()),
            }
            assert_eq!(text.text.len() > LONGEST, text.kind == Kind::TooLong || text.text.len() > LONGEST && matches!(text.kind, Kind::Twice | Kind::Noise));
        }
    }

    #[test]
    fn states_are_as_many_as_the_form_says() {
        for (index, text) in texts(22, 4000) {
            let Some(states) = text.meant.known.and_then(|known| known.states(text.symbols)) else { continue };
            if (1..=MOST_SYMBOLS).contains(&text.symbols) && symbols(&text.text).iter().all(|&symbol| symbol < text.symbols) {
                let counted = compile(&text.text, text.symbols, usize::MAX).map(|bytes| usize::from(bytes[0]));
                assert_eq!(counted, if states > MOST_STATES { Err(16) } else { Ok(states) }, "text {index}: {}", text.shown());
            }
        }
    }

    #[test]
    fn of_two_refusals_the_lower_comes_first() {
        for (index, text) in texts(23, 8000) {
            if let Some((first, _)) = text.meant.pair {
                assert_eq!(compile(&text.text, text.symbols, text.room), Err(first), "text {index}: {}", text.shown());
            }
        }
    }
}
