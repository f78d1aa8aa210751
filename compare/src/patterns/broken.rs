//! Texts that break the rules of patterns: each rule by itself, and bytes that nobody meant.

use super::{LETTERS, OPERATORS};
use crate::random::Random;

/// The most bytes that a fault adds.
pub const MORE: usize = 3;

#[derive(Clone, Copy, PartialEq, Debug)]
pub enum Fault {
    TwoStars,
    StarFirst,
    StarBehindBar,
    StarBehindOpen,
    ClosedTooOften,
    LeftOpen,
    ClosedFirst,
    NoLetter,
}

impl Fault {
    /// In the order above.
    pub const ALL: [Fault; 8] = [
        Fault::TwoStars,
        Fault::StarFirst,
        Fault::StarBehindBar,
        Fault::StarBehindOpen,
        Fault::ClosedTooOften,
        Fault::LeftOpen,
        Fault::ClosedFirst,
        Fault::NoLetter,
    ];

    pub fn name(self) -> &'static str {
        match self {
            Fault::TwoStars => "two stars",
            Fault::StarFirst => "a star first",
            Fault::StarBehindBar => "a star behind |",
            Fault::StarBehindOpen => "a star behind (",
            Fault::ClosedTooOften => "a ) too many",
            Fault::LeftOpen => "a ( too many",
            Fault::ClosedFirst => "a ) before its (",
            Fault::NoLetter => "a byte that is no letter",
        }
    }

    /// Any of them; there are more bytes that are no letters than other ways to break a rule.
    pub fn any(random: &mut Random) -> Fault {
        if random.once_in(3) {
            return Fault::NoLetter;
        }
        *random.pick(&Fault::ALL)
    }

    /// A pattern with this fault, and with no other where it can be.
    pub fn plant(self, random: &mut Random, mut text: Vec<u8>) -> Vec<u8> {
        match self {
            Fault::TwoStars => two_stars(random, &mut text),
            Fault::StarFirst => text.insert(0, b'*'),
            Fault::StarBehindBar => star_behind(random, &mut text, b'|', b"|"),
            Fault::StarBehindOpen => star_behind(random, &mut text, b'(', b")("),
            Fault::ClosedTooOften => insert(random, &mut text, b')'),
            Fault::LeftOpen => insert(random, &mut text, b'('),
            Fault::ClosedFirst => closed_first(random, &mut text),
            Fault::NoLetter => no_letter(random, &mut text),
        }
        text
    }
}

/// A byte anywhere: often at an end.
fn insert(random: &mut Random, text: &mut Vec<u8>, byte: u8) {
    let any = random.below(text.len() + 1);
    let at = *random.pick(&[0, text.len(), any, any]);
    text.insert(at, byte);
}

/// Behind an item, with the star that it may have.
fn two_stars(random: &mut Random, text: &mut Vec<u8>) {
    let items: Vec<usize> = (0..text.len()).filter(|&at| !b"|(*".contains(&text[at])).collect();
    if items.is_empty() {
        text.push(b'0');
    }
    let item = if items.is_empty() { text.len() - 1 } else { *random.pick(&items) };
    let more = if text.get(item + 1) == Some(&b'*') { 1 } else { 2 };
    for _ in 0..more {
        text.insert(item + 1, b'*');
    }
}

/// Behind one of the bytes that no star may follow; where there is none, behind one that is put at the front, whose bracket is closed.
fn star_behind(random: &mut Random, text: &mut Vec<u8>, byte: u8, front_turned: &[u8]) {
    let all: Vec<usize> = (0..text.len()).filter(|&at| text[at] == byte).collect();
    if all.is_empty() {
        front_turned.iter().for_each(|&byte| text.insert(0, byte));
    }
    let at = if all.is_empty() { 0 } else { *random.pick(&all) };
    text.insert(at + 1, b'*');
}

/// Between two parts that are in no group: as many are closed as are opened.
fn closed_first(random: &mut Random, text: &mut Vec<u8>) {
    let (mut open, mut places) = (0, vec![0]);
    for (at, byte) in text.iter().enumerate() {
        match byte {
            b'(' => open += 1,
            b')' => open -= 1,
            _ => {}
        }
        if open == 0 {
            places.push(at + 1);
        }
    }
    let at = *random.pick(&places);
    text.insert(at, b'(');
    text.insert(at, b')');
}

/// In the place of a letter, or anywhere.
fn no_letter(random: &mut Random, text: &mut Vec<u8>) {
    let byte = foreign(random);
    let letters: Vec<usize> = (0..text.len()).filter(|&at| !OPERATORS.contains(&text[at])).collect();
    if letters.is_empty() || random.once_in(2) {
        return insert(random, text, byte);
    }
    text[*random.pick(&letters)] = byte;
}

/// A byte that no pattern has: most often a neighbour of the letters and operators.
fn foreign(random: &mut Random) -> u8 {
    let (any, letter, operator) = (random.byte(), *random.pick(LETTERS), *random.pick(OPERATORS));
    let (near, usual, end) = (*random.pick(b",:`{}'+"), *random.pick(b" ?^$[]\\_~@\"\n\t"), *random.pick(&[0, 0x7f, 0x80, 0xff]));
    let byte = *random.pick(&[near, near, near, usual, end, letter.to_ascii_uppercase(), letter | 0x80, operator | 0x80, any, any]);
    if LETTERS.contains(&byte) || OPERATORS.contains(&byte) {
        return b'+';
    }
    byte
}

/// A pattern with a byte changed, taken out, put in, or in another's place.
pub fn changed(random: &mut Random, mut text: Vec<u8>) -> Vec<u8> {
    let byte = if random.once_in(2) { *random.pick(OPERATORS) } else { *random.pick(b"01a/-.") };
    if text.is_empty() {
        return vec![byte];
    }
    let (at, other) = (random.below(text.len()), random.below(text.len()));
    match random.below(5) {
        0 => text[at] = byte,
        1 => text[at] ^= 1 << random.below(8),
        2 => text.swap(at, other),
        3 if text.len() < super::LONGEST => text.insert(at, byte),
        _ => drop(text.remove(at)),
    }
    text
}

/// Random bytes, or random ones of those that patterns have.
pub fn noise(random: &mut Random) -> Vec<u8> {
    let bytes = *random.pick(&[0, 1, 2, 3, 4, 5, 6, 8, 10, 63, 64, 100]);
    match random.below(3) {
        0 => (0..bytes).map(|_| random.byte()).collect(),
        1 => (0..bytes).map(|_| *random.pick(b"01a|*()")).collect(),
        _ => (0..bytes).map(|_| *random.pick(b"0011a||*()")).collect(),
    }
}

#[cfg(test)]
mod tests {
    use super::super::grow;
    use super::*;
    use second::pattern::Pattern;

    #[test]
    fn a_broken_text_is_no_pattern() {
        for (at, fault) in Fault::ALL.into_iter().enumerate() {
            assert_eq!(fault as usize, at);
            for index in 0..400 {
                let random = &mut Random::new(29, index);
                let sound = grow::any(random, 40);
                assert!(Pattern::read(&sound).is_some(), "{}", sound.escape_ascii());
                let broken = fault.plant(random, sound.clone());
                assert!(Pattern::read(&broken).is_none(), "{} with {}", broken.escape_ascii(), fault.name());
                assert!(broken.len() <= sound.len() + MORE);
            }
        }
    }

    #[test]
    fn a_foreign_byte_is_no_letter() {
        let random = &mut Random::new(30, 0);
        assert!((0..2000).map(|_| foreign(random)).all(|byte| !LETTERS.contains(&byte) && !OPERATORS.contains(&byte)));
    }
}
