//! Patterns grown at random, all of them sound.

use super::{DEEPEST, LETTERS, LONGEST};
use crate::random::Random;

/// The letters at the ends of their ranges.
const ENDS: &[u8; 8] = b"09.az-/1";

/// Grows by the grammar, of these letters.
struct Grow<'a> {
    random: &'a mut Random,
    letters: Vec<u8>,
}

impl Grow<'_> {
    fn new(random: &mut Random, most: usize) -> Grow<'_> {
        let letters = letters(random, most);
        Grow { random, letters }
    }

    fn letter(&mut self) -> u8 {
        *self.random.pick(&self.letters)
    }

    /// A pattern of at most so many bytes, its groups at most so deep.
    fn pattern(&mut self, depth: usize, most: usize) -> Vec<u8> {
        let mut text = self.branch(depth, most);
        while text.len() < most && self.random.once_in(3) {
            text.push(b'|');
            let left = most - text.len();
            text.extend(self.branch(depth, left));
        }
        text
    }

    fn branch(&mut self, depth: usize, most: usize) -> Vec<u8> {
        let mut text = Vec::new();
        for _ in 0..*self.random.pick(&[0, 1, 1, 1, 2, 2, 2, 3, 4, 5]) {
            let left = most - text.len();
            text.extend(self.item(depth, left));
        }
        text
    }

    /// A letter or a group, at times with its star; nothing where not even a letter fits.
    fn item(&mut self, depth: usize, most: usize) -> Vec<u8> {
        let mut text = match most {
            0 => return Vec::new(),
            2.. if depth > 0 && self.random.once_in(3) => grouped(&self.pattern(depth - 1, most - 2)),
            _ => vec![self.letter()],
        };
        if text.len() < most && self.random.once_in(4) {
            text.push(b'*');
        }
        text
    }

    /// A pattern of just so many bytes: pieces side by side.
    fn filled(&mut self, bytes: usize) -> Vec<u8> {
        let mut text = Vec::new();
        while text.len() < bytes {
            let (depth, left) = (self.random.below(4), bytes - text.len());
            let piece = self.pattern(depth, left.min(20));
            text.extend(if piece.is_empty() { vec![self.letter()] } else { piece });
        }
        text
    }
}

/// So many letters at most: the first ones, those at the ends of their ranges, or any.
fn letters(random: &mut Random, most: usize) -> Vec<u8> {
    let from = random.below(4);
    let mut all = if from == 1 { ENDS.to_vec() } else { LETTERS.to_vec() };
    if from > 0 {
        random.shuffle(&mut all);
    }
    all.truncate(random.between(1, most));
    all
}

fn grouped(text: &[u8]) -> Vec<u8> {
    [&b"("[..], text, b")"].concat()
}

/// Few letters, all operators.
pub fn small(random: &mut Random) -> Vec<u8> {
    let most = *random.pick(&[1, 2, 4, 8, 8, 12, 12, 16, 16, 24]);
    small_within(random, most)
}

fn small_within(random: &mut Random, most: usize) -> Vec<u8> {
    let depth = random.below(5);
    Grow::new(random, 4).pattern(depth, most)
}

/// As long as a pattern can be, or nearly.
pub fn long(random: &mut Random) -> Vec<u8> {
    let any = random.between(30, LONGEST);
    let bytes = *random.pick(&[LONGEST, LONGEST, LONGEST - 1, any]);
    match random.below(4) {
        0 => Grow::new(random, 6).filled(bytes),
        1 => Grow::new(random, 1).filled(bytes),
        _ => {
            // Fewer letters in as many bytes, so that more of them have no more states than they may.
            let (count, letters) = (random.between(1, 20), letters(random, 6));
            let row = (0..count).map(|_| *random.pick(&letters)).collect();
            strewn(random, row, bytes)
        }
    }
}

/// Groups in groups, often as deep as they can lie in so many bytes: what is left is put before or behind some of them.
pub fn deep(random: &mut Random, most: usize) -> Vec<u8> {
    let deepest = (most / 2).min(DEEPEST);
    let any = random.below(deepest + 1);
    let depth = *random.pick(&[deepest, deepest, deepest.saturating_sub(1), deepest / 2, any]);
    let letters = letters(random, 3);
    let mut text = if most > 2 * depth && random.once_in(2) { vec![*random.pick(&letters)] } else { Vec::new() };
    let mut left = most - 2 * depth - text.len();
    for _ in 0..depth {
        text = grouped(&text);
        for _ in 0..left.min(random.below(3)) {
            left -= 1;
            let letter = *random.pick(&letters);
            match random.below(5) {
                0 | 1 if text.last() != Some(&b'*') && text.last() != Some(&b'|') => text.push(b'*'),
                2 => text.push(b'|'),
                3 => text.insert(0, b'|'),
                4 => text.insert(0, letter),
                _ => text.push(letter),
            }
        }
    }
    text
}

/// Many branches: none longer than a few bytes, often each of one letter, at times all of them empty.
pub fn wide(random: &mut Random) -> Vec<u8> {
    let any = random.between(8, LONGEST);
    let bytes = *random.pick(&[LONGEST, any, any]);
    let longest = *random.pick(&[0, 1, 1, 3, 5]);
    let mut grow = Grow::new(random, 39);
    let mut text = Vec::new();
    while text.len() < bytes {
        let left = (bytes - text.len() - 1).min(longest);
        text.extend(if longest == 1 { vec![grow.letter(); left] } else { grow.branch(1, left) });
        text.push(b'|');
    }
    text
}

/// Any of them within so many bytes.
pub fn any(random: &mut Random, most: usize) -> Vec<u8> {
    let bytes = random.between(1, most);
    match random.below(6) {
        0 => deep(random, bytes),
        1 => Grow::new(random, 4).filled(bytes),
        2 => {
            let (count, letters) = (random.between(1, bytes.min(20)), letters(random, 39));
            let row = (0..count).map(|_| *random.pick(&letters)).collect();
            strewn(random, row, bytes)
        }
        _ => small_within(random, bytes.min(24)),
    }
}

/// A pattern with this letter or that as the greatest, often at the end of a range; or without letters.
pub fn up_to_letter(random: &mut Random) -> Vec<u8> {
    if random.once_in(10) {
        let bytes = random.below(12);
        return strewn(random, Vec::new(), bytes);
    }
    let any = random.below(LETTERS.len());
    let greatest = *random.pick(&[38, 38, 37, 36, 10, 9, 0, any]);
    let mut letters = vec![LETTERS[greatest]];
    letters.extend((0..random.below(3)).map(|_| LETTERS[random.below(greatest + 1)]));
    let (depth, most) = (random.below(3), random.below(12));
    let text = Grow { random, letters }.pattern(depth, most);
    match random.below(3) {
        0 => [&[LETTERS[greatest]][..], &text].concat(),
        1 => [&text[..], &[b'|', LETTERS[greatest]]].concat(),
        _ => [&text[..], &[LETTERS[greatest]]].concat(),
    }
}

/// What only its length breaks: often by one byte, or by so many that some of its bits say less.
pub fn too_long(random: &mut Random) -> Vec<u8> {
    let wrapped = (1 << *random.pick(&[7, 8, 8, 12])) + random.below(LONGEST + 1);
    let bytes = *random.pick(&[64, 64, 64, 65, 66, 100, wrapped, wrapped, 3000]);
    match random.below(3) {
        0 => b"0*".iter().copied().cycle().take(bytes).collect(),
        1 => Grow::new(random, 2).filled(bytes),
        _ => grouped(&Grow::new(random, 2).filled(bytes - 2)),
    }
}

/// Operators put anywhere into a row of letters until it has so many bytes: a pattern with just these letters.
pub fn strewn(random: &mut Random, mut text: Vec<u8>, bytes: usize) -> Vec<u8> {
    while text.len() < bytes {
        let at = random.below(text.len() + 1);
        let behind_item = at > 0 && !b"|(*".contains(&text[at - 1]);
        let before_star = text.get(at) == Some(&b'*');
        match random.below(5) {
            0 | 1 if behind_item && !before_star => text.insert(at, b'*'),
            2 if !before_star => text.insert(at, b'|'),
            3 | 4 if text.len() + 2 <= bytes => group_from(random, &mut text, at),
            _ => {}
        }
    }
    text
}

/// A group around what follows from a place on, nothing or more, as far as brackets fit. A star is never the first in it.
fn group_from(random: &mut Random, text: &mut Vec<u8>, at: usize) {
    let (mut ends, mut open) = (vec![at], 0);
    for end in at..text.len() {
        match text[end] {
            b'*' if end == at => break,
            b'(' => open += 1,
            b')' if open == 0 => break,
            b')' => open -= 1,
            _ => {}
        }
        if open == 0 {
            ends.push(end + 1);
        }
    }
    let end = *random.pick(&ends);
    text.insert(end, b')');
    text.insert(at, b'(');
}

#[cfg(test)]
mod tests {
    use super::super::{depth, symbols};
    use super::*;

    #[test]
    fn lengths_and_depths_are_as_asked() {
        for index in 0..2000 {
            let random = &mut Random::new(24, index);
            assert!(small(random).len() <= 24);
            assert!((30..=LONGEST).contains(&long(random).len()));
            let most = random.below(LONGEST + 1);
            assert!(deep(random, most).len() <= most);
            assert!(any(random, LONGEST).len() <= LONGEST);
            assert!((8..=LONGEST).contains(&wide(random).len()));
            assert!(too_long(random).len() > LONGEST);
        }
        assert!((0..50).any(|index| depth(&deep(&mut Random::new(24, index), LONGEST)) == DEEPEST));
    }

    #[test]
    fn what_is_strewn_has_the_letters_of_the_row() {
        for index in 0..500 {
            let random = &mut Random::new(25, index);
            let text = strewn(random, b"a0z/".to_vec(), 30);
            assert_eq!((symbols(&text), text.len()), (vec![0, 11, 36, 38], 30), "{}", text.escape_ascii());
        }
    }
}
