//! Patterns whose states a formula counts, around as many as an automaton may have.

use super::grow::strewn;
use super::{LETTERS, LONGEST, MOST_STATES};
use crate::random::Random;

/// So many states, the start and the empty set included, where there are more symbols than this. With fewer symbols the empty set may not be reached.
#[derive(Clone, Copy, Default)]
pub struct Known {
    states: usize,
    above: usize,
}

impl Known {
    /// The least number of symbols that it speaks of.
    pub fn least(&self) -> usize {
        self.above + 1
    }

    pub fn states(&self, symbols: usize) -> Option<usize> {
        (symbols > self.above).then_some(self.states)
    }
}

/// One of the forms, with a count of states around the limit.
pub fn any(random: &mut Random) -> (Vec<u8>, Known) {
    let states = *random.pick(&[MOST_STATES - 2, MOST_STATES - 1, MOST_STATES, MOST_STATES, MOST_STATES + 1, MOST_STATES + 1, MOST_STATES + 2]);
    of_states(random, states)
}

/// More states than an automaton may have.
pub fn too_many(random: &mut Random) -> (Vec<u8>, Known) {
    let states = MOST_STATES + *random.pick(&[1, 1, 2, 5]);
    of_states(random, states)
}

fn of_states(random: &mut Random, states: usize) -> (Vec<u8>, Known) {
    match random.below(5) {
        0 => side_by_side(random, states),
        1 | 2 => each_once(random, states),
        3 => in_branches(random, states),
        _ => remembering(random, states),
    }
}

/// n letters side by side, at times in a group with a star: the start, a state behind each letter, and the empty set behind a letter that does not follow.
fn side_by_side(random: &mut Random, states: usize) -> (Vec<u8>, Known) {
    let letters = *random.pick(&[1, 2, LETTERS.len()]);
    let row: Vec<u8> = (0..states - 2).map(|_| LETTERS[random.below(letters)]).collect();
    match random.below(3) {
        0 => ([&b"("[..], &row, b")*"].concat(), Known { states, above: 1 }),
        _ => (row, Known { states, above: 0 }),
    }
}

/// n letters side by side in one branch, and beginnings of them in others, as many bytes as there can be: after a beginning a reading may have passed a letter
/// in each branch that has it, and that is one state.
fn in_branches(random: &mut Random, states: usize) -> (Vec<u8>, Known) {
    let letters = *random.pick(&[1, 2, LETTERS.len()]);
    let row: Vec<u8> = (0..states - 2).map(|_| LETTERS[random.below(letters)]).collect();
    let (mut branches, mut left) = (vec![&row[..]], LONGEST - row.len());
    while left > 0 {
        let most = row.len().min(left - 1);
        let any = random.below(most + 1);
        let count = *random.pick(&[most, most, most.saturating_sub(1), any]);
        branches.push(&row[..count]);
        left -= count + 1;
    }
    random.shuffle(&mut branches);
    (branches.join(&b'|'), Known { states, above: 0 })
}

/// n letters, each once, and operators between them: a reading has just passed one of them or none, and some symbol is that of no letter.
fn each_once(random: &mut Random, states: usize) -> (Vec<u8>, Known) {
    let mut row = LETTERS.to_vec();
    random.shuffle(&mut row);
    row.truncate(states - 2);
    let above = row.len();
    let bytes = random.between(row.len(), LONGEST);
    (strewn(random, row, bytes), Known { states, above })
}

/// `(a|b)*a(a|b)(a|b)...` with m of the last groups, and other letters behind it: behind a and b a state says which of the last m + 1 letters were a, and each
/// of the others has one of its own.
fn remembering(random: &mut Random, states: usize) -> (Vec<u8>, Known) {
    let mut letters = LETTERS.to_vec();
    if random.once_in(2) {
        random.shuffle(&mut letters);
    }
    let (one, other) = (letters[0], letters[1]);
    let either = [b'(', one, b'|', other, b')'];
    let groups = *random.pick(&[0, 1, 2, 3, 3, 3, 4]);
    let mut text = [&either[..], &[b'*', one], &either.repeat(groups)].concat();
    let remembered = (1 << (groups + 1)) + 2;
    let behind = states.saturating_sub(remembered);
    text.extend((0..behind).map(|_| letters[random.between(2, 4)]));
    (text, Known { states: remembered + behind, above: 2 })
}

#[cfg(test)]
mod tests {
    use super::*;

    #[test]
    fn forms_are_short_enough() {
        for index in 0..1000 {
            let random = &mut Random::new(26, index);
            assert!(any(random).0.len() <= LONGEST);
            assert!(too_many(random).0.len() <= LONGEST);
        }
    }

    #[test]
    fn a_form_says_nothing_of_few_symbols() {
        let known = Known { states: 33, above: 2 };
        assert_eq!([2, 3, 64].map(|symbols| known.states(symbols)), [None, Some(33), Some(33)]);
    }
}
