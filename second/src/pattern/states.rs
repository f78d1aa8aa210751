//! The automaton of a pattern, by partial derivatives: a reading passes one
//! letter, known by its place, and leaves a list of parts still to be read.

use super::tree::{Part, Pattern};
use crate::domain::{bit, bits};

const MOST_STATES: usize = 32;

/// The bytes for k symbols, all letters being below k; `None` if more than 32
/// states are reached.
pub fn automaton(pattern: &Pattern, k: usize) -> Option<Vec<u8>> {
    // The places of the letters of each symbol.
    let mut places = [0; 64];
    for (place, symbol) in pattern.letters() {
        places[usize::from(symbol)] |= bit(place);
    }
    let mut readings = Readings::new(pattern);
    let start = readings.list(pattern.whole(), NOTHING);

    // State n + 1 has just passed one of the letters at the places passed[n].
    let mut passed: Vec<u64> = Vec::new();
    let mut accepting: u32 = 0;
    let mut rows: Vec<u8> = Vec::new();
    let mut state = 0;
    while state <= passed.len() {
        let rests = match state {
            0 => vec![start],
            _ => readings.left_by(passed[state - 1]),
        };
        let mut next = 0;
        for rest in rests {
            next |= readings.next(rest);
            if readings.may_stop(rest) {
                accepting |= 1 << state;
            }
        }
        for symbol in 0..k {
            let set = next & places[symbol];
            let number = match passed.iter().position(|&known| known == set) {
                Some(n) => n + 1,
                None if passed.len() + 1 == MOST_STATES => return None,
                None => {
                    passed.push(set);
                    passed.len()
                }
            };
            rows.push(number as u8);
        }
        state += 1;
    }

    let mut bytes = vec![state as u8];
    bytes.extend(accepting.to_le_bytes());
    bytes.extend(rows);
    Some(bytes)
}

/// Parts to be read one after the other, as a place in `Readings::lists`.
type Rest = usize;

const NOTHING: Rest = 0;

struct Readings<'a> {
    pattern: &'a Pattern,
    /// The first part and the rest behind it. No list is here twice.
    lists: Vec<Option<(usize, Rest)>>,
    /// For every list the places of the letters that may come next, if known.
    next: Vec<Option<u64>>,
    /// What the letter at each place leaves to be read, if it was met.
    left: [Option<Rest>; 64],
}

impl<'a> Readings<'a> {
    fn new(pattern: &'a Pattern) -> Readings<'a> {
        Readings {
            pattern,
            lists: vec![None],
            next: vec![None],
            left: [None; 64],
        }
    }

    fn list(&mut self, part: usize, rest: Rest) -> Rest {
        let list = Some((part, rest));
        if let Some(known) = self.lists.iter().position(|&other| other == list) {
            return known;
        }
        self.lists.push(list);
        self.next.push(None);
        self.lists.len() - 1
    }

    /// What may be left when one of the letters at these places was passed.
    fn left_by(&self, places: u64) -> Vec<Rest> {
        bits(places)
            .map(|place| self.left[place].expect("passed"))
            .collect()
    }

    /// The places of the letters that may be passed next.
    fn next(&mut self, rest: Rest) -> u64 {
        if let Some(known) = self.next[rest] {
            return known;
        }
        let mut places = 0;
        let mut ahead = rest;
        while let Some((part, behind)) = self.lists[ahead] {
            places |= self.enter(part, behind);
            if !self.pattern.skippable[part] {
                break;
            }
            ahead = behind;
        }
        self.next[rest] = Some(places);
        places
    }

    /// Whether all that is left accepts the empty string.
    fn may_stop(&self, rest: Rest) -> bool {
        let mut ahead = rest;
        while let Some((part, behind)) = self.lists[ahead] {
            if !self.pattern.skippable[part] {
                return false;
            }
            ahead = behind;
        }
        true
    }

    /// The places of the letters that a reading of this part may begin with.
    /// It goes down the tree only, so stars of whatever kind come to an end.
    fn enter(&mut self, part: usize, behind: Rest) -> u64 {
        match self.pattern.parts[part] {
            Part::Empty => 0,
            Part::Letter { place, .. } => {
                // A state can be known by its letters alone because a letter
                // leaves the same list however it is reached.
                let left = *self.left[place].get_or_insert(behind);
                assert_eq!(left, behind, "letter at {place}");
                bit(place)
            }
            Part::Both(a, b) => {
                let rest = self.list(b, behind);
                let mut places = self.enter(a, rest);
                if self.pattern.skippable[a] {
                    places |= self.enter(b, behind);
                }
                places
            }
            Part::Either(a, b) => self.enter(a, behind) | self.enter(b, behind),
            Part::Star(a) => {
                let rest = self.list(part, behind);
                self.enter(a, rest)
            }
        }
    }
}
