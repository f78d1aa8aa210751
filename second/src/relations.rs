//! The constraints, as tests on concrete strings and numbers.

use crate::header::Header;

/// A constraint with its variables named by position. `Always` is what
/// trimming is about; no file holds it.
#[derive(Clone, Copy, Debug, PartialEq, Eq)]
pub enum Relation {
    Always(usize),
    Eq(usize, usize),
    Neq(usize, usize),
    Rev(usize, usize),
    Cat(usize, usize, usize),
    Sub(usize, usize, usize),
    Len(usize, usize),
    Regular(usize, usize),
}

impl Relation {
    /// The relation of a file's record, if it is one.
    pub fn from_record(record: &[u8], header: &Header) -> Option<Relation> {
        let &[kind, a, b, c] = record else {
            return None;
        };
        let (a, b, c) = (usize::from(a), usize::from(b), usize::from(c));
        let string = |x: usize| x < header.strings;
        let number = |n: usize| n < header.numbers;
        let automaton = |d: usize| d < header.automata;
        let (relation, good) = match kind {
            1 => (Relation::Eq(a, b), string(a) && string(b) && c == 0),
            2 => (Relation::Neq(a, b), string(a) && string(b) && c == 0),
            3 => (Relation::Rev(a, b), string(a) && string(b) && c == 0),
            4 => (Relation::Cat(a, b, c), string(a) && string(b) && string(c)),
            5 => (Relation::Sub(a, b, c), string(a) && string(b) && number(c)),
            6 => (Relation::Len(a, b), string(a) && number(b) && c == 0),
            7 => (Relation::Regular(a, b), string(a) && automaton(b) && c == 0),
            _ => return None,
        };
        good.then_some(relation)
    }

    /// Its strings, in order.
    pub fn strings(self) -> Vec<usize> {
        match self {
            Relation::Always(x) | Relation::Len(x, _) | Relation::Regular(x, _) => vec![x],
            Relation::Eq(x, y) | Relation::Neq(x, y) | Relation::Rev(x, y) => vec![x, y],
            Relation::Sub(x, y, _) => vec![x, y],
            Relation::Cat(x, y, z) => vec![x, y, z],
        }
    }

    /// Its number, if it has one.
    pub fn number(self) -> Option<usize> {
        match self {
            Relation::Sub(_, _, n) | Relation::Len(_, n) => Some(n),
            _ => None,
        }
    }

    /// Whether it names one string twice.
    pub fn repeats_a_string(self) -> bool {
        let names = self.strings();
        (1..names.len()).any(|i| names[..i].contains(&names[i]))
    }

    /// Whether these strings (in its order) and this number (if it has one)
    /// meet it.
    pub fn is_met(self, strings: &[&[u8]], number: usize, automata: &[Automaton]) -> bool {
        match self {
            Relation::Always(_) => true,
            Relation::Eq(..) => strings[0] == strings[1],
            Relation::Neq(..) => strings[0] != strings[1],
            Relation::Rev(..) => is_reverse(strings[0], strings[1]),
            Relation::Cat(..) => [strings[0], strings[1]].concat() == strings[2],
            Relation::Sub(..) => is_part(strings[0], strings[1], number),
            Relation::Len(..) => strings[0].len() == number,
            Relation::Regular(_, d) => automata[d].accepts(strings[0]),
        }
    }
}

fn is_reverse(x: &[u8], y: &[u8]) -> bool {
    let backwards: Vec<u8> = y.iter().rev().copied().collect();
    x == backwards
}

/// Whether y is the part of x that starts at place n. One bound is enough:
/// where y is empty it says that "an empty Y is met at N from 1 to |X| + 1".
fn is_part(x: &[u8], y: &[u8], n: usize) -> bool {
    1 <= n && n + y.len() - 1 <= x.len() && &x[n - 1..n - 1 + y.len()] == y
}

/// What stands in a row where "no move exists and the string is rejected".
pub const GAP: u8 = 255;

/// States are 0 to `next.len()` − 1, the first is 0; `next[q][a]` follows
/// state q on symbol a, or is a gap.
#[derive(Clone, Debug, PartialEq, Eq)]
pub struct Automaton {
    pub accepting: u32,
    pub next: Vec<Vec<u8>>,
}

impl Automaton {
    /// "The move from a state by a symbol now gives a state or nothing."
    pub fn follow(&self, state: usize, symbol: usize) -> Option<usize> {
        match self.next[state][symbol] {
            GAP => None,
            next => Some(usize::from(next)),
        }
    }

    pub fn is_accepting(&self, state: usize) -> bool {
        self.accepting >> state & 1 == 1
    }

    pub fn accepts(&self, x: &[u8]) -> bool {
        let end = x
            .iter()
            .try_fold(0, |state, &a| self.follow(state, usize::from(a)));
        end.is_some_and(|state| self.is_accepting(state))
    }
}
