//! The words of an index to lend: those of the file's index, or others.

use crate::generate::record;
use crate::random::Random;
use crate::tables;
use second::domain::has;
use second::file::Problem;
use second::queue;
use second::relations::Relation;

/// The most constraints of a file.
const MOST_CONSTRAINTS: usize = 64;

/// What the words are to the file's index.
#[derive(Clone, Copy, PartialEq, Debug)]
pub enum Sort {
    Right,
    More,
    Less,
    Turned,
    Exchanged,
    Other,
    Any,
    Length,
}

impl Sort {
    /// In the order above.
    pub const ALL: [Sort; 8] = [Sort::Right, Sort::More, Sort::Less, Sort::Turned, Sort::Exchanged, Sort::Other, Sort::Any, Sort::Length];

    pub fn name(self) -> &'static str {
        match self {
            Sort::Right => "right",
            Sort::More => "one bit more",
            Sort::Less => "one bit less",
            Sort::Turned => "high word first",
            Sort::Exchanged => "two variables exchanged",
            Sort::Other => "of another problem",
            Sort::Any => "random words",
            Sort::Length => "of another length",
        }
    }
}

/// An index that is lent.
#[derive(Clone)]
pub struct Index {
    pub sort: Sort,
    pub words: Vec<u64>,
}

impl Index {
    /// An index that the problem is refused for, by its words or by its length. Where there is no variable, only the length can be wrong.
    pub fn wrong(random: &mut Random, problem: &Problem, right: &[u64]) -> Index {
        let sort = *random.pick(&Sort::ALL[1..]);
        let words = match sort {
            Sort::More => one_bit(random, problem, right, false),
            Sort::Less => one_bit(random, problem, right, true),
            Sort::Turned => turned(random, right),
            Sort::Exchanged => exchanged(random, right),
            Sort::Other => of_another(random, problem),
            Sort::Any => Some(random.words(right.len())),
            Sort::Right | Sort::Length => None,
        };
        match words {
            Some(words) if words != right => Index { sort, words },
            _ => Index { sort: Sort::Length, words: of_another_length(random, right) },
        }
    }

    /// One of another length, mostly with the file's words as far as they go.
    pub fn of_another_length(random: &mut Random, right: &[u64]) -> Index {
        Index { sort: Sort::Length, words: of_another_length(random, right) }
    }
}

/// With one bit less that is set, or with one more: of any word, of the last one, of a high one, or at the last step or the first number behind it.
fn one_bit(random: &mut Random, problem: &Problem, right: &[u64], set: bool) -> Option<Vec<u64>> {
    let steps = problem.header.constraints + problem.header.strings;
    let places: Vec<usize> = (0..64 * right.len()).filter(|&at| has(right[at / 64], at % 64) == set).collect();
    let wanted = random.below(4);
    let is_wanted = |at: usize| match wanted {
        0 => true,
        1 => at / 64 == right.len() - 1,
        2 => at % 128 >= 64,
        _ => (at % 128).abs_diff(steps) <= 1,
    };
    let some: Vec<usize> = places.iter().copied().filter(|&at| is_wanted(at)).collect();
    let from = if some.is_empty() { places } else { some };
    let at = (!from.is_empty()).then(|| *random.pick(&from))?;
    let mut words = right.to_vec();
    words[at / 64] ^= 1 << (at % 64);
    Some(words)
}

/// The high word first, for one variable whose words differ, or for all.
fn turned(random: &mut Random, right: &[u64]) -> Option<Vec<u64>> {
    let mut words = right.to_vec();
    let differing: Vec<usize> = (0..words.len() / 2).filter(|&at| words[2 * at] != words[2 * at + 1]).collect();
    if differing.is_empty() {
        return None;
    }
    let one = *random.pick(&differing);
    let all = random.once_in(2);
    differing.into_iter().filter(|&at| all || at == one).for_each(|at| words.swap(2 * at, 2 * at + 1));
    Some(words)
}

/// Two neighbouring variables in each other's place, or the last ones before the first.
fn exchanged(random: &mut Random, right: &[u64]) -> Option<Vec<u64>> {
    let variables = right.len() / 2;
    if variables < 2 {
        return None;
    }
    let mut words = right.to_vec();
    let at = random.below(variables - 1);
    if random.once_in(2) {
        words[2 * at..2 * at + 4].rotate_left(2);
    } else {
        words.rotate_left(2 * at + 2);
    }
    Some(words)
}

/// The index of a problem with as many strings and numbers: with a constraint more, one less, two of them exchanged, or another in the place of one.
fn of_another(random: &mut Random, problem: &Problem) -> Option<Vec<u64>> {
    let mut header = problem.header;
    let mut constraints = problem.constraints.clone();
    let any = |random: &mut Random| {
        let kind = *random.pick(&[1, 2, 3, 4, 5, 6, 7]);
        let record = record(random, kind, header.strings, header.numbers, header.automata)?;
        Relation::from_record(&record, &header)
    };
    let (one, other) = (random.below(constraints.len().max(1)), random.below(constraints.len().max(1)));
    match random.below(4) {
        0 if constraints.len() < MOST_CONSTRAINTS => constraints.insert(one, any(random)?),
        _ if constraints.is_empty() => return None,
        0 | 1 => drop(constraints.remove(one)),
        2 => constraints.swap(one, other),
        _ => constraints[one] = any(random)?,
    }
    header.constraints = constraints.len();
    Some(queue::index(&Problem { header, constraints, table: vec![], automata: vec![] }))
}

/// One word less, one more or any number of them: the right ones as far as they go, further ones 0 or random; at times all are random.
fn of_another_length(random: &mut Random, right: &[u64]) -> Vec<u64> {
    let size = tables::wrong_size(random, right.len());
    if random.once_in(4) {
        return random.words(size);
    }
    let mut words = right.to_vec();
    let beyond = if random.once_in(2) { 0 } else { u64::MAX };
    words.resize_with(size, || random.word() & beyond);
    words
}

#[cfg(test)]
mod tests {
    use super::*;
    use crate::generate;

    #[test]
    fn sorts_are_in_order() {
        for (at, sort) in Sort::ALL.into_iter().enumerate() {
            assert_eq!(sort as usize, at);
        }
    }

    #[test]
    fn wrong_ones_are_refused_and_of_every_sort() {
        let mut seen = [0; Sort::ALL.len()];
        for index in 0..600 {
            let random = &mut Random::new(31, index);
            let file = if random.once_in(8) { generate::limits(random) } else { generate::small(random) }.bytes();
            let problem = Problem::parse(&file).unwrap();
            let right = queue::index(&problem);
            for wrong in [Index::wrong(random, &problem, &right), Index::of_another_length(random, &right)] {
                let answer = second::settle_by_index(&file, &wrong.words, &mut problem.table.clone());
                assert_eq!(answer, Err(if wrong.sort == Sort::Length { 18 } else { 19 }), "index {index}: {:?}", wrong.sort);
                seen[wrong.sort as usize] += 1;
            }
        }
        assert!(seen[1..].iter().all(|&count| count > 20), "{seen:?}");
    }

    #[test]
    fn other_lengths_have_right_words_or_not() {
        let right = [1, 2, 3, 4];
        let random = &mut Random::new(32, 0);
        let all: Vec<Vec<u64>> = (0..200).map(|_| of_another_length(random, &right)).collect();
        let is_right = |words: &[u64]| words.iter().zip(&right).all(|(word, right)| word == right);
        for (length, wanted) in [(0, true), (3, true), (3, false), (5, true), (5, false)] {
            assert!(all.iter().any(|words| words.len() == length && is_right(words) == wanted), "{length} words, {wanted}");
        }
        assert!(all.iter().all(|words| words.len() != right.len()));
    }
}
