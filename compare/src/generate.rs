//! Problems of any kind of constraint: small and dense ones, large ones, those at the limits, and those of many steps.

use crate::draft::{any, below, just, Draft, Row, LIMIT, NOTHING};
use crate::gaps;
use crate::random::Random;
use second::relations::{Automaton, Relation};
use second::Header;

/// How large a problem is to be.
struct Shape {
    symbols: usize,
    strings: usize,
    numbers: usize,
    automata: usize,
    constraints: usize,
    longest: usize,
    states: usize,
}

/// Kinds of constraints that a problem draws from: all, or some that often contradict one another only deep in the tree.
const MIXES: [&[u8]; 6] = [&[1, 2, 3, 4, 5, 6, 7], &[1, 2, 3, 4, 5, 6, 7], &[2, 3, 7], &[2, 4, 7], &[1, 2, 7, 7], &[4, 5, 6]];

/// Few symbols, short strings.
pub fn small(random: &mut Random) -> Draft {
    let shape = Shape {
        symbols: *random.pick(&[1, 2, 2, 2, 3, 3, 4, 6]),
        strings: *random.pick(&[0, 1, 2, 2, 3, 3, 3, 4]),
        numbers: random.below(3),
        automata: random.below(4),
        constraints: random.below(9),
        longest: *random.pick(&[0, 1, 2, 2, 3, 3, 4, 5]),
        states: 4,
    };
    problem(random, &shape)
}

/// Up to 64 symbols, 16 strings, and strings of 63.
pub fn large(random: &mut Random) -> Draft {
    let shape = Shape {
        symbols: random.between(5, 64),
        strings: random.between(3, 16),
        numbers: random.between(1, 16),
        automata: random.between(1, 8),
        constraints: random.between(3, 20),
        longest: *random.pick(&[10, 20, 40, 62, 63]),
        states: 32,
    };
    problem(random, &shape)
}

/// Short strings, but more than 64 steps and often all 80: steps of both words of an index narrow what others have to run for again.
pub fn many(random: &mut Random) -> Draft {
    let shape = Shape {
        symbols: *random.pick(&[1, 2, 2, 3]),
        strings: *random.pick(&[16, 16, 16, 12]),
        numbers: random.between(1, 16),
        automata: random.between(1, 8),
        constraints: *random.pick(&[64, 64, 64, 63, 50]),
        longest: *random.pick(&[1, 2, 3, 5, 9]),
        states: 4,
    };
    problem(random, &shape)
}

fn problem(random: &mut Random, shape: &Shape) -> Draft {
    let mut draft = Draft::over(shape.symbols);
    for _ in 0..shape.automata {
        let states = random.between(1, shape.states);
        draft.machines.push(gaps::any(random, shape.symbols, states));
    }
    match random.below(5) {
        0 | 1 => loose(random, shape, draft),
        _ => planted(random, shape, draft),
    }
}

/// Rows, numbers and constraints that need not fit one another.
fn loose(random: &mut Random, shape: &Shape, mut draft: Draft) -> Draft {
    let share = *random.pick(&[2, 4, 6, 7, 8, 8]);
    draft.rows = (0..shape.strings).map(|_| row(random, shape, share)).collect();
    draft.numbers = (0..shape.numbers).map(|_| number(random, shape.longest)).collect();
    let mix = *random.pick(&MIXES);
    for _ in 0..shape.constraints {
        let kind = *random.pick(mix);
        draft.records.extend(record(random, kind, shape.strings, shape.numbers, shape.automata));
    }
    draft
}

/// A solution first, then constraints that it meets, and domains around it.
fn planted(random: &mut Random, shape: &Shape, mut draft: Draft) -> Draft {
    let strings = values(random, shape);
    // Lengths, and the places just past the ends, where an empty part may start.
    let fitting: Vec<usize> = strings.iter().flat_map(|x| [x.len(), x.len() + 1]).filter(|&n| n < LIMIT).chain([1]).collect();
    let numbers: Vec<usize> = (0..shape.numbers).map(|_| *random.pick(&fitting)).collect();
    draft.records = met(random, shape, &draft, &strings, &numbers);
    let share = random.between(1, 7);
    let width = random.below(4);
    for string in &strings {
        let around = match width {
            0 => NOTHING,
            1 | 2 => some_words(random, shape),
            _ => row(random, shape, share),
        };
        draft.rows.push(joined(&around, &just(string)));
    }
    draft.numbers = numbers.iter().map(|&n| 1 << n | if width == 0 { 0 } else { number(random, shape.longest) }).collect();
    draft
}

/// A row with something in a few words, for a tree that is not deep however long the strings are.
fn some_words(random: &mut Random, shape: &Shape) -> Row {
    let mut row = NOTHING;
    for _ in 0..random.below(3) {
        row[random.below(shape.longest + 1)] = random.subset(shape.symbols, 4);
    }
    row[0] &= below(shape.longest + 1);
    row
}

/// Strings of which later ones often come from earlier ones, so that constraints hold between them.
fn values(random: &mut Random, shape: &Shape) -> Vec<Vec<u8>> {
    let mut strings: Vec<Vec<u8>> = Vec::new();
    for _ in 0..shape.strings {
        let length = random.below(shape.longest + 1);
        let mut string: Vec<u8> = (0..length).map(|_| random.below(shape.symbols) as u8).collect();
        if !strings.is_empty() {
            let (x, y) = (random.pick(&strings).clone(), random.pick(&strings).clone());
            match random.below(7) {
                0 => string = x,
                1 => string = x.into_iter().rev().collect(),
                2 | 3 if x.len() + y.len() <= shape.longest => string = [x, y].concat(),
                4 => {
                    let from = random.below(x.len() + 1);
                    string = x[from..random.between(from, x.len())].to_vec();
                }
                _ => {}
            }
        }
        strings.push(string);
    }
    strings
}

/// Constraints that the strings and numbers meet, as many as come up in some tries.
fn met(random: &mut Random, shape: &Shape, draft: &Draft, strings: &[Vec<u8>], numbers: &[usize]) -> Vec<[u8; 4]> {
    let header = Header { symbols: shape.symbols, strings: shape.strings, numbers: shape.numbers, automata: shape.automata, constraints: 0 };
    let automata: Vec<Automaton> = draft.machines.iter().map(|bytes| automaton(bytes, shape.symbols)).collect();
    let mix = *random.pick(&MIXES);
    let mut records = Vec::new();
    for _ in 0..12 * shape.constraints {
        let kind = *random.pick(mix);
        let Some(record) = record(random, kind, shape.strings, shape.numbers, shape.automata) else {
            continue;
        };
        let relation = Relation::from_record(&record, &header).expect("a record that names what there is");
        let named: Vec<&[u8]> = relation.strings().iter().map(|&x| &strings[x][..]).collect();
        if records.len() < shape.constraints && relation.is_met(&named, relation.number().map_or(0, |n| numbers[n]), &automata) {
            records.push(record);
        }
    }
    records
}

fn automaton(bytes: &[u8], symbols: usize) -> Automaton {
    let accepting = u32::from_le_bytes(bytes[1..5].try_into().expect("four bytes"));
    Automaton { accepting, next: bytes[5..].chunks(symbols).map(<[u8]>::to_vec).collect() }
}

fn joined(a: &Row, b: &Row) -> Row {
    std::array::from_fn(|i| a[i] | b[i])
}

/// A constraint of this kind on different strings, if there is enough to name.
pub fn record(random: &mut Random, kind: u8, strings: usize, numbers: usize, automata: usize) -> Option<[u8; 4]> {
    let mut names: Vec<u8> = (0..strings as u8).collect();
    random.shuffle(&mut names);
    let string = |i: usize| names.get(i).copied();
    let mut one_of = |count: usize| (count > 0).then(|| random.below(count) as u8);
    Some(match kind {
        1..=3 => [kind, string(0)?, string(1)?, 0],
        4 => [4, string(0)?, string(1)?, string(2)?],
        5 => [5, string(0)?, string(1)?, one_of(numbers)?],
        6 => [6, string(0)?, one_of(numbers)?, 0],
        _ => [7, string(0)?, one_of(automata)?, 0],
    })
}

/// A row up to some length; at times with a place without symbols, with lengths that cannot be filled, or with symbols past its longest string.
fn row(random: &mut Random, shape: &Shape, share: usize) -> Row {
    let mut row = NOTHING;
    row[0] = random.subset(shape.longest + 1, share);
    for word in &mut row[1..=shape.longest] {
        *word = random.subset(shape.symbols, share);
    }
    match random.below(12) {
        0 => row[random.between(1, LIMIT - 1)] = 0,
        1 => row[0] |= random.word() & random.word() & random.word(),
        2 => {
            for _ in 0..random.between(1, 5) {
                row[random.between(1, LIMIT - 1)] |= random.subset(shape.symbols, share);
            }
        }
        _ => {}
    }
    row
}

fn number(random: &mut Random, longest: usize) -> u64 {
    match random.below(8) {
        0 => random.word(),
        1 => 1 << random.below(LIMIT),
        share => random.subset((longest + 2).min(LIMIT), share + 1),
    }
}

/// Most counts at their limit: around a solution, or with rows that are hard to get right.
pub fn limits(random: &mut Random) -> Draft {
    let mut limit_or_less = |limit: usize| if random.once_in(5) { random.below(limit + 1) } else { limit };
    let (strings, numbers, automata, constraints) = (limit_or_less(16), limit_or_less(16), limit_or_less(8), limit_or_less(64));
    let symbols = *random.pick(&[64, 64, 64, 63, 1]);
    let shape = Shape { symbols, strings, numbers, automata, constraints, longest: LIMIT - 1, states: 32 };
    let mut draft = Draft::over(symbols);
    let state_counts: &[usize] = *random.pick(&[&[32][..], &[32, 31, 1]]);
    for _ in 0..automata {
        let states = *random.pick(state_counts);
        draft.machines.push(gaps::any(random, symbols, states));
    }
    if random.once_in(2) {
        return planted(random, &shape, draft);
    }
    draft.rows = (0..strings).map(|_| row_at_limits(random, symbols)).collect();
    draft.numbers = (0..numbers).map(|_| *random.pick(&[u64::MAX, 0, 1 << 63, 1, 3 << 62, u64::MAX - 1])).collect();
    for _ in 0..constraints {
        let kind = *random.pick(&[1, 2, 3, 4, 5, 6, 7]);
        draft.records.extend(record(random, kind, strings, numbers, automata));
    }
    draft
}

/// Full, empty, of one long string, untidy, with a place without symbols.
fn row_at_limits(random: &mut Random, symbols: usize) -> Row {
    let full = any(0, LIMIT - 1, below(symbols));
    let mut row = full;
    match random.below(10) {
        0 => {}
        1 => row = NOTHING,
        2 => row[0] = 1 << 63,
        3 => row[random.between(1, 63)] = 0,
        4 => row[0] = 0,
        5 => row = any(0, random.below(LIMIT), 1 << (symbols - 1)),
        6 => row[1..].iter_mut().for_each(|word| *word = random.subset(symbols, 2)),
        _ => {
            let length = *random.pick(&[63, 63, 62, 32, 31, 1, 0]);
            row = just(&(0..length).map(|_| random.below(symbols) as u8).collect::<Vec<u8>>());
            if random.once_in(4) {
                row[random.between(1, 63)] = below(symbols);
            }
        }
    }
    row
}

#[cfg(test)]
mod tests {
    use super::*;

    #[test]
    fn what_is_generated_is_accepted() {
        for index in 0..300 {
            let random = &mut Random::new(1, index);
            for (draft, most) in [(small(random), 5_000), (large(random), 25_024), (limits(random), 25_024), (many(random), 10_000)] {
                let file = draft.bytes();
                assert!(file.len() <= most, "{} bytes", file.len());
                let header = second::read(&file).unwrap_or_else(|number| panic!("index {index}: refused {number}"));
                assert_eq!(header.constraints, draft.records.len());
                assert_eq!(header.words(), 64 * draft.rows.len() + draft.numbers.len());
            }
        }
    }

    #[test]
    fn the_largest_file_comes_up() {
        let largest = (0..300).filter(|&index| limits(&mut Random::new(1, index)).bytes().len() == cobleskeg::LARGEST_FILE).count();
        assert!(largest >= 3, "{largest} of 300");
    }

    #[test]
    fn many_have_80_steps() {
        let steps = |index| {
            let draft = many(&mut Random::new(1, index));
            draft.rows.len() + draft.records.len()
        };
        let all = (0..100).filter(|&index| steps(index) == 80).count();
        assert!(all >= 25, "{all} of 100");
    }

    #[test]
    fn a_planted_problem_has_a_solution() {
        let shape = Shape { symbols: 2, strings: 4, numbers: 1, automata: 1, constraints: 5, longest: 3, states: 3 };
        for index in 0..200 {
            let random = &mut Random::new(2, index);
            let mut draft = Draft::over(2);
            draft.machines.push(gaps::any(random, 2, 3));
            let file = planted(random, &shape, draft).bytes();
            let words = second::read(&file).unwrap().words();
            let answer = second::search(&file, 65_536, &mut vec![0; 3 * words], &mut vec![0; words]);
            assert!(matches!(answer, Ok(second::Outcome::Found(_))), "index {index}: {answer:?}");
        }
    }
}
