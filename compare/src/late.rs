//! Problems in which something shows late: a difference far behind in long strings, and rounds that go on for long.

use crate::draft::{any, below, just, Draft, Row, LIMIT};
use crate::random::Random;
use crate::{gaps, rules};

/// The longest string.
const LONGEST: usize = LIMIT - 1;

/// Long strings that are alike up to a late place, under one or two constraints of one kind.
pub fn difference(random: &mut Random) -> Draft {
    let symbols = *random.pick(&[2, 2, 3, 5, 63, 64]);
    let mut draft = Draft::over(symbols);
    let length = *random.pick(&[LONGEST, LONGEST, LONGEST, LONGEST - 1, 51]);
    let string: Vec<u8> = (0..length).map(|_| random.below(symbols) as u8).collect();
    let any = random.between(34, length);
    let place = *random.pick(&[50, length, any]);
    match random.between(1, 7) {
        kind @ 1..=3 => pair(random, &mut draft, kind as u8, &string, place),
        4 => joined(random, &mut draft, &string, place),
        5 => part(random, &mut draft, &string, place),
        6 => measured(random, &mut draft, &string),
        _ => ruled(random, &mut draft, &string, place),
    }
    draft
}

/// The row of the string, or one near it: another symbol at the place, one more, none, one string shorter or also one shorter.
fn spoiled(random: &mut Random, string: &[u8], place: usize, symbols: usize) -> Row {
    let mut row = just(string);
    let other = (usize::from(string[place - 1]) + random.between(1, symbols - 1)) % symbols;
    match random.below(8) {
        0 => {}
        1..=3 => row[place] = 1 << other,
        4 => row[place] |= 1 << other,
        5 => row[place] = 0,
        6 => row[0] = 1 << (string.len() - 1),
        _ => row[0] |= 1 << (string.len() - 1),
    }
    row
}

/// Eq, Neq or Rev of the string and one near it.
fn pair(random: &mut Random, draft: &mut Draft, kind: u8, string: &[u8], place: usize) {
    let mut other = string.to_vec();
    if kind == 3 {
        other.reverse();
    }
    let first = if random.once_in(3) { spoiled(random, string, place, draft.symbols) } else { just(string) };
    let mirrored = if random.once_in(2) { place } else { string.len() + 1 - place };
    let second = spoiled(random, &other, if kind == 3 { mirrored } else { place }, draft.symbols);
    let mut names = [draft.string(first), draft.string(second)];
    random.shuffle(&mut names);
    draft.records.push([kind, names[0], names[1], 0]);
}

/// Cat of two parts of the string, and a whole near it.
fn joined(random: &mut Random, draft: &mut Draft, string: &[u8], place: usize) {
    let (one, other) = string.split_at(random.below(string.len() + 1));
    let whole = spoiled(random, string, place, draft.symbols);
    let [x, y, z] = [just(one), just(other), whole].map(|row| draft.string(row));
    draft.cat(x, y, z);
}

/// Sub of the string and a part near one of its own, at a late place.
fn part(random: &mut Random, draft: &mut Draft, string: &[u8], place: usize) {
    let from = random.between(place / 2, place);
    let inside = &string[from - 1..place];
    let row = spoiled(random, inside, inside.len(), draft.symbols);
    let (x, y) = (draft.string(just(string)), draft.string(row));
    let places = 1 << from | *random.pick(&[0, 1 << LONGEST, u64::MAX]);
    let n = draft.number(places);
    draft.sub(x, y, n);
}

/// Len of a string whose greatest lengths are open, and a number near them.
fn measured(random: &mut Random, draft: &mut Draft, string: &[u8]) {
    let mut row = just(string);
    row[0] |= random.word() & below(string.len() + 1) & !below(40);
    let values = random.word() | 1 << string.len();
    let (x, n) = (draft.string(row), draft.number(values & !below(40)));
    draft.len(x, n);
}

/// Regular, where the late place is open and the automaton counts up to the end.
fn ruled(random: &mut Random, draft: &mut Draft, string: &[u8], place: usize) {
    let mut row = just(string);
    row[place] = below(draft.symbols);
    let x = draft.string(row);
    let machine = match random.below(2) {
        0 => rules::parity(draft.symbols, random.word() & below(draft.symbols), random.once_in(2)),
        _ => gaps::any(random, draft.symbols, 32),
    };
    let d = draft.machine(machine);
    draft.regular(x, d);
}

/// Strings that are all the same, of which the last is the first and one part more: each way around strikes the ends of the lengths, and in most orders of the
/// constraints a way around takes many rounds.
pub fn chain(random: &mut Random) -> Draft {
    let mut draft = Draft::over(random.between(1, 3));
    let symbols = below(draft.symbols);
    let longest = *random.pick(&[30, 40, LONGEST]);
    let part = draft.string(just(&vec![0; random.between(1, 3)]));
    let names: Vec<u8> = (0..*random.pick(&[4, 8, 15])).map(|_| draft.string(any(0, longest, symbols))).collect();
    for pair in names.windows(2) {
        draft.eq(pair[0], pair[1]);
    }
    match random.below(3) {
        0 => {}
        1 => draft.records.sort_by_key(|record| record[1] % 2),
        _ => random.shuffle(&mut draft.records),
    }
    draft.cat(names[0], part, names[names.len() - 1]);
    draft
}

/// Such strings with as many steps as there can be: any two of them are the same or each other's reverse. Whatever one step strikes, dozens have to run again.
pub fn tangle(random: &mut Random) -> Draft {
    let mut draft = Draft::over(random.between(1, 2));
    let (symbols, longest) = (below(draft.symbols), *random.pick(&[3, 5, 8]));
    let part = draft.string(just(&[0]));
    let mut names: Vec<u8> = (1..16).map(|_| draft.string(any(0, longest, symbols))).collect();
    while draft.records.len() < 63 {
        random.shuffle(&mut names);
        draft.records.push([*random.pick(&[1, 3]), names[0], names[1], 0]);
    }
    draft.cat(names[0], part, names[1]);
    random.shuffle(&mut draft.records);
    draft
}

#[cfg(test)]
mod tests {
    use super::*;

    #[test]
    fn what_is_generated_is_accepted() {
        for index in 0..500 {
            let random = &mut Random::new(14, index);
            for draft in [difference(random), chain(random), tangle(random)] {
                assert!(second::read(&draft.bytes()).is_ok(), "index {index}");
            }
        }
    }

    #[test]
    fn chains_take_many_rounds() {
        let rounds = |index| {
            let draft = chain(&mut Random::new(15, index));
            let file = draft.bytes();
            let mut table = vec![0; second::read(&file).unwrap().words()];
            second::unpack(&file, &mut table).unwrap();
            second::settle(&file, &mut table).unwrap().0
        };
        let many = (0..20).filter(|&index| rounds(index) > 34).count();
        assert!(many >= 5, "{many} of 20");
    }

    #[test]
    fn tangles_have_80_steps_and_run_many() {
        for index in 0..20 {
            let file = tangle(&mut Random::new(15, index)).bytes();
            let problem = second::file::Problem::parse(&file).unwrap();
            assert_eq!(problem.header.constraints + problem.header.strings, 80);
            let run = second::queue::settle(&problem, &mut problem.table.clone());
            assert!(run.len() > 160 && run.iter().filter(|&&step| step == 79).count() > 1, "{} steps run", run.len());
        }
    }

    /// Two strings of 63 that differ at place 50 alone: what Neq, Eq and Rev make of them is plain.
    #[test]
    fn a_late_difference_decides() {
        let string = [1; LONGEST];
        let mut other = string;
        other[49] = 0;
        for (kind, struck) in [(1, 2 * 64), (2, 0), (3, 2 * 64)] {
            let mut draft = Draft::over(2);
            draft.string(just(&string));
            draft.string(just(&other));
            draft.records.push([kind, 0, 1, 0]);
            let file = draft.bytes();
            let mut table = vec![0; 128];
            second::unpack(&file, &mut table).unwrap();
            assert_eq!(second::step(&file, 0, &mut table), Ok(struck), "kind {kind}");
        }
    }
}
