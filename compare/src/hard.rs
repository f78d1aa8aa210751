//! Problems with large search trees.

use crate::draft::{any, below, just, Draft};
use crate::random::Random;
use crate::rules;

pub fn hard(random: &mut Random) -> Draft {
    match random.below(6) {
        0 => pigeons(random),
        1 => codes(random),
        2 => checked(random),
        3 => reversed(random),
        4 => late(random),
        _ => lock(random),
    }
}

/// Strings of one symbol, no two the same, with about as many symbols.
fn pigeons(random: &mut Random) -> Draft {
    let holes = random.between(3, 6);
    let count = holes + random.below(2);
    let mut draft = Draft::over(holes);
    let names: Vec<u8> = (0..count).map(|_| draft.string(any(1, 1, below(holes)))).collect();
    for (i, &x) in names.iter().enumerate() {
        for &y in &names[..i] {
            draft.neq(y, x);
        }
    }
    random.shuffle(&mut draft.records);
    draft
}

/// Some words of three bits, all of them in one string.
fn codes(random: &mut Random) -> Draft {
    let mut draft = Draft::over(2);
    let length = random.between(7, 10);
    let whole = draft.string(any(length, length, 0b11));
    let mut words: Vec<u8> = (0..8).collect();
    random.shuffle(&mut words);
    for &word in &words[..random.between(5, 8)] {
        let (part, place) = (draft.string(just(&[word >> 2, word >> 1 & 1, word & 1])), draft.number(u64::MAX));
        draft.sub(whole, part, place);
    }
    draft
}

/// Two names joined from parts that are to be one; a check by parity on each, which often contradict.
fn checked(random: &mut Random) -> Draft {
    let mut draft = Draft::over(3);
    let mut names = [0, 0];
    for name in &mut names {
        let most = random.between(2, 4);
        let (x, y) = (draft.string(any(1, most, 0b111)), draft.string(any(1, 4, 0b011)));
        *name = draft.string(any(0, most + 4, 0b111));
        draft.cat(x, y, *name);
        let machine = rules::parity(3, 0b010, random.once_in(2));
        let rule = draft.machine(machine);
        draft.regular(*name, rule);
    }
    draft.eq(names[0], names[1]);
    draft
}

/// A string that is read backwards in another, joined with it, and must be odd in some symbol.
fn reversed(random: &mut Random) -> Draft {
    let symbols = random.between(2, 3);
    let longest = random.between(3, 6);
    let mut draft = Draft::over(symbols);
    let (x, y) = (draft.string(any(1, longest, below(symbols))), draft.string(any(0, longest, below(symbols))));
    let z = draft.string(any(0, 2 * longest, below(symbols)));
    draft.records.push([3, x, y, 0]);
    draft.cat(x, y, z);
    let machine = rules::parity(symbols, 1, true);
    let odd = draft.machine(machine);
    draft.regular(z, odd);
    draft
}

/// A free string first, then three of which no two may be the same though there are two symbols: the contradiction shows only when the first is decided.
fn late(random: &mut Random) -> Draft {
    let mut draft = Draft::over(2);
    let length = random.between(6, 14);
    draft.string(any(length - random.below(2), length, 0b11));
    let [x, y, z] = [0; 3].map(|_| draft.string(any(1, 1, 0b11)));
    draft.neq(x, y);
    draft.neq(x, z);
    draft.neq(y, z);
    draft
}

/// A string held to several automata of which each accepts few strings: one that all accept, or none, is found only by trying.
fn lock(random: &mut Random) -> Draft {
    let symbols = random.between(2, 3);
    let mut draft = Draft::over(symbols);
    let length = random.between(8, 14);
    let key: Vec<u8> = (0..length).map(|_| random.below(symbols) as u8).collect();
    let string = draft.string(any(length, length, below(symbols)));
    for _ in 0..random.between(3, 6) {
        let states = random.between(3, 8);
        let mut machine = rules::any(random, symbols, states);
        let opened = if random.once_in(12) { random.below(states) } else { rules::end(&machine, symbols, &key).expect("every move is there") };
        machine[1] = 1 << opened;
        let at = draft.machine(machine);
        draft.regular(string, at);
    }
    draft
}

/// More nodes than the program's budget.
pub fn endless() -> Draft {
    let mut draft = Draft::over(2);
    draft.string(any(20, 20, 0b11));
    let [x, y, z] = [0; 3].map(|_| draft.string(any(1, 1, 0b11)));
    draft.neq(x, y);
    draft.neq(x, z);
    draft.neq(y, z);
    draft
}

#[cfg(test)]
mod tests {
    use super::*;

    /// The nodes that a search visits, at most 3000.
    fn nodes(draft: &Draft) -> u32 {
        let file = draft.bytes();
        let words = second::read(&file).unwrap().words();
        match second::search(&file, 3000, &mut vec![0; 3 * words], &mut vec![0; words]).unwrap() {
            second::Outcome::Found(n) | second::Outcome::None(n) | second::Outcome::Spent(n) => n,
        }
    }

    #[test]
    fn many_trees_are_large() {
        let counts: Vec<u32> = (0..60).map(|index| nodes(&hard(&mut Random::new(4, index)))).collect();
        let large = counts.iter().filter(|&&n| n > 200).count();
        assert!(large >= 15, "{large} of 60 trees have more than 200 nodes: {counts:?}");
    }

    #[test]
    fn endless_is_spent() {
        assert_eq!(nodes(&endless()), 3000);
    }
}
