//! Tables to put into a lent buffer.

use crate::draft::{below, LIMIT};
use crate::random::Random;
use second::Header;

/// A table that a problem with these counts is not refused for: the file's, one near it, or any.
pub fn table(random: &mut Random, header: &Header, of_file: &[u64]) -> Vec<u64> {
    match random.below(6) {
        0 => of_file.to_vec(),
        1..=3 => near(random, header, of_file),
        _ => foreign(random, header),
    }
}

/// Whether the word at this place of a table holds symbols.
fn holds_symbols(header: &Header, at: usize) -> bool {
    at < LIMIT * header.strings && at % LIMIT != 0
}

/// The file's table with some bits changed, most of them where the file's strings have something.
fn near(random: &mut Random, header: &Header, of_file: &[u64]) -> Vec<u64> {
    let mut table = of_file.to_vec();
    let used: Vec<usize> = (0..table.len()).filter(|&i| table[i] != 0).collect();
    for _ in 0..*random.pick(&[1, 2, 5, 20]) {
        if table.is_empty() {
            break;
        }
        let at = if used.is_empty() || random.once_in(4) { random.below(table.len()) } else { *random.pick(&used) };
        let bits = if holds_symbols(header, at) { header.symbols } else { LIMIT };
        match random.below(8) {
            0 => table[at] = 0,
            1 => table[at] = 1 << random.below(bits),
            2 => table[at] |= random.subset(bits, 4),
            _ => table[at] ^= 1 << random.below(bits),
        }
    }
    table
}

/// Any words, each row and number with its own density and length.
fn foreign(random: &mut Random, header: &Header) -> Vec<u64> {
    let mut table = Vec::new();
    for _ in 0..header.strings {
        let longest = *random.pick(&[0, 1, 3, 8, 63]);
        let share = random.between(1, 8);
        let symbols = below(header.symbols);
        table.push(random.subset(longest + 1, share));
        let untidy = random.once_in(4);
        for i in 1..LIMIT {
            let full = share == 8 || random.once_in(16);
            let filled = i <= longest || untidy && random.once_in(8);
            table.push(match (filled, full) {
                (false, _) => 0,
                (true, true) => symbols,
                (true, false) => dense(random, share) & symbols,
            });
        }
    }
    for _ in 0..header.numbers {
        let share = random.between(0, 8);
        table.push(dense(random, share));
    }
    table
}

/// A word with about `share` in 8 of its bits.
fn dense(random: &mut Random, share: usize) -> u64 {
    match share {
        0 => 0,
        1 | 2 => random.word() & random.word() & random.word(),
        3 => random.word() & random.word(),
        4 | 5 => random.word(),
        6 | 7 => random.word() | random.word(),
        _ => u64::MAX,
    }
}

/// A table with a bit at k or above in one symbol word or in many, if there are such words and such bits.
pub fn with_foreign_symbol(random: &mut Random, header: &Header, of_file: &[u64]) -> Option<Vec<u64>> {
    if header.strings == 0 || header.symbols == LIMIT {
        return None;
    }
    let mut table = table(random, header, of_file);
    let last = LIMIT * header.strings - 1;
    let places = match random.below(4) {
        0 => vec![1],
        1 => vec![last],
        2 => vec![LIMIT * random.below(header.strings) + random.between(1, 63)],
        _ => (0..=last).filter(|i| i % LIMIT != 0).collect(),
    };
    let any = random.between(header.symbols, 63);
    let bit = *random.pick(&[header.symbols, 63, any]);
    places.iter().for_each(|&at| table[at] |= 1 << bit);
    Some(table)
}

/// The table with one variable that has no value: often the last.
pub fn without_value(random: &mut Random, header: &Header, table: &[u64]) -> Vec<u64> {
    let mut table = table.to_vec();
    let variables = header.strings + header.numbers;
    if variables > 0 {
        let any = random.below(variables);
        let variable = *random.pick(&[variables - 1, any]);
        let numbers = variable.saturating_sub(header.strings);
        table[LIMIT * (variable - numbers) + numbers] = 0;
    }
    table
}

/// A count of words that is not this one: one short, one long, none, or any.
pub fn wrong_size(random: &mut Random, words: usize) -> usize {
    let sizes = [words.wrapping_sub(1), words + 1, 0, random.below(2 * words + 3), words + 64, 1040];
    let wrong: Vec<usize> = sizes.into_iter().filter(|&size| size != words && size <= 4000).collect();
    *random.pick(&wrong)
}

#[cfg(test)]
mod tests {
    use super::*;

    fn header(random: &mut Random) -> Header {
        Header { symbols: random.between(1, 64), strings: random.below(17), numbers: random.below(17), automata: 0, constraints: 0 }
    }

    #[test]
    fn tables_are_lendable_or_not() {
        for index in 0..500 {
            let random = &mut Random::new(8, index);
            let header = header(random);
            let of_file = foreign(random, &header);
            let lendable = table(random, &header, &of_file);
            assert_eq!(lendable.len(), header.words());
            assert!(!second::domain::has_foreign_symbol(&lendable, header.strings, header.symbols));
            match with_foreign_symbol(random, &header, &of_file) {
                Some(refused) => assert!(second::domain::has_foreign_symbol(&refused, header.strings, header.symbols)),
                None => assert!(header.strings == 0 || header.symbols == 64),
            }
            assert_ne!(wrong_size(random, header.words()), header.words());
        }
    }
}
