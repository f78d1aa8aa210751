//! A step by trying every choice of values. For small domains.

use crate::domain::{self, bit, bits, Kept, Row, EMPTY};
use crate::file::Problem;
use crate::relations::Relation;

/// Answers the bits struck, or `None`, with the table left alone, if there
/// are more than `most` choices, or more than `most` strings to list.
pub fn step(problem: &Problem, relation: Relation, table: &mut [u64], most: u128) -> Option<u32> {
    let names = relation.strings();
    let number_place = relation
        .number()
        .map(|n| domain::number_place(problem.header.strings, n));
    let rows: Vec<Row> = names.iter().map(|&x| domain::row(table, x)).collect();

    // A relation without a number gets one that it ignores.
    let values: Vec<usize> = match number_place {
        Some(place) => bits(table[place]).collect(),
        None => vec![0],
    };

    let mut choices = values.len() as u128;
    let mut listed: u128 = 0;
    for row in &rows {
        let count = domain::count_strings(row);
        choices = choices.saturating_mul(count);
        listed = listed.saturating_add(count);
    }
    if choices > most || listed > most {
        return None;
    }

    let lists: Vec<Vec<Vec<u8>>> = rows.iter().map(all_strings).collect();
    let mut kept = Kept {
        rows: vec![EMPTY; rows.len()],
        number: 0,
    };
    for_every_choice(&lists, &mut Vec::new(), &mut |strings| {
        for &value in &values {
            if relation.is_met(strings, value, &problem.automata) {
                for (row, string) in kept.rows.iter_mut().zip(strings) {
                    mark(row, string);
                }
                kept.number |= bit(value);
            }
        }
    });
    Some(domain::strike(table, &names, number_place, &kept))
}

/// Every string that the row stands for, shorter ones first.
pub fn all_strings(row: &Row) -> Vec<Vec<u8>> {
    let mut all = Vec::new();
    for length in bits(row[0]) {
        if (1..=length).any(|i| row[i] == 0) {
            continue;
        }
        let mut strings: Vec<Vec<u8>> = vec![Vec::new()];
        for i in 1..=length {
            let mut longer = Vec::new();
            for string in &strings {
                for symbol in bits(row[i]) {
                    let mut next = string.clone();
                    next.push(symbol as u8);
                    longer.push(next);
                }
            }
            strings = longer;
        }
        all.append(&mut strings);
    }
    all
}

/// Calls `act` with one string from each list, for every such choice.
fn for_every_choice<'a>(
    lists: &'a [Vec<Vec<u8>>],
    chosen: &mut Vec<&'a [u8]>,
    act: &mut dyn FnMut(&[&[u8]]),
) {
    let Some((first, others)) = lists.split_first() else {
        act(chosen);
        return;
    };
    for string in first {
        chosen.push(string);
        for_every_choice(others, chosen, act);
        chosen.pop();
    }
}

/// Marks the length and the symbols of a string.
fn mark(row: &mut Row, string: &[u8]) {
    row[0] |= bit(string.len());
    for (i, &symbol) in string.iter().enumerate() {
        row[i + 1] |= bit(usize::from(symbol));
    }
}
