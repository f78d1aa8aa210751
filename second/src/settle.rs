//! Rounds of steps until nothing is struck.

use crate::domain;
use crate::file::Problem;
use crate::plain;
use crate::relations::Relation;

/// Answers the rounds, the last one included.
pub fn settle(problem: &Problem, table: &mut [u64]) -> u32 {
    let mut rounds = 0;
    loop {
        rounds += 1;
        if round(problem, table) == 0 {
            return rounds;
        }
    }
}

/// Trims every string, then takes every constraint; answers the bits struck.
fn round(problem: &Problem, table: &mut [u64]) -> u32 {
    let mut struck = 0;
    for x in 0..problem.header.strings {
        struck += plain::step(problem, Relation::Always(x), table);
    }
    for &constraint in &problem.constraints {
        struck += plain::step(problem, constraint, table);
    }
    struck
}

/// How many values each variable has, strings first, up to the greatest u128.
pub fn value_counts(problem: &Problem, table: &[u64]) -> Vec<u128> {
    let strings = problem.header.strings;
    let mut counts = Vec::new();
    for x in 0..strings {
        counts.push(domain::count_strings(&domain::row(table, x)));
    }
    for n in 0..problem.header.numbers {
        let word = table[domain::number_place(strings, n)];
        counts.push(u128::from(word.count_ones()));
    }
    counts
}

pub fn all_have_a_value(problem: &Problem, table: &[u64]) -> bool {
    value_counts(problem, table).iter().all(|&count| count > 0)
}
