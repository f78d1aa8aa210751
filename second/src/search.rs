//! The search tree, depth first.

use crate::domain::{self, bit};
use crate::file::Problem;
use crate::settle::{settle, value_counts};

/// Each with the nodes visited.
#[derive(Clone, Copy, Debug, PartialEq, Eq)]
pub enum Outcome {
    Found(u32),
    None(u32),
    Spent(u32),
}

/// What a settled table is.
enum State {
    Dead,
    Solved,
    /// The word in which the children differ.
    Open(usize),
}

/// A settled table with children still to be visited.
struct Branch {
    table: Vec<u64>,
    word: usize,
    left: u64,
}

/// The outcome, and the solved table if there is one.
pub fn search(problem: &Problem, budget: u32) -> (Outcome, Option<Vec<u64>>) {
    let mut visited = 0;
    let mut branches: Vec<Branch> = Vec::new();
    let mut node = problem.table.clone();
    loop {
        if visited == budget {
            return (Outcome::Spent(visited), None);
        }
        visited += 1;
        settle(problem, &mut node);
        match state(problem, &node) {
            State::Dead => {}
            State::Solved => return (Outcome::Found(visited), Some(node)),
            State::Open(word) => branches.push(Branch {
                left: node[word],
                word,
                table: node,
            }),
        }
        match next_child(&mut branches) {
            Some(child) => node = child,
            None => return (Outcome::None(visited), None),
        }
    }
}

/// The next node in depth-first order, if one is left.
fn next_child(branches: &mut Vec<Branch>) -> Option<Vec<u64>> {
    while let Some(branch) = branches.last_mut() {
        if branch.left == 0 {
            branches.pop();
            continue;
        }
        let value = bit(branch.left.trailing_zeros() as usize);
        branch.left &= !value;
        let mut child = branch.table.clone();
        child[branch.word] = value;
        return Some(child);
    }
    None
}

fn state(problem: &Problem, table: &[u64]) -> State {
    let counts = value_counts(problem, table);
    if counts.contains(&0) {
        return State::Dead;
    }
    let Some(variable) = counts.iter().position(|&count| count > 1) else {
        return State::Solved;
    };
    let strings = problem.header.strings;
    if variable >= strings {
        return State::Open(domain::number_place(strings, variable - strings));
    }
    // Length first, then places. A settled row has no unused bits, so its
    // first word with several bits is the one.
    let row = domain::row(table, variable);
    match row.iter().position(|word| word.count_ones() > 1) {
        Some(i) => State::Open(64 * variable + i),
        None => State::Solved, // not met: several strings differ somewhere
    }
}
