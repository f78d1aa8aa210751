//! The index, which steps touch each variable, and the settle that runs a step
//! again only after another one struck something of a variable of its own.

use crate::domain::bit;
use crate::file::Problem;
use crate::plain;
use crate::relations::Relation;
use std::collections::VecDeque;

/// "for each variable (strings, then numbers) two words, low one first, whose
/// bits name the steps that touch it (bit j of the pair for step j)".
pub fn index(problem: &Problem) -> Vec<u64> {
    let variables = problem.header.strings + problem.header.numbers;
    let mut words = vec![0; 2 * variables];
    for (j, relation) in steps(problem).into_iter().enumerate() {
        for variable in touched(problem, relation) {
            words[2 * variable + j / 64] |= bit(j % 64);
        }
    }
    words
}

/// "All steps wait in order of number; the front one runs; if it struck
/// anything, every other step sharing a variable with it and not waiting joins
/// the back, lowest number first." Answers the steps in the order they ran.
///
/// Which steps share a variable is asked of the constraints themselves; a lent
/// index that was not refused says the same.
pub fn settle(problem: &Problem, table: &mut [u64]) -> Vec<usize> {
    let steps = steps(problem);
    let variables: Vec<Vec<usize>> = steps.iter().map(|&r| touched(problem, r)).collect();
    let share = |j: usize, other: usize| variables[j].iter().any(|v| variables[other].contains(v));
    let mut waiting: VecDeque<usize> = (0..steps.len()).collect();
    let mut run = Vec::new();
    while let Some(j) = waiting.pop_front() {
        run.push(j);
        if plain::step(problem, steps[j], table) == 0 {
            continue;
        }
        for other in 0..steps.len() {
            if other != j && share(j, other) && !waiting.contains(&other) {
                waiting.push_back(other);
            }
        }
    }
    run
}

/// What each step is about, by its number.
fn steps(problem: &Problem) -> Vec<Relation> {
    (0..).map_while(|j| problem.step_relation(j)).collect()
}

/// The variables among a step's arguments, strings first and then numbers. An
/// automaton is none.
fn touched(problem: &Problem, relation: Relation) -> Vec<usize> {
    let mut variables = relation.strings();
    variables.extend(relation.number().map(|n| problem.header.strings + n));
    variables
}
