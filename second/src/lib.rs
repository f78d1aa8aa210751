//! A second solver for problems over strings of bounded length and small
//! numbers, made to be compared with another one. Clear before fast.

pub mod domain;
pub mod enumerate;
pub mod file;
pub mod header;
pub mod pattern;
pub mod plain;
pub mod queue;
pub mod relations;
pub mod search;
pub mod settle;

pub use header::Header;
pub use search::Outcome;

use file::Problem;

/// Sizes of a problem file. Refusals 1 to 8.
pub fn read(file: &[u8]) -> Result<Header, u8> {
    Ok(Problem::parse(file)?.header)
}

/// Writes the file's table into the lent one. Refusals 1 to 9.
pub fn unpack(file: &[u8], table: &mut [u64]) -> Result<(), u8> {
    let problem = Problem::parse(file)?;
    if table.len() != problem.header.words() {
        return Err(9);
    }
    table.copy_from_slice(&problem.table);
    Ok(())
}

/// Step j on the lent table; answers the bits struck. Refusals 1 to 11.
pub fn step(file: &[u8], j: u64, table: &mut [u64]) -> Result<u32, u8> {
    let (problem, relation) = checked_step(file, j, table)?;
    Ok(plain::step(&problem, relation, table))
}

/// The same step by trying every choice. `None`, with the table left alone,
/// if there are more than `most` choices or strings. Refusals 1 to 11.
pub fn step_by_enumeration(
    file: &[u8],
    j: u64,
    table: &mut [u64],
    most: u128,
) -> Result<Option<u32>, u8> {
    let (problem, relation) = checked_step(file, j, table)?;
    Ok(enumerate::step(&problem, relation, table, most))
}

/// Rounds until one strikes nothing; answers the rounds, and whether every
/// variable has a value. Refusals 1 to 10.
pub fn settle(file: &[u8], table: &mut [u64]) -> Result<(u32, bool), u8> {
    let problem = checked_table(file, table)?;
    let rounds = settle::settle(&problem, table);
    Ok((rounds, settle::all_have_a_value(&problem, table)))
}

/// Writes the file's index into the lent words. Refusals 1 to 8, then 18.
pub fn index(file: &[u8], index: &mut [u64]) -> Result<(), u8> {
    let problem = Problem::parse(file)?;
    let right = queue::index(&problem);
    if index.len() != right.len() {
        return Err(18);
    }
    index.copy_from_slice(&right);
    Ok(())
}

/// Steps by the queue's rule until none waits; answers the steps run, and
/// whether every variable has a value. Refusals 1 to 10, then 18 and 19.
pub fn settle_by_index(file: &[u8], index: &[u64], table: &mut [u64]) -> Result<(u32, bool), u8> {
    let problem = checked_table(file, table)?;
    let right = queue::index(&problem);
    if index.len() != right.len() {
        return Err(18);
    }
    if index != right {
        return Err(19);
    }
    let run = queue::settle(&problem, table);
    Ok((run.len() as u32, settle::all_have_a_value(&problem, table)))
}

/// The tree search on the file's table. Refusals 1 to 8, then 12 and 13.
pub fn search(
    file: &[u8],
    budget: u32,
    room: &mut [u64],
    table: &mut [u64],
) -> Result<Outcome, u8> {
    let problem = Problem::parse(file)?;
    let words = problem.header.words();
    if room.len() < 3 * words {
        return Err(12);
    }
    if table.len() != words {
        return Err(13);
    }
    let (outcome, answer) = search::search(&problem, budget);
    if let Some(answer) = answer {
        table.copy_from_slice(&answer);
    }
    room[..3 * words].fill(0);
    Ok(outcome)
}

/// Refusals 1 to 10.
fn checked_table(file: &[u8], table: &[u64]) -> Result<Problem, u8> {
    let problem = Problem::parse(file)?;
    if table.len() != problem.header.words() {
        return Err(9);
    }
    if domain::has_foreign_symbol(table, problem.header.strings, problem.header.symbols) {
        return Err(10);
    }
    Ok(problem)
}

/// Refusals 1 to 11; the problem and what step j is about.
fn checked_step(file: &[u8], j: u64, table: &[u64]) -> Result<(Problem, relations::Relation), u8> {
    let problem = checked_table(file, table)?;
    let relation = problem.step_relation(j).ok_or(11)?;
    Ok((problem, relation))
}
