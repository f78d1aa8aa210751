//! A whole search with buffers of its own, and its answer in strings and numbers.

use crate::{read, search, Counts, Outcome, Refusal};

/// What a search comes to, each with the count of nodes visited.
#[derive(Clone, Debug, PartialEq, Eq)]
pub enum Answer {
    /// The first solution: each string by its symbols, each number by its value.
    Found { nodes: u32, strings: Vec<Vec<u8>>, numbers: Vec<u8> },
    /// There is no solution.
    None { nodes: u32 },
    /// The budget ended before the answer was known.
    Spent { nodes: u32 },
}

/// Searches the file's problem within a budget of nodes. The buffers that [`search`] needs are allocated here.
///
/// Refuses 1 to 8.
pub fn solve(file: &[u8], budget: u32) -> Result<Answer, Refusal> {
    let counts = read(file)?;
    let mut room = vec![0; 3 * counts.words()];
    let mut table = vec![0; counts.words()];
    Ok(match search(file, budget, &mut room, &mut table)? {
        Outcome::Found(nodes) => {
            let (strings, numbers) = values(&counts, &table);
            Answer::Found { nodes, strings, numbers }
        }
        Outcome::None(nodes) => Answer::None { nodes },
        Outcome::Spent(nodes) => Answer::Spent { nodes },
    })
}

/// The strings and numbers of a table in which every variable has one value.
fn values(counts: &Counts, table: &[u64]) -> (Vec<Vec<u8>>, Vec<u8>) {
    let (rows, numbers) = table.split_at(64 * counts.strings);
    let strings = rows.chunks_exact(64).map(|row| row[1..=usize::from(value(row[0]))].iter().map(|&word| value(word)).collect());
    (strings.collect(), numbers.iter().map(|&word| value(word)).collect())
}

/// The one value that the word allows. A solution's words have one, at 63 or below.
fn value(word: u64) -> u8 {
    word.trailing_zeros() as u8
}
