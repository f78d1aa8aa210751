//! The functions of the Rust crate over the archive, each once on a file or on the text of a pattern.

use crate::disagreement::{Compared, Disagreement};
use crate::random::Random;
use crate::solution::values;
use crate::tally::Tally;
use cobleskeg::{Answer, Counts, Outcome, Refusal, Settled, SettledByIndex, SETTLE, SETTLE_BY_INDEX};
use std::fmt::Debug;

/// What a function of the crate answers, and the table or the buffer that it leaves.
type Given<T, E = u64> = (Result<T, u8>, Vec<E>);

/// Every function but `solve`, on this table.
pub fn functions(file: &[u8], random: &mut Random, table: &[u64]) -> Compared<()> {
    let j = random.below(20);
    same("read", &numbered(cobleskeg::read(file)), &second::read(file).map(counts))?;
    same("unpack", &on(table, |lent| numbered(cobleskeg::unpack(file, lent))), &on(table, |lent| second::unpack(file, lent)))?;
    same("step", &on(table, |lent| numbered(cobleskeg::step(file, j, lent))), &on(table, |lent| second::step(file, j as u64, lent)))?;
    let settled = |(rounds, every_value)| Settled { rounds, every_value };
    same("settle", &on(table, |lent| numbered(cobleskeg::settle(file, lent))), &on(table, |lent| second::settle(file, lent).map(settled)))?;
    let room = random.words(3 * table.len());
    let ours = on(table, |lent| numbered(cobleskeg::search(file, 3, &mut room.clone(), lent)));
    same("search", &ours, &on(table, |lent| second::search(file, 3, &mut room.clone(), lent).map(outcome)))?;
    let ours = on(table, |lent| Ok(cobleskeg::perform(file, &[j as u32, SETTLE], lent)));
    let theirs = on(table, |lent| {
        let _refused = (second::step(file, j as u64, lent), second::settle(file, lent));
        Ok(())
    });
    same("perform", &ours, &theirs)?;
    by_index(file, table, j)
}

/// Those that take an index: the file's own, and its words but the last.
fn by_index(file: &[u8], table: &[u64], j: usize) -> Compared<()> {
    let words = vec![1; second::read(file).map_or(0, |header| counts(header).index_words())];
    let ours = on(&words, |lent| numbered(cobleskeg::index(file, lent)));
    same("index", &ours, &on(&words, |lent| second::index(file, lent)))?;
    for index in [&ours.1[..], &ours.1[..ours.1.len().saturating_sub(1)]] {
        let settled = |(steps, every_value)| SettledByIndex { steps, every_value };
        let ours = on(table, |lent| numbered(cobleskeg::settle_by_index(file, index, lent)));
        same("settle_by_index", &ours, &on(table, |lent| second::settle_by_index(file, index, lent).map(settled)))?;
        let ours = on(table, |lent| Ok(cobleskeg::perform_by_index(file, &[j as u32, SETTLE_BY_INDEX], index, lent)));
        let theirs = on(table, |lent| {
            let _refused = (second::step(file, j as u64, lent), second::settle_by_index(file, index, lent));
            Ok(())
        });
        same("perform_by_index", &ours, &theirs)?;
    }
    Ok(())
}

/// The automaton of a pattern, into a buffer of so many bytes.
pub fn compile(text: &[u8], symbols: usize, room: usize, random: &mut Random) -> Compared<()> {
    let buffer: Vec<u8> = (0..room).map(|_| random.byte()).collect();
    let ours = on(&buffer, |lent| numbered(cobleskeg::compile(text, symbols, lent)));
    let theirs = on(&buffer, |lent| {
        let bytes = second::pattern::compile(text, symbols, room)?;
        lent[..bytes.len()].copy_from_slice(&bytes);
        Ok(bytes.len())
    });
    same("compile", &ours, &theirs)
}

/// The answer in strings and numbers, for a file that is not refused.
pub fn solve(file: &[u8], budget: u32, tally: &mut Tally) -> Compared<()> {
    let ours = numbered(cobleskeg::solve(file, budget));
    let theirs = second::read(file).and_then(|header| {
        let (mut room, mut table) = (vec![0; 3 * header.words()], vec![0; header.words()]);
        Ok(match second::search(file, budget, &mut room, &mut table)? {
            second::Outcome::Found(nodes) => {
                let (strings, numbers) = values(&table, header.strings);
                Answer::Found { nodes, strings, numbers }
            }
            second::Outcome::None(nodes) => Answer::None { nodes },
            second::Outcome::Spent(nodes) => Answer::Spent { nodes },
        })
    });
    tally.call(6, theirs.as_ref().err().copied());
    same(&format!("solve with budget {budget}"), &ours, &theirs)
}

fn same<T: PartialEq + Debug>(call: &str, ours: &T, theirs: &T) -> Compared<()> {
    if ours == theirs {
        return Ok(());
    }
    Err(Disagreement { call: format!("{call}, by the Rust crate"), ours: format!("{ours:?}"), theirs: format!("{theirs:?}"), word: None })
}

/// Calls on a copy of the table or the buffer.
fn on<T, E: Clone>(elements: &[E], call: impl Fn(&mut [E]) -> Result<T, u8>) -> Given<T, E> {
    let mut lent = elements.to_vec();
    let answer = call(&mut lent);
    (answer, lent)
}

fn numbered<T>(answer: Result<T, Refusal>) -> Result<T, u8> {
    answer.map_err(Refusal::number)
}

fn counts(header: second::Header) -> Counts {
    let second::Header { symbols, strings, numbers, automata, constraints } = header;
    Counts { symbols, strings, numbers, automata, constraints }
}

fn outcome(theirs: second::Outcome) -> Outcome {
    match theirs {
        second::Outcome::Found(nodes) => Outcome::Found(nodes),
        second::Outcome::None(nodes) => Outcome::None(nodes),
        second::Outcome::Spent(nodes) => Outcome::Spent(nodes),
    }
}
