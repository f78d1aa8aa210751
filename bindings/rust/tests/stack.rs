//! The stack that a thread is told to have is enough where the entries need most: Regular on strings of 63 symbols, every count of it at its limit.

use cobleskeg::{index, perform, perform_by_index, read, search, settle, settle_by_index, step, unpack};
use cobleskeg::{BuildError, Builder, Outcome, Row, Values, LARGEST_INDEX, SETTLE, SETTLE_BY_INDEX, STACK};
use std::thread;

/// 16 strings of up to 63 symbols out of 64, each held to four of 8 automata of 32 states. Automaton r accepts a string of length n where r n and its symbols sum
/// up to r, modulo 32: the strings "0" and "32" of length 1 pass each, so the root has several values left.
fn rules() -> Result<Vec<u8>, BuildError> {
    let mut problem = Builder::new(64)?;
    let strings = (0..16).map(|_| problem.string(Row::new(Values::EVERY, Values::EVERY))).collect::<Result<Vec<_>, _>>()?;
    let mut automata = vec![];
    for r in 0..8 {
        let moves: Vec<Vec<u8>> = (0..32).map(|state| (0..64).map(|symbol| ((state + symbol + r) % 32) as u8).collect()).collect();
        automata.push(problem.automaton(Values::of([r as u8])?, &moves)?);
    }
    for i in 0..64 {
        problem.regular(strings[i % 16], automata[(i + i / 16) % 8])?;
    }
    Ok(problem.file())
}

/// A thread that runs out of its stack ends the whole program.
#[test]
fn enough_for_every_entry() -> Result<(), BuildError> {
    let file = rules()?;
    let calls = move || {
        let counts = read(&file).unwrap();
        let (mut room, mut table) = (vec![0; 3 * counts.words()], vec![0; counts.words()]);
        assert_eq!(search(&file, 1, &mut room, &mut table), Ok(Outcome::Spent(1)));
        unpack(&file, &mut table).unwrap();
        assert!(step(&file, 0, &mut table).is_ok());
        assert!(settle(&file, &mut table).is_ok());
        perform(&file, &[SETTLE], &mut table);
        let mut words = [0; LARGEST_INDEX];
        let words = &mut words[..counts.index_words()];
        index(&file, words).unwrap();
        unpack(&file, &mut table).unwrap();
        assert!(settle_by_index(&file, words, &mut table).is_ok());
        unpack(&file, &mut table).unwrap();
        perform_by_index(&file, &[SETTLE_BY_INDEX], words, &mut table);
    };
    thread::Builder::new().stack_size(STACK).spawn(calls).unwrap().join().unwrap();
    Ok(())
}
