//! Patterns as text: automata put down by hand, each refusal at its boundary, and a builder that takes them.

use cobleskeg::{compile, read, solve, Answer, AutomatonHandle, BuildError, Builder, Row, Values, GAP, LARGEST_AUTOMATON, LONGEST_PATTERN, STACK};
use std::thread;

type Built<T> = Result<T, BuildError>;

/// The bytes for a text, in a buffer of so many; what lies behind them is as it was.
fn compiled(text: &[u8], symbols: usize, room: usize) -> Result<Vec<u8>, u8> {
    let mut buffer = vec![7; room];
    let answer = compile(text, symbols, &mut buffer);
    let written = *answer.as_ref().unwrap_or(&0);
    assert!(buffer[written..].iter().all(|&byte| byte == 7));
    answer.map(|written| buffer[..written].to_vec()).map_err(|refusal| refusal.number())
}

/// `(0|1)*0`: the start; the 0 in the group and the last one; the 1. Only the second has read a 0 last.
#[test]
fn by_hand() {
    let ends_in_0 = vec![3, 2, 0, 0, 0, 1, 2, 1, 2, 1, 2];
    assert_eq!(compiled(b"(0|1)*0", 2, 11), Ok(ends_in_0.clone()));
    assert_eq!(compiled(b"(0|1)*0", 2, LARGEST_AUTOMATON), Ok(ends_in_0));
    assert_eq!(compiled(b"", 1, 7), Ok(vec![2, 1, 0, 0, 0, 1, 1]));
    assert_eq!(compiled(b"0|0", 1, 8), Ok(vec![3, 2, 0, 0, 0, 1, 2, 2]));
}

#[test]
fn refusal_14() {
    assert!(compiled(&[b'|'; LONGEST_PATTERN], 1, 7).is_ok());
    assert_eq!(compiled(&[b'|'; LONGEST_PATTERN + 1], 1, 7), Err(14));
    for text in [&b"*"[..], b"0**", b"(0", b"0)", b"(*)", b"0|*", b"A", b" ", b"\xff"] {
        assert_eq!(compiled(text, 0, 0), Err(14), "{text:?}");
    }
}

#[test]
fn refusal_15() {
    for (symbols, refused) in [(0, true), (1, false), (64, false), (65, true), (usize::MAX, true)] {
        assert_eq!(compiled(b"", symbols, LARGEST_AUTOMATON).err(), refused.then_some(15));
    }
    assert_eq!(compiled(b"/", 38, 0), Err(15));
    assert!(compiled(b"/", 39, LARGEST_AUTOMATON).is_ok());
}

/// n letters side by side reach n + 2 states: the start, one for each letter, the empty set.
#[test]
fn refusals_16_and_17() {
    assert_eq!(compiled(&[b'0'; 31], 64, 0), Err(16));
    assert_eq!(compiled(&[b'0'; 30], 64, LARGEST_AUTOMATON - 1), Err(17));
    assert_eq!(compiled(&[b'0'; 30], 64, LARGEST_AUTOMATON).map(|bytes| (bytes.len(), bytes[0])), Ok((LARGEST_AUTOMATON, 32)));
    assert_eq!(compiled(b"0*", 1, 6), Err(17));
}

/// Strings of up to two symbols that the automaton accepts, as a search finds the first of them.
fn first(automaton: impl Fn(&mut Builder) -> Built<AutomatonHandle>) -> Built<(Vec<u8>, Answer)> {
    let mut problem = Builder::new(2)?;
    let x = problem.string(Row::new(Values::of([1, 2])?, Values::of([0, 1])?))?;
    let rule = automaton(&mut problem)?;
    problem.regular(x, rule)?;
    let file = problem.file();
    let answer = solve(&file, 9).unwrap();
    Ok((file, answer))
}

/// The strings of `(0|1)*0` of an even length, by gaps and by a sink; only the files differ.
#[test]
fn gaps_say_what_a_sink_says() -> Built<()> {
    let gaps = first(|problem| problem.automaton(Values::of([2])?, &[[1, 1], [2, GAP], [GAP, GAP]]))?;
    let sink = first(|problem| problem.automaton(Values::of([2])?, &[[1, 1], [2, 3], [3, 3], [3, 3]]))?;
    assert_ne!(gaps.0, sink.0);
    assert_eq!(gaps.1, sink.1);
    let Answer::Found { strings, .. } = gaps.1 else { panic!("the string 00 is one") };
    assert_eq!(strings, [[0, 0]]);
    Ok(())
}

#[test]
fn a_builder_takes_patterns() -> Built<()> {
    let by_pattern = first(|problem| problem.pattern(b"(0|1)*0"))?;
    let by_moves = first(|problem| problem.automaton(Values::of([1])?, &[[1, 2], [1, 2], [1, 2]]))?;
    assert_eq!(by_pattern, by_moves);
    let Answer::Found { strings, .. } = by_pattern.1 else { panic!("the string 0 ends in 0") };
    assert_eq!(strings, [[0]]);
    Ok(())
}

#[test]
fn what_a_builder_does_not_take() -> Built<()> {
    let mut problem = Builder::new(2)?;
    for (text, number) in [(&b"0**"[..], 14), (b"2", 15), (b"0101010101010101010101010101010", 16)] {
        let Err(BuildError::Pattern(refusal)) = problem.pattern(text) else { panic!("{text:?} gives no automaton") };
        assert_eq!(refusal.number(), number);
    }
    for _ in 0..8 {
        problem.pattern(b"0*")?;
    }
    assert_eq!(problem.pattern(b"0*"), Err(BuildError::Automata));
    assert_eq!(read(&problem.file()).unwrap().automata, 8);
    Ok(())
}

/// The readers call one another: 31 groups, 63 letters and 64 branches are the deepest texts. A thread that runs out of its stack ends the whole program.
#[test]
fn enough_stack_for_every_text() {
    let deepest = [[&[b'('; 31][..], b"0", &[b')'; 31][..]].concat(), vec![b'0'; 63], vec![b'|'; 63]];
    let calls = move || deepest.iter().for_each(|text| drop(compiled(text, 64, LARGEST_AUTOMATON)));
    thread::Builder::new().stack_size(STACK).spawn(calls).unwrap().join().unwrap();
}
