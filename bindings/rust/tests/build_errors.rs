//! Each error of a builder, at its boundary from both sides, and that it leaves the builder as it was.

use cobleskeg::{read, AutomatonHandle, BuildError, Builder, NumberHandle, Row, StringHandle, Values, GAP};

type Built<T> = Result<T, BuildError>;

/// Four symbols, three strings, a number and an automaton.
struct Parts {
    problem: Builder,
    x: StringHandle,
    y: StringHandle,
    z: StringHandle,
    n: NumberHandle,
    d: AutomatonHandle,
}

fn parts() -> Built<Parts> {
    let mut problem = Builder::new(4)?;
    let any = Row::new(Values::of(0..3)?, Values::of(0..4)?);
    let [x, y, z] = [problem.string(any)?, problem.string(any)?, problem.string(any)?];
    let n = problem.number(Values::EVERY)?;
    let d = problem.automaton(Values::of([0])?, &[[0; 4]])?;
    Ok(Parts { problem, x, y, z, n, d })
}

#[test]
fn alphabets() {
    for (symbols, error) in [(0, true), (1, false), (64, false), (65, true), (256, true), (257, true)] {
        assert_eq!(Builder::new(symbols).err(), error.then_some(BuildError::Alphabet(symbols)));
    }
}

#[test]
fn values() {
    assert_eq!(Values::of([0, 63]).map(Values::word), Ok(1 << 63 | 1));
    assert_eq!(Values::of([0, 64]), Err(BuildError::Value(64)));
    assert_eq!(Values::of([255]), Err(BuildError::Value(255)));
}

#[test]
fn places_and_texts() {
    let row = Row::new(Values::EVERY, Values::NONE);
    for (place, error) in [(0, true), (1, false), (63, false), (64, true)] {
        assert_eq!(row.at(place, Values::EVERY).err(), error.then_some(BuildError::Place(place)));
    }
    assert_eq!(Row::text(&[0; 64]), Err(BuildError::TextLength(64)));
    assert_eq!(Row::text(&[0, 64]), Err(BuildError::Symbol(64)));
    assert!(Row::text(&[63; 63]).is_ok());
}

#[test]
fn symbols_outside_the_alphabet() -> Built<()> {
    for symbols in [1, 4, 63] {
        let mut problem = Builder::new(symbols)?;
        let file = problem.file();
        let beyond = symbols as u8;
        assert_eq!(problem.string(Row::text(&[0, beyond])?), Err(BuildError::Symbol(beyond)));
        let late = Row::new(Values::NONE, Values::NONE).at(63, Values::of([63])?)?;
        assert_eq!(problem.string(late), Err(BuildError::Symbol(63)));
        assert_eq!(problem.file(), file);
        // a length is no symbol
        problem.string(Row::new(Values::of([63])?, Values::of(0..beyond)?))?;
    }
    Ok(())
}

#[test]
fn one_too_many() -> Built<()> {
    let mut problem = Builder::new(1)?;
    let strings = (0..16).map(|_| problem.string(Row::text(&[0])?)).collect::<Built<Vec<_>>>()?;
    for _ in 0..16 {
        problem.number(Values::EVERY)?;
    }
    for _ in 0..8 {
        problem.automaton(Values::NONE, &[[0]])?;
    }
    for _ in 0..64 {
        problem.neq(strings[14], strings[15])?;
    }
    let file = problem.file();
    assert_eq!(problem.string(Row::text(&[0])?), Err(BuildError::Strings));
    assert_eq!(problem.number(Values::EVERY), Err(BuildError::Numbers));
    assert_eq!(problem.automaton(Values::NONE, &[[0]]), Err(BuildError::Automata));
    assert_eq!(problem.neq(strings[0], strings[1]), Err(BuildError::Constraints));
    assert_eq!(problem.file(), file);
    assert!(read(&file).is_ok());
    Ok(())
}

#[test]
fn automata() -> Built<()> {
    let mut problem = Builder::new(2)?;
    let file = problem.file();
    let mut refused = |accepting: &[u8], moves: Vec<Vec<u8>>| problem.automaton(Values::of(accepting.to_vec()).unwrap(), &moves).unwrap_err();
    assert_eq!(refused(&[], vec![]), BuildError::States(0));
    assert_eq!(refused(&[], vec![vec![0, 0]; 33]), BuildError::States(33));
    assert_eq!(refused(&[], vec![vec![0, 0]; 257]), BuildError::States(257));
    assert_eq!(refused(&[], vec![vec![0, 0], vec![0]]), BuildError::Moves { state: 1, moves: 1 });
    assert_eq!(refused(&[], vec![vec![0, 0, 0], vec![0, 0]]), BuildError::Moves { state: 0, moves: 3 });
    assert_eq!(refused(&[], vec![vec![0, 1], vec![0, 2]]), BuildError::Next { state: 1, symbol: 1, next: 2 });
    assert_eq!(refused(&[], vec![vec![0, GAP], vec![GAP - 1, 0]]), BuildError::Next { state: 1, symbol: 0, next: 254 });
    assert_eq!(refused(&[], vec![vec![GAP, 32]; 32]), BuildError::Next { state: 0, symbol: 1, next: 32 });
    assert_eq!(refused(&[1, 2], vec![vec![0, 1], vec![0, 1]]), BuildError::Accepting(2));
    assert_eq!(refused(&[32], vec![vec![31, 31]; 32]), BuildError::Accepting(32));
    assert_eq!(problem.file(), file);
    problem.automaton(Values::of([0, 1])?, &[[0, 1], [1, 0]])?;
    problem.automaton(Values::of([31])?, &[[31, 31]; 32])?;
    problem.automaton(Values::of([31])?, &[[GAP, 31]; 32])?;
    problem.automaton(Values::of([0])?, &[[GAP; 2]])?;
    assert!(read(&problem.file()).is_ok());
    Ok(())
}

#[test]
fn one_string_twice() -> Built<()> {
    let Parts { mut problem, x, y, n, .. } = parts()?;
    let file = problem.file();
    assert_eq!(problem.eq(x, x), Err(BuildError::Twice));
    assert_eq!(problem.neq(y, y), Err(BuildError::Twice));
    assert_eq!(problem.rev(x, x), Err(BuildError::Twice));
    assert_eq!(problem.cat(x, x, y), Err(BuildError::Twice));
    assert_eq!(problem.cat(x, y, x), Err(BuildError::Twice));
    assert_eq!(problem.cat(y, x, x), Err(BuildError::Twice));
    assert_eq!(problem.sub(x, x, n), Err(BuildError::Twice));
    assert_eq!(problem.file(), file);
    // a string and a number at one position are two variables
    problem.len(x, n)?;
    problem.sub(y, x, n)?;
    Ok(())
}

/// The other builder has the same variables, so that its handles have the same positions.
#[test]
fn handles_of_another_builder() -> Built<()> {
    let Parts { mut problem, x, y, z, n, d } = parts()?;
    let other = parts()?;
    let file = problem.file();
    let foreign = [
        problem.eq(other.x, y),
        problem.eq(x, other.y),
        problem.neq(other.x, other.y),
        problem.rev(x, other.x),
        problem.cat(other.x, y, z),
        problem.cat(x, other.y, z),
        problem.cat(x, y, other.z),
        problem.sub(other.x, y, n),
        problem.sub(x, other.y, n),
        problem.sub(x, y, other.n),
        problem.len(other.x, n),
        problem.len(x, other.n),
        problem.regular(other.x, d),
        problem.regular(x, other.d),
    ];
    assert_eq!(foreign, [Err(BuildError::Foreign); 14]);
    assert_eq!(problem.file(), file);
    problem.regular(x, d)?;
    assert_eq!(other.problem.file(), file);
    Ok(())
}

#[test]
fn an_error_says_what_it_means() {
    for (error, words) in [
        (BuildError::Alphabet(65), "an alphabet has 1 to 64 symbols, not 65"),
        (BuildError::Symbol(4), "symbol 4 is not in the alphabet"),
        (BuildError::Next { state: 1, symbol: 2, next: 9 }, "symbol 2 leads from state 1 to 9, which is no state"),
        (BuildError::Twice, "a constraint names one string twice"),
    ] {
        assert_eq!(error.to_string(), words);
    }
}
