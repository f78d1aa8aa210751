//! Problem files, built part by part.

use crate::{compile, BuildError, Row, Values, GAP, LARGEST_AUTOMATON};
use std::sync::atomic::{AtomicU64, Ordering};

const MOST_SYMBOLS: usize = 64;
const MOST_VARIABLES: usize = 16; // strings, and numbers as many again
const MOST_AUTOMATA: usize = 8;
const MOST_CONSTRAINTS: usize = 64;
const MOST_STATES: usize = 32;

/// The position of a variable or an automaton, and the builder that it belongs to.
#[derive(Clone, Copy, Debug, PartialEq, Eq, Hash)]
struct Handle {
    builder: u64,
    position: u8,
}

/// A string of one builder's problem.
#[derive(Clone, Copy, Debug, PartialEq, Eq, Hash)]
pub struct StringHandle(Handle);

/// A number of one builder's problem.
#[derive(Clone, Copy, Debug, PartialEq, Eq, Hash)]
pub struct NumberHandle(Handle);

/// An automaton of one builder's problem.
#[derive(Clone, Copy, Debug, PartialEq, Eq, Hash)]
pub struct AutomatonHandle(Handle);

impl StringHandle {
    /// Its position among the strings of an answer, from 0.
    pub fn position(self) -> usize {
        usize::from(self.0.position)
    }
}

impl NumberHandle {
    /// Its position among the numbers of an answer, from 0.
    pub fn position(self) -> usize {
        usize::from(self.0.position)
    }
}

/// Builds a problem file that [`read`](crate::read) accepts, and can build no other: what it would refuse is an error as soon as it is given.
///
/// Variables and automata go by the handles that the builder gives for them, and a handle is good for its own builder alone. They get their positions in the
/// order in which they are added, which is the order in which a search decides them; constraints keep theirs too. A call that answers an error adds nothing.
///
/// ```
/// use cobleskeg::{Builder, Row, Values};
///
/// let mut problem = Builder::new(2)?;
/// let bits = Values::of([0, 1])?;
/// let x = problem.string(Row::new(Values::of([1, 2])?, bits))?;
/// let y = problem.string(Row::new(Values::of([0, 1])?, Values::of([1])?))?;
/// let z = problem.string(Row::new(Values::of([2])?, bits).at(1, Values::of([0])?)?)?;
/// let n = problem.number(Values::of(0..=3)?)?;
/// problem.cat(x, y, z)?;
/// problem.len(x, n)?;
/// let file = problem.file();
/// # assert_eq!(file.len(), 1576);
/// # Ok::<(), cobleskeg::BuildError>(())
/// ```
///
/// A number is no string: this does not compile.
///
/// ```compile_fail
/// use cobleskeg::{Builder, Row, Values};
///
/// let mut problem = Builder::new(2)?;
/// let x = problem.string(Row::new(Values::EVERY, Values::of([0, 1])?))?;
/// let n = problem.number(Values::EVERY)?;
/// problem.eq(x, n)?;
/// # Ok::<(), cobleskeg::BuildError>(())
/// ```
// There is no Clone: a handle that one copy gives would pass for a handle of the other, which need not have that variable.
#[derive(Debug)]
pub struct Builder {
    own: u64,
    symbols: u8,
    rows: Vec<Row>,
    numbers: Vec<Values>,
    automata: Vec<Vec<u8>>,
    constraints: Vec<[u8; 4]>,
}

impl Builder {
    /// A problem with this many symbols and nothing else. [`BuildError::Alphabet`] where they are not 1 to 64.
    pub fn new(symbols: usize) -> Result<Builder, BuildError> {
        static BUILDERS: AtomicU64 = AtomicU64::new(0);
        if symbols == 0 || symbols > MOST_SYMBOLS {
            return Err(BuildError::Alphabet(symbols));
        }
        let own = BUILDERS.fetch_add(1, Ordering::Relaxed);
        Ok(Builder { own, symbols: symbols as u8, rows: vec![], numbers: vec![], automata: vec![], constraints: vec![] })
    }

    /// A string of this domain. [`BuildError::Symbol`] where the domain has a symbol that the alphabet lacks, [`BuildError::Strings`] at the 17th.
    pub fn string(&mut self, row: Row) -> Result<StringHandle, BuildError> {
        if let Some(symbol) = row.symbol_beyond(self.symbols) {
            return Err(BuildError::Symbol(symbol));
        }
        let handle = self.handle(self.rows.len(), MOST_VARIABLES, BuildError::Strings)?;
        self.rows.push(row);
        Ok(StringHandle(handle))
    }

    /// A number of this domain. [`BuildError::Numbers`] at the 17th.
    pub fn number(&mut self, values: Values) -> Result<NumberHandle, BuildError> {
        let handle = self.handle(self.numbers.len(), MOST_VARIABLES, BuildError::Numbers)?;
        self.numbers.push(values);
        Ok(NumberHandle(handle))
    }

    /// An automaton that starts in state 0. `moves` has a row for each state, with the next state for each symbol of the alphabet, or [`GAP`] where there is no
    /// move: a string that comes to a gap is rejected.
    ///
    /// [`BuildError::States`], [`BuildError::Moves`], [`BuildError::Next`], [`BuildError::Accepting`] where it is none, [`BuildError::Automata`] at the 9th.
    pub fn automaton<Next: AsRef<[u8]>>(&mut self, accepting: Values, moves: &[Next]) -> Result<AutomatonHandle, BuildError> {
        if moves.is_empty() || moves.len() > MOST_STATES {
            return Err(BuildError::States(moves.len()));
        }
        let states = moves.len() as u8;
        for (state, row) in moves.iter().enumerate() {
            self.check_moves(states, state, row.as_ref())?;
        }
        if let Some(state) = accepting.beyond(states) {
            return Err(BuildError::Accepting(state));
        }
        let handle = self.handle(self.automata.len(), MOST_AUTOMATA, BuildError::Automata)?;
        let mut bytes = vec![states];
        bytes.extend(&accepting.word().to_le_bytes()[..4]);
        bytes.extend(moves.iter().flat_map(|row| row.as_ref()));
        self.automata.push(bytes);
        Ok(AutomatonHandle(handle))
    }

    /// The automaton of a pattern, as [`compile`] makes it. [`BuildError::Pattern`] where it is refused, [`BuildError::Automata`] at the 9th automaton.
    pub fn pattern(&mut self, text: &[u8]) -> Result<AutomatonHandle, BuildError> {
        let mut buffer = [0; LARGEST_AUTOMATON];
        let written = compile(text, usize::from(self.symbols), &mut buffer).map_err(BuildError::Pattern)?;
        let handle = self.handle(self.automata.len(), MOST_AUTOMATA, BuildError::Automata)?;
        self.automata.push(buffer[..written].to_vec());
        Ok(AutomatonHandle(handle))
    }

    /// `x` and `y` are the same.
    pub fn eq(&mut self, x: StringHandle, y: StringHandle) -> Result<(), BuildError> {
        self.constrain(1, &[x, y], None)
    }

    /// `x` and `y` differ.
    pub fn neq(&mut self, x: StringHandle, y: StringHandle) -> Result<(), BuildError> {
        self.constrain(2, &[x, y], None)
    }

    /// `x` is `y` read backwards.
    pub fn rev(&mut self, x: StringHandle, y: StringHandle) -> Result<(), BuildError> {
        self.constrain(3, &[x, y], None)
    }

    /// `z` is `x` followed by `y`.
    pub fn cat(&mut self, x: StringHandle, y: StringHandle, z: StringHandle) -> Result<(), BuildError> {
        self.constrain(4, &[x, y, z], None)
    }

    /// `y` is the part of `x` that starts at place `n`, counted from 1; an empty `y` starts at 1 to one place after the last symbol of `x`.
    pub fn sub(&mut self, x: StringHandle, y: StringHandle, n: NumberHandle) -> Result<(), BuildError> {
        self.constrain(5, &[x, y], Some(n.0))
    }

    /// `n` is the length of `x`.
    pub fn len(&mut self, x: StringHandle, n: NumberHandle) -> Result<(), BuildError> {
        self.constrain(6, &[x], Some(n.0))
    }

    /// The automaton accepts `x`.
    pub fn regular(&mut self, x: StringHandle, automaton: AutomatonHandle) -> Result<(), BuildError> {
        self.constrain(7, &[x], Some(automaton.0))
    }

    /// The bytes of the problem file: table, constraints, automata and trailer, as docs/FORMAT.md lays them out.
    pub fn file(&self) -> Vec<u8> {
        let words = self.rows.iter().flat_map(|row| row.words().iter().copied()).chain(self.numbers.iter().map(|values| values.word()));
        let mut file: Vec<u8> = words.flat_map(u64::to_le_bytes).collect();
        let constraints = file.len();
        file.extend(self.constraints.iter().flatten());
        let automata = file.len();
        file.extend(self.automata.iter().flatten());
        let trailer = file.len();
        file.extend([self.symbols, self.rows.len() as u8, self.numbers.len() as u8, self.automata.len() as u8]);
        // The count of constraints has 16 bits, and the 16 bits behind it are 0.
        file.extend((self.constraints.len() as u32).to_le_bytes());
        for part in [0, constraints, automata] {
            file.extend(((trailer - part) as u32).to_le_bytes());
        }
        file.extend(b"TAIL");
        file
    }

    /// The handle at the next position, unless there are as many as there may be.
    fn handle(&self, next: usize, most: usize, full: BuildError) -> Result<Handle, BuildError> {
        if next >= most {
            return Err(full);
        }
        Ok(Handle { builder: self.own, position: next as u8 })
    }

    fn check_moves(&self, states: u8, state: usize, moves: &[u8]) -> Result<(), BuildError> {
        if moves.len() != usize::from(self.symbols) {
            return Err(BuildError::Moves { state, moves: moves.len() });
        }
        match moves.iter().position(|&next| next >= states && next != GAP) {
            Some(symbol) => Err(BuildError::Next { state, symbol, next: moves[symbol] }),
            None => Ok(()),
        }
    }

    /// The record of a constraint: its kind, the strings that it names, then what else it names.
    fn constrain(&mut self, kind: u8, strings: &[StringHandle], other: Option<Handle>) -> Result<(), BuildError> {
        let named = || strings.iter().map(|string| string.0).chain(other);
        if named().any(|handle| handle.builder != self.own) {
            return Err(BuildError::Foreign);
        }
        if (1..strings.len()).any(|i| strings[..i].contains(&strings[i])) {
            return Err(BuildError::Twice);
        }
        if self.constraints.len() == MOST_CONSTRAINTS {
            return Err(BuildError::Constraints);
        }
        let mut record = [kind, 0, 0, 0];
        for (argument, handle) in record[1..].iter_mut().zip(named()) {
            *argument = handle.position;
        }
        self.constraints.push(record);
        Ok(())
    }
}
