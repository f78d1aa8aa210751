//! Can two parts of a template set ever produce one name? The entries of the proved library, for programs in Rust.
//!
//! A problem file lists strings and numbers by their domains, and constraints between them; [`solve`] gives its first solution, or says that there is none.
//!
//! ```no_run
//! use cobleskeg::{solve, Answer};
//!
//! let file = std::fs::read("templates.problem")?;
//! match solve(&file, 65_536)? {
//!     Answer::Found { strings, numbers, .. } => println!("a clash: {strings:?} {numbers:?}"),
//!     Answer::None { .. } => println!("no clash"),
//!     Answer::Spent { nodes } => println!("not known after {nodes} nodes"),
//! }
//! # Ok::<(), Box<dyn std::error::Error>>(())
//! ```
//!
//! A [`Builder`] makes such a file of domains and constraints, and takes nothing that the library would refuse.
//!
//! The other functions are the library's own entries, each on buffers that the caller lends; none allocates.
//!
//! A *table* has 64 s + t words for s strings and t numbers. A string's row is 64 words: bit l of word 0 allows the length l, bit a of word i (1 to 63) allows
//! the symbol a at place i. A number has one word: bit v allows the value v. A [`Refusal`] leaves every buffer as it was.

mod build_error;
mod builder;
mod domains;
mod entries;
mod refusal;
mod solve;

pub use build_error::BuildError;
pub use builder::{AutomatonHandle, Builder, NumberHandle, StringHandle};
pub use domains::{Row, Values};
pub use refusal::Refusal;
pub use solve::{solve, Answer};

/// The number that stands for Settle in a list of calls, see [`perform`].
pub const SETTLE: u32 = u32::MAX;

/// The number that stands for Settle by index in a list of calls that is lent an index, see [`perform_by_index`].
pub const SETTLE_BY_INDEX: u32 = 4_294_967_294;

/// The bytes of the largest problem file.
pub const LARGEST_FILE: usize = 25_024;

/// The words of the largest table.
pub const LARGEST_TABLE: usize = 1_040;

/// The words of the largest index.
pub const LARGEST_INDEX: usize = 64;

/// The bytes of the longest text of a pattern, see [`compile`].
pub const LONGEST_PATTERN: usize = 63;

/// The bytes of the largest automaton, 32 states over 64 symbols.
pub const LARGEST_AUTOMATON: usize = 2_053;

/// In the place of a next state of an automaton: there is no move, and a string that comes there is rejected.
pub const GAP: u8 = 255;

/// The bytes of stack that a thread should have which calls [`search`], [`solve`], [`settle`], [`settle_by_index`], [`step`], [`perform`] or
/// [`perform_by_index`]: more than twice what they were measured to take. The threads that Rust makes have more.
pub const STACK: usize = 65_536;

/// The counts of a problem file.
#[derive(Clone, Copy, Debug, Default, PartialEq, Eq)]
pub struct Counts {
    pub symbols: usize,
    pub strings: usize,
    pub numbers: usize,
    pub automata: usize,
    pub constraints: usize,
}

impl Counts {
    /// The words of a table of this problem.
    pub fn words(&self) -> usize {
        64 * self.strings + self.numbers
    }

    /// How many steps there are: one for each constraint, then one for each string.
    pub fn steps(&self) -> usize {
        self.constraints + self.strings
    }

    /// The words of the index of this problem.
    pub fn index_words(&self) -> usize {
        2 * (self.strings + self.numbers)
    }
}

/// What [`settle`] answers.
#[derive(Clone, Copy, Debug, PartialEq, Eq)]
pub struct Settled {
    /// The rounds, the last included, which struck nothing.
    pub rounds: u32,
    /// Whether every variable still has a value.
    pub every_value: bool,
}

/// What [`settle_by_index`] answers.
#[derive(Clone, Copy, Debug, PartialEq, Eq)]
pub struct SettledByIndex {
    /// The steps run.
    pub steps: u32,
    /// Whether every variable still has a value.
    pub every_value: bool,
}

/// What [`search`] answers, each with the count of nodes visited.
#[derive(Clone, Copy, Debug, PartialEq, Eq)]
pub enum Outcome {
    /// The answer table holds the first solution.
    Found(u32),
    /// There is no solution; the count is the whole tree's.
    None(u32),
    /// The budget ended first; the count is the budget.
    Spent(u32),
}

// A slice's pointer is never null and always aligned, also where the slice is empty, and a slice that may be written is no part of another: with that, each
// call below meets all that the header asks of a caller.

/// The version of the archive that is linked: 10000 times the major part, 100 times the minor one, and the patch. It is this crate's version too.
pub fn version() -> u32 {
    unsafe { entries::cobleskeg_version() }
}

/// The counts of a problem file.
///
/// Refuses 1 to 8.
pub fn read(file: &[u8]) -> Result<Counts, Refusal> {
    let mut counts = Counts::default();
    let Counts { symbols, strings, numbers, automata, constraints } = &mut counts;
    Refusal::check(unsafe { entries::cobleskeg_read(file.as_ptr(), file.len(), symbols, strings, numbers, automata, constraints) })?;
    Ok(counts)
}

/// Writes the file's table into `table`.
///
/// Refuses 1 to 9.
pub fn unpack(file: &[u8], table: &mut [u64]) -> Result<(), Refusal> {
    Refusal::check(unsafe { entries::cobleskeg_unpack(file.as_ptr(), file.len(), table.as_mut_ptr(), table.len()) })
}

/// Narrows `table` by constraint `j`, or trims string `j - constraints` where `j` is not below the count of constraints. Answers the number of bits struck;
/// what is left of the variables that it names has support, and all else stays.
///
/// Refuses 1 to 11.
pub fn step(file: &[u8], j: usize, table: &mut [u64]) -> Result<u32, Refusal> {
    let mut struck = 0;
    Refusal::check(unsafe { entries::cobleskeg_step(file.as_ptr(), file.len(), j, table.as_mut_ptr(), table.len(), &mut struck) })?;
    Ok(struck)
}

/// Rounds of steps on `table`, each string trimmed and then each constraint taken in order, until a round strikes nothing.
///
/// Refuses 1 to 10.
pub fn settle(file: &[u8], table: &mut [u64]) -> Result<Settled, Refusal> {
    let (mut rounds, mut every_value) = (0, 0);
    Refusal::check(unsafe { entries::cobleskeg_settle(file.as_ptr(), file.len(), table.as_mut_ptr(), table.len(), &mut rounds, &mut every_value) })?;
    Ok(Settled { rounds, every_value: every_value != 0 })
}

/// Writes the index of the file into `index`: for each string and then each number two words, the low one first, in which bit j of the two together is 1 where
/// step j touches the variable. A constraint touches the strings and numbers among its arguments, a trimming its string.
///
/// Refuses 1 to 8, then 18.
pub fn index(file: &[u8], index: &mut [u64]) -> Result<(), Refusal> {
    Refusal::check(unsafe { entries::cobleskeg_index(file.as_ptr(), file.len(), index.as_mut_ptr(), index.len()) })
}

/// Leaves in `table` what [`settle`] would leave, mostly by fewer steps: all steps wait in the order of their numbers, the first is run, and where it struck
/// anything, every other step that shares a variable with it and is not waiting waits behind the others, the lowest number first; until none waits. `index` is
/// what [`index`](fn@index) writes for this file.
///
/// Refuses 1 to 10, then 18 and 19.
pub fn settle_by_index(file: &[u8], index: &[u64], table: &mut [u64]) -> Result<SettledByIndex, Refusal> {
    let (mut steps, mut every_value) = (0, 0);
    let (index_at, index_words, table_at, words) = (index.as_ptr(), index.len(), table.as_mut_ptr(), table.len());
    Refusal::check(unsafe {
        entries::cobleskeg_settle_by_index(file.as_ptr(), file.len(), index_at, index_words, table_at, words, &mut steps, &mut every_value)
    })?;
    Ok(SettledByIndex { steps, every_value: every_value != 0 })
}

/// Searches the file's problem for its first solution, within a budget of nodes. `room` has at least three times the words of `table`; so many of it are 0
/// afterwards, and those beyond are untouched. `table` is written only by [`Outcome::Found`].
///
/// Refuses 1 to 8, then 12 and 13.
pub fn search(file: &[u8], budget: u32, room: &mut [u64], table: &mut [u64]) -> Result<Outcome, Refusal> {
    let (mut outcome, mut nodes) = (0, 0);
    let (room_at, room_words, table_at, words) = (room.as_mut_ptr(), room.len(), table.as_mut_ptr(), table.len());
    Refusal::check(unsafe { entries::cobleskeg_search(file.as_ptr(), file.len(), budget, room_at, room_words, table_at, words, &mut outcome, &mut nodes) })?;
    Ok(match outcome {
        1 => Outcome::Found(nodes),
        2 => Outcome::None(nodes),
        3 => Outcome::Spent(nodes),
        other => unreachable!("the header has no outcome {other}"),
    })
}

/// A list of calls on one table, one after the other: a number is that of a step, or [`SETTLE`]. A call that is refused leaves `table` as it was, and the list
/// goes on; so nothing is refused here.
pub fn perform(file: &[u8], list: &[u32], table: &mut [u64]) {
    unsafe { entries::cobleskeg_perform(file.as_ptr(), file.len(), list.as_ptr(), list.len(), table.as_mut_ptr(), table.len()) }
}

/// The same with an index that is lent for all calls: a number is that of a step, [`SETTLE`], or [`SETTLE_BY_INDEX`]. A call that is refused, also for the
/// index, leaves `table` as it was, and the list goes on.
pub fn perform_by_index(file: &[u8], list: &[u32], index: &[u64], table: &mut [u64]) {
    let (index_at, index_words, table_at, words) = (index.as_ptr(), index.len(), table.as_mut_ptr(), table.len());
    unsafe { entries::cobleskeg_perform_by_index(file.as_ptr(), file.len(), list.as_ptr(), list.len(), index_at, index_words, table_at, words) }
}

/// Writes the automaton of a pattern over the symbols 0 to `symbols` - 1 to the start of `buffer`, as it stands in a problem file. Answers how many bytes it
/// has; those of `buffer` beyond are untouched, and [`LARGEST_AUTOMATON`] bytes are enough for every pattern. It accepts just the strings that the pattern
/// stands for.
///
/// The letters of a pattern are 0 to 9 for the symbols 0 to 9, `.` for 10, a to z for 11 to 36, `-` for 37 and `/` for 38. Branches are parted by `|`, items
/// stand side by side, an item is a letter or a pattern in round brackets, and one `*` may follow it, for any number of times; an empty branch stands for the
/// empty string.
///
/// Refuses 14 to 17.
pub fn compile(text: &[u8], symbols: usize, buffer: &mut [u8]) -> Result<usize, Refusal> {
    let mut written = 0;
    Refusal::check(unsafe { entries::cobleskeg_compile(text.as_ptr(), text.len(), symbols, buffer.as_mut_ptr(), buffer.len(), &mut written) })?;
    Ok(written)
}
