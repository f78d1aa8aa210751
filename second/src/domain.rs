//! Words, rows and tables.

/// Word 0 holds the lengths, word i the symbols at place i.
pub type Row = [u64; 64];

pub const EMPTY: Row = [0; 64];

/// The word with the one bit `n`, `n` from 0 to 63.
pub fn bit(n: usize) -> u64 {
    1u64 << n
}

pub fn has(word: u64, n: usize) -> bool {
    word >> n & 1 == 1
}

/// The bits of a word, lowest first.
pub fn bits(word: u64) -> impl Iterator<Item = usize> {
    let mut left = word;
    std::iter::from_fn(move || {
        if left == 0 {
            return None;
        }
        let lowest = left.trailing_zeros() as usize;
        left &= !bit(lowest);
        Some(lowest)
    })
}

/// The highest bit of a word; 0 for the empty word.
pub fn highest(word: u64) -> usize {
    word.checked_ilog2().unwrap_or(0) as usize
}

/// Where number `n` stands in a table with this many strings.
pub fn number_place(strings: usize, n: usize) -> usize {
    64 * strings + n
}

/// A copy of the row of string `x`.
pub fn row(table: &[u64], x: usize) -> Row {
    let mut row = EMPTY;
    row.copy_from_slice(&table[64 * x..64 * x + 64]);
    row
}

/// The lengths that some string of the row has: those allowed, with no empty
/// place up to them.
pub fn possible_lengths(row: &Row) -> u64 {
    let mut possible = row[0] & bit(0);
    for l in 1..64 {
        if row[l] == 0 {
            break;
        }
        possible |= row[0] & bit(l);
    }
    possible
}

/// How many strings the row stands for, up to the greatest u128.
pub fn count_strings(row: &Row) -> u128 {
    let mut total: u128 = 0;
    let mut of_length: u128 = 1;
    for l in 0..64 {
        if l > 0 {
            of_length = of_length.saturating_mul(u128::from(row[l].count_ones()));
        }
        if has(row[0], l) {
            total = total.saturating_add(of_length);
        }
    }
    total
}

/// Whether a symbol word of the table has a bit at `symbols` or above.
pub fn has_foreign_symbol(table: &[u64], strings: usize, symbols: usize) -> bool {
    (0..strings).any(|x| {
        let row = row(table, x);
        (1..64).any(|i| symbols < 64 && row[i] >> symbols != 0)
    })
}

/// What a step keeps: a row for each string of its relation, in the
/// relation's order, and the values of its number, if it has one.
#[derive(Clone, Debug, PartialEq, Eq)]
pub struct Kept {
    pub rows: Vec<Row>,
    pub number: u64,
}

/// Strikes from the named strings and number all that is not kept; answers
/// the bits struck.
pub fn strike(
    table: &mut [u64],
    strings: &[usize],
    number_place: Option<usize>,
    kept: &Kept,
) -> u32 {
    let mut struck = 0;
    for (&x, row) in strings.iter().zip(&kept.rows) {
        for i in 0..64 {
            struck += narrow(&mut table[64 * x + i], row[i]);
        }
    }
    if let Some(place) = number_place {
        struck += narrow(&mut table[place], kept.number);
    }
    struck
}

/// Leaves only the kept bits of a word; answers how many others it had.
fn narrow(word: &mut u64, kept: u64) -> u32 {
    let struck = (*word & !kept).count_ones();
    *word &= kept;
    struck
}
