//! Solutions as tables, as strings and numbers, and as the lines of document 01.

use second::domain::highest;

/// The strings and numbers of a table that stands for one of each.
pub fn values(table: &[u64], strings: usize) -> (Vec<Vec<u8>>, Vec<u8>) {
    let value = |word: u64| highest(word) as u8;
    let (rows, numbers) = table.split_at(64 * strings);
    let string = |row: &[u64]| (1..=highest(row[0])).map(|i| value(row[i])).collect();
    (rows.chunks(64).map(string).collect(), numbers.iter().map(|&word| value(word)).collect())
}

/// A line for each string and each number.
pub fn lines(strings: &[Vec<u8>], numbers: &[u8]) -> String {
    let mut text = String::new();
    for (x, string) in strings.iter().enumerate() {
        let symbols: String = string.iter().map(|symbol| format!(" {symbol}")).collect();
        text += &format!("s{x} {}{symbols}\n", string.len());
    }
    for (n, value) in numbers.iter().enumerate() {
        text += &format!("n{n} {value}\n");
    }
    text
}
