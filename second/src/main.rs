//! Reads one problem from standard input, searches, and prints the outcome.

use second::domain::{bits, highest, number_place};
use second::file::LARGEST_FILE;
use second::{read, search, Header, Outcome};
use std::io::{self, Read, Write};
use std::process::ExitCode;

const BUDGET: u32 = 65_536;

fn main() -> ExitCode {
    let mut input = Vec::new();
    // One byte more than the largest file is enough to know.
    let mut source = io::stdin().lock().take(LARGEST_FILE as u64 + 1);
    if source.read_to_end(&mut input).is_err() {
        return ExitCode::FAILURE;
    }
    match io::stdout().write_all(report(&input).as_bytes()) {
        Ok(()) => ExitCode::SUCCESS,
        Err(_) => ExitCode::FAILURE,
    }
}

fn report(input: &[u8]) -> String {
    if input.len() > LARGEST_FILE {
        return refused(4);
    }
    let header = match read(input) {
        Ok(header) => header,
        Err(number) => return refused(number),
    };
    let mut room = vec![0; 3 * header.words()];
    let mut table = vec![0; header.words()];
    match search(input, BUDGET, &mut room, &mut table) {
        Ok(Outcome::Found(count)) => format!("found {count}\n{}", listing(&header, &table)),
        Ok(Outcome::None(count)) => format!("none {count}\n"),
        Ok(Outcome::Spent(count)) => format!("spent {count}\n"),
        Err(number) => refused(number),
    }
}

fn refused(number: u8) -> String {
    format!("refused {number}\n")
}

/// The lines for the strings and numbers of a solved table.
fn listing(header: &Header, table: &[u64]) -> String {
    let mut text = String::new();
    for x in 0..header.strings {
        let row = &table[64 * x..64 * x + 64];
        let length = highest(row[0]);
        text += &format!("s{x} {length}");
        for i in 1..=length {
            for symbol in bits(row[i]) {
                text += &format!(" {symbol}");
            }
        }
        text += "\n";
    }
    for n in 0..header.numbers {
        let value = highest(table[number_place(header.strings, n)]);
        text += &format!("n{n} {value}\n");
    }
    text
}
