//! Searches a problem file with the library and with the second solver, one after the other, and prints the answer and what a search takes in each, in
//! microseconds, parted by tabs: `speed FILE`. bench/against.py makes a table of it.

use std::process::ExitCode;
use std::time::{Duration, Instant};

const BUDGET: u32 = 65_536;
/// A solver searches again until it has taken this long in all, so that short searches are timed as well as long ones.
const LEAST: Duration = Duration::from_secs(2);

/// How a search ends, and the microseconds that it takes on average.
fn timed<T>(mut search: impl FnMut() -> T) -> (T, f64) {
    let start = Instant::now();
    let mut times = 0;
    loop {
        let ending = search();
        times += 1;
        let passed = start.elapsed();
        if passed >= LEAST {
            return (ending, passed.as_secs_f64() * 1e6 / f64::from(times));
        }
    }
}

/// The answer as the program prints it.
fn worded(answer: Result<second::Outcome, u8>) -> String {
    match answer {
        Ok(second::Outcome::Found(nodes)) => format!("found {nodes}"),
        Ok(second::Outcome::None(nodes)) => format!("none {nodes}"),
        Ok(second::Outcome::Spent(nodes)) => format!("spent {nodes}"),
        Err(number) => format!("refused {number}"),
    }
}

fn line(path: &str) -> Result<String, String> {
    let file = std::fs::read(path).map_err(|error| format!("{path}: {error}"))?;
    let words = cobleskeg::read(&file).map_err(|refusal| format!("{path}: {refusal}"))?.words();
    let (mut room, mut ours, mut theirs) = (vec![0; 3 * words], vec![0; words], vec![0; words]);
    let (answer, library) = timed(|| cobleskeg::search(&file, BUDGET, &mut room, &mut ours));
    let (other, second) = timed(|| second::search(&file, BUDGET, &mut room, &mut theirs));
    // The variants have the same names, so that their texts can be held against each other.
    if format!("{answer:?}") != format!("{other:?}") || ours != theirs {
        return Err(format!("{path}: the library says {answer:?}, the second solver {other:?}, or their tables differ"));
    }
    Ok(format!("{}\t{library}\t{second}", worded(other)))
}

fn main() -> ExitCode {
    let path = std::env::args().nth(1).unwrap_or_default();
    match line(&path) {
        Ok(line) => println!("{line}"),
        Err(line) => {
            eprintln!("speed: {line}");
            return ExitCode::FAILURE;
        }
    }
    ExitCode::SUCCESS
}
