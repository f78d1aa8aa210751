//! The proved library against the second solver, on generated problems and on generated texts of patterns.
//!
//!     compare [--cases N] [--patterns N] [--seed S] [--only INDEX] [--only-pattern INDEX] [--program PATH] [--threads T] [--trace]
//!
//! Each case is one problem file with many calls of every entry but Compile, and each pattern is one text that Compile is called with; each is made from the
//! seed and its index alone, so that `--only` and `--only-pattern` repeat it. There are four patterns for ten cases, where nothing is said. Some cases also go
//! through the program at PATH. A disagreement is printed, its file is left in target/compare-failure.problem or its text in target/compare-failure.pattern,
//! and the exit status is 1; so it is if some refusal, outcome, kind of case or text, kind of constraint, sort of automaton or of index, or event that is far from most cases
//! or texts never came up. Should the library end the process, as by touching a page beside what it was lent, that is printed as a disagreement too;
//! `--only` and `--only-pattern` then leave the file or the text.

mod by_crate;
mod by_index;
mod calls;
mod case;
mod check;
mod damage;
mod disagreement;
mod draft;
mod drive;
mod ended;
/// The declarations of the crate over the archive: called as they stand, they show what a refused call writes. The version alone is not called, since the
/// second solver has none.
#[allow(dead_code)]
#[path = "../../bindings/rust/src/entries.rs"]
mod entries;
mod gaps;
mod generate;
mod hard;
mod kind;
mod late;
mod lent;
mod locks;
mod marked;
mod measure;
mod noise;
mod oversized;
mod pages;
mod patterns;
mod program;
mod random;
mod rules;
mod solution;
mod suffix;
mod tables;
mod tally;
mod templates;
mod trees;

use case::Case;
use disagreement::{Compared, Disagreement};
use lent::Memory;
use patterns::Text;
use std::panic::{catch_unwind, AssertUnwindSafe};
use std::path::PathBuf;
use std::process::ExitCode;
use std::sync::atomic::{AtomicBool, AtomicU64, Ordering};
use std::sync::Mutex;
use tally::Tally;

const USAGE: &str = "compare [--cases N] [--patterns N] [--seed S] [--only INDEX] [--only-pattern INDEX] [--program PATH] [--threads T] [--trace]";
const FAILURE: &str = "target/compare-failure";

/// What is compared: a problem file with its calls, or the text of a pattern.
#[derive(Clone, Copy, PartialEq, Eq, PartialOrd, Ord)]
enum Item {
    Case(u64),
    Pattern(u64),
}

impl Item {
    fn name(self) -> (&'static str, u64) {
        match self {
            Item::Case(index) => ("case", index),
            Item::Pattern(index) => ("pattern", index),
        }
    }
}

struct Arguments {
    cases: u64,
    patterns: u64,
    seed: u64,
    only: Option<Item>,
    program: Option<PathBuf>,
    threads: usize,
    trace: bool,
}

fn arguments() -> Result<Arguments, String> {
    let threads = std::thread::available_parallelism().map_or(1, usize::from);
    let mut given = Arguments { cases: 50_000, patterns: 0, seed: 1, only: None, program: None, threads, trace: false };
    let mut patterns = None;
    let mut words = std::env::args().skip(1);
    while let Some(word) = words.next() {
        if word == "--trace" {
            given.trace = true;
            continue;
        }
        let value = words.next().ok_or(format!("{word} needs a value"))?;
        let number = || value.parse::<u64>().map_err(|_| format!("{word} needs a number, not {value}"));
        match word.as_str() {
            "--cases" => given.cases = number()?,
            "--patterns" => patterns = Some(number()?),
            "--seed" => given.seed = number()?,
            "--only" => given.only = Some(Item::Case(number()?)),
            "--only-pattern" => given.only = Some(Item::Pattern(number()?)),
            "--program" => given.program = Some(value.into()),
            "--threads" => given.threads = number()?.max(1) as usize,
            _ => return Err(format!("there is no {word}")),
        }
    }
    // A text takes a small part of the time that a case takes.
    given.patterns = patterns.unwrap_or(given.cases / 5 * 2);
    Ok(given)
}

/// The cases and then the patterns of all threads: which is next, what was counted, and the failures.
#[derive(Default)]
struct Run {
    next: AtomicU64,
    failed: AtomicBool,
    tally: Mutex<Tally>,
    failures: Mutex<Vec<(Item, Disagreement)>>,
}

impl Run {
    /// Takes cases and patterns until there are no more, or one has failed.
    fn work(&self, given: &Arguments) {
        let (mut tally, memory) = (Tally::default(), Memory::new());
        while !self.failed.load(Ordering::Relaxed) {
            let next = self.next.fetch_add(1, Ordering::Relaxed);
            if next >= given.cases + given.patterns {
                break;
            }
            let (item, count) = match next.checked_sub(given.cases) {
                None => (Item::Case(next), given.cases),
                Some(index) => (Item::Pattern(index), given.patterns),
            };
            let (name, index) = item.name();
            if given.trace || index > 0 && index % 100_000 == 0 {
                eprintln!("compare: {name} {index} of {count}");
            }
            if let Err(disagreement) = compared(given, item, &memory, &mut tally) {
                self.failed.store(true, Ordering::Relaxed);
                self.failures.lock().expect("no thread panics").push((item, disagreement));
            }
        }
        self.tally.lock().expect("no thread panics").add(&tally);
    }
}

/// One case or pattern. The library cannot panic; the second solver could, and that counts as a disagreement.
fn compared(given: &Arguments, item: Item, memory: &Memory, tally: &mut Tally) -> Compared<()> {
    let compare = || {
        let (name, index) = item.name();
        match item {
            Item::Case(_) => {
                let mut case = Case::new(given.seed, index);
                ended::at(name, index, case.kind.name());
                case.compare(given.program.as_deref(), memory, tally)
            }
            Item::Pattern(_) => {
                let mut text = Text::new(given.seed, index);
                ended::at(name, index, text.kind.name());
                text.compare(memory, &mut tally.texts)
            }
        }
    };
    catch_unwind(AssertUnwindSafe(compare)).unwrap_or_else(|_| {
        let theirs = "the second solver, or the comparison, panicked: see above".into();
        Err(Disagreement { call: "some call".into(), ours: String::new(), theirs, word: None })
    })
}

/// Prints a failure and leaves its file or text.
fn report(given: &Arguments, item: Item, disagreement: &Disagreement) {
    let Disagreement { call, ours, theirs, word } = disagreement;
    let (name, index) = item.name();
    let (kind, left) = leave(given.seed, item);
    println!("compare: {name} {index} of seed {} disagrees", given.seed);
    println!("  kind:          {kind}");
    println!("  call:          {call}");
    println!("  proved:        {ours}");
    println!("  second solver: {theirs}");
    if let Some(word) = word {
        println!("  first difference (proved, second solver): {word}");
    }
    println!("{left}");
}

/// Leaves the file or the text to be looked at; answers its kind, and a line that says where it is or why not.
fn leave(seed: u64, item: Item) -> (&'static str, String) {
    let left = |path: String, bytes: &[u8]| match std::fs::create_dir_all("target").and_then(|()| std::fs::write(&path, bytes)) {
        Ok(()) => format!("{path}, {} bytes", bytes.len()),
        Err(trouble) => format!("{path} cannot be written: {trouble}"),
    };
    match item {
        Item::Case(index) => {
            let case = Case::new(seed, index);
            (case.kind.name(), format!("  file:          {}", left(format!("{FAILURE}.problem"), &case.file)))
        }
        Item::Pattern(index) => {
            let text = Text::new(seed, index);
            (text.kind.name(), format!("  text:          {}: {}", left(format!("{FAILURE}.pattern"), &text.text), text.shown()))
        }
    }
}

/// One case or pattern again. Its file or text is left first, since the library may end the process.
fn only(given: &Arguments, item: Item) -> bool {
    leave(given.seed, item);
    let (name, index) = item.name();
    match compared(given, item, &Memory::new(), &mut Tally::default()) {
        Ok(()) => println!("compare: {name} {index} of seed {} agrees", given.seed),
        Err(ref disagreement) => {
            report(given, item, disagreement);
            return false;
        }
    }
    true
}

/// All cases and patterns. The failure with the lowest index is reported; where there is none, everything must have come up.
fn all(given: &Arguments) -> bool {
    let run = Run::default();
    std::thread::scope(|scope| {
        for _ in 0..given.threads {
            scope.spawn(|| run.work(given));
        }
    });
    let failures = run.failures.into_inner().expect("no thread panics");
    if let Some((item, disagreement)) = failures.iter().min_by_key(|(item, _)| *item) {
        report(given, *item, disagreement);
        return false;
    }
    everything_came_up(given, &run.tally.into_inner().expect("no thread panics"))
}

/// Prints the counts, and what never came up of that which was asked for.
fn everything_came_up(given: &Arguments, tally: &Tally) -> bool {
    let program = given.program.is_some();
    let mut missing = Vec::new();
    if given.cases > 0 {
        println!("compare: seed {}: {}", given.seed, tally.line(program));
        missing.extend(tally.missing(program));
    }
    if given.patterns > 0 {
        println!("compare: seed {}: {}", given.seed, tally.line_of_texts());
        missing.extend(tally.missing_in_texts());
    }
    if !missing.is_empty() {
        println!("compare: never came up: {}", missing.join(", "));
    }
    missing.is_empty()
}

fn main() -> ExitCode {
    let given = match arguments() {
        Ok(given) => given,
        Err(wrong) => {
            eprintln!("compare: {wrong}; called as: {USAGE}");
            return ExitCode::from(2);
        }
    };
    ended::watch(given.seed);
    let agree = match given.only {
        Some(item) => only(&given, item),
        None => all(&given),
    };
    ExitCode::from(u8::from(!agree))
}
