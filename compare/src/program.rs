//! Runs of the program, and the lines that it must print by the second solver's answer.

use crate::random::Random;
use crate::solution;
use crate::trees::Known;
use second::file::LARGEST_FILE;
use second::Outcome;
use std::io::{self, Write};
use std::path::Path;
use std::process::{Command, Stdio};
use std::thread::sleep;
use std::time::Duration;

const BUDGET: u32 = 65_536;

/// Long enough for a program that waits for input to take what there is.
const PAUSE: Duration = Duration::from_millis(1);

/// What is given to the program for a file: the file, or now and then bytes before it, up to the largest size or past it.
pub fn input(random: &mut Random, file: &[u8]) -> Vec<u8> {
    let size = *random.pick(&[0, 0, 0, 0, 0, 0, 0, LARGEST_FILE, LARGEST_FILE + 1, 100_000]);
    let before = size.saturating_sub(file.len());
    [vec![random.byte(); before], file.to_vec()].concat()
}

/// Where an input is cut into pieces: not at all, or at one to three places, of which one is often near an end.
pub fn cuts(random: &mut Random, bytes: usize) -> Vec<usize> {
    if !random.once_in(3) {
        return Vec::new();
    }
    let near = random.below(30).min(bytes);
    let mut cuts = vec![*random.pick(&[near, bytes - near])];
    cuts.extend((0..random.below(3)).map(|_| random.below(bytes + 1)));
    cuts.sort_unstable();
    cuts
}

/// What the program prints of an input that is given to it in pieces. A program that has read enough may close its input before all is written.
pub fn printed(program: &Path, input: &[u8], cuts: &[usize]) -> io::Result<String> {
    let mut child = Command::new(program).stdin(Stdio::piped()).stdout(Stdio::piped()).spawn()?;
    let mut to = child.stdin.take().expect("a piped input");
    let mut given = 0;
    for cut in cuts.iter().copied().chain([input.len()]) {
        if given > 0 {
            sleep(PAUSE);
        }
        match to.write_all(&input[given..cut]) {
            Err(trouble) if trouble.kind() != io::ErrorKind::BrokenPipe => return Err(trouble),
            _ => given = cut,
        }
    }
    drop(to);
    let output = child.wait_with_output()?;
    let status = if output.status.success() { String::new() } else { format!("{}\n", output.status) };
    Ok(String::from_utf8_lossy(&output.stdout).into_owned() + &status)
}

/// The lines of document 01 for a problem whose tree is known.
pub fn known_lines(known: &Known) -> String {
    listed(known.outcome(BUDGET), || solution::lines(known.solution.as_ref().map_or(&[], |solution| &solution.strings[..]), &[]))
}

fn listed(outcome: Outcome, solution: impl Fn() -> String) -> String {
    match outcome {
        Outcome::Found(nodes) => format!("found {nodes}\n{}", solution()),
        Outcome::None(nodes) => format!("none {nodes}\n"),
        Outcome::Spent(nodes) => format!("spent {nodes}\n"),
    }
}

/// The lines of document 01 for this input.
pub fn lines(input: &[u8]) -> String {
    if input.len() > LARGEST_FILE {
        return "refused 4\n".into();
    }
    let header = match second::read(input) {
        Ok(header) => header,
        Err(number) => return format!("refused {number}\n"),
    };
    let (mut room, mut table) = (vec![0; 3 * header.words()], vec![0; header.words()]);
    match second::search(input, BUDGET, &mut room, &mut table) {
        Ok(outcome) => listed(outcome, || {
            let (strings, numbers) = solution::values(&table, header.strings);
            solution::lines(&strings, &numbers)
        }),
        Err(number) => format!("refused {number}\n"),
    }
}

#[cfg(test)]
mod tests {
    use super::*;
    use crate::draft::{any, just, Draft};
    use crate::trees::Solution;

    #[test]
    fn the_lines_of_document_01() {
        let mut draft = Draft::over(3);
        draft.string(just(&[2, 0]));
        draft.string(just(&[]));
        draft.string(any(1, 2, 0b110));
        draft.number(0b1010);
        assert_eq!(lines(&draft.bytes()), "found 4\ns0 2 2 0\ns1 0\ns2 1 1\nn0 1\n");
        draft.neq(0, 1);
        draft.rows[0] = just(&[]);
        assert_eq!(lines(&draft.bytes()), "none 1\n");
        assert_eq!(lines(&[0; 23]), "refused 1\n");
        assert_eq!(lines(&[0; LARGEST_FILE + 1]), "refused 4\n");
    }

    #[test]
    fn the_lines_of_a_known_tree() {
        let solved = |node| Known { nodes: BUDGET + 2, solution: Some(Solution { node, strings: vec![vec![2, 2, 0]] }), ..Known::default() };
        assert_eq!(known_lines(&solved(9)), "found 9\ns0 3 2 2 0\n");
        assert_eq!(known_lines(&solved(BUDGET + 1)), "spent 65536\n");
        assert_eq!(known_lines(&Known { nodes: BUDGET, ..Known::default() }), "none 65536\n");
    }

    #[test]
    fn cuts_are_within_the_input() {
        let random = &mut Random::new(17, 0);
        for bytes in [0, 1, 24, 3000] {
            assert!((0..100).flat_map(|_| cuts(random, bytes)).all(|cut| cut <= bytes));
        }
    }
}
