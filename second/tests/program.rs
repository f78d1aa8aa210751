//! The program itself.

mod common;
use common::*;
use std::io::Write;
use std::process::{Command, Stdio};

fn run(input: &[u8]) -> String {
    let mut child = Command::new(env!("CARGO_BIN_EXE_second"))
        .stdin(Stdio::piped())
        .stdout(Stdio::piped())
        .spawn()
        .unwrap();
    // The program may stop reading early.
    let _ = child.stdin.take().unwrap().write_all(input);
    String::from_utf8(child.wait_with_output().unwrap().stdout).unwrap()
}

#[test]
fn p14_listing() {
    assert_eq!(run(&p14()), "found 2\ns0 1 0\ns1 1 1\ns2 2 0 1\nn0 1\n");
}

#[test]
fn nothing_to_find() {
    // 24 bytes: no variables, no constraints.
    let mut draft = Draft {
        symbols: 1,
        ..Draft::default()
    };
    assert_eq!(draft.bytes().len(), 24);
    assert_eq!(run(&draft.bytes()), "found 1\n");
    assert_eq!(run(&draft.bytes()[1..]), "refused 1\n");
    draft.symbols = 64;
    assert_eq!(run(&draft.bytes()), "found 1\n");
    draft.symbols = 65;
    assert_eq!(run(&draft.bytes()), "refused 3\n");
    assert_eq!(run(&[]), "refused 1\n");
    assert_eq!(run(&[0; 24]), "refused 2\n");
}

#[test]
fn empty_and_long_strings() {
    let mut long = [set(&[63]); 64];
    long[0] = set(&[63]);
    let mut free = [u64::MAX; 64];
    free[0] = set(&[0, 63]);
    let mut draft = Draft {
        symbols: 64,
        rows: vec![just(&[]), long, free],
        numbers: vec![set(&[0]), set(&[63, 7])],
        ..Draft::default()
    };
    let line = format!("s1 63{}\n", " 63".repeat(63));
    assert_eq!(
        run(&draft.bytes()),
        format!("found 3\ns0 0\n{line}s2 0\nn0 0\nn1 7\n")
    );
    // Eq takes the long one over.
    draft.constraints = vec![[1, 1, 2, 0]];
    let other = format!("s2 63{}\n", " 63".repeat(63));
    assert_eq!(
        run(&draft.bytes()),
        format!("found 2\ns0 0\n{line}{other}n0 0\nn1 7\n")
    );
}

#[test]
fn sixteen_and_seventeen_strings() {
    let mut draft = Draft {
        symbols: 1,
        rows: vec![just(&[0]); 16],
        ..Draft::default()
    };
    let lines: String = (0..16).map(|x| format!("s{x} 1 0\n")).collect();
    assert_eq!(run(&draft.bytes()), format!("found 1\n{lines}"));
    draft.rows.push(just(&[0]));
    assert_eq!(run(&draft.bytes()), "refused 3\n");
}

#[test]
fn none_and_spent() {
    let mut draft = Draft {
        symbols: 4,
        rows: vec![NOTHING],
        ..Draft::default()
    };
    assert_eq!(run(&draft.bytes()), "none 1\n");
    draft.rows = vec![just(&[0]); 2];
    draft.constraints = vec![[2, 0, 1, 0]];
    assert_eq!(run(&draft.bytes()), "none 1\n");

    // Three strings of one of two symbols, all different: two dead children.
    draft.rows = vec![row(&[1], &[&[0, 1]]); 3];
    draft.constraints = vec![[2, 0, 1, 0], [2, 0, 2, 0], [2, 1, 2, 0]];
    assert_eq!(run(&draft.bytes()), "none 3\n");

    // Ten pigeons in nine holes cannot be seen without a large tree.
    draft.symbols = 9;
    draft.rows = vec![row(&[1], &[&[0, 1, 2, 3, 4, 5, 6, 7, 8]]); 10];
    draft.constraints.clear();
    for x in 0..10 {
        for y in 0..x {
            draft.constraints.push([2, x, y, 0]);
        }
    }
    assert_eq!(run(&draft.bytes()), "spent 65536\n");
}

#[test]
fn refused_records() {
    let mut draft = Draft {
        symbols: 2,
        rows: vec![just(&[0]); 2],
        ..Draft::default()
    };
    draft.constraints = vec![[1, 0, 0, 0]];
    assert_eq!(run(&draft.bytes()), "refused 8\n");
    draft.constraints.push([1, 0, 2, 0]);
    assert_eq!(run(&draft.bytes()), "refused 7\n");
    draft.rows[1][63] = 4;
    assert_eq!(run(&draft.bytes()), "refused 6\n");
}

/// The largest file: everything as many as can be.
#[test]
fn largest_file() {
    let mut full = [u64::MAX; 64];
    full[0] = 1;
    let mut states = vec![32u8, 1, 0, 0, 0];
    states.extend([0; 2048]);
    let draft = Draft {
        symbols: 64,
        rows: vec![full; 16],
        numbers: vec![1; 16],
        constraints: (0..64).map(|j| [6, j % 16, j % 16, 0]).collect(),
        automata: vec![states; 8],
    };
    let file = draft.bytes();
    assert_eq!(file.len(), 25_024);
    let mut lines = String::from("found 1\n");
    for x in 0..16 {
        lines += &format!("s{x} 0\n");
    }
    for n in 0..16 {
        lines += &format!("n{n} 0\n");
    }
    assert_eq!(run(&file), lines);

    // One byte more is refusal 4, whatever the end holds.
    let mut longer = file.clone();
    longer.push(0);
    assert_eq!(run(&longer), "refused 4\n");
    let mut longer = vec![0];
    longer.extend(&file);
    assert_eq!(run(&longer), "refused 4\n");
    assert_eq!(run(&[0; 25_025]), "refused 4\n");
    assert_eq!(run(&[0; 25_024]), "refused 2\n");
    assert_eq!(run(&vec![0; 1_000_000]), "refused 4\n");
}
