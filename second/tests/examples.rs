//! P1 to P14, by hand.

mod common;
use common::*;
use second::Outcome;

/// Step 0 of the draft must give these rows and numbers; answers the bits
/// struck, which must be the difference. Both methods are asked.
fn step_gives(draft: &Draft, rows: &[Row], numbers: &[u64]) -> u32 {
    step_j_gives(draft, 0, rows, numbers)
}

fn step_j_gives(draft: &Draft, j: u64, rows: &[Row], numbers: &[u64]) -> u32 {
    let file = draft.bytes();
    let before = draft.table();
    let wanted = table(rows, numbers);
    let mut after = before.clone();
    let struck = second::step(&file, j, &mut after).unwrap();
    assert_eq!(after, wanted);
    let fewer: u32 = before
        .iter()
        .zip(&after)
        .map(|(b, a)| (b & !a).count_ones())
        .sum();
    assert_eq!(struck, fewer);

    let mut tried = before.clone();
    let answer = second::step_by_enumeration(&file, j, &mut tried, 100_000).unwrap();
    assert_eq!(answer, Some(struck));
    assert_eq!(tried, wanted);
    struck
}

fn draft(rows: &[Row], numbers: &[u64], record: [u8; 4]) -> Draft {
    Draft {
        symbols: 4,
        rows: rows.to_vec(),
        numbers: numbers.to_vec(),
        constraints: vec![record],
        automata: vec![],
    }
}

#[test]
fn p1_trim() {
    let x = row(&[1, 2], &[&[0], &[]]);
    let problem = Draft {
        symbols: 4,
        rows: vec![x],
        ..Draft::default()
    };
    let struck = step_j_gives(&problem, 0, &[row(&[1], &[&[0]])], &[]);
    assert_eq!(struck, 1);
}

#[test]
fn p2_eq_of_paper_004() {
    let x = row(&[2, 3], &[&[1, 2, 3], &[3], &[1, 2, 3]]);
    let y = row(&[1, 2, 3], &[&[1, 2], &[1, 2], &[1, 2]]);
    let struck = step_gives(&draft(&[x, y], &[], [1, 0, 1, 0]), &[NOTHING, NOTHING], &[]);
    assert_eq!(struck, 18);
}

#[test]
fn p3_eq_only_empty() {
    let x = row(&[0, 2], &[&[0], &[1]]);
    let y = row(&[0, 1, 2], &[&[0], &[2]]);
    step_gives(
        &draft(&[x, y], &[], [1, 0, 1, 0]),
        &[just(&[]), just(&[])],
        &[],
    );
}

#[test]
fn p4_neq() {
    let x = row(&[1], &[&[0, 1]]);
    step_gives(
        &draft(&[x, just(&[0])], &[], [2, 0, 1, 0]),
        &[just(&[1]), just(&[0])],
        &[],
    );
}

#[test]
fn p5_neq_empty_string() {
    let x = row(&[0, 1], &[&[0]]);
    step_gives(
        &draft(&[x, just(&[])], &[], [2, 0, 1, 0]),
        &[just(&[0]), just(&[])],
        &[],
    );
}

#[test]
fn p6_neq_same() {
    step_gives(
        &draft(&[just(&[0]), just(&[0])], &[], [2, 0, 1, 0]),
        &[NOTHING, NOTHING],
        &[],
    );
}

#[test]
fn p7_rev() {
    let x = row(&[2], &[&[0], &[0, 1]]);
    let y = row(&[2], &[&[1, 2], &[0, 2]]);
    step_gives(
        &draft(&[x, y], &[], [3, 0, 1, 0]),
        &[just(&[0, 1]), just(&[1, 0])],
        &[],
    );
}

#[test]
fn p8_cat_keeps_the_last_symbol() {
    let rows = [just(&[0]), just(&[]), just(&[0])];
    let struck = step_gives(&draft(&rows, &[], [4, 0, 1, 2]), &rows, &[]);
    assert_eq!(struck, 0);
}

#[test]
fn p9_cat_one_split() {
    let x = row(&[0, 1], &[&[0]]);
    let y = row(&[0, 1], &[&[1]]);
    let z = row(&[1], &[&[1]]);
    step_gives(
        &draft(&[x, y, z], &[], [4, 0, 1, 2]),
        &[just(&[]), just(&[1]), just(&[1])],
        &[],
    );
}

#[test]
fn p10_sub() {
    let rows = [just(&[0, 1]), just(&[1])];
    let numbers = [set(&[0, 1, 2, 3])];
    step_gives(&draft(&rows, &numbers, [5, 0, 1, 0]), &rows, &[set(&[2])]);
}

/// Since request 2: "P11 then strikes nothing."
#[test]
fn p11_sub_of_nothing() {
    let rows = [just(&[]), just(&[])];
    let numbers = [set(&[1])];
    let struck = step_gives(&draft(&rows, &numbers, [5, 0, 1, 0]), &rows, &numbers);
    assert_eq!(struck, 0);
}

#[test]
fn p12_len() {
    let x = row(&[0, 3], &[&[0], &[0], &[0]]);
    step_gives(
        &draft(&[x], &[set(&[1, 3])], [6, 0, 0, 0]),
        &[just(&[0, 0, 0])],
        &[set(&[3])],
    );
}

#[test]
fn p13_regular() {
    let problem = Draft {
        symbols: 2,
        rows: vec![row(&[1, 2], &[&[0], &[0, 1]])],
        numbers: vec![],
        constraints: vec![[7, 0, 0, 0]],
        automata: vec![automaton(0b01, &[&[1, 0], &[0, 1]])],
    };
    step_gives(&problem, &[just(&[0, 0])], &[]);
}

#[test]
fn p14_search() {
    let by_draft = Draft {
        symbols: 2,
        rows: vec![
            row(&[1, 2], &[&[0, 1], &[0, 1]]),
            row(&[0, 1], &[&[1]]),
            row(&[2], &[&[0], &[0, 1]]),
        ],
        numbers: vec![set(&[0, 1, 2, 3])],
        constraints: vec![[4, 0, 1, 2], [6, 0, 0, 0]],
        automata: vec![],
    };
    let file = p14();
    assert_eq!(by_draft.bytes(), file);

    let words = 3 * 64 + 1;
    let solved = table(&[just(&[0]), just(&[1]), just(&[0, 1])], &[set(&[1])]);
    for budget in [0, 1, 2, 3, u32::MAX] {
        let mut room = vec![7; 3 * words + 5];
        let mut answer = vec![9; words];
        let outcome = second::search(&file, budget, &mut room, &mut answer).unwrap();
        if budget < 2 {
            assert_eq!(outcome, Outcome::Spent(budget));
            assert_eq!(answer, vec![9; words]);
        } else {
            assert_eq!(outcome, Outcome::Found(2));
            assert_eq!(answer, solved);
        }
        assert!(room[..3 * words].iter().all(|&w| w == 0));
        assert!(room[3 * words..].iter().all(|&w| w == 7));
    }
}
