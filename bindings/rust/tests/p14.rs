//! P14 of the scope paper through every function, with the answers that the paper gives, or that follow from it by hand.

mod common;
use cobleskeg::{perform, read, search, settle, solve, step, unpack, Answer, Counts, Outcome, Settled, SETTLE};
use common::{after_both, after_cat, p14, p14_table, solved, ROOM, WORDS};

#[test]
fn the_counts() {
    let counts = Counts { symbols: 2, strings: 3, numbers: 1, automata: 0, constraints: 2 };
    assert_eq!(read(&p14()), Ok(counts));
    assert_eq!((counts.words(), counts.steps()), (WORDS, 5));
}

#[test]
fn the_table() {
    let mut table = vec![7; WORDS];
    assert_eq!(unpack(&p14(), &mut table), Ok(()));
    assert_eq!(table, p14_table());
}

#[test]
fn the_steps() {
    let mut table = p14_table();
    assert_eq!(step(&p14(), 0, &mut table), Ok(1));
    assert_eq!(table, after_cat());
    assert_eq!(step(&p14(), 1, &mut table), Ok(2));
    assert_eq!(table, after_both());
    for j in 0..5 {
        assert_eq!(step(&p14(), j, &mut table), Ok(0));
    }
    assert_eq!(table, after_both());
}

#[test]
fn trimming() {
    let mut table = p14_table();
    table[3] = 0b1; // a symbol of X past its longest string
    assert_eq!(step(&p14(), 2, &mut table), Ok(1));
    assert_eq!(table, p14_table());
}

#[test]
fn the_rounds() {
    let mut table = p14_table();
    assert_eq!(settle(&p14(), &mut table), Ok(Settled { rounds: 2, every_value: true }));
    assert_eq!(table, after_both());
    assert_eq!(settle(&p14(), &mut table), Ok(Settled { rounds: 1, every_value: true }));
    // Z must be 1 long now, which nothing is.
    table[128] = 0b10;
    table[130] = 0;
    table[1] = 0;
    let emptied = settle(&p14(), &mut table).unwrap();
    assert!(!emptied.every_value);
    assert_eq!(table, vec![0; WORDS]);
}

#[test]
fn the_search_and_its_budgets() {
    for (budget, outcome) in [(0, Outcome::Spent(0)), (1, Outcome::Spent(1)), (2, Outcome::Found(2)), (u32::MAX, Outcome::Found(2))] {
        let (mut room, mut table) = (vec![7; ROOM + 5], vec![9; WORDS]);
        assert_eq!(search(&p14(), budget, &mut room, &mut table), Ok(outcome));
        assert_eq!(room[..ROOM], vec![0; ROOM]);
        assert_eq!(room[ROOM..], [7; 5]);
        assert_eq!(table, if budget < 2 { vec![9; WORDS] } else { solved() });
    }
}

#[test]
fn no_solution() {
    let mut file = p14();
    file[1032] = 0; // nothing at place 1 of Z
    let (mut room, mut table) = (vec![7; ROOM], vec![9; WORDS]);
    assert_eq!(search(&file, 9, &mut room, &mut table), Ok(Outcome::None(1)));
    assert_eq!((room, table), (vec![0; ROOM], vec![9; WORDS]));
    assert_eq!(solve(&file, 9), Ok(Answer::None { nodes: 1 }));
}

#[test]
fn lists_of_calls() {
    let lists: [(&[u32], Vec<u64>); 5] = [
        (&[], p14_table()),
        (&[0], after_cat()),
        (&[5, 1, SETTLE - 1, 0], after_both()),
        (&[SETTLE], after_both()),
        (&[SETTLE, 0, 1, 2, 3, 4, SETTLE], after_both()),
    ];
    for (list, after) in lists {
        let mut table = p14_table();
        perform(&p14(), list, &mut table);
        assert_eq!(table, after, "{list:?}");
    }
}

#[test]
fn the_answer_in_strings_and_numbers() {
    assert_eq!(solve(&p14(), 1), Ok(Answer::Spent { nodes: 1 }));
    let (strings, numbers) = (vec![vec![0], vec![1], vec![0, 1]], vec![1]);
    assert_eq!(solve(&p14(), 65_536), Ok(Answer::Found { nodes: 2, strings, numbers }));
}
