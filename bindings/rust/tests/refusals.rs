//! Each refusal by its number, and that it leaves what was lent.

mod common;
use cobleskeg::{index, perform, perform_by_index, read, search, settle, settle_by_index, solve, step, unpack};
use cobleskeg::{Answer, Counts, Outcome, Refusal, Settled, SETTLE, SETTLE_BY_INDEX};
use common::{bare, p14, p14_table, P14_INDEX, ROOM, WORDS};

fn number<T: std::fmt::Debug>(answer: Result<T, Refusal>) -> u8 {
    answer.expect_err("it must refuse").number()
}

/// A file that each of the refusals 1 to 8 is the first for.
fn refused_files() -> Vec<(u8, Vec<u8>)> {
    let trailer = p14().len() - 24;
    let changed = |at: usize, byte: u8| {
        let mut file = p14();
        file[at] = byte;
        file
    };
    vec![
        (1, p14()[trailer + 1..].to_vec()),
        (1, vec![]),
        (2, changed(trailer + 20, b't')),
        (3, changed(trailer, 65)),
        (4, changed(trailer + 12, 9)),
        (5, changed(trailer + 3, 1)),
        (6, changed(8, 0b111)),
        (7, changed(1544, 8)),
        (8, changed(1546, 0)),
    ]
}

#[test]
fn refused_files_1_to_8() {
    for (n, file) in refused_files() {
        let (mut table, mut room, mut words) = (p14_table(), vec![7; ROOM], [7; 1]);
        assert_eq!(number(read(&file)), n);
        assert_eq!(number(unpack(&file, &mut table)), n);
        assert_eq!(number(step(&file, 0, &mut table)), n);
        assert_eq!(number(settle(&file, &mut table)), n);
        assert_eq!(number(index(&file, &mut words)), n);
        assert_eq!(number(settle_by_index(&file, &words, &mut table)), n);
        assert_eq!(number(search(&file, 9, &mut room, &mut table)), n);
        assert_eq!(number(solve(&file, 9)), n);
        perform(&file, &[0, SETTLE], &mut table);
        perform_by_index(&file, &[SETTLE_BY_INDEX, 0], &P14_INDEX, &mut table);
        assert_eq!((table, room, words), (p14_table(), vec![7; ROOM], [7]));
    }
}

#[test]
fn refusal_9() {
    for words in [0, 1, WORDS - 1, WORDS + 1] {
        let mut table = vec![1; words];
        assert_eq!(number(unpack(&p14(), &mut table)), 9);
        assert_eq!(number(step(&p14(), 99, &mut table)), 9);
        assert_eq!(number(settle(&p14(), &mut table)), 9);
        perform(&p14(), &[SETTLE, 0], &mut table);
        assert_eq!(table, vec![1; words]);
    }
}

#[test]
fn refusal_10() {
    let mut foreign = p14_table();
    foreign[191] = 0b100;
    let mut table = foreign.clone();
    assert_eq!(number(step(&p14(), 99, &mut table)), 10);
    assert_eq!(number(settle(&p14(), &mut table)), 10);
    perform(&p14(), &[SETTLE, 0], &mut table);
    assert_eq!(table, foreign);
    assert_eq!(unpack(&p14(), &mut table), Ok(()));
}

#[test]
fn refusal_11() {
    let mut table = p14_table();
    for j in [5, 6, 1 << 16, 1 << 32, (1 << 32) + 1, usize::MAX] {
        assert_eq!(number(step(&p14(), j, &mut table)), 11);
    }
    assert_eq!(table, p14_table());
}

#[test]
fn refusals_12_and_13() {
    for (room_words, words, n) in [(ROOM - 1, WORDS, 12), (0, WORDS - 1, 12), (ROOM, WORDS - 1, 13), (ROOM, WORDS + 1, 13), (ROOM + 1, 0, 13)] {
        let (mut room, mut table) = (vec![7; room_words], vec![9; words]);
        assert_eq!(number(search(&p14(), 9, &mut room, &mut table)), n);
        assert_eq!((room, table), (vec![7; room_words], vec![9; words]));
    }
}

/// Slices of length 0 go through every function: here they are what the problem asks for.
#[test]
fn empty_slices() {
    assert_eq!(read(&bare()), Ok(Counts { symbols: 2, ..Counts::default() }));
    assert_eq!(unpack(&bare(), &mut []), Ok(()));
    assert_eq!(number(step(&bare(), 0, &mut [])), 11);
    assert_eq!(settle(&bare(), &mut []), Ok(Settled { rounds: 1, every_value: true }));
    assert_eq!(search(&bare(), 1, &mut [], &mut []), Ok(Outcome::Found(1)));
    assert_eq!(search(&bare(), 0, &mut [], &mut []), Ok(Outcome::Spent(0)));
    perform(&bare(), &[], &mut []);
    perform(&[], &[], &mut []);
    assert_eq!(solve(&bare(), 1), Ok(Answer::Found { nodes: 1, strings: vec![], numbers: vec![] }));
    assert_eq!(number(search(&[], 1, &mut [], &mut [])), 1);
}

#[test]
fn a_refusal_says_what_it_means() {
    let refusal = read(&[]).unwrap_err();
    assert_eq!(refusal.to_string(), "refused 1: the file has less than 24 bytes");
    let refusal = step(&p14(), 5, &mut p14_table()).unwrap_err();
    assert_eq!(refusal.to_string(), "refused 11: there is no step of this number");
}
