//! The index and the settle that uses it: on P14 by hand, on a file with steps past 63, each refusal at its boundary, and lists of calls.

mod common;
use cobleskeg::{index, perform, perform_by_index, read, settle, settle_by_index, unpack, BuildError, Builder, Refusal, Row, SettledByIndex, Values};
use cobleskeg::{LARGEST_INDEX, SETTLE, SETTLE_BY_INDEX};
use common::{after_both, after_cat, bare, p14, p14_table, P14_INDEX, WORDS};

fn number<T: std::fmt::Debug>(answer: Result<T, Refusal>) -> u8 {
    answer.expect_err("it must refuse").number()
}

/// The index of Cat(X, Y, Z) and Len(Y, number).
fn another_index() -> [u64; 8] {
    [0b101, 0, 0b1011, 0, 0b10001, 0, 0b10, 0]
}

#[test]
fn the_index_of_p14() {
    let mut words = [7; 8];
    assert_eq!(index(&p14(), &mut words), Ok(()));
    assert_eq!(words, P14_INDEX);
    assert_eq!(read(&p14()).unwrap().index_words(), 8);
}

/// Cat strikes while all others wait; Len strikes, and Cat waits again behind the three trimmings. Settled, each step is run once.
#[test]
fn the_steps_of_p14() {
    let mut table = p14_table();
    assert_eq!(settle_by_index(&p14(), &P14_INDEX, &mut table), Ok(SettledByIndex { steps: 6, every_value: true }));
    assert_eq!(table, after_both());
    assert_eq!(settle_by_index(&p14(), &P14_INDEX, &mut table), Ok(SettledByIndex { steps: 5, every_value: true }));
    assert_eq!(table, after_both());
    let mut by_rounds = p14_table();
    settle(&p14(), &mut by_rounds).unwrap();
    assert_eq!(table, by_rounds);
}

/// Cat strikes, Len takes all of X, Cat takes all else behind the trimmings, and the four others are run once more.
#[test]
fn it_goes_on_without_a_value() {
    let mut table = p14_table();
    table[WORDS - 1] = 0;
    assert_eq!(settle_by_index(&p14(), &P14_INDEX, &mut table), Ok(SettledByIndex { steps: 10, every_value: false }));
    assert_eq!(table, vec![0; WORDS]);
}

/// 16 strings and 64 constraints: Eq(14, 15), then Len(15, number) 63 times. The first Len strikes, and Eq waits again behind all others; then Eq strikes, and all
/// that touch string 14 or 15 wait again: 80, 1, and 63 constraints with two trimmings.
#[test]
fn every_step_up_to_79() -> Result<(), BuildError> {
    let mut problem = Builder::new(1)?;
    let short = Row::new(Values::of([1, 2])?, Values::of([0])?);
    let strings = (0..16).map(|_| problem.string(short)).collect::<Result<Vec<_>, _>>()?;
    let n = problem.number(Values::of([1])?)?;
    problem.eq(strings[14], strings[15])?;
    for _ in 1..64 {
        problem.len(strings[15], n)?;
    }
    let file = problem.file();
    let counts = read(&file).unwrap();
    let (mut words, mut table) = ([7; LARGEST_INDEX], vec![0; counts.words()]);
    let words = &mut words[..counts.index_words()];
    index(&file, words).unwrap();
    let trimmings: Vec<u64> = (0..14).flat_map(|x| [0, 1 << x]).collect();
    assert_eq!(words, [&trimmings[..], &[1, 1 << 14, u64::MAX, 1 << 15, u64::MAX - 1, 0]].concat());
    unpack(&file, &mut table).unwrap();
    let mut by_rounds = table.clone();
    assert_eq!(settle_by_index(&file, words, &mut table), Ok(SettledByIndex { steps: 146, every_value: true }));
    settle(&file, &mut by_rounds).unwrap();
    assert_eq!(table, by_rounds);
    Ok(())
}

#[test]
fn no_variable() {
    assert_eq!(index(&bare(), &mut []), Ok(()));
    assert_eq!(settle_by_index(&bare(), &[], &mut []), Ok(SettledByIndex { steps: 0, every_value: true }));
    perform_by_index(&bare(), &[], &[], &mut []);
    perform_by_index(&[], &[], &[], &mut []);
    assert_eq!(number(index(&bare(), &mut [7])), 18);
    assert_eq!(number(settle_by_index(&bare(), &[0], &mut [])), 18);
}

/// Files that the refusals 1 to 8 are the first for are in refusals.rs.
#[test]
fn refusal_18() {
    for words in [0, 4, 7, 9, 16] {
        let (mut index_words, mut table) = (vec![7; words], p14_table());
        assert_eq!(number(index(&p14(), &mut index_words)), 18);
        assert_eq!(index_words, vec![7; words]);
        assert_eq!(number(settle_by_index(&p14(), &index_words, &mut table)), 18);
        assert_eq!(table, p14_table());
    }
    let refusal = index(&p14(), &mut []).unwrap_err();
    assert_eq!(refusal.to_string(), "refused 18: the index has not two words for each variable of the problem");
}

#[test]
fn refusal_19() {
    let mut table = p14_table();
    assert_eq!(number(settle_by_index(&p14(), &another_index(), &mut table)), 19);
    assert_eq!(number(settle_by_index(&p14(), &[0; 8], &mut table)), 19);
    for (place, bit) in (0..8).flat_map(|place| [(place, 0), (place, 1), (place, 63)]) {
        let mut words = P14_INDEX;
        words[place] ^= 1 << bit;
        assert_eq!(number(settle_by_index(&p14(), &words, &mut table)), 19, "bit {bit} of word {place}");
    }
    assert_eq!(table, p14_table());
    let refusal = settle_by_index(&p14(), &[0; 8], &mut table).unwrap_err();
    assert_eq!(refusal.to_string(), "refused 19: the words of the index are not the index of this file");
}

#[test]
fn the_table_comes_before_the_index() {
    for words in [0, WORDS - 1, WORDS + 1] {
        let mut table = vec![1; words];
        for index in [&P14_INDEX[..], &P14_INDEX[..7], &another_index()] {
            assert_eq!(number(settle_by_index(&p14(), index, &mut table)), 9);
        }
        assert_eq!(table, vec![1; words]);
    }
    let mut foreign = p14_table();
    foreign[191] = 0b100;
    let mut table = foreign.clone();
    for index in [&P14_INDEX[..], &P14_INDEX[..7], &another_index()] {
        assert_eq!(number(settle_by_index(&p14(), index, &mut table)), 10);
        perform_by_index(&p14(), &[SETTLE_BY_INDEX, SETTLE, 0], index, &mut table);
    }
    assert_eq!(table, foreign);
}

#[test]
fn lists_of_calls() {
    let (one, other) = (P14_INDEX, another_index());
    let lists: [(&[u32], &[u64], Vec<u64>); 8] = [
        (&[], &one, p14_table()),
        (&[SETTLE_BY_INDEX], &one, after_both()),
        (&[SETTLE_BY_INDEX], &other, p14_table()),
        (&[SETTLE_BY_INDEX, 0, SETTLE_BY_INDEX], &one[..7], after_cat()),
        (&[1, SETTLE_BY_INDEX, 0], &other, after_both()),
        (&[SETTLE], &other, after_both()),
        (&[5, SETTLE_BY_INDEX - 1], &one, p14_table()),
        (&[SETTLE_BY_INDEX, 0, 1, 2, 3, 4, SETTLE, SETTLE_BY_INDEX], &one, after_both()),
    ];
    for (list, index, after) in lists {
        let mut table = p14_table();
        perform_by_index(&p14(), list, index, &mut table);
        assert_eq!(table, after, "{list:?} {index:?}");
    }
    let mut table = p14_table();
    perform(&p14(), &[SETTLE_BY_INDEX, 0], &mut table);
    assert_eq!(table, after_cat(), "without an index it is a step that is not there");
}
