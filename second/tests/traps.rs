//! The traps of the papers, and settling by hand.

mod common;
use common::*;

fn after_step(draft: &Draft) -> (u32, Vec<u64>) {
    let mut lent = draft.table();
    let struck = second::step(&draft.bytes(), 0, &mut lent).unwrap();
    (struck, lent)
}

fn settled(draft: &Draft) -> (u32, bool, Vec<u64>) {
    let mut lent = draft.table();
    let (rounds, all) = second::settle(&draft.bytes(), &mut lent).unwrap();
    (rounds, all, lent)
}

#[test]
fn cat_keeps_last_symbols() {
    let rows = [just(&[0, 1]), just(&[2, 3]), just(&[0, 1, 2, 3])];
    let problem = draft(4, &rows, &[], &[[4, 0, 1, 2]]);
    assert_eq!(after_step(&problem), (0, problem.table()));
    let rows = [just(&[]), just(&[3]), just(&[3])];
    let problem = draft(4, &rows, &[], &[[4, 0, 1, 2]]);
    assert_eq!(after_step(&problem), (0, problem.table()));
}

#[test]
fn cat_takes_all_from_one_split() {
    // Only 0 + 01 = 001 is left; 00 + 1 needs a 0 at place 2 of X.
    let x = row(&[1, 2], &[&[0], &[1]]);
    let y = row(&[1, 2], &[&[0, 1], &[1]]);
    let problem = draft(2, &[x, y, just(&[0, 0, 1])], &[], &[[4, 0, 1, 2]]);
    let wanted = table(&[just(&[0]), just(&[0, 1]), just(&[0, 0, 1])], &[]);
    assert_eq!(after_step(&problem), (4, wanted));

    // Lengths 0 + 2 and 2 + 0 add up to 2; 0 + 0 and 2 + 2 do not.
    let both = row(&[0, 2], &[&[0], &[0]]);
    let z = row(&[1, 2, 3], &[&[0], &[0], &[0]]);
    let problem = draft(1, &[both, both, z], &[], &[[4, 0, 1, 2]]);
    let wanted = table(&[both, both, just(&[0, 0])], &[]);
    assert_eq!(after_step(&problem), (3, wanted));
}

#[test]
fn cat_past_63() {
    let mut long = [1; 64];
    long[0] = set(&[31, 32, 63]);
    let mut z = [1; 64];
    z[0] = set(&[63]);
    let problem = draft(1, &[long, long, z], &[], &[[4, 0, 1, 2]]);
    let mut kept = [0; 64];
    kept[..33].fill(1);
    kept[0] = set(&[31, 32]);
    assert_eq!(after_step(&problem), (64, table(&[kept, kept, z], &[])));
}

#[test]
fn neq_strikes_only_against_one_string() {
    let two = row(&[1], &[&[0, 1]]);
    let problem = draft(2, &[two, two], &[], &[[2, 0, 1, 0]]);
    assert_eq!(after_step(&problem), (0, problem.table()));

    // Two lengths are two strings as well.
    let lengths = row(&[0, 1], &[&[0]]);
    let problem = draft(2, &[two, lengths], &[], &[[2, 0, 1, 0]]);
    assert_eq!(after_step(&problem), (0, problem.table()));

    // Against one string, untidy or not.
    let untidy = row(&[1, 3], &[&[0], &[], &[1]]);
    let problem = draft(2, &[two, untidy], &[], &[[2, 0, 1, 0]]);
    assert_eq!(
        after_step(&problem),
        (3, table(&[just(&[1]), just(&[0])], &[]))
    );

    // Two free places: each symbol still has a use.
    let four = row(&[2], &[&[0, 1], &[0, 1]]);
    let problem = draft(2, &[four, just(&[0, 0])], &[], &[[2, 0, 1, 0]]);
    assert_eq!(after_step(&problem), (0, problem.table()));

    // The symbol struck at one length is kept by another.
    let x = row(&[1, 2], &[&[0], &[1]]);
    let problem = draft(2, &[x, just(&[0])], &[], &[[2, 0, 1, 0]]);
    assert_eq!(
        after_step(&problem),
        (1, table(&[just(&[0, 1]), just(&[0])], &[]))
    );

    // Against nothing.
    let problem = draft(2, &[two, row(&[2], &[&[0]])], &[], &[[2, 0, 1, 0]]);
    assert_eq!(after_step(&problem), (5, table(&[NOTHING, NOTHING], &[])));
}

/// Sub with an empty Y, from these domains of X and N.
fn empty_part(x: Row, n: u64) -> Draft {
    draft(2, &[x, just(&[])], &[n], &[[5, 0, 1, 0]])
}

/// The step of that strikes so many bits, and leaves X and N these.
fn empty_part_gives(x: Row, n: u64, struck: u32, kept_x: Row, kept_n: u64) {
    let wanted = table(&[kept_x, just(&[])], &[kept_n]);
    assert_eq!(after_step(&empty_part(x, n)), (struck, wanted));
}

/// "an empty Y is met at N from 1 to |X| + 1, within the values a number can
/// have", and "For |X| = 63 the place 64 still can't be expressed."
#[test]
fn sub_of_an_empty_part() {
    // X empty too.
    let empty = just(&[]);
    empty_part_gives(empty, set(&[1]), 0, empty, set(&[1]));
    empty_part_gives(empty, set(&[0, 1]), 1, empty, set(&[1]));
    empty_part_gives(empty, u64::MAX, 63, empty, set(&[1]));
    for n in [set(&[0]), set(&[2]), !set(&[1])] {
        assert_eq!(
            after_step(&empty_part(empty, n)).1,
            table(&[NOTHING, NOTHING], &[0])
        );
    }

    // One past the last symbol, and not after it.
    let two = just(&[0, 1]);
    empty_part_gives(two, u64::MAX, 61, two, set(&[1, 2, 3]));
    empty_part_gives(two, set(&[3]), 0, two, set(&[3]));
    assert_eq!(
        after_step(&empty_part(two, set(&[0, 4]))).1,
        table(&[NOTHING, NOTHING], &[0])
    );

    // The longest X with a place past it, and the X that has none.
    let [nearly, longest] = [62, 63].map(|length| just(&vec![1; length]));
    empty_part_gives(nearly, set(&[63]), 0, nearly, set(&[63]));
    empty_part_gives(nearly, u64::MAX, 1, nearly, !set(&[0]));
    empty_part_gives(longest, set(&[63]), 0, longest, set(&[63]));
    empty_part_gives(longest, u64::MAX, 1, longest, !set(&[0]));
    assert_eq!(
        after_step(&empty_part(longest, set(&[0]))).1,
        table(&[NOTHING, NOTHING], &[0])
    );
}

#[test]
fn sub_keeps_what_an_empty_part_needs() {
    // X is as long as the least place asks, less one.
    let open = row(&[0, 2], &[&[0, 1], &[1]]);
    empty_part_gives(open, set(&[2]), 1, row(&[2], &[&[0, 1], &[1]]), set(&[2]));
    empty_part_gives(open, set(&[1, 3]), 0, open, set(&[1, 3]));
    let short = row(&[0, 1], &[&[0, 1]]);
    empty_part_gives(short, set(&[1]), 0, short, set(&[1]));
    empty_part_gives(short, set(&[2]), 1, row(&[1], &[&[0, 1]]), set(&[2]));

    // Past the end only the empty Y is met, before it the other one too.
    let two = just(&[0, 1]);
    let y = row(&[0, 1], &[&[1]]);
    let problem = draft(2, &[two, y], &[set(&[3])], &[[5, 0, 1, 0]]);
    assert_eq!(
        after_step(&problem),
        (2, table(&[two, just(&[])], &[set(&[3])]))
    );
    let problem = draft(2, &[two, y], &[set(&[2, 3])], &[[5, 0, 1, 0]]);
    assert_eq!(after_step(&problem), (0, problem.table()));
}

#[test]
fn sub_edges() {
    // The whole of X.
    let rows = [just(&[0, 1]), just(&[0, 1])];
    let problem = draft(2, &rows, &[u64::MAX], &[[5, 0, 1, 0]]);
    assert_eq!(after_step(&problem), (63, table(&rows, &[set(&[1])])));

    // Place 63, and a Y that would go past it.
    let mut x = [1; 64];
    x[0] = set(&[63]);
    let y = row(&[1, 2], &[&[0], &[0]]);
    let problem = draft(1, &[x, y], &[set(&[63])], &[[5, 0, 1, 0]]);
    assert_eq!(
        after_step(&problem),
        (2, table(&[x, just(&[0])], &[set(&[63])]))
    );
    let problem = draft(1, &[x, just(&[])], &[set(&[63])], &[[5, 0, 1, 0]]);
    assert_eq!(after_step(&problem), (0, problem.table()));

    // Number 0 alone.
    let problem = draft(2, &rows, &[set(&[0])], &[[5, 0, 1, 0]]);
    assert_eq!(after_step(&problem).1, table(&[NOTHING, NOTHING], &[0]));
}

#[test]
fn other_variables_are_untouched() {
    let untidy = row(&[5], &[&[0], &[], &[1]]);
    let x = row(&[1], &[&[0, 1]]);
    let problem = draft(2, &[untidy, x, just(&[0])], &[0, 9], &[[2, 1, 2, 0]]);
    let wanted = table(&[untidy, just(&[1]), just(&[0])], &[0, 9]);
    assert_eq!(after_step(&problem), (1, wanted));
}

#[test]
fn settle_goes_on_after_an_empty_domain() {
    let same = just(&[0]);
    let free = row(&[1], &[&[0, 1]]);
    // The first pair dies; the second still loses a symbol.
    let rows = [same, same, free, same];
    let one = draft(2, &rows, &[], &[[2, 0, 1, 0], [2, 2, 3, 0]]);
    let other = draft(2, &rows, &[], &[[2, 2, 3, 0], [2, 0, 1, 0]]);
    let wanted = table(&[NOTHING, NOTHING, just(&[1]), same], &[]);
    assert_eq!(settled(&one), (2, false, wanted.clone()));
    assert_eq!(settled(&other), (2, false, wanted));
}

#[test]
fn settle_counts_rounds() {
    let nothing = Draft {
        symbols: 1,
        ..Draft::default()
    };
    assert_eq!(settled(&nothing), (1, true, vec![]));

    let problem = draft(2, &[just(&[0])], &[set(&[1])], &[[6, 0, 0, 0]]);
    assert_eq!(settled(&problem), (1, true, problem.table()));

    let mut lent = vec![0; 193];
    second::unpack(&p14(), &mut lent).unwrap();
    assert_eq!(second::settle(&p14(), &mut lent), Ok((2, true)));
    let wanted = table(
        &[
            row(&[1, 2], &[&[0], &[0, 1]]),
            row(&[0, 1], &[&[1]]),
            row(&[2], &[&[0], &[0, 1]]),
        ],
        &[set(&[1, 2])],
    );
    assert_eq!(lent, wanted);

    // Against the order of the list, one link falls in each round.
    let free = row(&[1], &[&[0, 1]]);
    let rows = [free, free, free, just(&[1])];
    let problem = draft(2, &rows, &[], &[[1, 0, 1, 0], [1, 1, 2, 0], [1, 2, 3, 0]]);
    assert_eq!(settled(&problem), (4, true, table(&[just(&[1]); 4], &[])));

    // A number alone may be empty.
    let problem = draft(2, &[], &[0], &[]);
    assert_eq!(settled(&problem), (1, false, vec![0]));
    let untidy = row(&[2], &[&[0]]);
    let problem = draft(2, &[untidy], &[1], &[]);
    assert_eq!(settled(&problem), (2, false, table(&[NOTHING], &[1])));
}
