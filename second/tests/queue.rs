//! The index and the settle that goes by it: cases worked by hand, refusals 18
//! and 19, and the rounds on problems of every kind.

mod common;
use common::*;
use second::file::Problem;
use second::queue;

fn index_of(file: &[u8]) -> Vec<u64> {
    let header = second::read(file).unwrap();
    let mut index = vec![7; 2 * (header.strings + header.numbers)];
    second::index(file, &mut index).unwrap();
    index
}

/// The steps that the queue runs on the lent table, in order. The entry must
/// count them, leave the same table, and leave the one that the rounds leave.
fn runs_on(file: &[u8], lent: &[u64]) -> Vec<usize> {
    let [mut table, mut by_run, mut by_rounds] = [lent; 3].map(<[u64]>::to_vec);
    let answer = second::settle_by_index(file, &index_of(file), &mut table);
    let run = queue::settle(&Problem::parse(file).unwrap(), &mut by_run);
    let (_, every_value) = second::settle(file, &mut by_rounds).unwrap();
    assert_eq!(answer, Ok((run.len() as u32, every_value)));
    assert_eq!(table, by_run);
    assert_eq!(table, by_rounds);
    run
}

fn runs(draft: &Draft) -> Vec<usize> {
    runs_on(&draft.bytes(), &draft.table())
}

#[test]
fn the_index_of_p14() {
    // Steps 0 Cat(X, Y, Z), 1 Len(X, N), 2 to 4 the trimmings.
    assert_eq!(
        index_of(&p14()),
        [0b00111, 0, 0b01001, 0, 0b10001, 0, 0b00010, 0]
    );
}

/// Every kind touches the strings and numbers among its arguments. There are
/// three strings, two numbers, two automata; the trimmings are 8 to 10.
#[test]
fn the_index_of_every_kind() {
    let records = [
        [1, 0, 2, 0],
        [2, 1, 0, 0],
        [3, 2, 1, 0],
        [4, 2, 0, 1],
        [5, 1, 2, 1],
        [6, 2, 1, 0],
        [7, 0, 1, 0],
        [6, 0, 0, 0],
    ];
    let mut problem = draft(1, &[NOTHING; 3], &[0, 0], &records);
    problem.automata = vec![automaton(1, &[&[0]]); 2];
    let wanted = [
        set(&[0, 1, 3, 6, 7, 8]),
        set(&[1, 2, 3, 4, 9]),
        set(&[0, 2, 3, 4, 5, 10]),
        set(&[7]),
        set(&[4, 5]),
    ];
    let wanted: Vec<u64> = wanted.iter().flat_map(|&low| [low, 0]).collect();
    assert_eq!(index_of(&problem.bytes()), wanted);
}

/// Nothing, and numbers that no step touches.
#[test]
fn the_index_without_steps() {
    let nothing = draft(1, &[], &[], &[]);
    assert_eq!(index_of(&nothing.bytes()), []);
    assert_eq!(runs(&nothing), []);
    let numbers = draft(1, &[], &[3, 0], &[]);
    assert_eq!(index_of(&numbers.bytes()), [0; 4]);
    assert_eq!(runs(&numbers), []);
}

/// 64 constraints and 16 strings: constraint j is Len of string j modulo 16
/// and number j / 16, and the last step is 79.
fn at_the_limits() -> Draft {
    let record = |j: u8| [6, j % 16, j / 16, 0];
    let records: Vec<[u8; 4]> = (0..64).map(record).collect();
    let mut problem = draft(
        2,
        &[row(&[0, 1], &[&[0, 1]]); 16],
        &[set(&[0, 1]); 4],
        &records,
    );
    problem.rows[15] = just(&[]);
    problem
}

#[test]
fn the_index_at_the_limits() {
    let index = index_of(&at_the_limits().bytes());
    assert_eq!(index.len(), 40);
    for x in 0..16 {
        assert_eq!(
            index[2 * x..2 * x + 2],
            [0x0001_0001_0001_0001 << x, 1 << x]
        );
    }
    assert_eq!(index[31], 1 << (79 - 64));
    for n in 0..4 {
        assert_eq!(index[32 + 2 * n..34 + 2 * n], [0xffff << (16 * n), 0]);
    }
}

/// String 15 is empty, so 15, 31, 47 and 63 each strike a value of their number.
/// What shares it then joins behind 79: 0 to 14; for 31, the string's step 15 and
/// 16 to 30; and so on up to 62. Step x, from 0 to 14, then strikes string x. The
/// trimming 64 + x shares that, and the step before x the number; all others that
/// do still wait. What joined last strikes nothing.
#[test]
fn the_queue_at_the_limits() {
    let wanted = (0..80)
        .chain(0..63)
        .chain([64])
        .chain((1..15).flat_map(|x| [x - 1, 64 + x]));
    assert_eq!(runs(&at_the_limits()), Vec::from_iter(wanted));
}

/// No trimming shares a variable with another, so each runs once though some
/// strike.
#[test]
fn without_constraints() {
    let untidy = row(&[1, 2], &[&[0], &[], &[1]]);
    let problem = draft(2, &[untidy, NOTHING, untidy, just(&[1])], &[0], &[]);
    assert_eq!(index_of(&problem.bytes()), [1, 0, 2, 0, 4, 0, 8, 0, 0, 0]);
    assert_eq!(runs(&problem), [0, 1, 2, 3]);
}

/// P12: Len strikes, and the trimming that shares its string waits already.
/// Neither joins again.
#[test]
fn no_step_makes_itself_join() {
    let x = row(&[0, 3], &[&[0], &[0], &[0]]);
    assert_eq!(
        runs(&draft(4, &[x], &[set(&[1, 3])], &[[6, 0, 0, 0]])),
        [0, 1]
    );
}

/// P14: Cat strikes while all others wait; Len then strikes, and of the two
/// steps that share X with it only Cat has to join.
#[test]
fn what_waits_does_not_join_twice() {
    let file = p14();
    let mut lent = vec![0; 3 * 64 + 1];
    second::unpack(&file, &mut lent).unwrap();
    assert_eq!(runs_on(&file, &lent), [0, 1, 2, 3, 4, 0]);
    // Settled, each step runs once.
    second::settle(&file, &mut lent).unwrap();
    assert_eq!(runs_on(&file, &lent), [0, 1, 2, 3, 4]);
}

/// Eq(A, B), Eq(B, C) and C is "0". The second strikes B, so the first joins
/// behind the trimmings; it strikes A, and what shares A or B with it joins.
#[test]
fn joins_go_to_the_back() {
    let open = row(&[1], &[&[0, 1]]);
    let problem = draft(
        2,
        &[open, open, just(&[0])],
        &[],
        &[[1, 0, 1, 0], [1, 1, 2, 0]],
    );
    assert_eq!(runs(&problem), [0, 1, 2, 3, 4, 0, 1, 2, 3]);
}

/// Eq(A, B), Eq(B, C), Len(A, N) and N is 0. When A is known to be empty, the
/// first Eq strikes B; of what joins then the second Eq is the lowest, and it
/// strikes C before any other runs.
#[test]
fn the_lowest_number_joins_first() {
    let open = row(&[0, 1], &[&[0]]);
    let records = [[1, 0, 1, 0], [1, 1, 2, 0], [6, 0, 0, 0]];
    let problem = draft(1, &[open, open, open], &[set(&[0])], &records);
    assert_eq!(runs(&problem), [0, 1, 2, 3, 4, 5, 0, 1, 2, 3, 4, 0, 5]);
}

/// Only a number is shared: Len(A, N), Len(B, N), and B is empty.
#[test]
fn a_shared_number_makes_join() {
    let open = row(&[0, 1], &[&[0]]);
    let problem = draft(
        1,
        &[open, just(&[])],
        &[set(&[0, 1])],
        &[[6, 0, 0, 0], [6, 1, 0, 0]],
    );
    assert_eq!(runs(&problem), [0, 1, 2, 3, 0, 1, 2]);
}

/// An automaton is no variable: A and B are held to the same one.
#[test]
fn a_shared_automaton_does_not() {
    let open = row(&[1], &[&[0, 1]]);
    let mut problem = draft(2, &[open, open], &[0b11], &[[7, 0, 0, 0], [7, 1, 0, 0]]);
    problem.automata = vec![automaton(0b10, &[&[0, 1], &[1, 0]])];
    assert_eq!(index_of(&problem.bytes()), [0b0101, 0, 0b1010, 0, 0, 0]);
    assert_eq!(runs(&problem), [0, 1, 2, 3]);
}

/// "It goes on after a variable has lost its last value", as the rounds do: B
/// and C differ, and A is to be both.
#[test]
fn it_goes_on_without_a_value() {
    let open = row(&[1], &[&[0, 1]]);
    let problem = draft(
        2,
        &[open, just(&[0]), just(&[1])],
        &[],
        &[[1, 0, 1, 0], [1, 0, 2, 0]],
    );
    // By the first A is "0"; by the second A and C are nothing; then B is too.
    assert_eq!(runs(&problem), [0, 1, 2, 3, 4, 0, 1, 2, 3]);
    let mut lent = problem.table();
    let file = problem.bytes();
    assert_eq!(
        second::settle_by_index(&file, &index_of(&file), &mut lent),
        Ok((9, false))
    );
    assert_eq!(lent, table(&[NOTHING; 3], &[]));
}

/// Both entries with this index buffer, on a table that is not refused.
fn refused(file: &[u8], index: &[u64], number: u8) {
    let header = second::read(file).unwrap();
    let mut table = vec![0; header.words()];
    second::unpack(file, &mut table).unwrap();
    let before = table.clone();
    assert_eq!(
        second::settle_by_index(file, index, &mut table),
        Err(number)
    );
    assert_eq!(table, before);
    let mut lent = index.to_vec();
    assert_eq!(
        second::index(file, &mut lent).err(),
        (number == 18).then_some(18)
    );
    assert_eq!(lent == index, number == 18);
}

#[test]
fn refusal_18() {
    for file in [p14(), at_the_limits().bytes()] {
        let right = index_of(&file);
        refused(&file, &[], 18);
        refused(&file, &right[..right.len() - 1], 18);
        refused(&file, &right[1..], 18);
        for beyond in [0, 1] {
            refused(&file, &[&right[..], &[beyond]].concat(), 18);
            refused(&file, &[&[beyond], &right[..]].concat(), 18);
        }
        refused(&file, &[&right[..], &right[..]].concat(), 18);
    }
    // Where there is no variable, nothing is the index.
    let nothing = draft(1, &[], &[], &[]).bytes();
    assert_eq!(
        second::settle_by_index(&nothing, &[], &mut []),
        Ok((0, true))
    );
    refused(&nothing, &[0], 18);
    refused(&nothing, &[0, 0], 18);
}

/// Every bit of every word, one more or one less.
#[test]
fn refusal_19_for_one_bit() {
    for file in [p14(), at_the_limits().bytes()] {
        let right = index_of(&file);
        for bit in 0..64 * right.len() {
            let mut wrong = right.clone();
            wrong[bit / 64] ^= 1 << (bit % 64);
            refused(&file, &wrong, 19);
        }
    }
}

#[test]
fn refusal_19_for_words_elsewhere() {
    let file = p14();
    let right = index_of(&file);
    refused(&file, &[0; 8], 19);
    refused(&file, &[u64::MAX; 8], 19);
    for at in 0..4 {
        let mut high_first = right.clone();
        high_first.swap(2 * at, 2 * at + 1);
        refused(&file, &high_first, 19);
    }
    let mut number_first = right.clone();
    number_first.rotate_right(2);
    refused(&file, &number_first, 19);
}

/// The index of another file with as many variables.
#[test]
fn refusal_19_for_another_file() {
    let rows = [row(&[0, 1], &[&[0]]); 3];
    let with = |records: &[[u8; 4]]| draft(1, &rows, &[1], records).bytes();
    let file = with(&[[1, 0, 1, 0], [6, 2, 0, 0]]);
    let others: [&[[u8; 4]]; 6] = [
        &[],
        &[[1, 0, 1, 0]],
        &[[6, 2, 0, 0], [1, 0, 1, 0]],
        &[[1, 0, 2, 0], [6, 2, 0, 0]],
        &[[1, 0, 1, 0], [6, 1, 0, 0]],
        &[[1, 0, 1, 0], [6, 2, 0, 0], [6, 2, 0, 0]],
    ];
    for records in others {
        refused(&file, &index_of(&with(records)), 19);
    }
    // Another relation of the same variables has the same index.
    let alike = with(&[[3, 1, 0, 0], [6, 2, 0, 0]]);
    assert_eq!(index_of(&alike), index_of(&file));
    // As many variables, with a string more and a number less.
    let strings = draft(1, &[rows[0]; 4], &[], &[[1, 0, 1, 0], [1, 2, 3, 0]]).bytes();
    refused(&file, &index_of(&strings), 19);
}

/// A problem of few short strings, or of up to 16 with 64 constraints.
fn any_problem(random: &mut Random) -> Draft {
    let many = random.once_in(8);
    let strings = if many { 16 } else { random.below(5) };
    let numbers = random.below(4);
    let constraints = if many { 64 } else { random.below(7) };
    let mut problem = draft(2, &[], &[], &[]);
    for _ in 0..strings {
        let lengths = 1 + random.below(15) as u64;
        let mut row = [0; 64];
        row[0] = if random.once_in(9) {
            random.word()
        } else {
            lengths
        };
        row[1..4]
            .iter_mut()
            .for_each(|word| *word = 1 + random.below(3) as u64);
        problem.rows.push(row);
    }
    problem.numbers = (0..numbers).map(|_| random.word() & 31).collect();
    problem.automata = vec![automaton(0b01, &[&[1, 0], &[0, 1]])];
    while strings > 2 && numbers > 0 && problem.constraints.len() < constraints {
        let kind = [1, 2, 2, 3, 4, 5, 6, 7][random.below(8)];
        let (x, y, z) = (
            random.below(strings),
            random.below(strings),
            random.below(strings),
        );
        let n = random.below(numbers) as u8;
        if x == y || y == z || x == z {
            continue;
        }
        let (x, y, z) = (x as u8, y as u8, z as u8);
        problem.constraints.push(match kind {
            1..=3 => [kind, x, y, 0],
            4 => [4, x, y, z],
            5 => [5, x, y, n],
            6 => [6, x, n, 0],
            _ => [7, x, 0, 0],
        });
    }
    problem
}

/// "It must end in the table that the rounds end in." A step that strikes
/// makes at most all others join once, so there are at most as many runs as
/// steps for each bit struck, and once all.
#[test]
fn as_the_rounds() {
    let mut random = Random::new(3);
    let (mut again, mut dead, mut fewer) = (0, 0, 0);
    for _ in 0..4000 {
        let problem = any_problem(&mut random);
        let (file, lent) = (problem.bytes(), problem.table());
        let steps = problem.constraints.len() + problem.rows.len();
        let run = runs_on(&file, &lent);
        let mut after = lent.clone();
        let (rounds, every_value) = second::settle(&file, &mut after).unwrap();
        let struck: u32 = lent
            .iter()
            .zip(&after)
            .map(|(b, a)| (b & !a).count_ones())
            .sum();
        let struck = struck as usize;
        assert!(steps <= run.len() && run.len() <= steps * (struck + 1));
        again += usize::from(run.len() > steps);
        dead += usize::from(!every_value);
        fewer += usize::from(run.len() < steps * rounds as usize);
        // On what is left every step runs once.
        assert_eq!(runs_on(&file, &after), Vec::from_iter(0..steps));
    }
    assert!(
        again > 1000 && dead > 500 && fewer > 1000,
        "{again}, {dead}, {fewer}"
    );
}
