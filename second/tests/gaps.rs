//! Automata with gaps: refusal 5 at its boundary, cases worked by hand, and
//! each answer against that for the sink written out.

mod common;
use common::*;
use second::relations::{Automaton, GAP};
use second::{Header, Outcome};

/// One string X over these symbols, held to the automata.
fn held(symbols: u8, x: Row, automata: &[Vec<u8>]) -> Draft {
    let records: Vec<[u8; 4]> = (0..automata.len() as u8).map(|d| [7, 0, d, 0]).collect();
    let mut held = draft(symbols, &[x], &[], &records);
    held.automata = automata.to_vec();
    held
}

/// Step 0 on the file's table: the bits struck, and X.
fn after_step(draft: &Draft) -> (u32, Row) {
    let (mut plain, mut tried) = (draft.table(), draft.table());
    let struck = second::step(&draft.bytes(), 0, &mut plain).unwrap();
    let by_choices = second::step_by_enumeration(&draft.bytes(), 0, &mut tried, 100_000);
    assert_eq!(by_choices, Ok(Some(struck)));
    assert_eq!(plain, tried);
    (struck, plain[..64].try_into().unwrap())
}

fn search(file: &[u8], budget: u32) -> (Outcome, Vec<u64>) {
    let words = second::read(file).unwrap().words();
    let (mut room, mut table) = (vec![1; 3 * words], vec![5; words]);
    let outcome = second::search(file, budget, &mut room, &mut table).unwrap();
    assert!(room.iter().all(|&word| word == 0));
    (outcome, table)
}

/// The same automaton with a sink written out, where it has a gap: one state
/// more, which does not accept, is never left, and follows where nothing did.
fn with_sink(bytes: &[u8], symbols: usize) -> Vec<u8> {
    let sink = bytes[0];
    let mut full = bytes.to_vec();
    if bytes[5..].contains(&GAP) {
        full[0] += 1;
        full.extend(vec![sink; symbols]);
    }
    for next in &mut full[5..] {
        *next = if *next == GAP { sink } else { *next };
    }
    full
}

/// "5 when a next state is neither below q nor 255."
#[test]
fn refusal_5_at_its_boundary() {
    let read = |automaton: Vec<u8>, at: usize, next: u8| {
        let mut automaton = automaton;
        automaton[at] = next;
        second::read(&held(2, just(&[]), &[automaton]).bytes()).err()
    };
    for states in [1, 2, 5, 31, 32u8] {
        let mut automaton = vec![states, 1, 0, 0, 0];
        automaton.extend(vec![0; 2 * usize::from(states)]);
        for at in [5, 6, automaton.len() - 1] {
            for next in 0..=255 {
                let sound = next < states || next == 255;
                let wanted = (!sound).then_some(5);
                assert_eq!(
                    read(automaton.clone(), at, next),
                    wanted,
                    "{next} of {states}"
                );
            }
        }
        // Beside gaps as well.
        automaton[5..].fill(GAP);
        assert_eq!(read(automaton.clone(), 6, states - 1), None);
        assert_eq!(read(automaton.clone(), 6, states), Some(5));
        assert_eq!(read(automaton.clone(), 6, 254), Some(5));
        // A gap is no accepting state, and none of the states is one.
        assert_eq!(read(automaton.clone(), 0, 255), Some(5));
        assert_eq!(read(automaton.clone(), 0, 254), Some(5));
    }
}

/// A file in which every move is missing: the empty string is all that can be
/// accepted, and it is where state 0 accepts.
#[test]
fn every_move_is_missing() {
    for states in [1, 3, 32u8] {
        for accepting in [0, 1, 2u32] {
            let mut automaton = vec![states];
            automaton.extend((accepting % (1 << states.min(2))).to_le_bytes());
            automaton.extend(vec![GAP; 2 * usize::from(states)]);
            let x = row(&[0, 1, 3], &[&[0, 1], &[1], &[0]]);
            let problem = held(2, x, &[automaton.clone()]);
            let accepts = accepting == 1;
            let (struck, left) = if accepts {
                (6, just(&[]))
            } else {
                (7, NOTHING)
            };
            assert_eq!(after_step(&problem), (struck, left));
            let outcome = if accepts {
                Outcome::Found(1)
            } else {
                Outcome::None(1)
            };
            assert_eq!(search(&problem.bytes(), 9).0, outcome);
            // Without the empty string nothing is left.
            let problem = held(2, row(&[1], &[&[0, 1]]), &[automaton]);
            assert_eq!(after_step(&problem), (3, NOTHING));
            assert_eq!(search(&problem.bytes(), 9).0, Outcome::None(1));
        }
    }
}

#[test]
fn one_state_accepts_the_empty_string_alone() {
    let only = |bytes: Vec<Vec<u8>>| Automaton {
        accepting: 1,
        next: bytes,
    };
    let automaton = only(vec![vec![GAP]]);
    assert!(automaton.accepts(&[]));
    assert!(!automaton.accepts(&[0]) && !automaton.accepts(&[0, 0]));
    assert_eq!(automaton.follow(0, 0), None);
    let problem = held(1, row(&[0, 1], &[&[0]]), &[vec![1, 1, 0, 0, 0, GAP]]);
    assert_eq!(after_step(&problem), (2, just(&[])));
    assert_eq!(
        search(&problem.bytes(), 1),
        (Outcome::Found(1), just(&[]).to_vec())
    );
    let longer = held(1, row(&[1], &[&[0]]), &[vec![1, 1, 0, 0, 0, GAP]]);
    assert_eq!(after_step(&longer), (2, NOTHING));
}

/// From state 0 only symbol 1 leads on, to state 1, which accepts and has only
/// symbol 0, back to state 0: 1, 101, 10101 and so on.
#[test]
fn a_gap_out_of_state_0() {
    let automaton = automaton(0b10, &[&[GAP, 1], &[0, GAP]]);
    let x = row(&[0, 1, 2, 3], &[&[0, 1], &[0, 1], &[0, 1]]);
    let problem = held(2, x, &[automaton.clone()]);
    let left = row(&[1, 3], &[&[1], &[0], &[1]]);
    assert_eq!(after_step(&problem), (5, left));
    assert_eq!(
        search(&problem.bytes(), 9),
        (Outcome::Found(2), just(&[1]).to_vec())
    );
    // The first symbol has no move, so nothing that follows it counts.
    let problem = held(2, just(&[0, 1]), &[automaton]);
    assert_eq!(after_step(&problem), (3, NOTHING));
}

/// A gap in the last state alone: read as a move to it, or back to state 0, it
/// would let strings pass.
#[test]
fn a_gap_out_of_the_last_state() {
    let automaton = automaton(0b111, &[&[1], &[2], &[GAP]]);
    let mut x = [0b1; 64];
    x[0] = u64::MAX;
    let problem = held(1, x, &[automaton]);
    let mut lent = problem.table();
    assert_eq!(second::step(&problem.bytes(), 0, &mut lent), Ok(61 + 61));
    assert_eq!(lent, row(&[0, 1, 2], &[&[0], &[0]]));
}

/// Symbol 0 goes round all 32 states; the others are missing, but for symbol 63
/// out of state 31: the sink would be the 33rd state.
#[test]
fn a_ring_of_32_states() {
    let mut automaton = vec![32, 0, 0, 0, 0x80];
    for state in 0..32 {
        let mut next = [GAP; 64];
        next[0] = (state + 1) % 32;
        automaton.extend(next);
    }
    *automaton.last_mut().unwrap() = 31;
    let mut x = [u64::MAX; 64];
    x[0] = u64::MAX;
    let problem = held(64, x, &[automaton]);
    let mut lent = problem.table();
    second::step(&problem.bytes(), 0, &mut lent).unwrap();
    let mut wanted = [1; 64];
    // 31 symbols 0, then any number of 63; or once round after some of them.
    wanted[0] = !set(&(0..31).collect::<Vec<usize>>());
    wanted[32..].fill(1 | 1 << 63);
    assert_eq!(lent, wanted);
}

fn random_gaps(random: &mut Random, k: usize, states: usize) -> Vec<u8> {
    let share = [0, 1, 2, 4, 7, 8][random.below(6)];
    let accepting = random.word() as u32 & ((1u64 << states) - 1) as u32;
    let mut bytes = vec![states as u8];
    bytes.extend(accepting.to_le_bytes());
    for _ in 0..states * k {
        let gap = random.below(8) < share;
        bytes.push(if gap { GAP } else { random.below(states) as u8 });
    }
    bytes
}

/// Three strings and a number, each string held to automata with gaps.
fn random_problem(random: &mut Random, states: usize) -> Draft {
    let k = [1, 2, 2, 3, 64][random.below(5)];
    let longest = [1, 2, 3, 5, 63][random.below(5)];
    let rows: Vec<Row> = (0..3)
        .map(|_| {
            let mut row = NOTHING;
            row[0] = random.word() & (u64::MAX >> (63 - longest));
            let symbols = u64::MAX >> (64 - k);
            row[1..=longest].fill_with(|| (random.word() | random.word()) & symbols);
            row
        })
        .collect();
    let relations = [
        [1, 0, 1, 0],
        [2, 0, 1, 0],
        [3, 0, 2, 0],
        [4, 0, 1, 2],
        [5, 2, 0, 0],
        [6, 1, 0, 0],
    ];
    let mut records = vec![[7, 0, 0, 0]];
    for record in [relations[random.below(6)], [7, 1, 1, 0], [7, 2, 1, 0]] {
        if random.once_in(2) {
            records.push(record);
        }
    }
    let mut problem = draft(k as u8, &rows, &[random.word()], &records);
    problem.automata = (0..2)
        .map(|_| {
            let states = 1 + random.below(states);
            random_gaps(random, k, states)
        })
        .collect();
    problem
}

/// Every call on both files with the same buffers: what each answers, and what
/// it leaves.
fn same_calls(one: &[u8], other: &[u8], lent: &[u64], random: &mut Random) -> bool {
    let files = [one, other];
    let [header, sunk]: [Header; 2] = files.map(|file| second::read(file).unwrap());
    assert_eq!(header, sunk);
    let steps = header.constraints + header.strings;
    for j in 0..=steps as u64 {
        let [gaps, sink] = files.map(|file| {
            let mut table = lent.to_vec();
            (second::step(file, j, &mut table), table)
        });
        assert_eq!(gaps, sink, "step {j}");
    }
    let [gaps, sink] = files.map(|file| {
        let (mut by_rounds, mut by_index) = (lent.to_vec(), lent.to_vec());
        let mut index = vec![0; 2 * (header.strings + header.numbers)];
        second::index(file, &mut index).unwrap();
        let rounds = second::settle(file, &mut by_rounds);
        let run = second::settle_by_index(file, &index, &mut by_index);
        assert_eq!(by_rounds, by_index);
        (rounds, run, index, by_rounds)
    });
    assert_eq!(gaps, sink);
    for budget in [0, 1, 2, 1 + random.below(20) as u32, 200] {
        let [gaps, sink] = files.map(|file| search(file, budget));
        assert_eq!(gaps, sink, "budget {budget}");
    }
    matches!(search(one, 200).0, Outcome::Found(_))
}

/// "Solutions and node counts are those of the same automaton with a sink
/// written out."
#[test]
fn gaps_and_sinks_give_the_same() {
    let mut random = Random::new(55);
    let (mut found, mut gaps) = (0, 0);
    for turn in 0..1500 {
        let states = [1, 2, 4, 31][turn % 4];
        let problem = random_problem(&mut random, states);
        let mut sunk = problem.clone();
        for automaton in &mut sunk.automata {
            *automaton = with_sink(automaton, usize::from(problem.symbols));
        }
        gaps += usize::from(sunk.automata != problem.automata);
        let mut lent = problem.table();
        if turn % 3 == 0 {
            let symbols = u64::MAX >> (64 - problem.symbols);
            lent.fill_with(|| random.word() & symbols);
        }
        let solved = same_calls(&problem.bytes(), &sunk.bytes(), &lent, &mut random);
        found += usize::from(solved);
    }
    assert!(found > 200 && found < 1300 && gaps > 1000, "{found} {gaps}");
}

/// "where that makes 33 states, the definitions compare them, as no file can":
/// here by reading each string with a state 32 that is never left.
#[test]
fn with_32_states_the_sink_is_the_33rd() {
    let mut random = Random::new(33);
    let mut tally = [0; 2];
    for _ in 0..300 {
        let bytes = random_gaps(&mut random, 3, 32);
        let automaton = Automaton {
            accepting: u32::from_le_bytes(bytes[1..5].try_into().unwrap()),
            next: bytes[5..].chunks(3).map(<[u8]>::to_vec).collect(),
        };
        for _ in 0..40 {
            let length = random.below(8);
            let x: Vec<u8> = (0..length).map(|_| random.below(3) as u8).collect();
            let end = x.iter().fold(0, |state, &a| match state {
                32 => 32,
                _ => bytes[5 + 3 * state + usize::from(a)].min(32).into(),
            });
            let accepts = end < 32 && automaton.accepting >> end & 1 == 1;
            assert_eq!(automaton.accepts(&x), accepts);
            let symbols: Vec<usize> = x.iter().map(|&a| usize::from(a)).collect();
            let problem = held(3, just(&symbols), &[bytes.clone()]);
            assert_eq!(after_step(&problem).0 == 0, accepts);
            tally[usize::from(accepts)] += 1;
        }
    }
    assert!(tally.iter().all(|&count| count > 1000), "{tally:?}");
}

/// Patterns have every move, also where it leads to nothing.
#[test]
fn patterns_write_no_gap() {
    for text in ["", "0", "0*", "(0|1)*01", "01|2", "()", "z", "0123456789"] {
        for k in [37, 38, 64] {
            let bytes = second::pattern::compile(text.as_bytes(), k, 2053).unwrap();
            assert!(!bytes[5..].contains(&GAP), "{text}");
        }
    }
}
