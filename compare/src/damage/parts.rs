//! Damages in automata, table and constraints: refusals 5 to 8.

use super::change::{on_draft, on_laid, Damage, MOST_RECORDS};
use crate::draft::{below, Draft, Laid};
use crate::gaps::{GAP, HEAD};
use crate::generate::record;
use crate::random::Random;
use crate::rules;

pub fn all() -> Vec<Damage> {
    let mut all = automata();
    all.extend(automata_counts());
    all.extend(symbol_words());
    all.extend(records());
    all.extend(repeated_strings());
    all
}

/// 5: an automaton that is none, or the bytes of the last one cut or too many.
fn automata() -> Vec<Damage> {
    vec![
        on_draft(5, |draft, random| one_machine(draft, random)[0] = 0),
        on_draft(5, |draft, random| *one_machine(draft, random) = vec![0; 5]),
        on_draft(5, |draft, random| {
            let mut machine = rules::any(random, draft.symbols, 32);
            machine[0] = 33;
            machine.extend(vec![0; draft.symbols]);
            *one_machine(draft, random) = machine;
        }),
        on_draft(5, |draft, random| one_machine(draft, random)[0] = random.between(33, 255) as u8),
        on_draft(5, |draft, random| {
            let machine = smaller_machine(draft, random);
            let bit = usize::from(machine[0]);
            machine[1 + bit / 8] |= 1 << (bit % 8);
        }),
        on_draft(5, |draft, random| {
            let machine = smaller_machine(draft, random);
            let bit = random.between(machine[0].into(), 31);
            machine[1 + bit / 8] |= 1 << (bit % 8);
        }),
        on_draft(5, |draft, random| spoil_move(draft, random, |states, _| states)),
        on_draft(5, |draft, random| spoil_move(draft, random, |states, random| random.between(states.into(), 254) as u8)),
        on_draft(5, |draft, random| spoil_move(draft, random, |_, _| 254)),
        on_draft(5, |draft, random| {
            let gaps = *random.pick(&[1, 2, 8]);
            spoil_gap(draft, random, gaps);
        }),
        on_draft(5, |draft, random| last_machine(draft).push(random.byte())),
        on_draft(5, |draft, _| {
            let machine = last_machine(draft);
            machine.truncate(machine.len() - 1);
        }),
        on_draft(5, |draft, random| last_machine(draft).truncate(random.between(1, 4))),
        on_draft(5, |draft, _| last_machine(draft).clear()),
    ]
}

fn one_machine<'a>(draft: &'a mut Draft, random: &mut Random) -> &'a mut Vec<u8> {
    let at = random.below(draft.machines.len());
    &mut draft.machines[at]
}

fn last_machine(draft: &mut Draft) -> &mut Vec<u8> {
    draft.machines.last_mut().expect("a sound problem has automata")
}

/// An automaton with less than 32 states, so that there are bits of accepting states that it must not have.
fn smaller_machine<'a>(draft: &'a mut Draft, random: &mut Random) -> &'a mut Vec<u8> {
    let symbols = draft.symbols;
    let machine = one_machine(draft, random);
    if machine[0] == 32 {
        *machine = rules::any(random, symbols, 31);
    }
    machine
}

/// A move to a state that is none, by the count of states.
fn spoil_move(draft: &mut Draft, random: &mut Random, state: fn(u8, &mut Random) -> u8) {
    let machine = one_machine(draft, random);
    let at = *random.pick(&[5, machine.len() - 1, 5 + machine.len() / 2]);
    let at = at.min(machine.len() - 1);
    machine[at] = state(machine[0], random);
}

/// One move in so many is missing, and one that was is another state: the first that is none, the one below a gap, or any between them.
fn spoil_gap(draft: &mut Draft, random: &mut Random, one_in: usize) {
    let machine = one_machine(draft, random);
    machine[HEAD..].iter_mut().filter(|_| random.once_in(one_in)).for_each(|next| *next = GAP);
    let missing: Vec<usize> = (HEAD..machine.len()).filter(|&at| machine[at] == GAP).collect();
    let at = if missing.is_empty() { HEAD } else { *random.pick(&missing) };
    let any = random.between(machine[0].into(), 254) as u8;
    machine[at] = *random.pick(&[machine[0], 254, any]);
}

/// 5: as many automata as there are, but another count.
fn automata_counts() -> Vec<Damage> {
    vec![
        on_laid(5, |laid, _| recount(laid, |count| count + 1)).where_it(|draft| draft.machines.len() < 8),
        on_laid(5, |laid, _| recount(laid, |count| count.saturating_sub(1))),
        on_laid(5, |laid, _| recount(laid, |_| 0)),
    ]
}

/// A count that is already out of range stays.
fn recount(laid: &mut Laid, change: fn(u8) -> u8) {
    if laid.counts[3] <= 8 {
        laid.counts[3] = change(laid.counts[3]);
    }
}

/// 6: a bit at k or above in a symbol word; with 64 symbols there is none.
fn symbol_words() -> Vec<Damage> {
    let all = [
        on_draft(6, |draft, _| draft.rows[0][1] |= 1 << draft.symbols),
        on_draft(6, |draft, _| draft.rows.last_mut().expect("a sound problem has strings")[63] |= 1 << draft.symbols),
        on_draft(6, |draft, random| one_place(draft, random, 1 << 63)),
        on_draft(6, |draft, random| one_place(draft, random, 1 << draft.symbols)),
        on_draft(6, |draft, random| one_place(draft, random, !below(draft.symbols))),
        on_draft(6, |draft, random| {
            let bit = random.between(draft.symbols, 63);
            one_place(draft, random, 1 << bit);
        }),
    ];
    all.into_iter().map(|damage| damage.where_it(|draft| draft.symbols < 64)).collect()
}

fn one_place(draft: &mut Draft, random: &mut Random, bits: u64) {
    let x = random.below(draft.rows.len());
    draft.rows[x][random.between(1, 63)] |= bits;
}

/// 7: a kind that is none; for each kind, an argument that names nothing, or an unused one that is not 0.
fn records() -> Vec<Damage> {
    let mut all = vec![
        on_draft(7, |draft, random| insert(draft, random, [0, 0, 1, 0])),
        on_draft(7, |draft, random| insert(draft, random, [8, 0, 1, 0])),
        on_draft(7, |draft, random| insert(draft, random, [0, 0, 0, 0])),
        on_draft(7, |draft, random| {
            let kind = random.between(8, 255) as u8;
            insert(draft, random, [kind, 0, 1, 0]);
        }),
    ];
    for kind in 1..=7 {
        for argument in 0..3 {
            all.push(on_draft(7, move |draft, random| spoil_argument(draft, random, kind, argument)));
        }
    }
    all
}

/// Puts a record somewhere among the others, often at the end; where there is no place for one more, instead of another.
fn insert(draft: &mut Draft, random: &mut Random, record: [u8; 4]) {
    let at = if random.once_in(4) { draft.records.len() } else { random.below(draft.records.len() + 1) };
    if draft.records.len() < MOST_RECORDS {
        draft.records.insert(at, record);
    } else {
        draft.records[at.min(MOST_RECORDS - 1)] = record;
    }
}

/// A good record of this kind.
fn good(draft: &Draft, random: &mut Random, kind: u8) -> [u8; 4] {
    record(random, kind, draft.rows.len(), draft.numbers.len(), draft.machines.len()).expect("a sound problem has something of each sort")
}

/// A record of this kind whose argument is the first that names nothing, or a later one.
fn spoil_argument(draft: &mut Draft, random: &mut Random, kind: u8, argument: usize) {
    let (strings, numbers, automata) = (draft.rows.len(), draft.numbers.len(), draft.machines.len());
    let unused = 1;
    let least = match (kind, argument) {
        (1..=3, 2) | (6 | 7, 2) => unused,
        (5, 2) | (6, 1) => numbers,
        (7, 1) => automata,
        _ => strings,
    };
    let mut record = good(draft, random, kind);
    let later = least + random.below(16);
    record[1 + argument] = *random.pick(&[least, least, later, 255]) as u8;
    insert(draft, random, record);
}

/// 8: for each kind that has two strings or three, two of them one.
fn repeated_strings() -> Vec<Damage> {
    let pairs = [(1, 1, 2), (2, 1, 2), (3, 1, 2), (4, 1, 2), (4, 1, 3), (4, 2, 3), (5, 1, 2)];
    let repeat = |(kind, one, other): (u8, usize, usize)| {
        on_draft(8, move |draft, random| {
            let mut record = good(draft, random, kind);
            record[other] = record[one];
            insert(draft, random, record);
        })
    };
    pairs.map(repeat).into()
}
