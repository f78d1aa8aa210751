//! A step for any domain, straight from the rule of support: go through the
//! lengths (and numbers) a choice can have; for each, see whether the places
//! can be filled, and keep what can stand there.

use crate::domain::{self, bit, bits, highest, possible_lengths, Kept, Row, EMPTY};
use crate::file::Problem;
use crate::relations::{Automaton, Relation};

/// Answers the bits struck.
pub fn step(problem: &Problem, relation: Relation, table: &mut [u64]) -> u32 {
    let names = relation.strings();
    let number_place = relation
        .number()
        .map(|n| domain::number_place(problem.header.strings, n));
    let rows: Vec<Row> = names.iter().map(|&x| domain::row(table, x)).collect();
    let number = number_place.map_or(0, |place| table[place]);

    let kept = match relation {
        Relation::Always(_) => always(&rows[0]),
        Relation::Eq(..) => eq(&rows[0], &rows[1]),
        Relation::Neq(..) => neq(&rows[0], &rows[1]),
        Relation::Rev(..) => rev(&rows[0], &rows[1]),
        Relation::Cat(..) => cat(&rows[0], &rows[1], &rows[2]),
        Relation::Sub(..) => sub(&rows[0], &rows[1], number),
        Relation::Len(..) => len(&rows[0], number),
        Relation::Regular(_, d) => regular(&rows[0], &problem.automata[d]),
    };
    domain::strike(table, &names, number_place, &kept)
}

/// The row without what none of its strings uses.
fn trimmed(x: &Row) -> Row {
    let lengths = possible_lengths(x);
    let mut kept = EMPTY;
    kept[0] = lengths;
    for i in 1..=highest(lengths) {
        kept[i] = x[i];
    }
    kept
}

fn always(x: &Row) -> Kept {
    Kept {
        rows: vec![trimmed(x)],
        number: 0,
    }
}

/// The strings that both rows stand for are again those of a row.
fn eq(x: &Row, y: &Row) -> Kept {
    let mut both = EMPTY;
    for i in 0..64 {
        both[i] = x[i] & y[i];
    }
    let kept = trimmed(&both);
    Kept {
        rows: vec![kept, kept],
        number: 0,
    }
}

fn neq(x: &Row, y: &Row) -> Kept {
    let (mut kept_x, mut kept_y) = (EMPTY, EMPTY);
    let (x_lengths, y_lengths) = (possible_lengths(x), possible_lengths(y));

    // Pairs of different lengths: any symbols will do.
    keep_beside_other_lengths(&mut kept_x, x, x_lengths, y_lengths);
    keep_beside_other_lengths(&mut kept_y, y, y_lengths, x_lengths);

    // Pairs of one length: they must differ at some place.
    for l in bits(x_lengths & y_lengths) {
        let places: Vec<usize> = (1..=l).filter(|&i| differing(x[i], y[i]) != 0).collect();
        if places.is_empty() {
            continue;
        }
        kept_x[0] |= bit(l);
        kept_y[0] |= bit(l);
        for i in 1..=l {
            if places.iter().any(|&j| j != i) {
                kept_x[i] |= x[i];
                kept_y[i] |= y[i];
            } else {
                kept_x[i] |= differing(x[i], y[i]);
                kept_y[i] |= differing(y[i], x[i]);
            }
        }
    }
    Kept {
        rows: vec![kept_x, kept_y],
        number: 0,
    }
}

/// Keeps the strings of x whose length is not the only one of the others.
fn keep_beside_other_lengths(kept: &mut Row, x: &Row, lengths: u64, others: u64) {
    for l in bits(lengths) {
        if others & !bit(l) != 0 {
            kept[0] |= bit(l);
            for i in 1..=l {
                kept[i] |= x[i];
            }
        }
    }
}

/// The symbols of a that can stand against a different one of b.
fn differing(a: u64, b: u64) -> u64 {
    match b.count_ones() {
        0 => 0,
        1 => a & !b,
        _ => a,
    }
}

fn rev(x: &Row, y: &Row) -> Kept {
    let (mut kept_x, mut kept_y) = (EMPTY, EMPTY);
    for l in bits(x[0] & y[0]) {
        if (1..=l).any(|i| x[i] & y[l + 1 - i] == 0) {
            continue;
        }
        kept_x[0] |= bit(l);
        kept_y[0] |= bit(l);
        for i in 1..=l {
            let shared = x[i] & y[l + 1 - i];
            kept_x[i] |= shared;
            kept_y[l + 1 - i] |= shared;
        }
    }
    Kept {
        rows: vec![kept_x, kept_y],
        number: 0,
    }
}

fn cat(x: &Row, y: &Row, z: &Row) -> Kept {
    let (mut kept_x, mut kept_y, mut kept_z) = (EMPTY, EMPTY, EMPTY);
    for lx in bits(x[0]) {
        if (1..=lx).any(|i| x[i] & z[i] == 0) {
            break; // no longer X either
        }
        for ly in bits(y[0]) {
            let lz = lx + ly;
            if lz > 63 || (1..=ly).any(|j| y[j] & z[lx + j] == 0) {
                break; // no longer Y either
            }
            if !domain::has(z[0], lz) {
                continue;
            }
            kept_x[0] |= bit(lx);
            kept_y[0] |= bit(ly);
            kept_z[0] |= bit(lz);
            for i in 1..=lx {
                let shared = x[i] & z[i];
                kept_x[i] |= shared;
                kept_z[i] |= shared;
            }
            for j in 1..=ly {
                let shared = y[j] & z[lx + j];
                kept_y[j] |= shared;
                kept_z[lx + j] |= shared;
            }
        }
    }
    Kept {
        rows: vec![kept_x, kept_y, kept_z],
        number: 0,
    }
}

fn sub(x: &Row, y: &Row, numbers: u64) -> Kept {
    let (mut kept_x, mut kept_y, mut kept_numbers) = (EMPTY, EMPTY, 0);
    let x_lengths = possible_lengths(x);
    for n in bits(numbers) {
        if n == 0 {
            continue;
        }
        for m in bits(y[0]) {
            // X must reach the last place of Y; for an empty Y the one before n.
            let least = n + m - 1;
            if least > 63 || (1..=m).any(|j| x[n + j - 1] & y[j] == 0) {
                break; // no longer Y either
            }
            let long_enough = x_lengths >> least << least; // bits below are cut
            if long_enough == 0 {
                break;
            }
            kept_x[0] |= long_enough;
            kept_y[0] |= bit(m);
            kept_numbers |= bit(n);
            // The longest X has all the symbols of the shorter ones.
            for i in 1..=highest(long_enough) {
                let inside = n <= i && i < n + m;
                kept_x[i] |= if inside { x[i] & y[i + 1 - n] } else { x[i] };
            }
            for j in 1..=m {
                kept_y[j] |= x[n + j - 1] & y[j];
            }
        }
    }
    Kept {
        rows: vec![kept_x, kept_y],
        number: kept_numbers,
    }
}

fn len(x: &Row, numbers: u64) -> Kept {
    let mut with_these = *x;
    with_these[0] &= numbers;
    let kept = trimmed(&with_these);
    Kept {
        rows: vec![kept],
        number: kept[0],
    }
}

fn regular(x: &Row, automaton: &Automaton) -> Kept {
    let reached = reached(x, automaton);
    let ending = ending(x, automaton);
    let mut kept = EMPTY;
    for l in bits(x[0]) {
        if reached[l] & automaton.accepting != 0 {
            kept[0] |= bit(l);
        }
    }
    for i in 1..64 {
        for a in bits(x[i]) {
            if states(reached[i - 1]).any(|q| leads_into(automaton, q, a, ending[i])) {
                kept[i] |= bit(a);
            }
        }
    }
    Kept {
        rows: vec![kept],
        number: 0,
    }
}

/// At i the states after some i symbols that places 1 to i allow. Where no
/// move exists none is reached: such a string is rejected, however it goes on.
fn reached(x: &Row, automaton: &Automaton) -> [u32; 64] {
    let mut reached = [0u32; 64];
    reached[0] = 1;
    for i in 1..64 {
        for q in states(reached[i - 1]) {
            for next in bits(x[i]).filter_map(|a| automaton.follow(q, a)) {
                reached[i] |= 1 << next;
            }
        }
    }
    reached
}

/// At i the states after i symbols from which the string can end accepted,
/// here or at a later allowed length.
fn ending(x: &Row, automaton: &Automaton) -> [u32; 64] {
    let mut ending = [0u32; 64];
    for i in (0..64).rev() {
        if domain::has(x[0], i) {
            ending[i] = automaton.accepting;
        }
        if i < 63 {
            for q in 0..automaton.next.len() {
                if bits(x[i + 1]).any(|a| leads_into(automaton, q, a, ending[i + 1])) {
                    ending[i] |= 1 << q;
                }
            }
        }
    }
    ending
}

/// Whether there is a move, and it ends in a state of the set.
fn leads_into(automaton: &Automaton, state: usize, symbol: usize, set: u32) -> bool {
    automaton
        .follow(state, symbol)
        .is_some_and(|next| set >> next & 1 == 1)
}

/// The states of a set, lowest first.
fn states(set: u32) -> impl Iterator<Item = usize> {
    bits(u64::from(set))
}
