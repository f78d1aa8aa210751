//! Damages that the trailer shows: refusals 1 to 4.

use super::change::{on_bytes, on_draft, on_laid, Damage, MOST_RECORDS};
use crate::draft::{Laid, NOTHING};
use crate::random::Random;
use crate::rules;

pub fn all() -> Vec<Damage> {
    let mut all = sizes_and_marks();
    all.extend(counts());
    all.extend(distances());
    all
}

/// 1: under 24 bytes. 2: no mark.
fn sizes_and_marks() -> Vec<Damage> {
    let mut all = vec![
        on_bytes(1, |bytes, _| bytes.clear()),
        on_bytes(1, |bytes, _| drop(bytes.drain(..bytes.len().saturating_sub(23)))),
        on_bytes(1, |bytes, random| drop(bytes.drain(..bytes.len().saturating_sub(random.between(1, 22))))),
        on_bytes(1, |bytes, random| bytes.truncate(random.between(1, 23))),
        on_bytes(2, |bytes, random| bytes.push(random.byte())),
        on_bytes(2, |bytes, _| bytes.truncate(bytes.len() - 1)),
        on_laid(2, |laid, _| laid.mark = *b"tail"),
    ];
    for at in 0..4 {
        all.push(on_laid(2, move |laid, random| laid.mark[at] ^= 1 << random.below(8)));
    }
    all
}

/// 3: each count out of range, in the trailer alone or with parts that fit; bytes 6 and 7.
fn counts() -> Vec<Damage> {
    let mut all = vec![
        on_laid(3, |laid, _| laid.counts[0] = 0),
        on_laid(3, |laid, _| laid.constraints = 65),
        on_laid(3, |laid, random| laid.constraints |= 256 << random.below(8)),
        on_laid(3, |laid, random| laid.spare[0] = 1 << random.below(8)),
        on_laid(3, |laid, random| laid.spare[1] = 1 << random.below(8)),
        on_draft(3, |draft, _| draft.rows.resize(17, NOTHING)),
        on_draft(3, |draft, _| draft.numbers.resize(17, 1)),
        on_draft(3, |draft, _| draft.records.resize(65, [6, 0, 0, 0])),
        on_draft(3, |draft, random| {
            let machine = rules::any(random, draft.symbols, 2);
            draft.machines.resize(9, machine);
        }),
        on_draft(3, |draft, random| {
            draft.symbols = 65;
            draft.machines.iter_mut().for_each(|machine| *machine = rules::any(random, 65, 3));
        }),
        on_draft(3, |draft, _| {
            draft.symbols = 0;
            draft.machines.iter_mut().for_each(|machine| machine.truncate(5));
        }),
    ];
    for (at, limit) in [64, 16, 16, 8].into_iter().enumerate() {
        all.push(on_laid(3, move |laid, _| laid.counts[at] = limit + 1));
        all.push(on_laid(3, move |laid, random| laid.counts[at] = random.between(usize::from(limit) + 1, 255) as u8));
    }
    all
}

/// 4: each distance off, also by what 32 bits cannot tell; the file's size; a count that does not fit.
fn distances() -> Vec<Damage> {
    let mut all = vec![
        on_laid(4, |laid, _| laid.distances.swap(0, 1)),
        on_laid(4, |laid, random| laid.body.insert(0, random.byte())),
        on_laid(4, |laid, _| drop(laid.body.drain(..1))),
        on_laid(4, |laid, _| laid.distances = laid.distances.map(|distance| distance.wrapping_add(1))),
        on_laid(4, |laid, _| laid.constraints += 1).where_it(|draft| draft.records.len() < MOST_RECORDS - 1),
        on_laid(4, constraints_past_32_bits),
        on_laid(4, table_past_32_bits),
    ];
    for at in 0..3 {
        all.push(on_laid(4, move |laid, _| laid.distances[at] = laid.distances[at].wrapping_add(1)));
        all.push(on_laid(4, move |laid, _| laid.distances[at] = laid.distances[at].wrapping_sub(1)));
        all.push(on_laid(4, move |laid, random| laid.distances[at] ^= 1 << random.below(32)));
    }
    all.push(on_laid(4, |laid, _| laid.counts[1] += 1).where_it(|draft| draft.rows.len() < 16));
    all.push(on_laid(4, |laid, _| laid.counts[2] += 1).where_it(|draft| draft.numbers.len() < 16));
    all
}

/// The bytes of the table by the counts.
fn table_size(laid: &Laid) -> u32 {
    8 * (64 * u32::from(laid.counts[1]) + u32::from(laid.counts[2]))
}

/// 4c + L is 2^32 and the constraints distance 0; the others fit.
fn constraints_past_32_bits(laid: &mut Laid, _: &mut Random) {
    laid.constraints = laid.constraints.max(1);
    let table = table_size(laid);
    laid.distances = [table, 0, 0u32.wrapping_sub(4 * u32::from(laid.constraints))];
    laid.body.resize(table as usize, 0);
}

/// The constraints distance fits; with the table's bytes it is past 2^32 by as much as the table distance says.
fn table_past_32_bits(laid: &mut Laid, random: &mut Random) {
    let records = 4 * u32::from(laid.constraints);
    let over = random.below(9) as u32;
    let to_constraints = 0u32.wrapping_sub(table_size(laid) - over);
    laid.distances = [over, to_constraints, to_constraints.wrapping_sub(records)];
    laid.body.resize(over as usize, 0);
}
