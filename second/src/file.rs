//! Reading a problem file, and refusals 1 to 8.

use crate::domain;
use crate::header::Header;
use crate::relations::{Automaton, Relation, GAP};

pub const LARGEST_FILE: usize = 25_024;
const TRAILER: usize = 24;

/// A file that was not refused.
#[derive(Clone, Debug)]
pub struct Problem {
    pub header: Header,
    pub table: Vec<u64>,
    pub constraints: Vec<Relation>,
    pub automata: Vec<Automaton>,
}

impl Problem {
    pub fn parse(file: &[u8]) -> Result<Problem, u8> {
        if file.len() < TRAILER {
            return Err(1);
        }
        let (body, trailer) = file.split_at(file.len() - TRAILER);
        if &trailer[20..24] != b"TAIL" {
            return Err(2);
        }

        let header = Header {
            symbols: usize::from(trailer[0]),
            strings: usize::from(trailer[1]),
            numbers: usize::from(trailer[2]),
            automata: usize::from(trailer[3]),
            constraints: little_endian(&trailer[4..6]) as usize,
        };
        if !header.in_range() || little_endian(&trailer[6..8]) != 0 {
            return Err(3);
        }

        // 64 bits hold these sums exactly.
        let to_table = little_endian(&trailer[8..12]);
        let to_constraints = little_endian(&trailer[12..16]);
        let to_automata = little_endian(&trailer[16..20]);
        let table_size = 8 * header.words();
        let constraints_size = 4 * header.constraints;
        if to_constraints != constraints_size as u64 + to_automata
            || to_table != table_size as u64 + to_constraints
            || file.len() as u64 != to_table + TRAILER as u64
        {
            return Err(4);
        }
        let (table_part, rest) = body.split_at(table_size);
        let (constraints_part, automata_part) = rest.split_at(constraints_size);

        let automata = parse_automata(automata_part, &header).ok_or(5)?;

        let table: Vec<u64> = table_part.chunks_exact(8).map(little_endian).collect();
        if domain::has_foreign_symbol(&table, header.strings, header.symbols) {
            return Err(6);
        }

        let mut constraints = Vec::new();
        for record in constraints_part.chunks_exact(4) {
            constraints.push(Relation::from_record(record, &header).ok_or(7)?);
        }
        if constraints.iter().any(|c| c.repeats_a_string()) {
            return Err(8);
        }

        Ok(Problem {
            header,
            table,
            constraints,
            automata,
        })
    }

    /// What step j is about: constraint j, or trimming string j − c.
    pub fn step_relation(&self, j: u64) -> Option<Relation> {
        let j = usize::try_from(j).ok()?;
        let c = self.header.constraints;
        if j < c {
            Some(self.constraints[j])
        } else if j - c < self.header.strings {
            Some(Relation::Always(j - c))
        } else {
            None
        }
    }
}

/// The number in at most 8 bytes, lowest byte first.
fn little_endian(bytes: &[u8]) -> u64 {
    bytes.iter().rev().fold(0, |n, &b| n << 8 | u64::from(b))
}

/// The automata, if the bytes are exactly as many as the header says.
fn parse_automata(bytes: &[u8], header: &Header) -> Option<Vec<Automaton>> {
    let mut rest = bytes;
    let mut automata = Vec::new();
    for _ in 0..header.automata {
        let (&states, after) = rest.split_first()?;
        let states = usize::from(states);
        if states < 1 || states > 32 {
            return None;
        }
        let rows_size = states * header.symbols;
        if after.len() < 4 + rows_size {
            return None;
        }
        let accepting = little_endian(&after[..4]);
        if accepting >> states != 0 {
            return None;
        }
        let rows = &after[4..4 + rows_size];
        if !rows.iter().all(|&q| usize::from(q) < states || q == GAP) {
            return None;
        }
        automata.push(Automaton {
            accepting: accepting as u32,
            next: rows
                .chunks_exact(header.symbols)
                .map(|r| r.to_vec())
                .collect(),
        });
        rest = &after[4 + rows_size..];
    }
    rest.is_empty().then_some(automata)
}
