//! Automata with gaps: at random, or with the moves of some strings alone, as authors list them; and the same with their gaps filled, so that two files can be
//! held against each other.

mod pairs;
mod tally;

use crate::draft::{any as every, below, just, machine, Draft, Row};
use crate::generate::{self, record};
use crate::random::Random;
use crate::{rules, templates};
pub use pairs::{searched, Pair, Record};
pub use second::relations::GAP;
pub use tally::Gaps;

/// The most states of an automaton.
pub const MOST_STATES: usize = 32;
/// Where the moves of an automaton begin.
pub const HEAD: usize = 5;

/// Any automaton of so many states: every other one has no gap, and the others have few, many, no move out of one state, or no move at all.
pub fn any(random: &mut Random, symbols: usize, states: usize) -> Vec<u8> {
    let mut machine = rules::any(random, symbols, states);
    let moves = &mut machine[HEAD..];
    match random.below(12) {
        0..=5 => {}
        6 | 7 => (0..random.between(1, 3)).for_each(|_| moves[random.below(moves.len())] = GAP),
        8 | 9 => {
            let share = random.between(1, 7);
            moves.iter_mut().filter(|_| random.below(8) < share).for_each(|next| *next = GAP);
        }
        10 => {
            let state = *random.pick(&[0, states - 1]);
            moves[state * symbols..][..symbols].fill(GAP);
        }
        _ => moves.fill(GAP),
    }
    machine
}

/// The automaton of so many states that has the moves of these strings, wherever they lead, and no others, and accepts the strings.
pub fn listed(random: &mut Random, symbols: usize, states: usize, strings: &[Vec<u8>]) -> Vec<u8> {
    let mut bytes = machine(states, 0, &vec![GAP; states * symbols]);
    for string in strings {
        let mut state = 0;
        for &symbol in string {
            let next = &mut bytes[HEAD + state * symbols + usize::from(symbol)];
            if *next == GAP {
                *next = random.below(states) as u8;
            }
            state = usize::from(*next);
        }
        bytes[1 + state / 8] |= 1 << (state % 8);
    }
    bytes
}

pub fn has_gaps(machine: &[u8]) -> bool {
    machine[HEAD..].contains(&GAP)
}

/// The automaton with one state more, which is never left and where all gaps lead: a sink, or a state that accepts. None if that would be the 33rd state; and
/// where there is no gap, the automaton as it is.
pub fn filled(machine: &[u8], symbols: usize, accepting: bool) -> Option<Vec<u8>> {
    let mut bytes = machine.to_vec();
    if !has_gaps(machine) {
        return Some(bytes);
    }
    let state = usize::from(machine[0]);
    if state == MOST_STATES {
        return None;
    }
    bytes[0] += 1;
    bytes[1 + state / 8] |= u8::from(accepting) << (state % 8);
    bytes.extend(vec![GAP; symbols]);
    bytes[HEAD..].iter_mut().filter(|next| **next == GAP).for_each(|next| *next = state as u8);
    Some(bytes)
}

/// The automaton without its sink, if it has one: gaps take the place of all moves that lead there, and the states behind it the numbers before theirs.
pub fn without_sink(bytes: &[u8], symbols: usize) -> Vec<u8> {
    let accepting = u32::from_le_bytes([bytes[1], bytes[2], bytes[3], bytes[4]]);
    let rows: Vec<&[u8]> = bytes[HEAD..].chunks(symbols).collect();
    let is_sink = |state: &usize| accepting >> state & 1 == 0 && rows[*state].iter().all(|&next| usize::from(next) == *state);
    let Some(sink) = (1..rows.len()).find(is_sink) else { return bytes.to_vec() };
    let renumbered = |&next: &u8| match usize::from(next) {
        next if next == sink => GAP,
        next => (next - usize::from(next > sink)) as u8,
    };
    let left = (0..rows.len()).filter(|&state| state != sink);
    let moves: Vec<u8> = left.flat_map(|state| rows[state]).map(renumbered).collect();
    let low = accepting & below(sink) as u32;
    machine(rows.len() - 1, low | accepting >> 1 & !(below(sink) as u32), &moves)
}

/// Strings that are held to automata of at most so many states, most of which list few moves: those of a solution and of other strings. Between the strings is
/// another constraint or none.
pub fn ruled(random: &mut Random, most_states: usize) -> Draft {
    let symbols = *random.pick(&[1, 2, 2, 3, 4, 64]);
    let longest = *random.pick(&[1, 2, 3, 4, 5, 63]);
    let mut draft = Draft::over(symbols);
    for x in 0..random.between(1, 3) as u8 {
        let value = string(random, symbols, longest);
        draft.rows.push(around(random, symbols, longest, &value));
        for _ in 0..*random.pick(&[1, 1, 2]) {
            let machine = of_string(random, symbols, most_states, &value);
            let d = draft.machine(machine);
            draft.regular(x, d);
        }
    }
    let numbers = random.below(2);
    draft.numbers = random.words(numbers);
    let kind = *random.pick(&[1, 2, 2, 3, 4, 5, 6, 6]);
    if random.once_in(2) {
        draft.records.extend(record(random, kind, draft.rows.len(), draft.numbers.len(), 0));
    }
    random.shuffle(&mut draft.records);
    draft
}

fn string(random: &mut Random, symbols: usize, longest: usize) -> Vec<u8> {
    let length = random.below(longest + 1);
    (0..length).map(|_| random.below(symbols) as u8).collect()
}

/// The row of the string alone, of all strings, or of some of which it is one.
fn around(random: &mut Random, symbols: usize, longest: usize, string: &[u8]) -> Row {
    match random.below(4) {
        0 => just(string),
        1 => every(0, longest, below(symbols)),
        _ => {
            let mut row = just(string);
            row[0] |= random.subset(longest + 1, 4);
            row[1..=longest].iter_mut().for_each(|word| *word |= random.subset(symbols, 4));
            row
        }
    }
}

/// An automaton that accepts the string, and others that share some of its beginning; now and then any.
fn of_string(random: &mut Random, symbols: usize, most_states: usize, value: &[u8]) -> Vec<u8> {
    let fewer = random.between(1, most_states);
    let states = *random.pick(&[most_states, most_states, fewer, 1]);
    if random.once_in(4) {
        return any(random, symbols, states);
    }
    let mut strings = vec![value.to_vec()];
    for _ in 0..random.below(4) {
        let common = random.below(value.len() + 1);
        let mut other = value[..common].to_vec();
        other.extend(string(random, symbols, 4));
        strings.push(other);
    }
    listed(random, symbols, states, &strings)
}

/// A problem in which some automaton that Regular names has gaps, and the sink of each can be written out.
pub fn fillable(random: &mut Random) -> Draft {
    loop {
        let draft = match random.below(8) {
            0 => generate::large(random),
            1 => templates::clash(random),
            2 | 3 => generate::small(random),
            _ => ruled(random, MOST_STATES - 1),
        };
        let gaps = draft.records.iter().any(|record| record[0] == 7 && has_gaps(&draft.machines[usize::from(record[2])]));
        if gaps && draft.machines.iter().all(|machine| filled(machine, draft.symbols, false).is_some()) {
            return draft;
        }
    }
}

#[cfg(test)]
mod tests {
    use super::*;
    use crate::rules::{accepts, Block};

    #[test]
    fn what_is_generated_is_accepted() {
        for index in 0..500 {
            let random = &mut Random::new(20, index);
            for draft in [ruled(random, MOST_STATES), fillable(random)] {
                assert!(second::read(&draft.bytes()).is_ok(), "index {index}");
            }
        }
    }

    #[test]
    fn all_sorts_of_gaps_come_up() {
        let machines: Vec<Vec<u8>> = (0..200).map(|index| any(&mut Random::new(21, index), 4, 6)).collect();
        let gaps: Vec<usize> = machines.iter().map(|bytes| bytes[HEAD..].iter().filter(|&&next| next == GAP).count()).collect();
        let with = |least: usize, most: usize| gaps.iter().filter(|&&count| least <= count && count <= most).count();
        assert!(with(0, 0) > 60 && with(1, 3) > 20 && with(4, 23) > 20 && with(24, 24) > 5);
    }

    /// Filled by a sink it accepts what it did; filled by a state that accepts, also all strings that meet a gap.
    #[test]
    fn filled_gaps_are_read_on() {
        for index in 0..100 {
            let random = &mut Random::new(22, index);
            let machine = any(random, 3, 5);
            let [sunk, open] = [false, true].map(|accepting| filled(&machine, 3, accepting).unwrap());
            for _ in 0..40 {
                let string = string(random, 3, 6);
                let accepted = accepts(&machine, 3, &string);
                assert_eq!(accepts(&sunk, 3, &string), accepted);
                assert_eq!(accepts(&open, 3, &string), accepted || rules::end(&machine, 3, &string).is_none());
            }
        }
        assert!(filled(&machine(32, 0, &[GAP; 32]), 1, false).is_none());
        assert!(filled(&machine(32, 0, &[31; 32]), 1, false).is_some());
        assert_eq!(filled(&machine(31, 0, &[GAP; 31]), 1, true), Some(machine(32, 1 << 31, &[31; 32])));
    }

    #[test]
    fn a_rule_loses_its_sink() {
        let blocks = [(0b01, 1, Some(2)), (0b10, 1, None)].map(|(symbols, least, most)| Block { symbols, least, most });
        let rule = rules::rule(3, &blocks).unwrap();
        let open = without_sink(&rule, 3);
        assert!(open[0] + 1 == rule[0] && has_gaps(&open) && !has_gaps(&rule));
        let random = &mut Random::new(23, 0);
        for _ in 0..300 {
            let string = string(random, 3, 5);
            assert_eq!(accepts(&open, 3, &string), accepts(&rule, 3, &string), "{string:?}");
        }
        let parity = rules::parity(3, 1, true);
        assert_eq!(without_sink(&parity, 3), parity);
    }

    #[test]
    fn listed_strings_are_accepted() {
        for index in 0..100 {
            let random = &mut Random::new(24, index);
            let strings = [0; 3].map(|_| string(random, 4, 9));
            let machine = listed(random, 4, 32, &strings);
            assert!(strings.iter().all(|string| accepts(&machine, 4, string)));
        }
    }
}
