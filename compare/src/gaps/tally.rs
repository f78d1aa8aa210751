//! What has been compared of automata with gaps, and whether anything never came up.

use super::{GAP, HEAD, MOST_STATES};
use crate::tally::{named, Groups};
use second::domain::{count_strings, Row};
use second::enumerate::all_strings;
use second::file::Problem;
use second::relations::{Automaton, Relation};
use second::Outcome;

/// How many of an automaton's moves are missing: few are less than half.
const SORTS: [&str; 4] = ["without gaps", "with few gaps", "with many gaps", "with all moves missing"];

/// What is far from where most automata are, and must come up all the same.
#[derive(Clone, Copy)]
enum Event {
    Of32,
    All32,
    First,
    Last,
    OnlyEmpty,
    Rejected,
    Rejected32,
    Passed,
    Passed32,
    Narrowed32,
    Pair,
    Pair32,
    Found,
    None,
    Dead,
    Refused,
    RefusedFirst,
    Refused254,
    Refused32,
    RefusedBeside,
}

const EVENTS: [&str; 20] = [
    "automata of 32 states with gaps",
    "automata of 32 states with all moves missing",
    "gaps out of state 0",
    "gaps as an automaton's last byte",
    "one state without moves that accepts the empty string",
    "single strings rejected by a gap",
    "single strings rejected by a gap among 32 states",
    "single strings accepted beside gaps",
    "single strings accepted beside gaps of 32 states",
    "strings narrowed by 32 states with gaps",
    "pairs with and without a sink",
    "pairs whose sink is the 32nd state",
    "another solution found than where gaps accept",
    "none found where gaps that accept find one",
    "dead at the root where gaps that accept leave every value",
    "refusal 5 by a next state above the states",
    "refusal 5 by the first that is no state",
    "refusal 5 by a next state 254",
    "refusal 5 by state 32 of 32",
    "refusal 5 by a next state beside gaps",
];

/// What a file of a pair comes to.
#[derive(PartialEq, Debug)]
pub struct Searched {
    pub every_value: bool,
    pub outcome: Outcome,
    /// The answer table, where a solution is found.
    pub answer: Option<Vec<u64>>,
}

/// Counts of automata, and of what their gaps decide.
#[derive(Clone, Default)]
pub struct Gaps {
    /// Automata that Regular names in a problem, by how many of their moves are missing.
    sorts: [u64; SORTS.len()],
    events: [u64; EVENTS.len()],
}

/// How many moves an automaton has, and how many of them are missing.
fn missing(automaton: &Automaton) -> (usize, usize) {
    let moves = automaton.next.iter().flatten();
    (moves.clone().count(), moves.filter(|&&next| next == GAP).count())
}

impl Gaps {
    fn came_up(&mut self, event: Event, it_did: bool) {
        self.events[event as usize] += u64::from(it_did);
    }

    /// The automata of a problem, those that Regular names.
    pub fn problem(&mut self, problem: &Problem) {
        for (d, automaton) in problem.automata.iter().enumerate() {
            if problem.constraints.iter().any(|relation| matches!(relation, Relation::Regular(_, named) if *named == d)) {
                self.automaton(automaton);
            }
        }
    }

    fn automaton(&mut self, automaton: &Automaton) {
        let (moves, missing) = missing(automaton);
        let sort = if missing == moves { 3 } else { usize::from(missing > 0) + usize::from(2 * missing >= moves) };
        self.sorts[sort] += 1;
        let (states, ends) = (automaton.next.len(), automaton.next.last().and_then(|row| row.last()));
        self.came_up(Event::Of32, states == MOST_STATES && missing > 0);
        self.came_up(Event::All32, states == MOST_STATES && missing == moves);
        self.came_up(Event::First, automaton.next[0].contains(&GAP));
        self.came_up(Event::Last, ends == Some(&GAP));
        self.came_up(Event::OnlyEmpty, states == 1 && missing == moves && automaton.is_accepting(0));
    }

    /// A step of Regular: the string's row before it, and afterwards.
    pub fn step(&mut self, automaton: &Automaton, before: &Row, after: &Row) {
        if missing(automaton).1 == 0 {
            return;
        }
        let of_32 = automaton.next.len() == MOST_STATES;
        self.came_up(Event::Narrowed32, of_32 && before != after && after[0] != 0);
        if count_strings(before) != 1 {
            return;
        }
        let string = &all_strings(before)[0];
        let rejected = string.iter().try_fold(0, |state, &symbol| automaton.follow(state, symbol.into())).is_none();
        let passed = !string.is_empty() && automaton.accepts(string);
        for (event, so) in [(Event::Rejected, rejected), (Event::Rejected32, rejected && of_32), (Event::Passed, passed), (Event::Passed32, passed && of_32)] {
            self.came_up(event, so);
        }
    }

    /// A pair of files, the states that a sink makes at most, and what the file comes to with gaps and where gaps accept.
    pub fn pair(&mut self, states: u8, gaps: &Searched, open: &Searched) {
        let found = |searched: &Searched| matches!(searched.outcome, Outcome::Found(_));
        self.came_up(Event::Pair, true);
        self.came_up(Event::Pair32, usize::from(states) == MOST_STATES);
        self.came_up(Event::Found, found(gaps) && found(open) && gaps.answer != open.answer);
        self.came_up(Event::None, matches!(gaps.outcome, Outcome::None(_)) && found(open));
        self.came_up(Event::Dead, !gaps.every_value && open.every_value);
    }

    /// A file that is refused by 5, so its parts lie as they should. Its automata are looked at up to the first that is none for another reason than its moves.
    pub fn refused(&mut self, file: &[u8]) {
        let (body, trailer) = file.split_at(file.len() - 24);
        let (symbols, size) = (usize::from(trailer[0]), u32::from_le_bytes([trailer[16], trailer[17], trailer[18], trailer[19]]));
        let mut rest = &body[body.len() - size as usize..];
        for _ in 0..trailer[3] {
            let states = rest.first().map_or(0, |&states| usize::from(states));
            if !(1..=MOST_STATES).contains(&states) || rest.len() < HEAD + states * symbols {
                return;
            }
            let (machine, after) = rest.split_at(HEAD + states * symbols);
            let accepting = u32::from_le_bytes([machine[1], machine[2], machine[3], machine[4]]);
            if u64::from(accepting) >> states != 0 {
                return;
            }
            if let Some(&next) = machine[HEAD..].iter().find(|&&next| usize::from(next) >= states && next != GAP) {
                return self.next_state(states, next, machine[HEAD..].contains(&GAP));
            }
            rest = after;
        }
    }

    /// A next state that refusal 5 is given for.
    fn next_state(&mut self, states: usize, next: u8, beside: bool) {
        self.came_up(Event::Refused, true);
        self.came_up(Event::RefusedFirst, usize::from(next) == states);
        self.came_up(Event::Refused254, next == 254);
        self.came_up(Event::Refused32, states == MOST_STATES && usize::from(next) == states);
        self.came_up(Event::RefusedBeside, beside);
    }

    pub fn add(&mut self, other: &Gaps) {
        for (sums, counts) in [(&mut self.sorts[..], &other.sorts[..]), (&mut self.events, &other.events)] {
            sums.iter_mut().zip(counts).for_each(|(sum, count)| *sum += count);
        }
    }

    /// Every count with its name, group by group.
    pub fn groups(&self) -> Groups {
        vec![("automata", named(&SORTS, &self.sorts)), ("far out by gaps", named(&EVENTS, &self.events))]
    }
}

#[cfg(test)]
mod tests {
    use super::*;
    use crate::draft::{just, machine, Draft};

    fn counted<const N: usize>(tally: &Gaps, events: [Event; N]) -> [u64; N] {
        events.map(|event| tally.events[event as usize])
    }

    #[test]
    fn automata_are_counted_by_their_gaps() {
        let mut tally = Gaps::default();
        let mut draft = Draft::over(2);
        draft.string(just(&[]));
        let machines = [machine(1, 1, &[0, 0]), machine(2, 1, &[0, 1, 1, GAP]), machine(2, 1, &[GAP, 1, 1, GAP]), machine(1, 1, &[GAP; 2])];
        for (at, bytes) in machines.into_iter().chain([machine(32, 0, &[GAP; 64])]).enumerate() {
            draft.machine(bytes);
            draft.regular(0, at as u8);
        }
        draft.machine(machine(1, 0, &[GAP; 2])); // nothing names it
        tally.problem(&Problem::parse(&draft.bytes()).unwrap());
        assert_eq!(tally.sorts, [1, 1, 1, 2]);
        assert_eq!(counted(&tally, [Event::Of32, Event::All32, Event::First, Event::Last, Event::OnlyEmpty]), [1, 1, 3, 4, 1]);
    }

    #[test]
    fn single_strings_are_counted() {
        let mut tally = Gaps::default();
        let automaton = Automaton { accepting: 0b10, next: vec![vec![1, GAP], vec![0, 0]] };
        for (string, left) in [(&[0][..], true), (&[1], false), (&[0, 0], false)] {
            let before = just(string);
            tally.step(&automaton, &before, if left { &before } else { &[0; 64] });
        }
        assert_eq!(counted(&tally, [Event::Passed, Event::Rejected, Event::Rejected32, Event::Narrowed32]), [1, 1, 0, 0]);
    }

    #[test]
    fn next_states_that_are_none_are_counted() {
        let mut tally = Gaps::default();
        let mut refused = |bytes: Vec<u8>| {
            let mut draft = Draft::over(1);
            draft.machine(machine(1, 1, &[GAP]));
            draft.machine(bytes);
            assert_eq!(second::read(&draft.bytes()), Err(5));
            tally.refused(&draft.bytes());
        };
        refused(machine(2, 0, &[GAP, 2]));
        refused(machine(2, 0, &[0, 254]));
        refused(machine(32, 0, &[32; 32]));
        refused(machine(2, 4, &[0, 254]));
        refused(machine(33, 0, &[254; 33]));
        refused(machine(2, 0, &[254]));
        let events = [Event::Refused, Event::RefusedFirst, Event::Refused254, Event::Refused32, Event::RefusedBeside];
        assert_eq!(counted(&tally, events), [3, 2, 1, 1, 1]);
    }

    #[test]
    fn pairs_are_counted_by_what_gaps_decide() {
        let mut tally = Gaps::default();
        let searched = |every_value: bool, outcome: Outcome, answer: u64| Searched { every_value, outcome, answer: Some(vec![answer]) };
        let open = searched(true, Outcome::Found(3), 5);
        tally.pair(32, &searched(true, Outcome::Found(3), 4), &open);
        tally.pair(9, &searched(false, Outcome::None(1), 0), &open);
        tally.pair(9, &open, &open);
        assert_eq!(counted(&tally, [Event::Pair, Event::Pair32, Event::Found, Event::None, Event::Dead]), [3, 1, 1, 1, 1]);
    }
}
