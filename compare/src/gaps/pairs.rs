//! Two files that differ in their automata alone: with gaps, and with sinks written out. "Solutions and node counts are those of the same automaton with a sink
//! written out": so each call must answer and leave the same with both.

use super::filled;
use super::tally::Searched;
use crate::disagreement::{Compared, Disagreement};
use crate::draft::Draft;
use crate::lent::Lent;
use crate::marked::Held;
use second::Outcome;

/// The files that go with one whose automata have gaps.
pub struct Pair {
    /// With the sinks written out.
    pub sunk: Vec<u8>,
    /// With a state that accepts in place of each sink: what is otherwise in it, a gap has decided.
    pub open: Vec<u8>,
    /// The most states that an automaton of them has.
    pub states: u8,
}

impl Pair {
    /// Of a problem in which every sink can be written out.
    pub fn of(draft: &Draft) -> Pair {
        let with = |accepting: bool| {
            let fill = |machine: &Vec<u8>| filled(machine, draft.symbols, accepting).expect("no more than 31 states with gaps");
            Draft { machines: draft.machines.iter().map(fill).collect(), ..draft.clone() }
        };
        let sunk = with(false);
        let grown = sunk.machines.iter().zip(&draft.machines).filter(|(sunk, machine)| sunk[0] > machine[0]);
        let states = grown.map(|(sunk, _)| sunk[0]).max().unwrap_or(0);
        Pair { sunk: sunk.bytes(), open: with(true).bytes(), states }
    }
}

/// What the second solver makes of a file: whether every variable has a value once its table is settled, and its search.
pub fn searched(file: &[u8], budget: u32) -> Searched {
    let words = second::read(file).expect("a file of a pair is sound").words();
    let (mut room, mut table) = (vec![0; 3 * words], vec![0; words]);
    second::unpack(file, &mut table).expect("a table of the file's size");
    let settled = second::settle(file, &mut table).expect("the file's table");
    let outcome = second::search(file, budget, &mut room, &mut table).expect("a room that is large enough");
    let answer = matches!(outcome, Outcome::Found(_)).then_some(table);
    Searched { every_value: settled.1, outcome, answer }
}

/// What the library answered in each call and left in its buffers, those that lie beside them included, one call after the other.
#[derive(Default)]
pub struct Record(Vec<(String, Vec<u64>)>);

impl Record {
    pub fn note(&mut self, call: String, answer: u8, results: &[Held], buffers: &[(&'static str, &Lent)]) {
        let mut words = vec![u64::from(answer)];
        words.extend(results.iter().flat_map(|held| held.ours));
        words.extend(buffers.iter().flat_map(|(_, lent)| lent.all_ours()));
        self.0.push((call, words));
    }

    /// Refuses two records that differ in a call, an answer, a result or a word of a buffer. Both solvers have agreed on each file, so they may both be wrong.
    pub fn same(&self, sunk: &Record) -> Compared<()> {
        let differs = |(gaps, sink): &(&(String, Vec<u64>), &(String, Vec<u64>))| gaps != sink;
        let Some((gaps, sink)) = self.0.iter().zip(&sunk.0).find(differs) else {
            return if self.0.len() == sunk.0.len() { Ok(()) } else { Err(unlike("all", &self.0.len(), &sunk.0.len())) };
        };
        let at = gaps.1.iter().zip(&sink.1).position(|(one, other)| one != other).unwrap_or(0);
        Err(unlike(&gaps.0, &format!("{} {:#x}", gaps.0, gaps.1[at]), &format!("{} {:#x}", sink.0, sink.1[at])))
    }
}

fn unlike(call: &str, gaps: &dyn std::fmt::Display, sink: &dyn std::fmt::Display) -> Disagreement {
    let (ours, theirs) = (format!("with gaps: {gaps}"), format!("the library again, with sinks: {sink}"));
    Disagreement { call: format!("{call}, held against the file with sinks"), ours, theirs, word: None }
}

#[cfg(test)]
mod tests {
    use super::*;
    use crate::gaps::fillable;
    use crate::random::Random;

    /// The second solver's answers are the same with sinks, and often others where gaps accept.
    #[test]
    fn gaps_decide_often() {
        let mut decided = 0;
        for index in 0..200 {
            let draft = fillable(&mut Random::new(25, index));
            let pair = Pair::of(&draft);
            let [gaps, sunk, open] = [&draft.bytes(), &pair.sunk, &pair.open].map(|file| searched(file, 50));
            assert!(gaps == sunk && pair.states > 1 && pair.states <= 32, "index {index}");
            decided += usize::from(gaps != open);
        }
        assert!(decided > 80, "{decided} of 200");
    }

    #[test]
    fn records_differ_in_any_word() {
        let noted = |call: &str, words: &[u64]| Record(vec![("read".into(), vec![0]), (call.into(), words.to_vec())]);
        let one = noted("step 1", &[0, 7]);
        assert!(one.same(&noted("step 1", &[0, 7])).is_ok());
        for other in [noted("step 2", &[0, 7]), noted("step 1", &[0, 8]), noted("step 1", &[0, 7, 7]), Record::default()] {
            assert!(one.same(&other).is_err() && other.same(&one).is_err());
        }
    }
}
