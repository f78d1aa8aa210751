//! All that is compared in one case: the calls, and at times the program.

use crate::calls::Calls;
use crate::case::Case;
use crate::disagreement::{Compared, Disagreement};
use crate::drive::Drive;
use crate::gaps::{searched, Record};
use crate::kind::Kind;
use crate::lent::Memory;
use crate::program;
use crate::random::Random;
use crate::tally::{Event, Tally};
use second::Outcome;
use std::path::Path;

/// One case in so many also goes through the program.
const PROGRAM_SHARE: usize = 20;

impl Case {
    /// All calls, and at times the program.
    pub fn compare(&mut self, program: Option<&Path>, memory: &Memory, tally: &mut Tally) -> Compared<()> {
        tally.kinds[self.kind as usize] += 1;
        let before = self.random.clone();
        let mut random = before.clone();
        let record = self.pair.is_some().then(Record::default);
        let (outcome, record) = self.drive(&self.file, &mut random, memory, tally, record)?;
        self.random = random;
        if let Some(record) = record {
            self.hold_against_sinks(&record, before, memory, tally)?;
        }
        let spent = matches!(outcome, Some(Outcome::Spent(_)));
        match program {
            Some(program) if self.goes_through_program(spent) => self.run(program, spent, tally),
            _ => Ok(()),
        }
    }

    /// All calls on one file. Answers what Search comes to, and what every call answered and left where it is to be recorded.
    fn drive(
        &self,
        bytes: &[u8],
        random: &mut Random,
        memory: &Memory,
        tally: &mut Tally,
        record: Option<Record>,
    ) -> Compared<(Option<Outcome>, Option<Record>)> {
        let file = memory.bytes(random, bytes);
        let (relations, automata, index, try_choices) = (Vec::new(), Vec::new(), Vec::new(), self.measure.try_choices);
        let calls = Calls { file, memory, random, tally, relations, automata, index, record, try_choices };
        let mut drive = Drive { calls, measure: self.measure, known: self.known.as_ref() };
        let outcome = drive.run()?;
        let record = drive.calls.record.take();
        if file != bytes {
            return Err(Disagreement { call: "all".into(), ours: "the file is changed".into(), theirs: String::new(), word: None });
        }
        Ok((outcome, record))
    }

    /// The same calls with the sinks written out, from the same random words: each answers and leaves the same.
    fn hold_against_sinks(&self, gaps: &Record, mut random: Random, memory: &Memory, tally: &mut Tally) -> Compared<()> {
        let Some(pair) = &self.pair else { return Ok(()) };
        let driven = self.drive(&pair.sunk, &mut random, memory, tally, Some(Record::default()));
        let (_, sunk) = driven.map_err(|found| Disagreement { call: format!("{}, with the sinks written out", found.call), ..found })?;
        gaps.same(&sunk.unwrap_or_default())?;
        let [with_gaps, open] = [&self.file, &pair.open].map(|file| searched(file, self.measure.budget));
        tally.gaps.pair(pair.states, &with_gaps, &open);
        Ok(())
    }

    /// A search that did not end may take long within the program's budget, and in large problems too long.
    fn goes_through_program(&mut self, spent: bool) -> bool {
        match self.kind {
            Kind::Endless | Kind::Tree | Kind::Full => true,
            Kind::Small | Kind::Hard if spent => self.random.once_in(PROGRAM_SHARE),
            _ => !spent && self.random.once_in(PROGRAM_SHARE),
        }
    }

    fn run(&mut self, program: &Path, spent: bool, tally: &mut Tally) -> Compared<()> {
        let input = if self.kind == Kind::Endless || self.known.is_some() { self.file.clone() } else { program::input(&mut self.random, &self.file) };
        let cuts = program::cuts(&mut self.random, input.len());
        let theirs = self.known.as_ref().map_or_else(|| program::lines(&input), program::known_lines);
        let ours = program::printed(program, &input, &cuts).unwrap_or_else(|trouble| format!("{trouble}"));
        tally.runs += 1;
        if !cuts.is_empty() {
            tally.came_up(Event::Pieces);
        }
        if spent {
            tally.came_up(Event::SpentProgram);
        }
        if ours == theirs {
            return Ok(());
        }
        let call = format!("program, {} bytes of input, cut at {cuts:?}", input.len());
        Err(Disagreement { call, ours: format!("{ours:?}"), theirs: format!("{theirs:?}"), word: None })
    }
}
