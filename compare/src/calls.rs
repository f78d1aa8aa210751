//! One call of the library and of the second solver: answers, results behind pointers and every word of every buffer must be the same.

use crate::disagreement::{self, Compared};
use crate::ended;
use crate::entries;
use crate::gaps::Record;
use crate::lent::{Lent, Memory};
use crate::marked::{Held, Marked};
use crate::random::Random;
use crate::tally::{self, Event, Tally};
use cobleskeg::SETTLE;
use second::domain::{number_place, row};
use second::relations::{Automaton, Relation};
use second::Outcome;

/// The most choices that are tried one by one for a step.
const CHOICES: u128 = 600;

/// Calls on one file.
pub struct Calls<'a> {
    pub file: &'a [u8],
    pub memory: &'a Memory,
    pub random: &'a mut Random,
    pub tally: &'a mut Tally,
    /// The constraints, by the second solver; none where the file is refused.
    pub relations: Vec<Relation>,
    /// The automata, by the second solver; none where the file is refused.
    pub automata: Vec<Automaton>,
    /// The file's index, as the library built it; nothing where the file is refused.
    pub index: Vec<u64>,
    /// What every call answered and left, where it is to be held against another file's.
    pub record: Option<Record>,
    /// Whether steps are also held against trying every choice.
    pub try_choices: bool,
}

/// What Settle left, in either form: the library's table, and where it was not refused the rounds or the steps run and whether every variable has a value.
pub struct Settled {
    pub table: Vec<u64>,
    pub counted: Option<(u32, bool)>,
}

/// A search's answer by the header's numbers.
fn outcome(answer: Outcome) -> (u8, u32) {
    match answer {
        Outcome::Found(nodes) => (1, nodes),
        Outcome::None(nodes) => (2, nodes),
        Outcome::Spent(nodes) => (3, nodes),
    }
}

impl Calls<'_> {
    pub fn read(&mut self) -> Compared<()> {
        let file = self.file;
        let mut counts = [0; 5].map(|_| Marked::<usize>::new(self.random));
        let [k, s, t, d, c] = counts.each_mut().map(Marked::pointer);
        ended::at_entry("read");
        let ours = unsafe { entries::cobleskeg_read(file.as_ptr(), file.len(), k, s, t, d, c) };
        let theirs = second::read(file);
        let wanted = theirs.ok().map(|header| [header.symbols, header.strings, header.numbers, header.automata, header.constraints]);
        let names = ["symbols", "strings", "numbers", "automata", "constraints"];
        let results: Vec<Held> = (0..5).map(|at| counts[at].held(names[at], wanted.map(|wanted| wanted[at]))).collect();
        self.tally.file(file, theirs.err());
        self.agree(0, || "read".into(), ours, theirs.err(), &results, &[])
    }

    pub fn unpack(&mut self, words: usize) -> Compared<()> {
        let file = self.file;
        let mut table = Lent::random(&self.memory.table, self.random, words);
        ended::at_entry("unpack");
        let ours = unsafe { entries::cobleskeg_unpack(file.as_ptr(), file.len(), table.ours().as_mut_ptr(), words) };
        let theirs = second::unpack(file, table.theirs());
        self.agree(1, || format!("unpack into {words} words"), ours, theirs.err(), &[], &[("table", &table)])
    }

    pub fn step(&mut self, j: usize, words: &[u64]) -> Compared<()> {
        let file = self.file;
        let mut table = Lent::new(&self.memory.table, self.random, words);
        let mut struck = Marked::new(self.random);
        ended::at_entry("step");
        let ours = unsafe { entries::cobleskeg_step(file.as_ptr(), file.len(), j, table.ours().as_mut_ptr(), words.len(), struck.pointer()) };
        let theirs = second::step(file, j as u64, table.theirs());
        let results = [struck.held("struck", theirs.ok())];
        self.agree(2, || format!("step {j} on {} words", words.len()), ours, theirs.err(), &results, &[("table", &table)])?;
        let Ok(struck) = theirs else { return Ok(()) };
        if struck > 0 {
            self.tally.struck[self.relations.get(j).map_or(0, kind)] += 1;
        }
        if let Some(left) = self.relations.get(j).and_then(|relation| part(relation, table.theirs())) {
            self.tally.part(left);
        }
        if let Some(&Relation::Regular(x, d)) = self.relations.get(j) {
            self.tally.gaps.step(&self.automata[d], &row(words, x), &row(table.theirs(), x));
        }
        if self.try_choices {
            self.try_choices(j, words, struck, &mut table)?;
        }
        Ok(())
    }

    /// The same step by trying every choice, if they are few. `table` holds what the library left, and `struck` is what it answered.
    fn try_choices(&mut self, j: usize, words: &[u64], struck: u32, table: &mut Lent) -> Compared<()> {
        table.theirs().copy_from_slice(words);
        let Ok(Some(tried)) = second::step_by_enumeration(self.file, j as u64, table.theirs(), CHOICES) else {
            return Ok(());
        };
        self.tally.tried += 1;
        let results = [Held { name: "struck", ours: [0, struck.into(), 0], theirs: [0, tried.into(), 0] }];
        differing(|| format!("step {j} by trying every choice"), 0, None, &results, &[("table", table)])
    }

    /// Answers what it left.
    pub fn settle(&mut self, words: &[u64]) -> Compared<Settled> {
        let file = self.file;
        let mut table = Lent::new(&self.memory.table, self.random, words);
        let (mut rounds, mut every_value) = (Marked::new(self.random), Marked::new(self.random));
        let (r, e) = (rounds.pointer(), every_value.pointer());
        ended::at_entry("settle");
        let ours = unsafe { entries::cobleskeg_settle(file.as_ptr(), file.len(), table.ours().as_mut_ptr(), words.len(), r, e) };
        let theirs = second::settle(file, table.theirs());
        let wanted = theirs.ok();
        let results = [rounds.held("rounds", wanted.map(|(rounds, _)| rounds)), every_value.held("every_value", wanted.map(|(_, every)| every.into()))];
        self.agree(3, || format!("settle {} words", words.len()), ours, theirs.err(), &results, &[("table", &table)])?;
        self.tally.rounds(wanted.map_or(0, |(rounds, _)| rounds));
        Ok(Settled { table: table.ours().to_vec(), counted: wanted })
    }

    /// Answers the outcome, or nothing where it is refused.
    pub fn search(&mut self, budget: u32, room_words: usize, words: usize) -> Compared<Option<Outcome>> {
        let file = self.file;
        self.search_as(budget, room_words, words, |room, table| second::search(file, budget, room, table))
    }

    /// A search that is held against what the function does to room and answer table.
    pub fn search_as(
        &mut self,
        budget: u32,
        room_words: usize,
        words: usize,
        second: impl Fn(&mut [u64], &mut [u64]) -> Result<Outcome, u8>,
    ) -> Compared<Option<Outcome>> {
        let file = self.file;
        let mut room = Lent::random(&self.memory.room, self.random, room_words);
        let mut table = Lent::random(&self.memory.table, self.random, words);
        let (mut how, mut nodes) = (Marked::new(self.random), Marked::new(self.random));
        let (at, to) = (room.ours().as_mut_ptr(), table.ours().as_mut_ptr());
        ended::at_entry("search");
        let ours = unsafe { entries::cobleskeg_search(file.as_ptr(), file.len(), budget, at, room_words, to, words, how.pointer(), nodes.pointer()) };
        let theirs = second(room.theirs(), table.theirs());
        let wanted = theirs.ok().map(outcome);
        let results = [how.held("outcome", wanted.map(|(how, _)| how)), nodes.held("nodes", wanted.map(|(_, nodes)| nodes))];
        let call = || format!("search with budget {budget}, {room_words} words of room, {words} words for the answer");
        self.agree(4, call, ours, theirs.err(), &results, &[("table", &table), ("room", &room)])?;
        self.tally.search(budget, theirs.ok());
        if room_words >= 3 * words + 1000 && theirs.is_ok() {
            self.tally.came_up(Event::WideRoom);
        }
        let answer = table.theirs();
        let mut parts = self.relations.iter().filter_map(|relation| part(relation, answer));
        if matches!(theirs, Ok(Outcome::Found(_))) && parts.any(|[x, _, n]| tally::is_past(x, n)) {
            self.tally.came_up(Event::SolvedPast);
        }
        Ok(theirs.ok())
    }

    /// The second solver takes the calls one by one; one that is refused leaves the table.
    pub fn perform(&mut self, list: &[u32], words: &[u64]) -> Compared<()> {
        let file = self.file;
        let mut table = Lent::new(&self.memory.table, self.random, words);
        let lent = self.memory.list(list);
        ended::at_entry("perform");
        unsafe { entries::cobleskeg_perform(file.as_ptr(), file.len(), lent.as_ptr(), lent.len(), table.ours().as_mut_ptr(), words.len()) };
        for &call in list {
            let _refused = match call {
                SETTLE => second::settle(file, table.theirs()).err(),
                j => second::step(file, u64::from(j), table.theirs()).err(),
            };
        }
        self.tally.list(list.len());
        self.agree(5, || format!("perform {list:?} on {} words", words.len()), 0, None, &[], &[("table", &table)])
    }

    /// Counts a call of this entry, and compares.
    pub fn agree(&mut self, entry: usize, call: impl Fn() -> String, ours: u8, refused: Option<u8>, results: &[Held], buffers: &[Named]) -> Compared<()> {
        self.tally.call(entry, refused);
        if let Some(record) = &mut self.record {
            record.note(call(), ours, results, buffers);
        }
        differing(call, ours, refused, results, buffers)
    }
}

/// A buffer with its name.
type Named<'a> = (&'static str, &'a Lent);

/// Refuses two answers that differ, and results or buffers that do. `refused` is the second solver's refusal.
fn differing(call: impl Fn() -> String, ours: u8, refused: Option<u8>, results: &[Held], buffers: &[Named]) -> Compared<()> {
    let difference = buffers.iter().find_map(|(name, lent)| lent.difference().map(|word| (name, word)));
    let word = difference.map(|(name, (place, ours, theirs))| format!("word {place} of the {name}: {ours:#x}, {theirs:#x}"));
    disagreement::same(call, ours, refused, results, word)
}

/// The kind of a constraint, as files number it.
fn kind(relation: &Relation) -> usize {
    match relation {
        Relation::Always(..) => 0,
        Relation::Eq(..) => 1,
        Relation::Neq(..) => 2,
        Relation::Rev(..) => 3,
        Relation::Cat(..) => 4,
        Relation::Sub(..) => 5,
        Relation::Len(..) => 6,
        Relation::Regular(..) => 7,
    }
}

/// The lengths of X, those of Y and the places N that a table has, where the constraint is Sub. There are fewer numbers than words in a row.
fn part(relation: &Relation, table: &[u64]) -> Option<[u64; 3]> {
    let &Relation::Sub(x, y, n) = relation else { return None };
    Some([table[64 * x], table[64 * y], table[number_place(table.len() / 64, n)]])
}
