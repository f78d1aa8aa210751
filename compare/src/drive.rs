//! Which calls are made on one problem file.

use crate::by_crate;
use crate::calls::Calls;
use crate::disagreement::{Compared, Disagreement};
use crate::measure::Measure;
use crate::tables;
use crate::trees::Known;
use cobleskeg::{SETTLE, SETTLE_BY_INDEX};
use second::file::Problem;
use second::{Header, Outcome};

/// One problem in so many also goes through the functions of the Rust crate.
const CRATE_SHARE: usize = 8;
/// One list in so many is long, where the measure allows it.
const LONG_SHARE: usize = 400;
const LONGEST_LIST: usize = 2000;

pub struct Drive<'a> {
    pub calls: Calls<'a>,
    pub measure: Measure,
    /// What the search comes to, where a formula says it.
    pub known: Option<&'a Known>,
}

impl Drive<'_> {
    /// All calls on the file. Answers what Search comes to within the larger budget, or in the whole tree where it is known; nothing where the file is refused.
    pub fn run(&mut self) -> Compared<Option<Outcome>> {
        self.calls.read()?;
        let Ok(problem) = Problem::parse(self.calls.file) else {
            return self.refused_file().map(|()| None);
        };
        self.calls.tally.gaps.problem(&problem);
        self.calls.relations = problem.constraints.clone();
        self.calls.automata = problem.automata.clone();
        self.calls.unpack(problem.table.len())?;
        self.steps(&problem.header, &problem.table)?;
        self.index(&problem.header)?;
        self.settles(&problem.header, &problem.table)?;
        self.lists(&problem.header, &problem.table)?;
        self.lists_by_index(&problem)?;
        self.refused_buffers(&problem.header, &problem.table)?;
        self.refused_indexes(&problem)?;
        if self.calls.random.once_in(CRATE_SHARE) {
            let table = tables::table(self.calls.random, &problem.header, &problem.table);
            by_crate::functions(self.calls.file, self.calls.random, &table)?;
        }
        match self.known {
            Some(known) => self.known_tree(known, problem.table.len()),
            None => self.searches(problem.table.len()),
        }
    }

    /// A refused file is refused by every entry, whatever is lent.
    fn refused_file(&mut self) -> Compared<()> {
        // What the trailer's counts of strings and numbers ask for, if there is a trailer.
        let [strings, numbers] = [23, 22].map(|back| self.calls.file.len().checked_sub(back).map_or(0, |at| usize::from(self.calls.file[at])));
        for fitting in [64 * strings + numbers, 0, 0] {
            let any = *self.calls.random.pick(&[0, 1, 2, 64, 65, 129, 193, 258, 1040]);
            let words = if fitting > 0 { fitting } else { any };
            let table = self.calls.random.words(words);
            let j = self.calls.random.below(90);
            self.calls.unpack(words)?;
            self.calls.step(j, &table)?;
            self.calls.settle(&table)?;
            self.calls.search(7, 3 * words, words)?;
            self.calls.perform(&[j as u32, SETTLE], &table)?;
        }
        self.refused_file_by_index(strings, numbers)
    }

    /// Every step, or some, on the file's table and on another one; and numbers that are no step.
    fn steps(&mut self, header: &Header, of_file: &[u64]) -> Compared<()> {
        let steps = header.constraints + header.strings;
        let other = tables::table(self.calls.random, header, of_file);
        for table in [of_file, &other] {
            let mut numbers: Vec<usize> = (0..steps).collect();
            if steps > self.measure.steps {
                self.calls.random.shuffle(&mut numbers);
                numbers.truncate(self.measure.steps);
            }
            for j in numbers {
                self.calls.step(j, table)?;
            }
        }
        let past = 1 << *self.calls.random.pick(&[8, 16, 32, 63]);
        for j in [steps, steps + 1, past, past + self.calls.random.below(steps + 1), usize::MAX] {
            self.calls.step(j, &other)?;
        }
        Ok(())
    }

    /// The file's table, and any; then the file's settled one with a variable that has no value, and with a word decided, as a search goes on. Each by both
    /// forms of Settle.
    fn settles(&mut self, header: &Header, of_file: &[u64]) -> Compared<()> {
        let other = tables::table(self.calls.random, header, of_file);
        self.settle_both(header, &other)?;
        let mut table = self.settle_both(header, of_file)?;
        if self.calls.random.once_in(4) {
            let without = tables::without_value(self.calls.random, header, &table);
            self.settle_both(header, &without)?;
        }
        let open: Vec<usize> = (0..table.len()).filter(|&i| table[i].count_ones() > 1).collect();
        if !open.is_empty() {
            let at = *self.calls.random.pick(&open);
            let values: Vec<u64> = second::domain::bits(table[at]).map(second::domain::bit).collect();
            table[at] = *self.calls.random.pick(&values);
            self.settle_both(header, &table)?;
        }
        Ok(())
    }

    /// Lists of steps, Settles and numbers that are no step, on tables of all sorts. Without an index the number of Settle by index is no step either.
    fn lists(&mut self, header: &Header, of_file: &[u64]) -> Compared<()> {
        let steps = header.constraints + header.strings;
        for _ in 0..2 {
            let list = self.list(steps);
            let table = self.listed_table(header, of_file);
            self.calls.perform(&list, &table)?;
        }
        Ok(())
    }

    /// A table for a list of calls: at times of a wrong size, or with a symbol that there is not.
    pub fn listed_table(&mut self, header: &Header, of_file: &[u64]) -> Vec<u64> {
        let random = &mut *self.calls.random;
        match random.below(8) {
            0 => {
                let words = tables::wrong_size(random, of_file.len());
                random.words(words)
            }
            1 => tables::with_foreign_symbol(random, header, of_file).unwrap_or_default(),
            2 | 3 => of_file.to_vec(),
            _ => tables::table(random, header, of_file),
        }
    }

    /// A list of calls. A long one strikes something only in its last call, as far as that can be: before it are one step and numbers that are none.
    pub fn list(&mut self, steps: usize) -> Vec<u32> {
        let longest = *self.calls.random.pick(&[0, 1, 3, 6, 12, 30, 400]).min(&self.measure.calls);
        if self.measure.calls < LONGEST_LIST || !self.calls.random.once_in(LONG_SHARE) {
            let count = self.calls.random.below(longest + 1);
            return (0..count).map(|_| self.listed(steps)).collect();
        }
        let count = self.calls.random.between(400, LONGEST_LIST - 1);
        let one = self.calls.random.below(steps + 1) as u32;
        let mut list: Vec<u32> = (0..count).map(|_| *self.calls.random.pick(&[one, steps as u32, SETTLE_BY_INDEX])).collect();
        list.push(SETTLE);
        list
    }

    /// A number for a list: mostly a step.
    fn listed(&mut self, steps: usize) -> u32 {
        match self.calls.random.below(16) {
            0 | 1 => SETTLE,
            2 => steps as u32,
            3 => *self.calls.random.pick(&[SETTLE_BY_INDEX, 1 << 16, 1 << 31, 65_535, 255, 256]),
            4 => self.calls.random.word() as u32,
            _ => self.calls.random.below(steps + 1) as u32,
        }
    }

    /// Refusals 9 to 13, and which comes first.
    fn refused_buffers(&mut self, header: &Header, of_file: &[u64]) -> Compared<()> {
        let words = of_file.len();
        for _ in 0..2 {
            let size = tables::wrong_size(self.calls.random, words);
            let table = self.calls.random.words(size);
            let j = *self.calls.random.pick(&[0, 99, usize::MAX]);
            self.calls.unpack(size)?;
            self.calls.step(j, &table)?;
            self.calls.settle(&table)?;
            if let Some(table) = tables::with_foreign_symbol(self.calls.random, header, of_file) {
                self.calls.step(j, &table)?;
                self.calls.settle(&table)?;
            }
            let any = self.calls.random.below(3 * words + 1);
            let short = *self.calls.random.pick(&[(3 * words).saturating_sub(1), 0, words, any]);
            let either = *self.calls.random.pick(&[words, size]);
            self.calls.search(3, short, either)?;
            let beyond = self.calls.random.below(3);
            self.calls.search(3, 3 * words + beyond, size)?;
        }
        Ok(())
    }

    /// The larger budget, the smallest ones, and where the search ends those around its count, the greatest, and the answer in strings and numbers.
    fn searches(&mut self, words: usize) -> Compared<Option<Outcome>> {
        let outcome = self.calls.search(self.measure.budget, 3 * words, words)?;
        let mut budgets = vec![0, 1, 2];
        if let Some(Outcome::Found(nodes) | Outcome::None(nodes)) = outcome {
            budgets.extend([nodes - 1, nodes, nodes + 1, u32::MAX]);
            by_crate::solve(self.calls.file, self.measure.budget, self.calls.tally)?;
        }
        budgets.sort_unstable();
        budgets.dedup();
        for budget in budgets {
            let room = 3 * words + self.beyond();
            self.calls.search(budget, room, words)?;
        }
        Ok(outcome)
    }

    /// How many words the room has beyond those that are needed: at times thousands.
    fn beyond(&mut self) -> usize {
        let random = &mut *self.calls.random;
        if random.once_in(64) {
            return random.between(1000, 9000);
        }
        *random.pick(&[0, 0, 1, 7, 100])
    }

    /// A tree whose count and solution a formula gives: the second solver is held to it once, and the library with budgets at the count where the search ends,
    /// beside it and elsewhere; where the tree has nodes behind its solution, also at the count of all.
    fn known_tree(&mut self, known: &Known, words: usize) -> Compared<Option<Outcome>> {
        let answer = known.table();
        let (mut room, mut table) = (vec![1; 3 * words], vec![0; words]);
        let end = known.end();
        let theirs = second::search(self.calls.file, end, &mut room, &mut table);
        if theirs != Ok(known.outcome(end)) || answer.as_ref().is_some_and(|answer| *answer != table) {
            let formula = format!("{:?}, {:?}", known.outcome(end), known.solution);
            return Err(Disagreement { call: "the tree by its formula".into(), ours: formula, theirs: format!("{theirs:?}"), word: None });
        }
        let elsewhere = self.calls.random.between(3001, 65_536) as u32;
        self.calls.tally.tree(known.shape);
        let behind = (known.nodes > end + 1).then_some(known.nodes);
        for budget in [end, end - 1, end + 1, elsewhere].into_iter().chain(behind) {
            let room = 3 * words + self.beyond();
            self.calls.search_as(budget, room, words, |room, table| {
                room[..3 * words].fill(0);
                let outcome = known.outcome(budget);
                if let (Outcome::Found(_), Some(answer)) = (outcome, &answer) {
                    table.copy_from_slice(answer);
                }
                Ok(outcome)
            })?;
        }
        Ok(Some(known.outcome(u32::MAX)))
    }
}
