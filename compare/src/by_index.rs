//! Which calls are made by an index on one problem file: it is built, and lent to Settle and to lists of calls, the right one and others.

mod calls;
mod tally;
mod words;

use crate::disagreement::{Compared, Disagreement};
use crate::drive::Drive;
use crate::tables;
use cobleskeg::SETTLE_BY_INDEX;
use second::file::Problem;
use second::Header;
pub use tally::ByIndex;
pub use words::{Index, Sort};

/// A list with more calls than this is long.
const MANY_CALLS: usize = 400;

impl Drive<'_> {
    /// The file's index, into a buffer that fits it and at times into one that does not. It is the library's that is lent from now on.
    pub fn index(&mut self, header: &Header) -> Compared<()> {
        let words = 2 * (header.strings + header.numbers);
        if self.calls.random.once_in(2) {
            let wrong = tables::wrong_size(self.calls.random, words);
            self.calls.index(wrong)?;
        }
        self.calls.index = self.calls.index(words)?;
        Ok(())
    }

    /// A refused file is refused whatever index is lent, and whatever table, by these counts of strings and numbers or by any.
    pub fn refused_file_by_index(&mut self, strings: usize, numbers: usize) -> Compared<()> {
        let any = *self.calls.random.pick(&[0, 1, 2, 10, 64]);
        let size = *self.calls.random.pick(&[2 * (strings + numbers), any]);
        let index = Index { sort: Sort::Any, words: self.calls.random.words(size) };
        let table = self.calls.random.words(64 * strings + numbers);
        self.calls.index(size)?;
        self.calls.settle_by_index(&index, &table)?;
        self.calls.perform_by_index(&[SETTLE_BY_INDEX, 0], &index, &table)
    }

    fn right(&self) -> Index {
        Index { sort: Sort::Right, words: self.calls.index.clone() }
    }

    /// Settle in both its forms, on a table that neither refuses: "It must end in the table that the rounds end in." Answers the table.
    pub fn settle_both(&mut self, header: &Header, table: &[u64]) -> Compared<Vec<u64>> {
        let by_rounds = self.calls.settle(table)?;
        let by_index = self.calls.settle_by_index(&self.right(), table)?;
        let flags = [&by_rounds, &by_index].map(|settled| settled.counted.map(|(_, every_value)| every_value));
        if by_rounds.table != by_index.table || flags[0] != flags[1] {
            // Both solvers have agreed on each form, so they may both be wrong.
            let shown = |at: usize| format!("every value {:?}", flags[at]);
            let word = (by_rounds.table != by_index.table).then(|| "the tables differ".to_string());
            return Err(Disagreement { call: "settle_by_index, held against settle".into(), ours: shown(1), theirs: shown(0), word });
        }
        if let (Some((rounds, _)), Some((run, every_value))) = (by_rounds.counted, by_index.counted) {
            self.calls.tally.by_index.settled(header, rounds, run, every_value);
        }
        Ok(by_rounds.table)
    }

    /// Refusals 18 and 19 of Settle by index, and the refusals that come before them.
    pub fn refused_indexes(&mut self, problem: &Problem) -> Compared<()> {
        let of_file = &problem.table;
        for _ in 0..3 {
            let index = self.wrong_index(problem);
            let table = if self.calls.random.once_in(2) { of_file.clone() } else { tables::table(self.calls.random, &problem.header, of_file) };
            self.calls.settle_by_index(&index, &table)?;
        }
        let index = self.any_index(problem);
        let size = tables::wrong_size(self.calls.random, of_file.len());
        let table = self.calls.random.words(size);
        self.calls.settle_by_index(&index, &table)?;
        if let Some(table) = tables::with_foreign_symbol(self.calls.random, &problem.header, of_file) {
            let index = self.any_index(problem);
            self.calls.settle_by_index(&index, &table)?;
        }
        Ok(())
    }

    /// Lists of calls with the right index, and with others; long ones with the right one alone, so that their last call does something.
    pub fn lists_by_index(&mut self, problem: &Problem) -> Compared<()> {
        let (header, of_file) = (&problem.header, &problem.table);
        for _ in 0..*self.calls.random.pick(&[1, 2]) {
            let list = self.list_by_index(header.constraints + header.strings);
            let index = if list.len() > MANY_CALLS { self.right() } else { self.any_index(problem) };
            let table = self.listed_table(header, of_file);
            self.calls.perform_by_index(&list, &index, &table)?;
        }
        Ok(())
    }

    /// A list in which Settle by index stands for some of the calls; in a long one for the last alone, so that it is not lost in what others have struck.
    fn list_by_index(&mut self, steps: usize) -> Vec<u32> {
        let mut list = self.list(steps);
        let last = list.len().saturating_sub(1);
        let long = list.len() > MANY_CALLS;
        for (at, call) in list.iter_mut().enumerate() {
            let settles = if long { at == last } else { self.calls.random.once_in(4) };
            if settles {
                *call = SETTLE_BY_INDEX;
            } else if long && *call == SETTLE_BY_INDEX {
                *call = steps as u32;
            }
        }
        list
    }

    /// The right index as often as a wrong one.
    fn any_index(&mut self, problem: &Problem) -> Index {
        match self.calls.random.once_in(2) {
            true => self.right(),
            false => self.wrong_index(problem),
        }
    }

    /// An index of other words, or one time in four of another length.
    fn wrong_index(&mut self, problem: &Problem) -> Index {
        if self.calls.random.once_in(4) {
            return Index::of_another_length(self.calls.random, &self.calls.index);
        }
        Index::wrong(self.calls.random, problem, &self.calls.index)
    }
}
