//! One call of an entry that builds an index or is lent one.

use super::words::Index;
use crate::calls::{Calls, Settled};
use crate::disagreement::Compared;
use crate::lent::Lent;
use crate::marked::Marked;
use crate::{ended, entries};
use cobleskeg::{SETTLE, SETTLE_BY_INDEX};

impl Calls<'_> {
    /// Builds an index into so many words; answers all of them afterwards.
    pub fn index(&mut self, words: usize) -> Compared<Vec<u64>> {
        let file = self.file;
        let mut index = Lent::random(&self.memory.table, self.random, words);
        ended::at_entry("index");
        let ours = unsafe { entries::cobleskeg_index(file.as_ptr(), file.len(), index.ours().as_mut_ptr(), words) };
        let theirs = second::index(file, index.theirs());
        self.agree(7, || format!("index into {words} words"), ours, theirs.err(), &[], &[("index", &index)])?;
        self.tally.by_index.built(index.theirs(), theirs.err());
        Ok(index.ours().to_vec())
    }

    /// Answers what it left; nothing but the table where it is refused.
    pub fn settle_by_index(&mut self, index: &Index, words: &[u64]) -> Compared<Settled> {
        let file = self.file;
        let mut table = Lent::new(&self.memory.table, self.random, words);
        let lent = self.memory.index(self.random, &index.words);
        let (mut steps, mut every_value) = (Marked::new(self.random), Marked::new(self.random));
        let (at, n, e) = (table.ours().as_mut_ptr(), steps.pointer(), every_value.pointer());
        ended::at_entry("settle_by_index");
        let ours = unsafe { entries::cobleskeg_settle_by_index(file.as_ptr(), file.len(), lent.as_ptr(), lent.len(), at, words.len(), n, e) };
        let theirs = second::settle_by_index(file, &index.words, table.theirs());
        let wanted = theirs.ok();
        let results = [steps.held("steps", wanted.map(|(steps, _)| steps)), every_value.held("every_value", wanted.map(|(_, every)| every.into()))];
        let call = || format!("settle_by_index, {} words by an index of {}, {}", words.len(), index.words.len(), index.sort.name());
        self.agree(8, call, ours, theirs.err(), &results, &[("table", &table)])?;
        self.tally.by_index.lent(&self.index, index, theirs.err());
        Ok(Settled { table: table.ours().to_vec(), counted: wanted })
    }

    /// The second solver takes the calls one by one; one that is refused leaves the table.
    pub fn perform_by_index(&mut self, list: &[u32], index: &Index, words: &[u64]) -> Compared<()> {
        let file = self.file;
        let mut table = Lent::new(&self.memory.table, self.random, words);
        let (calls, lent) = (self.memory.list(list), self.memory.index(self.random, &index.words));
        let at = table.ours().as_mut_ptr();
        ended::at_entry("perform_by_index");
        unsafe { entries::cobleskeg_perform_by_index(file.as_ptr(), file.len(), calls.as_ptr(), calls.len(), lent.as_ptr(), lent.len(), at, words.len()) };
        let mut by_index = Vec::new();
        for &call in list {
            let _refused = match call {
                SETTLE => second::settle(file, table.theirs()).err(),
                SETTLE_BY_INDEX => {
                    by_index.push(second::settle_by_index(file, &index.words, table.theirs()).err());
                    None
                }
                j => second::step(file, u64::from(j), table.theirs()).err(),
            };
        }
        let call = || format!("perform_by_index, {list:?} on {} words by an index of {}, {}", words.len(), index.words.len(), index.sort.name());
        self.agree(9, call, 0, None, &[], &[("table", &table)])?;
        self.tally.list(list.len());
        self.tally.by_index.listed(list.len(), &by_index);
        Ok(())
    }
}
