//! What has been compared by an index, and whether anything never came up.

use super::words::{Index, Sort};
use crate::tally::{named, Groups};
use second::domain::has;
use second::Header;

/// What is far from where most calls are, and must come up all the same.
#[derive(Clone, Copy)]
enum Event {
    Again,
    Fewer,
    Many,
    Unconstrained,
    Dead,
    Built79,
    Built18,
    Without79,
    Short,
    Long,
    Length9,
    Length10,
    Words9,
    Words10,
    Listed,
    Listed18,
    Listed19,
    LongList,
}

/// By the event; the count behind "beyond" is what cases without long chains or tangles of strings reach.
const EVENTS: [&str; 18] = [
    "some step run again",
    "fewer steps run than in the rounds",
    "steps run beyond 300",
    "no constraints",
    "a variable left without a value",
    "indexes built with bit 79",
    "indexes not built and refused by 18",
    "just bit 79 missing refused by 19",
    "one word less refused by 18",
    "one word more refused by 18",
    "another length with a table refused by 9",
    "another length with a table refused by 10",
    "other words with a table refused by 9",
    "other words with a table refused by 10",
    "lists with a settle by index",
    "lists with a settle by index refused by 18",
    "lists with a settle by index refused by 19",
    "lists beyond 400 calls that end in a settle by index",
];

/// Counts of calls by an index.
#[derive(Clone, Default)]
pub struct ByIndex {
    /// Indexes lent to Settle by their sort, where nothing but the index could be refused.
    lent: [u64; Sort::ALL.len()],
    events: [u64; EVENTS.len()],
    /// The most steps that one call ran.
    most_run: u64,
}

impl ByIndex {
    fn came_up(&mut self, event: Event, it_did: bool) {
        self.events[event as usize] += u64::from(it_did);
    }

    /// An index that was built, or was to be.
    pub fn built(&mut self, index: &[u64], refused: Option<u8>) {
        self.came_up(Event::Built79, refused.is_none() && has_79(index));
        self.came_up(Event::Built18, refused == Some(18));
    }

    /// An index that was lent to Settle, beside the right one, and the refusal.
    pub fn lent(&mut self, right: &[u64], index: &Index, refused: Option<u8>) {
        let Index { sort, words } = index;
        self.lent[*sort as usize] += u64::from(matches!(refused, None | Some(18 | 19)));
        let beyond = words.len() as isize - right.len() as isize;
        let (of_length, of_words) = (*sort == Sort::Length, !matches!(sort, Sort::Right | Sort::Length));
        for (event, number, so) in [
            (Event::Without79, 19, *sort == Sort::Less && has_79(right) && !has_79(words)),
            (Event::Short, 18, beyond == -1),
            (Event::Long, 18, beyond == 1),
            (Event::Length9, 9, of_length),
            (Event::Length10, 10, of_length),
            (Event::Words9, 9, of_words),
            (Event::Words10, 10, of_words),
        ] {
            self.came_up(event, so && refused == Some(number));
        }
    }

    /// Settle in both its forms on one table: so many rounds, so many steps run by the index, and whether every variable has a value.
    pub fn settled(&mut self, header: &Header, rounds: u32, run: u32, every_value: bool) {
        let steps = (header.constraints + header.strings) as u32;
        self.most_run = self.most_run.max(run.into());
        self.came_up(Event::Again, run > steps);
        self.came_up(Event::Fewer, run < rounds * steps);
        self.came_up(Event::Many, run > 300);
        self.came_up(Event::Unconstrained, header.constraints == 0 && steps > 0);
        self.came_up(Event::Dead, !every_value);
    }

    /// A list of so many calls, with the refusal of each Settle by index in it.
    pub fn listed(&mut self, calls: usize, refused: &[Option<u8>]) {
        self.came_up(Event::Listed, refused.contains(&None));
        self.came_up(Event::Listed18, refused.contains(&Some(18)));
        self.came_up(Event::Listed19, refused.contains(&Some(19)));
        self.came_up(Event::LongList, calls > 400 && refused.last() == Some(&None));
    }

    pub fn add(&mut self, other: &ByIndex) {
        for (sums, counts) in [(&mut self.lent[..], &other.lent[..]), (&mut self.events, &other.events)] {
            sums.iter_mut().zip(counts).for_each(|(sum, count)| *sum += count);
        }
        self.most_run = self.most_run.max(other.most_run);
    }

    /// Every count with its name, group by group.
    pub fn groups(&self) -> Groups {
        vec![
            ("indexes lent", named(&Sort::ALL.map(Sort::name), &self.lent)),
            ("far out by index", named(&EVENTS, &self.events)),
            ("greatest by index", named(&["steps run"], &[self.most_run])),
        ]
    }
}

/// Whether an index has the bit of step 79. Only a sixteenth string has such a step, to trim it.
fn has_79(index: &[u64]) -> bool {
    index.get(2 * 15 + 1).is_some_and(|&word| has(word, 79 - 64))
}

#[cfg(test)]
mod tests {
    use super::*;

    fn counted<const N: usize>(tally: &ByIndex, events: [Event; N]) -> [u64; N] {
        events.map(|event| tally.events[event as usize])
    }

    #[test]
    fn indexes_are_counted_by_their_sort() {
        let mut tally = ByIndex::default();
        let mut right = vec![0; 40];
        right[31] = 1 << 15;
        tally.built(&right, None);
        tally.built(&right[..31], None);
        tally.built(&right, Some(18));
        let index = |sort: Sort, words: &[u64]| Index { sort, words: words.to_vec() };
        for (lent, refused) in [
            (index(Sort::Right, &right), None),
            (index(Sort::Right, &right), Some(9)),
            (index(Sort::Less, &[0; 40]), Some(19)),
            (index(Sort::Less, &[0; 40]), Some(10)),
            (index(Sort::Length, &right[1..]), Some(18)),
            (index(Sort::Length, &right[1..]), Some(9)),
        ] {
            tally.lent(&right, &lent, refused);
        }
        assert_eq!(tally.lent, [1, 0, 1, 0, 0, 0, 0, 1]);
        assert_eq!(counted(&tally, [Event::Built79, Event::Built18, Event::Without79, Event::Short, Event::Long]), [1, 1, 1, 1, 0]);
        assert_eq!(counted(&tally, [Event::Length9, Event::Length10, Event::Words9, Event::Words10]), [1, 0, 0, 1]);
    }

    #[test]
    fn settles_and_lists_are_counted() {
        let mut tally = ByIndex::default();
        let header = |constraints| Header { symbols: 1, strings: 2, numbers: 0, automata: 0, constraints };
        tally.settled(&header(0), 1, 2, true);
        tally.settled(&header(3), 2, 9, false);
        tally.settled(&header(3), 2, 10, true);
        assert_eq!(counted(&tally, [Event::Again, Event::Fewer, Event::Unconstrained, Event::Dead]), [2, 1, 1, 1]);
        tally.listed(401, &[Some(18), None]);
        tally.listed(400, &[Some(19), None]);
        assert_eq!(counted(&tally, [Event::Listed, Event::Listed18, Event::Listed19, Event::LongList]), [2, 1, 1, 1]);
        let mut sum = ByIndex { most_run: 9, ..ByIndex::default() };
        sum.add(&tally);
        assert_eq!((sum.most_run, sum.events), (10, tally.events));
    }
}
