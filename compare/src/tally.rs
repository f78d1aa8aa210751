//! What has been compared, and whether anything never came up.

use crate::by_index::ByIndex;
use crate::gaps::Gaps;
use crate::kind::Kind;
use crate::patterns::Texts;
use crate::trees::{Shape, BUSHY, DEEP, FAR};
use second::domain::highest;
use second::file::LARGEST_FILE;
use second::Outcome;
use std::fmt::Display;

const ENTRIES: [&str; 10] = ["read", "unpack", "step", "settle", "search", "perform", "solve", "index", "settle_by_index", "perform_by_index"];
const OUTCOMES: [&str; 3] = ["found", "none", "spent"];
/// Those of all entries but Compile.
const REFUSALS: [u8; 15] = [1, 2, 3, 4, 5, 6, 7, 8, 9, 10, 11, 12, 13, 18, 19];
const RELATIONS: [&str; 8] = ["trimming", "Eq", "Neq", "Rev", "Cat", "Sub", "Len", "Regular"];

/// What is far from where most cases are, and must come up all the same.
#[derive(Clone, Copy)]
pub enum Event {
    ManyRounds,
    LateFound,
    LateNone,
    WideBudget,
    ExactBudget,
    LongList,
    WideRoom,
    DeepTree,
    BushyTree,
    FarBack,
    PastLongest,
    PastShortest,
    Past62,
    Past63,
    SolvedPast,
    OversizedLayout,
    OversizedAutomata,
    Pieces,
    SpentProgram,
}

/// By the event; the counts behind "beyond" are what the kinds of cases without long chains and known trees reach.
const EVENTS: [&str; 19] = [
    "rounds beyond 34",
    "found beyond node 549",
    "none beyond 2047 nodes",
    "budgets from 3001 to 65536",
    "budgets at a count beyond 3000 or one beside it",
    "lists beyond 400 calls",
    "rooms with 1000 words or more beyond",
    "trees of 48 levels or more",
    "trees with 48 children or more at a node",
    "trees searched back over two strings or more at once",
    "places kept for an empty part past the longest string",
    "lengths kept for an empty part past the shortest string",
    "place 63 kept for an empty part past a string of 62",
    "empty parts of a string of 63",
    "solutions with an empty part past the end",
    "files beyond the largest refused by 4",
    "files beyond the largest refused by 5",
    "inputs of the program in pieces",
    "programs run where the search was spent",
];

const MAXIMA: [&str; 6] = ["found", "none", "budget below 2^32 - 1", "rounds", "calls in a list", "bytes of a file"];

/// Groups of counts, each count with its name.
pub type Groups = Vec<(&'static str, Vec<(String, u64)>)>;

/// Counts of cases and of calls, and of texts. Every call of an entry counts once, by its answer too.
#[derive(Clone, Default)]
pub struct Tally {
    /// Cases by their kind.
    pub kinds: [u64; Kind::ALL.len()],
    /// Calls by their entry, in the order of the names above.
    entries: [u64; ENTRIES.len()],
    /// Searches by their outcome.
    outcomes: [u64; 3],
    /// Refused calls by their number; none has the number 0.
    refusals: [u64; 20],
    /// Steps that struck something, by the kind of their constraint; trimming is 0.
    pub struck: [u64; 8],
    events: [u64; EVENTS.len()],
    /// The greatest that came up, in the order of the names above.
    maxima: [u64; MAXIMA.len()],
    /// Steps that were also held against trying every choice.
    pub tried: u64,
    /// Runs of the program.
    pub runs: u64,
    pub by_index: ByIndex,
    pub gaps: Gaps,
    pub texts: Texts,
}

impl Tally {
    pub fn came_up(&mut self, event: Event) {
        self.events[event as usize] += 1;
    }

    fn greatest(&mut self, of: usize, value: u64) {
        self.maxima[of] = self.maxima[of].max(value);
    }

    /// A call of this entry, with its refusal.
    pub fn call(&mut self, entry: usize, refused: Option<u8>) {
        self.entries[entry] += 1;
        if let Some(number) = refused {
            self.refusals[usize::from(number)] += 1;
        }
    }

    /// A search within a budget; nothing where it was refused.
    pub fn search(&mut self, budget: u32, outcome: Option<Outcome>) {
        let Some(outcome) = outcome else { return };
        let ended = match outcome {
            Outcome::Found(nodes) => (0, nodes, 549, Event::LateFound),
            Outcome::None(nodes) => (1, nodes, 2047, Event::LateNone),
            Outcome::Spent(_) => (2, 0, 0, Event::WideBudget),
        };
        let (at, nodes, most, late) = ended;
        self.outcomes[at] += 1;
        if nodes > most {
            self.came_up(late);
        }
        if at < 2 {
            self.greatest(at, nodes.into());
        }
        if (3001..=65_536).contains(&budget) {
            self.came_up(Event::WideBudget);
        }
        if nodes > 3000 && budget.abs_diff(nodes) <= 1 {
            self.came_up(Event::ExactBudget);
        }
        if budget < u32::MAX {
            self.greatest(2, budget.into());
        }
    }

    /// A known tree of this shape, of which all nodes up to its first solved one are visited.
    pub fn tree(&mut self, shape: Shape) {
        for (far, event) in [(shape.levels >= DEEP, Event::DeepTree), (shape.widest >= BUSHY, Event::BushyTree), (shape.back >= FAR, Event::FarBack)] {
            if far {
                self.came_up(event);
            }
        }
    }

    /// A step of Sub that leaves these lengths of X, lengths of Y and places N. Just past an X only an empty Y can start: nothing else keeps a place past the
    /// longest X, nor an X that ends before the first place.
    pub fn part(&mut self, [x, y, n]: [u64; 3]) {
        for (kept, event) in [
            (is_past(x, n), Event::PastLongest),
            (x != 0 && n.trailing_zeros() == x.trailing_zeros() + 1, Event::PastShortest),
            (is_past(x, n) && highest(x) == 62, Event::Past62),
            (x == 1 << 63 && y & 1 == 1, Event::Past63),
        ] {
            if kept {
                self.came_up(event);
            }
        }
    }

    pub fn rounds(&mut self, rounds: u32) {
        self.greatest(3, rounds.into());
        if rounds > 34 {
            self.came_up(Event::ManyRounds);
        }
    }

    pub fn list(&mut self, calls: usize) {
        self.greatest(4, calls as u64);
        if calls > 400 {
            self.came_up(Event::LongList);
        }
    }

    /// A file, with its refusal.
    pub fn file(&mut self, file: &[u8], refused: Option<u8>) {
        let bytes = file.len();
        self.greatest(5, bytes as u64);
        if refused == Some(5) {
            self.gaps.refused(file);
        }
        match refused {
            Some(4) if bytes > LARGEST_FILE => self.came_up(Event::OversizedLayout),
            Some(5) if bytes > LARGEST_FILE => self.came_up(Event::OversizedAutomata),
            _ => {}
        }
    }

    pub fn add(&mut self, other: &Tally) {
        let pairs = [
            (&mut self.kinds[..], &other.kinds[..]),
            (&mut self.entries, &other.entries),
            (&mut self.outcomes, &other.outcomes),
            (&mut self.refusals, &other.refusals),
            (&mut self.struck, &other.struck),
            (&mut self.events, &other.events),
        ];
        for (sums, counts) in pairs {
            sums.iter_mut().zip(counts).for_each(|(sum, count)| *sum += count);
        }
        self.maxima.iter_mut().zip(&other.maxima).for_each(|(most, value)| *most = (*most).max(*value));
        self.tried += other.tried;
        self.runs += other.runs;
        self.by_index.add(&other.by_index);
        self.gaps.add(&other.gaps);
        self.texts.add(&other.texts);
    }

    /// Every count with its name, group by group; those of the program only where there is a program.
    fn groups(&self, program: bool) -> Groups {
        let refused = REFUSALS.map(|number| self.refusals[usize::from(number)]);
        let events = if program { EVENTS.len() } else { Event::Pieces as usize };
        let mut groups = vec![
            ("cases", named(&Kind::ALL.map(Kind::name), &self.kinds)),
            ("calls", named(&ENTRIES, &self.entries)),
            ("searches", named(&OUTCOMES, &self.outcomes)),
            ("refused", named(&REFUSALS, &refused)),
            ("steps that struck", named(&RELATIONS, &self.struck)),
            ("steps by every choice", named(&["tried"], &[self.tried])),
            ("far out", named(&EVENTS[..events], &self.events)),
            ("greatest", named(&MAXIMA, &self.maxima)),
        ];
        groups.extend(self.gaps.groups());
        groups.extend(self.by_index.groups());
        groups
    }

    /// All counts of cases in one line.
    pub fn line(&self, program: bool) -> String {
        let calls: u64 = self.entries.iter().sum();
        let cases = self.kinds.iter().sum::<u64>();
        format!("{cases} cases, {calls} calls of the library, {} runs of the program agree; {}", self.runs, listed(&self.groups(program)))
    }

    /// All counts of texts in one line.
    pub fn line_of_texts(&self) -> String {
        format!("{} patterns agree; {}", self.texts.count(), listed(&self.texts.groups()))
    }

    /// What never came up in cases; the program's runs only where there is a program.
    pub fn missing(&self, program: bool) -> Vec<String> {
        let mut missing = never(&self.groups(program));
        if program && self.runs == 0 {
            missing.push("runs of the program".into());
        }
        missing
    }

    /// What never came up in texts.
    pub fn missing_in_texts(&self) -> Vec<String> {
        never(&self.texts.groups()).into_iter().map(|name| format!("patterns: {name}")).collect()
    }
}

/// Whether the place just past the longest X is among the places.
pub fn is_past(x: u64, n: u64) -> bool {
    n >> highest(x) >> 1 & 1 == 1
}

pub fn named(names: &[impl Display], counts: &[u64]) -> Vec<(String, u64)> {
    names.iter().map(ToString::to_string).zip(counts.iter().copied()).collect()
}

/// All groups in one line.
fn listed(groups: &Groups) -> String {
    let counted = |counts: &[(String, u64)]| counts.iter().map(|(name, count)| format!("{name} {count}")).collect::<Vec<String>>().join(", ");
    groups.iter().map(|(group, counts)| format!("{group}: {}", counted(counts))).collect::<Vec<String>>().join("; ")
}

/// The names, each with its group, whose count is 0.
fn never(groups: &Groups) -> Vec<String> {
    let none = |group: &'static str| move |(name, count): &(String, u64)| (*count == 0).then(|| format!("{group}: {name}"));
    groups.iter().flat_map(|(group, counts)| counts.iter().filter_map(none(group))).collect()
}

#[cfg(test)]
mod tests {
    use super::*;

    #[test]
    fn what_is_missing_is_named() {
        let mut tally = Tally::default();
        tally.refusals[1..].fill(1);
        tally.outcomes = [1, 0, 1];
        tally.refusals[12] = 0;
        tally.refusals[19] = 0;
        tally.rounds(34);
        tally.list(401);
        let missing = tally.missing(true);
        for name in [
            "searches: none",
            "refused: 12",
            "refused: 19",
            "runs of the program",
            "cases: small",
            "far out: rounds beyond 34",
            "indexes lent: right",
            "automata: with few gaps",
        ] {
            assert!(missing.contains(&name.to_string()), "{name} in {missing:?}");
        }
        for name in ["refused: 13", "refused: 18", "far out: lists beyond 400 calls", "greatest: rounds"] {
            assert!(!missing.contains(&name.to_string()), "{name} in {missing:?}");
        }
        tally.texts.string(false);
        let in_texts = tally.missing_in_texts();
        for (name, is_missing) in [("patterns: strings: tried", false), ("patterns: strings: accepted", true), ("patterns: answers: refused 17", true)] {
            assert_eq!(in_texts.contains(&name.to_string()), is_missing, "{name} in {in_texts:?}");
        }
    }

    #[test]
    fn searches_are_counted_by_how_far_they_go() {
        let mut tally = Tally::default();
        tally.search(65_536, Some(Outcome::Found(65_536)));
        tally.search(4_000, Some(Outcome::None(2_047)));
        tally.search(u32::MAX, Some(Outcome::None(2_048)));
        tally.search(9, Some(Outcome::Spent(9)));
        assert_eq!(tally.outcomes, [1, 2, 1]);
        let counted = |event: Event| tally.events[event as usize];
        assert_eq!([Event::LateFound, Event::LateNone, Event::WideBudget, Event::ExactBudget].map(counted), [1, 1, 2, 1]);
        assert_eq!(tally.maxima[..3], [65_536, 2_048, 65_536]);
    }

    #[test]
    fn trees_are_counted_by_their_shape() {
        let mut tally = Tally::default();
        tally.tree(Shape { levels: DEEP, widest: BUSHY - 1, back: FAR });
        tally.tree(Shape { levels: DEEP - 1, widest: BUSHY, back: FAR - 1 });
        tally.tree(Shape { levels: DEEP, ..Shape::default() });
        assert_eq!([Event::DeepTree, Event::BushyTree, Event::FarBack].map(|event| tally.events[event as usize]), [2, 1, 1]);
        assert!(Tally::default().missing(false).contains(&"far out: trees of 48 levels or more".to_string()));
    }

    #[test]
    fn parts_are_counted_past_the_end() {
        let counted = |x: u64, y: u64, n: u64| {
            let mut tally = Tally::default();
            tally.part([x, y, n]);
            [Event::PastLongest, Event::PastShortest, Event::Past62, Event::Past63].map(|event| tally.events[event as usize])
        };
        assert_eq!(counted(0, 0, 0), [0, 0, 0, 0]);
        assert_eq!(counted(1, 1, 0b10), [1, 1, 0, 0]);
        assert_eq!(counted(0b101, 0b11, 0b1010), [1, 1, 0, 0]);
        assert_eq!(counted(0b101, 0b11, 0b110), [0, 1, 0, 0]);
        assert_eq!(counted(0b110, 0b11, 0b1010), [1, 0, 0, 0]);
        assert_eq!(counted(0b110, 0b11, 0b110), [0, 0, 0, 0]);
        assert_eq!(counted(1 << 62, 1, u64::MAX - 1), [1, 0, 1, 0]);
        assert_eq!(counted(1 << 63, 1, u64::MAX - 1), [0, 0, 0, 1]);
        assert_eq!(counted(1 << 63, 0b10, 1 << 63), [0, 0, 0, 0]);
    }

    #[test]
    fn the_greatest_of_two_tallies() {
        let (mut one, mut other) = (Tally::default(), Tally::default());
        one.rounds(40);
        other.rounds(9);
        other.file(&[0; LARGEST_FILE + 1], Some(5));
        one.add(&other);
        assert_eq!((one.maxima[3], one.maxima[5]), (40, LARGEST_FILE as u64 + 1));
        assert_eq!(one.events[Event::OversizedAutomata as usize], 1);
    }
}
