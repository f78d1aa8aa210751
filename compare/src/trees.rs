//! Problems whose search tree is known: single locks and rows of them (see `locks`), deep ones and bushy ones, up to the program's budget and beyond it.

use crate::draft::Draft;
use crate::locks::{self, Key, Lock, Row};
use crate::random::Random;
use second::Outcome;
use std::ops::RangeInclusive;

/// What the search of such a problem comes to.
#[derive(Clone, Debug, Default, PartialEq)]
pub struct Known {
    /// The nodes of the whole tree, any behind the first solved one included.
    pub nodes: u32,
    pub solution: Option<Solution>,
    pub shape: Shape,
}

/// The first solved node, and the strings there.
#[derive(Clone, Debug, PartialEq)]
pub struct Solution {
    pub node: u32,
    pub strings: Vec<Vec<u8>>,
}

/// The least levels of a deep tree, children of a bushy one, and strings that a search goes back over far; other kinds of cases hardly have them.
pub const DEEP: usize = 48;
pub const BUSHY: usize = 48;
pub const FAR: usize = 2;

/// How far a tree's paths go.
#[derive(Clone, Copy, Debug, Default, PartialEq)]
pub struct Shape {
    /// The values that are decided on the longest path.
    pub levels: usize,
    /// The most children of a node.
    pub widest: usize,
    /// The most strings that the search goes back over at once.
    pub back: usize,
}

impl Known {
    fn of(row: &Row) -> Known {
        let solution = row.solved().zip(row.solution()).map(|(node, strings)| Solution { node, strings });
        Known { nodes: row.nodes(), solution, shape: Shape { levels: row.levels(), widest: row.widest(), back: row.back() } }
    }

    /// The count at which the search ends, given the budget for it.
    pub fn end(&self) -> u32 {
        self.solution.as_ref().map_or(self.nodes, |solution| solution.node)
    }

    /// The outcome within a budget.
    pub fn outcome(&self, budget: u32) -> Outcome {
        match &self.solution {
            _ if budget < self.end() => Outcome::Spent(budget),
            Some(solution) => Outcome::Found(solution.node),
            None => Outcome::None(self.nodes),
        }
    }

    /// The table of the solution, if there is one.
    pub fn table(&self) -> Option<Vec<u64>> {
        self.solution.as_ref().map(|solution| locks::table(&solution.strings))
    }
}

/// The program's budget, and so the count up to which trees are asked for.
pub const MOST: u32 = 65_536;

/// Where the searches around the program's budget end, one after the other, and whether with a solution.
const FULL: [(u32, bool); 6] = [(MOST, false), (MOST + 1, true), (MOST, true), (MOST + 1, false), (MOST - 1, true), (MOST - 1, false)];

/// Makes a row whose search ends at this count, with a solution or without, or does not find one this time.
type Maker = fn(&mut Random, u32, bool) -> Option<Row>;

/// Each has rows for all the counts of `FULL`.
const MAKERS: [Maker; 3] = [single, deep, bushy];

/// Those of the trees that are not around the program's budget.
const SMALLER: [Maker; 5] = [single, deep, bushy, deep, split];

/// A tree whose search ends at a count between those that small and hard problems reach and the program's budget: number `which` of ten sorts.
pub fn known(random: &mut Random, which: u64) -> (Draft, Known) {
    let most = *random.pick(&[1_000, 3_000, 3_000, 6_000]);
    let maker = SMALLER[(which % 5) as usize];
    let never = which % 2 == 1;
    loop {
        let end = random.between(600, most) as u32;
        if let Some(row) = maker(random, end, !never) {
            return problem(random, &row);
        }
    }
}

/// The tree that is number `which` of those around the program's budget: of 18 in turn each maker has each count once with a solution and once without.
pub fn full(random: &mut Random, which: u64) -> (Draft, Known) {
    let maker = MAKERS[(which % 3) as usize];
    let (end, solved) = FULL[((which + which / 6) % 6) as usize];
    loop {
        if let Some(row) = maker(random, end, solved) {
            return problem(random, &row);
        }
    }
}

/// The order of the constraints says in which order values are struck, and so nothing of the tree.
fn problem(random: &mut Random, row: &Row) -> (Draft, Known) {
    let mut draft = row.draft();
    random.shuffle(&mut draft.records);
    (draft, Known::of(row))
}

fn last_key(solved: bool) -> Key {
    if solved {
        Key::Last
    } else {
        Key::None
    }
}

/// One lock.
fn single(random: &mut Random, end: u32, solved: bool) -> Option<Row> {
    let places = places(random, end, 2..=64)?;
    Some(Row::of(vec![Lock::new(last_key(solved), places)]))
}

/// One lock whose open places are a string of their own, its last symbol another, and both joined.
fn split(random: &mut Random, end: u32, solved: bool) -> Option<Row> {
    let places = places(random, end, 2..=64)?;
    let locks = vec![Lock::new(Key::Any, places), Lock::new(last_key(solved), vec![])];
    Some(Row { locks, joined: true })
}

/// Many locks, two symbols at most of their places. At times the first string is open whatever it is; with a solution it is joined to the last then, and the
/// search goes back to it again and again before it finds. Without one it goes back over several strings in any case.
fn deep(random: &mut Random, end: u32, solved: bool) -> Option<Row> {
    let around = random.once_in(if solved { 2 } else { 3 }).then(|| random.between(2, 5));
    // The second solver settles every string at every node, so that many strings in a large tree take it too long.
    let most = if end > 20_000 { 10 } else { 14 };
    let count = random.between(8, most - usize::from(around.is_some()));
    // Shares of the tree that are about the same, of which the last lock gets what the others leave.
    let share = end as usize / count / around.unwrap_or(1);
    let mut locks: Vec<Lock> = around.iter().map(|&symbols| Lock::new(Key::Any, vec![symbols])).collect();
    for _ in 1..count {
        let key = *random.pick(&[Key::Last, Key::Last, Key::First]);
        locks.push(narrow(random, key, share));
    }
    locks.push(Lock::new(last_key(solved), vec![]));
    let mut row = filled(random, Row { locks, joined: solved && around.is_some() }, end, 2..=5)?;
    let behind = if solved { 0 } else { random.below(3) };
    for _ in 0..behind {
        let key = *random.pick(&[Key::None, Key::Last, Key::First]);
        row.locks.push(narrow(random, key, share));
    }
    (row.levels() >= DEEP && (solved || row.back() >= FAR)).then_some(row)
}

/// A lock with so many nodes or fewer, two symbols at most of its places; more often than not a ladder.
fn narrow(random: &mut Random, key: Key, nodes: usize) -> Lock {
    let symbols = |random: &mut Random| if random.once_in(8) { 3 } else { 2 };
    if !random.once_in(3) {
        let rungs = random.between(15, 61).min(nodes / 3).max(1);
        return Lock::ladder(key, (0..rungs).map(|_| symbols(random)).collect());
    }
    let mut places = vec![3];
    let mut count = 4;
    let most = nodes >> random.below(3);
    loop {
        let first = symbols(random);
        count = 1 + first * count;
        if count > most {
            return Lock::new(key, places);
        }
        places.insert(0, first);
    }
}

/// One or two locks with many symbols at each place.
fn bushy(random: &mut Random, end: u32, solved: bool) -> Option<Row> {
    let key = *random.pick(&[Key::Last, Key::First]);
    let mut places = vec![random.between(BUSHY, 64), random.between(8, 64)];
    places.extend((end > 20_000).then(|| random.between(8, 24)));
    random.shuffle(&mut places);
    let mut locks = vec![Lock::new(key, places), Lock::new(last_key(solved), vec![])];
    if random.once_in(3) {
        locks.remove(0);
    }
    let row = filled(random, Row::of(locks), end, 8..=64)?;
    (row.widest() >= BUSHY).then_some(row)
}

/// The row with such places in its last lock, which has none yet, that its search ends at this count.
fn filled(random: &mut Random, mut row: Row, end: u32, symbols: RangeInclusive<usize>) -> Option<Row> {
    let times = if row.locks[0].key == Key::Any { row.locks[0].opened() } else { 1 };
    let left = end.checked_sub(row.solved().unwrap_or_else(|| row.nodes()))?;
    if left % times != 0 {
        return None;
    }
    row.locks.last_mut().expect("there is a lock").places = places(random, left / times + 1, symbols)?;
    Some(row)
}

/// Counts of symbols at the open places of a lock with so many nodes, if there are such within the range; the last is at least 3, see `Lock`.
fn places(random: &mut Random, nodes: u32, symbols: RangeInclusive<usize>) -> Option<Vec<usize>> {
    let below_root = nodes as usize - 1;
    let mut firsts: Vec<usize> = symbols.clone().filter(|first| below_root % first == 0 && below_root > *first).collect();
    random.shuffle(&mut firsts);
    for first in firsts {
        if let Some(others) = places(random, (below_root / first) as u32, symbols.clone()) {
            return Some([vec![first], others].concat());
        }
    }
    (below_root >= 3 && symbols.contains(&below_root)).then(|| vec![below_root])
}

#[cfg(test)]
mod tests {
    use super::*;
    use crate::locks::tests::searched;

    #[test]
    fn outcomes_within_budgets() {
        let known = Known { nodes: 9, ..Known::default() };
        assert_eq!([8, 9, 10].map(|budget| known.outcome(budget)), [Outcome::Spent(8), Outcome::None(9), Outcome::None(9)]);
        let known = Known { solution: Some(Solution { node: 4, strings: vec![] }), ..known };
        assert_eq!([3, 4, 9].map(|budget| known.outcome(budget)), [Outcome::Spent(3), Outcome::Found(4), Outcome::Found(4)]);
    }

    #[test]
    fn places_make_the_count() {
        let random = &mut Random::new(11, 0);
        for nodes in [MOST - 1, MOST, MOST + 1, 4_097] {
            let places = places(random, nodes, 2..=64).unwrap();
            assert_eq!(Lock::new(Key::None, places.clone()).nodes(), nodes, "{places:?}");
            assert!(*places.last().unwrap() >= 3);
        }
        // One less than 600 is 599, a prime above 64.
        assert_eq!(places(random, 600, 2..=64), None);
    }

    #[test]
    fn known_trees_are_as_known() {
        for index in 0..12 {
            let (draft, known) = known(&mut Random::new(12, index), index);
            let (outcome, table) = searched(&draft, u32::MAX);
            assert_eq!(outcome, known.outcome(u32::MAX), "index {index}");
            assert!(known.table().is_none_or(|answer| answer == table), "index {index}");
        }
    }

    /// They fit in a file, and end among the counts that are asked for; of 100 enough are deep, bushy, and searched back over several strings.
    #[test]
    fn known_trees_have_many_shapes() {
        let trees: Vec<(Draft, Known)> = (0..100).map(|index| known(&mut Random::new(14, index), index)).collect();
        assert!(trees.iter().all(|(draft, known)| second::read(&draft.bytes()).is_ok() && (600..=6_000).contains(&known.end())));
        let count = |far: fn(&Shape) -> bool| trees.iter().filter(|(_, known)| far(&known.shape)).count();
        let counts =
            [count(|shape| shape.levels >= DEEP), count(|shape| shape.levels >= 200), count(|shape| shape.widest >= BUSHY), count(|shape| shape.back >= FAR)];
        assert!(counts.iter().all(|&count| count >= 10), "{counts:?}");
        assert!(trees.iter().any(|(_, known)| known.shape.back >= FAR && known.solution.is_some()));
        assert!(trees.iter().any(|(_, known)| known.nodes > known.end() + 1));
    }

    /// Each maker has each count with a solution and without, in the shape that it is for, and fits in a file.
    #[test]
    fn full_trees_end_where_they_should() {
        let mut seen = Vec::new();
        for which in 0..54 {
            let (draft, known) = full(&mut Random::new(13, which), which);
            assert!(second::read(&draft.bytes()).is_ok(), "tree {which}");
            match which % 3 {
                1 => assert!(known.shape.levels >= DEEP, "tree {which}: {:?}", known.shape),
                2 => assert!(known.shape.widest >= BUSHY && known.shape.levels <= 8, "tree {which}: {:?}", known.shape),
                _ => {}
            }
            seen.push((which % 3, known.end(), known.solution.is_some()));
        }
        for maker in 0..3 {
            assert!(FULL.iter().all(|&(end, solved)| seen[..18].contains(&(maker, end, solved))), "maker {maker}");
        }
    }
}
