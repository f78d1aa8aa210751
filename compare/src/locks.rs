//! Rows of locks: problems whose search tree follows from a formula.
//!
//! A lock is a string of n open places and a last one, held to two automata. The first wants the last symbol as odd or even as the sum of those before it, the
//! second wants the opposite; while a place is open each of them has a way, so nothing is struck, and when all n are decided the two contradict. So with a_i
//! symbols at place i its tree has T = 1 + a_1 + a_1 a_2 + ... + a_1 a_2 ... a_n nodes. In a lock with a key the second automaton agrees with the first where
//! every symbol before the last is the greatest, at the tree's last node, or where every one is 0, at its node 1 + n.
//!
//! A ladder is a lock that shows each wrong symbol at once. It has one place more before the last, and its automata want the last symbol to say whether the
//! first wrong one is at an odd or an even place, one of them the opposite: they contradict as soon as that place is decided, and if no symbol is wrong at the
//! open places, the further one is decided by itself. So its tree has T = 1 + a_1 + a_2 + ... + a_n nodes, on a path of up to 61 levels.
//!
//! The strings of a row are decided in order, and where a lock opens, the next one's tree begins with that same node. So the tree from lock j on has
//! C_j = T_j + o_j (C_{j+1} - 1) nodes, where o_j counts the strings that open it and C is 1 behind the row; and the first of them that is solved is number
//! P_j = p_j + P_{j+1} - 1, where p_j is the first of its nodes that opens it and P is 1 behind the row. With at most one key to a lock that makes
//! 1 + the sum of T_j - 1 up to the first lock without a key for the whole tree, and for its first solved node 1 + the sum of T_j - 1 where the key is last and
//! of n_j where it is first.

use crate::draft::{any, below, just, machine, Draft, Row as Words, NOTHING};

/// What opens a lock.
#[derive(Clone, Copy, Debug, PartialEq)]
pub enum Key {
    /// Nothing: strings behind it are never reached.
    None,
    /// Its last string: nothing waits in it afterwards.
    Last,
    /// Its first string: all others wait, until nothing is left behind it.
    First,
    /// Every string: it is held to nothing, and has no place behind the open ones.
    Any,
}

/// A string of a row, by the counts of symbols at its open places. With a key, and save for ladders, there are at least 3 at the last of them: of two one would
/// be struck when the others are decided as in the key, since the second automaton wants the same last symbol with both, and the key would show too early.
#[derive(Clone, Debug)]
pub struct Lock {
    pub key: Key,
    pub places: Vec<usize>,
    pub ladder: bool,
}

/// What the last symbol of a ladder says where no symbol is wrong; of an odd or even place it says 0 or 1.
const NONE_WRONG: u8 = 2;

/// Locks one after the other. Where it is joined, the first is open whatever it is and makes one lock with the last one, as a further string that is both: then
/// the whole row between them is gone through for each string of the first, and a key is last in both.
#[derive(Clone, Debug)]
pub struct Row {
    pub locks: Vec<Lock>,
    pub joined: bool,
}

impl Lock {
    pub fn new(key: Key, places: Vec<usize>) -> Lock {
        Lock { key, places, ladder: false }
    }

    pub fn ladder(key: Key, places: Vec<usize>) -> Lock {
        Lock { key, places, ladder: true }
    }

    /// The nodes of its tree alone.
    pub fn nodes(&self) -> u32 {
        if self.ladder {
            return 1 + self.places.iter().sum::<usize>() as u32;
        }
        let mut width = 1;
        1 + self.places.iter().fold(0, |sum, &count| {
            width *= count as u32;
            sum + width
        })
    }

    /// How many of its strings open it.
    pub fn opened(&self) -> u32 {
        match self.key {
            Key::None => 0,
            Key::Last | Key::First => 1,
            Key::Any => self.places.iter().product::<usize>() as u32,
        }
    }

    /// The first of its nodes that opens it, where one does.
    fn first_opened(&self) -> u32 {
        match self.key {
            Key::Last => self.nodes(),
            _ => self.places.len() as u32 + 1,
        }
    }

    /// The words of the places behind the open ones.
    fn behind(&self, symbols: usize) -> Vec<u64> {
        match self.key {
            Key::Any => vec![],
            _ if !self.ladder => vec![0b11],
            Key::None => vec![self.word(symbols, 2), 0b11],
            _ => vec![self.word(symbols, 2), 0b11 | 1 << NONE_WRONG],
        }
    }

    /// The symbols at a place: the least ones where the key is of zeros, else the greatest.
    fn word(&self, symbols: usize, count: usize) -> u64 {
        match self.key {
            Key::First => below(count),
            _ => below(symbols) & !below(symbols - count),
        }
    }

    fn row(&self, symbols: usize) -> Words {
        let words: Vec<u64> = self.places.iter().map(|&count| self.word(symbols, count)).chain(self.behind(symbols)).collect();
        let mut row = NOTHING;
        row[0] = 1 << words.len();
        row[1..=words.len()].copy_from_slice(&words);
        row
    }

    /// Its two automata, if it is held to any. A ladder without a key has the same as one with the key last, without the last symbol that says so.
    fn automata(&self, symbols: usize) -> Vec<Vec<u8>> {
        let right = if self.key == Key::First { 0 } else { symbols - 1 };
        let key = (self.key != Key::None).then_some(right);
        match self.key {
            Key::Any => vec![],
            _ if self.ladder => [false, true].map(|opposite| last_by_wrong(symbols, opposite, right)).to_vec(),
            _ => vec![last_by_sum(symbols, false, None), last_by_sum(symbols, true, key)],
        }
    }

    /// Holds the string to its automata, which are shared with other locks.
    fn hold(&self, draft: &mut Draft, string: u8) {
        for wanted in self.automata(draft.symbols) {
            let there = draft.machines.iter().position(|bytes| *bytes == wanted);
            let at = there.map_or_else(|| draft.machine(wanted), |at| at as u8);
            draft.regular(string, at);
        }
    }

    /// The first string that opens it; the symbols before it make one lock with it.
    fn opens(&self, symbols: usize, before: &[u8]) -> Vec<u8> {
        let symbol = |&count: &usize| match self.key {
            Key::First => 0,
            Key::Any => symbols - count,
            _ => symbols - 1,
        };
        let mut string: Vec<u8> = self.places.iter().chain(self.ladder.then_some(&2)).map(|count| symbol(count) as u8).collect();
        let odd = before.iter().chain(&string).fold(0, |odd, symbol| odd ^ symbol & 1);
        string.extend((self.key != Key::Any).then_some(if self.ladder { NONE_WRONG } else { odd }));
        string
    }
}

/// The nodes of the tree of these locks.
fn nodes(locks: &[Lock]) -> u32 {
    locks.iter().rev().fold(1, |behind, lock| lock.nodes() + lock.opened() * (behind - 1))
}

/// The first solved node of the tree of these locks, of which each can be opened.
fn solved(locks: &[Lock]) -> u32 {
    locks.iter().rev().fold(1, |behind, lock| lock.first_opened() + behind - 1)
}

impl Row {
    pub fn of(locks: Vec<Lock>) -> Row {
        Row { locks, joined: false }
    }

    fn has_solution(&self) -> bool {
        self.locks.iter().all(|lock| lock.key != Key::None)
    }

    fn symbols(&self) -> usize {
        self.locks.iter().flat_map(|lock| &lock.places).copied().max().unwrap_or(0).max(usize::from(NONE_WRONG) + 1)
    }

    /// The nodes of the whole tree.
    pub fn nodes(&self) -> u32 {
        nodes(&self.locks)
    }

    /// The first solved node, if there is one. In a joined row it comes with the last string of the first lock, when the others had their whole trees.
    pub fn solved(&self) -> Option<u32> {
        let (first, others) = (&self.locks[0], &self.locks[1..]);
        self.has_solution().then(|| match self.joined {
            true => first.nodes() + (first.opened() - 1) * (nodes(others) - 1) + solved(others) - 1,
            false => solved(&self.locks),
        })
    }

    /// The strings of the first solution, if there is one.
    pub fn solution(&self) -> Option<Vec<Vec<u8>>> {
        let symbols = self.symbols();
        let mut strings: Vec<Vec<u8>> = self.locks.iter().map(|lock| lock.opens(symbols, &[])).collect();
        if self.joined {
            strings[0].fill(symbols as u8 - 1);
            let first = strings[0].clone();
            let last = self.locks[self.locks.len() - 1].opens(symbols, &first);
            strings.splice(self.locks.len() - 1.., [last.clone(), [first, last].concat()]);
        }
        self.has_solution().then_some(strings)
    }

    pub fn draft(&self) -> Draft {
        let mut draft = Draft::over(self.symbols());
        for lock in &self.locks {
            let string = draft.string(lock.row(draft.symbols));
            lock.hold(&mut draft, string);
        }
        if self.joined {
            let last = self.locks.len() - 1;
            let length = [0, last].iter().map(|&at| draft.rows[at][0].trailing_zeros() as usize).sum();
            let whole = draft.string(any(0, length, below(draft.symbols)));
            draft.records.iter_mut().filter(|record| usize::from(record[1]) == last).for_each(|record| record[1] = whole);
            draft.cat(0, last as u8, whole);
        }
        draft
    }

    /// The locks that are reached: none behind the first without a key.
    fn reached(&self) -> &[Lock] {
        let ends = self.locks.iter().position(|lock| lock.key == Key::None);
        &self.locks[..ends.map_or(self.locks.len(), |at| at + 1)]
    }

    /// How many values are decided on the longest path.
    pub fn levels(&self) -> usize {
        self.reached().iter().map(|lock| lock.places.len()).sum()
    }

    /// The most children of a node.
    pub fn widest(&self) -> usize {
        self.reached().iter().flat_map(|lock| &lock.places).copied().max().unwrap_or(0)
    }

    /// How many strings the search goes back over at once, at most: from the last that is decided to one in which values wait. With the key first it ends there
    /// and goes on back; from a string that is open whatever it is it comes to the end of the row again, and back over it when nothing waits in it any more.
    pub fn back(&self) -> usize {
        let decided = self.reached().iter().rposition(|lock| !lock.places.is_empty());
        let mut from = decided.filter(|_| self.joined || !self.has_solution()).unwrap_or(0);
        let mut most = 0;
        for at in (0..from).rev() {
            let key = self.locks[at].key;
            if matches!(key, Key::First | Key::Any) {
                most = most.max(from - at);
            }
            if key == Key::First {
                from = at;
            }
        }
        most
    }
}

/// The table in which every string is decided.
pub fn table(strings: &[Vec<u8>]) -> Vec<u64> {
    strings.iter().flat_map(|string| just(string)).collect()
}

/// Accepts where the last symbol is odd if the sum of those before it is, and even if not; or the opposite, with a key save where all before it are the key's
/// symbol.
///
/// A state says whether another symbol than the key's was read, whether the sum is odd, and whether the last symbol was as wanted.
fn last_by_sum(symbols: usize, opposite: bool, key: Option<usize>) -> Vec<u8> {
    let moves: Vec<u8> = (0..8u8)
        .flat_map(|state| {
            let (other, odd) = (state & 4 != 0, state >> 1 & 1);
            (0..symbols).map(move |symbol| {
                let this = symbol as u8 & 1;
                let turned = opposite && (other || key.is_none());
                let wanted = (this == odd) != turned;
                u8::from(other || key != Some(symbol)) << 2 | (odd ^ this) << 1 | u8::from(wanted)
            })
        })
        .collect();
    machine(8, 0b1010_1010, &moves)
}

/// Accepts where the last symbol says of the first wrong one before it whether it is at an odd or an even place, or the opposite, or that there is none.
///
/// A state says whether the last symbol was as wanted, and besides 0 or 1 for no wrong symbol and the next place odd or even, 2 or 3 for the first wrong one at
/// an odd or even place.
fn last_by_wrong(symbols: usize, opposite: bool, right: usize) -> Vec<u8> {
    let moves: Vec<u8> = (0..8u8)
        .flat_map(|state| {
            let (wrong, even) = (state & 2 != 0, state & 1);
            (0..symbols).map(move |symbol| {
                let says = if wrong { even ^ u8::from(opposite) } else { NONE_WRONG };
                let next = match wrong {
                    true => 2 | even,
                    false if symbol == right => even ^ 1,
                    false => 2 | even,
                };
                u8::from(symbol as u8 == says) << 2 | next
            })
        })
        .collect();
    machine(8, 0b1111_0000, &moves)
}

#[cfg(test)]
pub mod tests {
    use super::*;
    use second::Outcome;

    /// What the second solver comes to, and the strings that it finds.
    pub fn searched(draft: &Draft, budget: u32) -> (Outcome, Vec<u64>) {
        let file = draft.bytes();
        let words = second::read(&file).unwrap().words();
        let mut found = vec![0; words];
        (second::search(&file, budget, &mut vec![0; 3 * words], &mut found).unwrap(), found)
    }

    fn lock(key: Key, places: &[usize]) -> Lock {
        Lock::new(key, places.to_vec())
    }

    fn ladder(key: Key, places: &[usize]) -> Lock {
        Lock::ladder(key, places.to_vec())
    }

    /// A node by its depth, the word that was decided for it, its count of children, and whether it is solved.
    struct Node {
        level: usize,
        at: usize,
        children: usize,
        solved: bool,
    }

    /// The nodes of the whole tree, any behind the first solved one included: the second solver's settling, and the children of what is left.
    fn whole(file: &[u8], mut table: Vec<u64>, level: usize, at: usize, nodes: &mut Vec<Node>) {
        let (_, every_value) = second::settle(file, &mut table).unwrap();
        let open = table.iter().position(|word| every_value && word.count_ones() > 1);
        let values: Vec<u64> = open.map_or(vec![], |at| second::domain::bits(table[at]).map(second::domain::bit).collect());
        nodes.push(Node { level, at, children: values.len(), solved: every_value && values.is_empty() });
        for value in values {
            let at = open.unwrap();
            whole(file, [&table[..at], &[value], &table[at + 1..]].concat(), level + 1, at, nodes);
        }
    }

    /// Both counts, the solution and the shape as the second solver has them.
    fn as_searched(row: &Row) {
        let draft = row.draft();
        let (outcome, found) = searched(&draft, u32::MAX);
        assert_eq!(outcome, row.solved().map_or(Outcome::None(row.nodes()), Outcome::Found), "{row:?}");
        assert!(row.solution().is_none_or(|strings| table(&strings) == found), "{row:?}");
        let file = draft.bytes();
        let (mut root, mut nodes) = (vec![0; found.len()], Vec::new());
        second::unpack(&file, &mut root).unwrap();
        whole(&file, root, 0, 0, &mut nodes);
        assert_eq!(nodes.len(), row.nodes() as usize, "{row:?}");
        let visited = &nodes[..nodes.iter().position(|node| node.solved).unwrap_or(nodes.len() - 1) + 1];
        let levels = nodes.iter().map(|node| node.level).max().unwrap();
        let widest = nodes.iter().map(|node| node.children).max().unwrap();
        let back = visited.windows(2).map(|pair| (pair[0].at / 64).saturating_sub(pair[1].at / 64)).max();
        assert_eq!((levels, widest, back.unwrap_or(0)), (row.levels(), row.widest(), row.back()), "{row:?}");
    }

    #[test]
    fn trees_by_hand() {
        // 1 + 2 + 2 * 3 = 9 nodes, the last of them solved where there is a key: 2 2 at the open places, and an even sum; of zeros it is the third.
        let one = |key| Row::of(vec![lock(key, &[2, 3])]);
        let halves = |key| Row { locks: vec![lock(Key::Any, &[2, 3]), lock(key, &[])], joined: true };
        for (row, outcome, solution) in [
            (one(Key::None), Outcome::None(9), None),
            (one(Key::Last), Outcome::Found(9), Some(vec![2, 2, 0])),
            (one(Key::First), Outcome::Found(3), Some(vec![0, 0, 0])),
            (halves(Key::None), Outcome::None(9), None),
            (halves(Key::Last), Outcome::Found(9), Some(vec![2, 2, 0])),
        ] {
            assert_eq!(searched(&row.draft(), 100).0, outcome, "{row:?}");
            assert_eq!(row.solution().and_then(|strings| strings.last().cloned()), solution, "{row:?}");
            as_searched(&row);
        }
        // With 9 nodes, then 5 and 4: 9 + 4 + 3 in all; the first key after 3 of the 9, so that 3 + 4 + 3 are visited up to the solved one.
        let row = Row::of(vec![lock(Key::First, &[2, 3]), lock(Key::Last, &[4]), lock(Key::Last, &[3])]);
        assert_eq!((row.nodes(), row.solved()), (16, Some(10)));
    }

    const KEYS: [Key; 4] = [Key::None, Key::Last, Key::First, Key::Any];

    #[test]
    fn rows_of_two_and_three_locks() {
        let places: [&[usize]; 3] = [&[2, 3], &[3, 2, 4], &[2, 2, 5]];
        for one in KEYS {
            for other in KEYS {
                as_searched(&Row::of(vec![lock(one, places[0]), lock(other, places[1])]));
                for third in KEYS {
                    as_searched(&Row::of(vec![lock(one, places[0]), lock(other, places[1]), lock(third, places[2])]));
                }
            }
        }
    }

    #[test]
    fn rows_with_ladders() {
        // 1 + 2 + 4 + 3 nodes each.
        assert_eq!(Row::of(vec![ladder(Key::Last, &[2, 4, 3])]).solved(), Some(10));
        for one in [Key::None, Key::Last, Key::First] {
            as_searched(&Row::of(vec![ladder(one, &[2])]));
            as_searched(&Row::of(vec![ladder(one, &[2; 61])]));
            for other in KEYS {
                as_searched(&Row::of(vec![ladder(one, &[2, 4, 3]), lock(other, &[2, 3])]));
                as_searched(&Row::of(vec![lock(other, &[2, 3]), ladder(one, &[2, 2, 2, 2])]));
                for third in [Key::None, Key::Last, Key::First] {
                    as_searched(&Row::of(vec![ladder(one, &[2, 2, 3, 2]), lock(other, &[2, 3]), ladder(third, &[2, 3])]));
                }
            }
        }
    }

    #[test]
    fn joined_rows() {
        for middle in KEYS {
            for last in [Key::None, Key::Last] {
                as_searched(&Row { locks: vec![lock(Key::Any, &[2, 2]), lock(middle, &[2, 3]), lock(last, &[3, 4])], joined: true });
                as_searched(&Row { locks: vec![lock(Key::Any, &[3]), lock(Key::Last, &[3]), lock(middle, &[4]), lock(last, &[3])], joined: true });
            }
        }
    }

    #[test]
    fn how_far_back_a_search_goes() {
        let row = |keys: &[Key]| Row::of(keys.iter().map(|&key| lock(key, &[3])).collect());
        use Key::{Any, First, Last, None};
        assert_eq!(row(&[First, None]).back(), 1);
        assert_eq!(row(&[First, Any, Last, None]).back(), 3);
        assert_eq!(row(&[First, Last, Last, First, None, First]).back(), 3);
        assert_eq!(row(&[First, Last, Last]).back(), 0);
        assert_eq!(row(&[Last, Last, None]).back(), 0);
        assert_eq!(Row { joined: true, ..row(&[Any, Last, Last]) }.back(), 2);
    }
}
