//! The text of a pattern as a tree, and what is wrong with a text (14).

pub const LONGEST_TEXT: usize = 63;

/// Parts are named by their places in `Pattern::parts`.
#[derive(Clone, Copy, Debug, PartialEq, Eq)]
pub enum Part {
    Empty,
    /// The place in the text, from 0, tells equal letters apart.
    Letter {
        place: usize,
        symbol: u8,
    },
    /// The first, then the second.
    Both(usize, usize),
    Either(usize, usize),
    Star(usize),
}

#[derive(Clone, Debug, PartialEq, Eq)]
pub struct Pattern {
    /// Each one after those it is made of, so the whole is the last.
    pub parts: Vec<Part>,
    /// Whether each part accepts the empty string.
    pub skippable: Vec<bool>,
}

/// A group up to the place where the reading stands; the text itself is the
/// outermost.
#[derive(Default)]
struct Group {
    /// The branches that are over.
    branches: Option<usize>,
    /// The items of the branch that is not, but for the last.
    items: Option<usize>,
    last: Option<usize>,
    last_has_star: bool,
}

impl Pattern {
    /// `None` if the text is too long or breaks the rules.
    pub fn read(text: &[u8]) -> Option<Pattern> {
        if text.len() > LONGEST_TEXT {
            return None;
        }
        let most = 2 * text.len() + 1;
        let mut pattern = Pattern {
            parts: Vec::with_capacity(most),
            skippable: Vec::with_capacity(most),
        };
        let mut outer: Vec<Group> = Vec::new();
        let mut group = Group::default();
        for (place, &byte) in text.iter().enumerate() {
            match byte {
                b'(' => outer.push(std::mem::take(&mut group)),
                b')' => {
                    let item = pattern.branches(&group);
                    group = outer.pop()?;
                    pattern.put_item(&mut group, item);
                }
                b'|' => {
                    let branches = Some(pattern.branches(&group));
                    group = Group {
                        branches,
                        ..Group::default()
                    };
                }
                b'*' => pattern.put_star(&mut group)?,
                _ => {
                    let symbol = symbol(byte)?;
                    let item = pattern.put(Part::Letter { place, symbol });
                    pattern.put_item(&mut group, item);
                }
            }
        }
        if !outer.is_empty() {
            return None;
        }
        pattern.branches(&group);
        Some(pattern)
    }

    /// The part that is the whole pattern.
    pub fn whole(&self) -> usize {
        self.parts.len() - 1
    }

    /// Place and symbol of every letter, in the order of the text.
    pub fn letters(&self) -> impl Iterator<Item = (usize, u8)> + '_ {
        self.parts.iter().filter_map(|part| match *part {
            Part::Letter { place, symbol } => Some((place, symbol)),
            _ => None,
        })
    }

    fn put(&mut self, part: Part) -> usize {
        let skippable = match part {
            Part::Empty | Part::Star(_) => true,
            Part::Letter { .. } => false,
            Part::Both(a, b) => self.skippable[a] && self.skippable[b],
            Part::Either(a, b) => self.skippable[a] || self.skippable[b],
        };
        self.parts.push(part);
        self.skippable.push(skippable);
        self.whole()
    }

    fn put_item(&mut self, group: &mut Group, item: usize) {
        if group.last.is_some() {
            group.items = Some(self.branch(group));
        }
        group.last = Some(item);
        group.last_has_star = false;
    }

    /// `None` if there is no item, or it has its star already.
    fn put_star(&mut self, group: &mut Group) -> Option<()> {
        let item = group.last.filter(|_| !group.last_has_star)?;
        group.last = Some(self.put(Part::Star(item)));
        group.last_has_star = true;
        Some(())
    }

    /// The group's newest branch.
    fn branch(&mut self, group: &Group) -> usize {
        match (group.items, group.last) {
            (_, None) => self.put(Part::Empty),
            (None, Some(last)) => last,
            (Some(items), Some(last)) => self.put(Part::Both(items, last)),
        }
    }

    /// All branches of the group.
    fn branches(&mut self, group: &Group) -> usize {
        let branch = self.branch(group);
        match group.branches {
            None => branch,
            Some(others) => self.put(Part::Either(others, branch)),
        }
    }
}

/// The symbol of a letter.
pub fn symbol(byte: u8) -> Option<u8> {
    match byte {
        b'0'..=b'9' => Some(byte - b'0'),
        b'.' => Some(10),
        b'a'..=b'z' => Some(byte - b'a' + 11),
        b'-' => Some(37),
        b'/' => Some(38),
        _ => None,
    }
}
