//! What has been compared of texts, and whether anything never came up.

use super::broken::Fault;
use super::twice::PAIRS;
use super::{depth, symbols, Kind, Text, DEEPEST, LARGEST, LONGEST, MOST_STATES, MOST_SYMBOLS};
use crate::tally::{named, Groups};
use second::pattern::compile;

/// A text with the answer of both solvers, and the count of its states by a formula.
pub struct Seen<'a> {
    pub text: &'a Text,
    pub answer: &'a Result<Vec<u8>, u8>,
    pub states: Option<usize>,
}

impl Seen<'_> {
    fn refused(&self, number: u8) -> bool {
        *self.answer == Err(number)
    }

    fn accepted(&self) -> bool {
        self.answer.is_ok()
    }

    /// The bytes that were written.
    fn written(&self) -> usize {
        self.answer.as_ref().map_or(0, Vec::len)
    }

    /// The states of the automaton that was written.
    fn counted(&self) -> usize {
        self.answer.as_ref().map_or(0, |bytes| bytes[0].into())
    }

    fn bars(&self) -> usize {
        self.text.text.iter().filter(|&&byte| byte == b'|').count()
    }

    /// Whether the buffer has one byte less than it should.
    fn one_short(&self) -> bool {
        self.refused(17) && compile(&self.text.text, self.text.symbols, self.text.room + 1).is_ok()
    }

    fn slash_with(&self, symbols: usize) -> bool {
        self.text.symbols == symbols && self.text.text.contains(&b'/')
    }
}

type Event = (&'static str, fn(&Seen) -> bool);

/// What is far from where most texts are, and must come up all the same.
const EVENTS: [Event; 20] = [
    ("automata of 32 states", |seen| seen.counted() == MOST_STATES),
    ("33 states by a formula refused by 16", |seen| seen.refused(16) && seen.states == Some(MOST_STATES + 1)),
    ("automata of 2053 bytes", |seen| seen.written() == LARGEST),
    ("patterns of 63 bytes", |seen| seen.accepted() && seen.text.text.len() == LONGEST),
    ("texts of 64 bytes that only their length breaks", |seen| seen.text.kind == Kind::TooLong && seen.text.text.len() == LONGEST + 1),
    ("patterns of no bytes", |seen| seen.accepted() && seen.text.text.is_empty()),
    ("patterns with groups 31 deep", |seen| seen.accepted() && depth(&seen.text.text) == DEEPEST),
    ("patterns of 32 branches or more", |seen| seen.accepted() && seen.bars() >= 31),
    ("patterns without letters", |seen| seen.accepted() && symbols(&seen.text.text).is_empty()),
    ("exact buffers", |seen| seen.accepted() && seen.text.room == seen.written()),
    ("buffers one byte short", |seen| seen.one_short()),
    ("buffers of no bytes", |seen| seen.refused(17) && seen.text.room == 0),
    ("buffers with 1000 bytes or more beyond", |seen| seen.accepted() && seen.text.room >= seen.written() + 1000),
    ("/ with 38 symbols", |seen| seen.refused(15) && seen.slash_with(38)),
    ("/ with 39 symbols", |seen| seen.accepted() && seen.slash_with(39)),
    ("1 symbol", |seen| seen.accepted() && seen.text.symbols == 1),
    ("64 symbols", |seen| seen.accepted() && seen.text.symbols == MOST_SYMBOLS),
    ("0 symbols", |seen| seen.refused(15) && seen.text.symbols == 0),
    ("65 symbols", |seen| seen.refused(15) && seen.text.symbols == MOST_SYMBOLS + 1),
    ("2^32 symbols or more", |seen| seen.refused(15) && seen.text.symbols >= 1 << 32),
];

const ANSWERS: [&str; 5] = ["accepted", "refused 14", "refused 15", "refused 16", "refused 17"];
const MAXIMA: [&str; 4] = ["states", "bytes of a text", "groups in one another", "bytes of a buffer"];

/// Counts of texts. Every text counts once, by its answer too.
#[derive(Clone, Default)]
pub struct Texts {
    kinds: [u64; Kind::ALL.len()],
    /// In the order of the names above.
    answers: [u64; ANSWERS.len()],
    /// Strings that automata were tried on, and those of them that were accepted.
    strings: [u64; 2],
    faults: [u64; Fault::ALL.len()],
    pairs: [u64; PAIRS.len()],
    events: [u64; EVENTS.len()],
    /// The greatest that came up, in the order of the names above.
    maxima: [u64; MAXIMA.len()],
}

impl Texts {
    pub fn count(&self) -> u64 {
        self.kinds.iter().sum()
    }

    pub fn seen(&mut self, seen: &Seen) {
        let Text { kind, text, room, meant, .. } = seen.text;
        self.kinds[*kind as usize] += 1;
        self.answers[seen.answer.as_ref().map_or_else(|number| usize::from(number - 13), |_| 0)] += 1;
        if let Some(fault) = meant.fault {
            self.faults[fault as usize] += 1;
        }
        if let Some(at) = PAIRS.iter().position(|pair| meant.pair == Some(*pair)) {
            self.pairs[at] += 1;
        }
        for (count, (_, came_up)) in self.events.iter_mut().zip(EVENTS) {
            *count += u64::from(came_up(seen));
        }
        let deepest = if seen.accepted() { depth(text) } else { 0 };
        for (most, value) in self.maxima.iter_mut().zip([seen.counted(), text.len(), deepest, *room]) {
            *most = (*most).max(value as u64);
        }
    }

    pub fn string(&mut self, accepted: bool) {
        self.strings[0] += 1;
        self.strings[1] += u64::from(accepted);
    }

    pub fn add(&mut self, other: &Texts) {
        let pairs = [
            (&mut self.kinds[..], &other.kinds[..]),
            (&mut self.answers, &other.answers),
            (&mut self.strings, &other.strings),
            (&mut self.faults, &other.faults),
            (&mut self.pairs, &other.pairs),
            (&mut self.events, &other.events),
        ];
        for (sums, counts) in pairs {
            sums.iter_mut().zip(counts).for_each(|(sum, count)| *sum += count);
        }
        self.maxima.iter_mut().zip(&other.maxima).for_each(|(most, value)| *most = (*most).max(*value));
    }

    /// Every count with its name, group by group.
    pub fn groups(&self) -> Groups {
        let pairs = PAIRS.map(|(first, second)| format!("{first} and {second}"));
        vec![
            ("texts", named(&Kind::ALL.map(Kind::name), &self.kinds)),
            ("answers", named(&ANSWERS, &self.answers)),
            ("strings", named(&["tried", "accepted"], &self.strings)),
            ("broken by", named(&Fault::ALL.map(Fault::name), &self.faults)),
            ("two faults", named(&pairs, &self.pairs)),
            ("far out", named(&EVENTS.map(|(name, _)| name), &self.events)),
            ("greatest", named(&MAXIMA, &self.maxima)),
        ]
    }
}

#[cfg(test)]
mod tests {
    use super::*;

    fn count(texts: &Texts, name: &str) -> u64 {
        let at = EVENTS.iter().position(|(event, _)| *event == name).expect("there is such an event");
        texts.events[at]
    }

    fn seen(texts: &mut Texts, text: &[u8], symbols: usize, room: usize) {
        let text = Text { text: text.to_vec(), symbols, room, kind: Kind::Small, ..Text::new(1, 0) };
        let answer = compile(&text.text, symbols, room);
        texts.seen(&Seen { text: &text, answer: &answer, states: None });
    }

    #[test]
    fn texts_are_counted_by_their_answer_and_by_how_far_out_they_are() {
        let mut texts = Texts::default();
        for (text, symbols, room) in [(&b"0*"[..], 1, 7), (b"0*", 1, 6), (b"0*", 1, 5), (b"/", 38, 99), (b"/", 39, 122), (b"*", 65, 0), (b"()", 64, 2000)] {
            seen(&mut texts, text, symbols, room);
        }
        assert_eq!(texts.answers, [3, 1, 1, 0, 2]);
        for (name, times) in [("exact buffers", 2), ("buffers one byte short", 1), ("/ with 38 symbols", 1), ("/ with 39 symbols", 1), ("65 symbols", 0)] {
            assert_eq!(count(&texts, name), times, "{name}");
        }
        assert_eq!((count(&texts, "patterns without letters"), count(&texts, "buffers with 1000 bytes or more beyond")), (1, 1));
        assert_eq!(texts.maxima, [3, 2, 1, 2000]);
        let before = texts.clone();
        texts.add(&before);
        assert_eq!((texts.count(), texts.maxima), (14, [3, 2, 1, 2000]));
    }
}
