//! All that is compared for one text.

use super::tally::{Seen, Texts};
use super::{strings, Text, MOST_STATES};
use crate::disagreement::{self, Compared, Disagreement};
use crate::lent::{Lent, Memory};
use crate::marked::Marked;
use crate::{by_crate, ended, entries, gaps};
use second::pattern::{automaton_accepts, compile, Pattern};

/// One text in so many also goes through the function of the Rust crate.
const CRATE_SHARE: usize = 8;

impl Text {
    /// The call, what the automaton accepts, the count of its states where a formula says it, and at times the Rust crate.
    pub fn compare(&mut self, memory: &Memory, tally: &mut Texts) -> Compared<()> {
        let theirs = compile(&self.text, self.symbols, self.room);
        let automaton = self.call(memory, &theirs)?;
        let states = self.meant.known.and_then(|known| known.states(self.symbols));
        self.as_formula(states, &theirs)?;
        if theirs.is_ok() {
            self.no_gaps(&automaton)?;
            self.strings(&automaton, tally)?;
        }
        if self.random.once_in(CRATE_SHARE) {
            by_crate::compile(&self.text, self.symbols, self.room, &mut self.random)?;
        }
        tally.seen(&Seen { text: self, answer: &theirs, states });
        Ok(())
    }

    fn called(&self) -> String {
        format!("compile {} bytes with {} symbols into {} bytes", self.text.len(), self.symbols, self.room)
    }

    /// The entry against what the second solver makes of the text; answers the bytes that the library wrote.
    fn call(&mut self, memory: &Memory, theirs: &Result<Vec<u8>, u8>) -> Compared<Vec<u8>> {
        let text = memory.bytes(&mut self.random, &self.text);
        let mut buffer = Lent::<u8>::random(&memory.automaton, &mut self.random, self.room);
        let mut written = Marked::new(&mut self.random);
        ended::at_entry("compile");
        let (to, count) = (buffer.ours().as_mut_ptr(), written.pointer());
        let ours = unsafe { entries::cobleskeg_compile(text.as_ptr(), text.len(), self.symbols, to, self.room, count) };
        let wanted: &[u8] = theirs.as_ref().map_or(&[][..], Vec::as_slice);
        buffer.theirs()[..wanted.len()].copy_from_slice(wanted);
        let results = [written.held("written", theirs.as_ref().ok().map(Vec::len))];
        let byte = buffer.difference().map(|(place, ours, theirs)| format!("byte {place} of the buffer: {ours:#x}, {theirs:#x}"));
        disagreement::same(|| self.called(), ours, theirs.as_ref().err().copied(), &results, byte)?;
        if text != self.text {
            return Err(Disagreement { call: self.called(), ours: "the text is changed".into(), theirs: String::new(), word: None });
        }
        Ok(buffer.ours()[..wanted.len()].to_vec())
    }

    /// Both solvers have just agreed, so they may both be wrong.
    fn as_formula(&self, states: Option<usize>, theirs: &Result<Vec<u8>, u8>) -> Compared<()> {
        let Some(states) = states else { return Ok(()) };
        let right = match theirs {
            Ok(bytes) => usize::from(bytes[0]) == states,
            Err(16) => states > MOST_STATES,
            Err(17) => states <= MOST_STATES,
            Err(_) => true,
        };
        if right {
            return Ok(());
        }
        let counted = theirs.as_ref().map_or_else(|number| format!("refused {number}"), |bytes| format!("{} states", bytes[0]));
        Err(Disagreement { call: format!("{}, by its formula", self.called()), ours: format!("{states} states"), theirs: counted, word: None })
    }

    /// A pattern's automaton has every move: the empty set is a state.
    fn no_gaps(&self, automaton: &[u8]) -> Compared<()> {
        match gaps::has_gaps(automaton) {
            true => Err(Disagreement { call: self.called(), ours: "has gaps".into(), theirs: "has every move".into(), word: None }),
            false => Ok(()),
        }
    }

    /// What the library's automaton accepts is what the pattern stands for.
    fn strings(&mut self, automaton: &[u8], tally: &mut Texts) -> Compared<()> {
        let pattern = Pattern::read(&self.text);
        for string in strings::tried(&mut self.random, &self.text, self.symbols, automaton) {
            let ours = automaton_accepts(automaton, self.symbols, &string);
            let theirs = pattern.as_ref().is_some_and(|pattern| pattern.accepts(&string));
            tally.string(theirs);
            if ours != theirs {
                let word = |accepts: bool| if accepts { "accepts it" } else { "does not accept it" };
                let call = format!("{}, the string {string:?}", self.called());
                return Err(Disagreement { call, ours: word(ours).into(), theirs: word(theirs).into(), word: None });
            }
        }
        Ok(())
    }
}

#[cfg(test)]
mod tests {
    use super::super::Kind;
    use super::*;

    fn text(text: &[u8]) -> Text {
        Text { kind: Kind::Small, text: text.to_vec(), symbols: 2, room: 99, ..Text::new(1, 0) }
    }

    #[test]
    fn the_automaton_of_another_pattern_is_seen() {
        for (one, other, alike) in [("01", "01", true), ("0|1", "1|0", true), ("01", "10", false), ("0*", "0*|1", false), ("(01)*", "(01)*01", false)] {
            let automaton = compile(other.as_bytes(), 2, 99).expect("it is a pattern");
            let compared = text(one.as_bytes()).strings(&automaton, &mut Texts::default());
            assert_eq!(compared.is_ok(), alike, "{one} and {other}");
        }
    }

    #[test]
    fn another_count_of_states_is_seen() {
        let text = text(b"0101");
        let answers = [compile(&text.text, 2, 99), Err(15), Err(16), Err(17)];
        let right = |states: usize| answers.each_ref().map(|answer| text.as_formula(Some(states), answer).is_ok());
        assert_eq!(right(6), [true, true, false, true]);
        assert_eq!(right(5), [false, true, false, true]);
        assert_eq!(right(33), [false, true, true, false]);
    }
}
