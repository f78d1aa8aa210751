//! Two faults at once, with different refusals, for their order.

use super::broken::{self, Fault};
use super::form::{self, Known};
use super::{ask, grow, Meant, LARGEST, LONGEST};
use crate::random::Random;

/// Every two of the refusals, the first of them to be given.
pub const PAIRS: [(u8, u8); 6] = [(14, 15), (14, 16), (14, 17), (15, 16), (15, 17), (16, 17)];

/// A text with two faults, the number of symbols and the bytes of the buffer.
pub fn faults(random: &mut Random) -> (Vec<u8>, usize, usize, Meant) {
    let pair = *random.pick(&PAIRS);
    let has = |number: u8| pair.0 == number || pair.1 == number;
    let (sound, known) = if has(16) { form::too_many(random) } else { (grow::any(random, 40), Known::default()) };
    let symbols = if has(15) { ask::wrong_symbols(random, &sound) } else { ask::symbols(random, &sound).max(known.least()) };
    // What is too short for an automaton with any other fault is one that has no room for the first five bytes.
    let room = match (has(17), has(16)) {
        (false, _) => LARGEST + random.below(100),
        (true, true) => ask::short_room(random, symbols),
        (true, false) => random.below(5),
    };
    let text = if has(14) { no_pattern(random, sound) } else { sound };
    (text, symbols, room, Meant { pair: Some(pair), ..Meant::default() })
}

/// The text with a fault or with too many bytes. Both leave its letters, or else a number of symbols might be right again.
fn no_pattern(random: &mut Random, text: Vec<u8>) -> Vec<u8> {
    if text.len() + broken::MORE > LONGEST || random.once_in(3) {
        let more = LONGEST + 1 + random.below(4) - text.len();
        return [&text[..], &b"|".repeat(more)].concat();
    }
    let faults: Vec<Fault> = Fault::ALL.into_iter().filter(|fault| *fault != Fault::NoLetter).collect();
    random.pick(&faults).plant(random, text)
}
