//! Names with an optional suffix at the very end: a stem and a suffix joined, and the place where the suffix starts. That of an empty one is just past the
//! name's last symbol, and where the name has 63 of them no number has it.

use crate::draft::{any, below, just, Draft, Row, LIMIT};
use crate::random::Random;

/// The longest string.
const LONGEST: usize = LIMIT - 1;

/// A name of any length, mostly with an empty suffix, and domains around it. In half of the problems the place is held to the stem: it is the length of the
/// stem with one symbol more.
pub fn optional(random: &mut Random) -> Draft {
    let symbols = *random.pick(&[1, 2, 2, 3, 39, 64]);
    let any_length = random.below(LIMIT);
    let length = *random.pick(&[0, 1, 2, 3, LONGEST - 2, LONGEST - 1, LONGEST - 1, LONGEST, LONGEST, any_length]);
    let whole: Vec<u8> = (0..length).map(|_| random.below(symbols) as u8).collect();
    let (front, end) = whole.split_at(length - random.pick(&[0, 0, 0, 1, 3]).min(&length));
    let mut draft = Draft::over(symbols);
    let [stem, suffix, name] = [front, end, &whole].map(|string| draft.string(near(random, string, symbols)));
    if !random.once_in(4) {
        draft.rows[usize::from(suffix)][0] |= 1;
    }
    // From the suffix on; or also 0, which is no place, the last place of the stem, or all.
    let place = draft.number(!below(front.len() + 1) | *random.pick(&[0, 1, 1 << front.len(), u64::MAX]));
    draft.cat(stem, suffix, name);
    draft.sub(name, suffix, place);
    if random.once_in(2) {
        let (symbol, longer) = (draft.string(just(&[0])), draft.string(any(0, LONGEST, below(symbols))));
        draft.cat(stem, symbol, longer);
        draft.len(longer, place);
    }
    random.shuffle(&mut draft.records);
    draft
}

/// The row of the string; at times also of the empty one, of its beginnings, of all others up to one symbol longer, or of those that differ at one place.
fn near(random: &mut Random, string: &[u8], symbols: usize) -> Row {
    let mut row = just(string);
    match random.below(8) {
        0 => row[0] |= 1,
        1 => row[0] |= random.subset(string.len() + 1, 4),
        2 => row = any(0, LONGEST.min(string.len() + 1), below(symbols)),
        3 if !string.is_empty() => row[random.between(1, string.len())] = below(symbols),
        _ => {}
    }
    row
}

#[cfg(test)]
mod tests {
    use super::*;
    use crate::solution::values;

    #[test]
    fn what_is_generated_is_accepted() {
        for index in 0..500 {
            let file = optional(&mut Random::new(16, index)).bytes();
            assert!(second::read(&file).is_ok(), "index {index}: {:?}", second::read(&file));
        }
    }

    /// Problems whose first solution has its suffix just past the name, by the name's length.
    #[test]
    fn many_suffixes_are_past_the_end() {
        let mut past = [0; LIMIT];
        for index in 0..500 {
            let draft = optional(&mut Random::new(17, index));
            let (mut room, mut table) = (vec![0; 3 * 64 * 6], vec![0; 64 * draft.rows.len() + 1]);
            if let Ok(second::Outcome::Found(_)) = second::search(&draft.bytes(), 100, &mut room, &mut table) {
                let (strings, numbers) = values(&table, draft.rows.len());
                past[strings[2].len()] += usize::from(usize::from(numbers[0]) == strings[2].len() + 1);
            }
        }
        assert!(past[0] >= 10 && past[1] >= 10 && past[LONGEST - 1] >= 10 && past[LONGEST] == 0, "{past:?}");
        assert!(past.iter().sum::<usize>() >= 100, "{past:?}");
    }
}
