//! Template sets: names joined from parts and held to path rules, where two templates are asked for one name.

use crate::draft::{any, below, just, Draft, LIMIT};
use crate::gaps;
use crate::random::Random;
use crate::rules::{self, Block};

/// The alphabet: letters first, then digits, then the two separators.
struct Alphabet {
    letters: usize,
    digits: usize,
}

impl Alphabet {
    fn symbols(&self) -> usize {
        self.letters + self.digits + 2
    }

    fn letter_set(&self) -> u64 {
        below(self.letters)
    }

    fn digit_set(&self) -> u64 {
        below(self.letters + self.digits) & !self.letter_set()
    }

    fn named_set(&self) -> u64 {
        below(self.letters + self.digits)
    }

    fn separator(&self, which: usize) -> u8 {
        (self.letters + self.digits + which) as u8
    }
}

/// Two templates that must make one name. There is a name that both were made from, but here and there a domain or a rule shuts it out.
pub fn clash(random: &mut Random) -> Draft {
    let &(letters, digits) = random.pick(&[(26, 10), (6, 4), (3, 2), (2, 2)]);
    let alphabet = Alphabet { letters, digits };
    let mut draft = Draft::over(alphabet.symbols());
    let separators = [0, 1].map(|which| draft.string(just(&[alphabet.separator(which)])));
    let name = name(random, &alphabet);
    let wholes = [0; 2].map(|_| {
        let whole = template(random, &alphabet, &mut draft, &name, separators);
        if random.once_in(2) {
            let rule = path_rule(random, &alphabet);
            hold(random, &mut draft, whole, &name, rule);
        }
        whole
    });
    draft.eq(wholes[0], wholes[1]);
    if draft.rows.len() < 16 {
        relate(random, &mut draft, wholes[0], &name);
    }
    draft
}

/// One to three words of letters and digits with separators between them.
fn name(random: &mut Random, alphabet: &Alphabet) -> Vec<u8> {
    let mut name = Vec::new();
    for word in 0..random.between(1, 3) {
        if word > 0 {
            name.push(alphabet.separator(random.below(2)));
        }
        let (letters, digits) = (random.below(4), random.below(3));
        name.extend((0..letters).map(|_| random.below(alphabet.letters) as u8));
        name.extend((0..digits).map(|_| (alphabet.letters + random.below(alphabet.digits)) as u8));
    }
    name
}

/// Cuts the name into parts, gives each a domain, and joins them; answers the whole.
fn template(random: &mut Random, alphabet: &Alphabet, draft: &mut Draft, name: &[u8], separators: [u8; 2]) -> u8 {
    let mut cuts: Vec<usize> = (0..random.between(1, 3)).map(|_| random.below(name.len() + 1)).chain([0, name.len()]).collect();
    cuts.sort_unstable();
    let mut whole = None;
    for piece in cuts.windows(2).map(|cut| &name[cut[0]..cut[1]]) {
        let next = match piece {
            [symbol] if *symbol >= alphabet.separator(0) => separators[usize::from(symbol - alphabet.separator(0))],
            _ => part(random, alphabet, draft, piece),
        };
        whole = Some(match whole {
            None => next,
            Some(before) => behind(random, draft, before, next),
        });
    }
    whole.expect("there is at least one piece")
}

/// A course or rendition of letters and digits, often held to a rule; or a counter of digits whose length is a number. The piece is one of its strings, save
/// once in twelve.
fn part(random: &mut Random, alphabet: &Alphabet, draft: &mut Draft, piece: &[u8]) -> u8 {
    let holds = |symbols: &u64| piece.iter().all(|&symbol| symbols >> symbol & 1 == 1);
    let classes = [alphabet.digit_set(), alphabet.letter_set(), alphabet.named_set(), below(alphabet.symbols())];
    let fitting: Vec<u64> = classes.into_iter().filter(holds).collect();
    let symbols = if random.once_in(12) { *random.pick(&classes) } else { *random.pick(&fitting) };
    let length = piece.len() + usize::from(random.once_in(12));
    let (fewer, more) = (random.below(3), random.below(4));
    let string = draft.string(any(length.saturating_sub(fewer), length + more, symbols));
    if symbols == alphabet.digit_set() {
        let widths = 1 << length | random.subset(length + 3, 4);
        let width = draft.number(widths);
        draft.len(string, width);
    } else if random.once_in(2) {
        let first = Block { symbols: alphabet.letter_set(), least: 1, most: Some(1) };
        let others = Block { symbols: alphabet.named_set(), least: random.below(3) as u8, most: None };
        hold(random, draft, string, piece, rules::rule(alphabet.symbols(), &[first, others]));
    }
    string
}

/// The joint of two strings, of any length or of short ones.
fn behind(random: &mut Random, draft: &mut Draft, whole: u8, next: u8) -> u8 {
    let most = *random.pick(&[LIMIT - 1, 24, 20]);
    let longer = draft.string(any(0, most, below(draft.symbols)));
    draft.cat(whole, next, longer);
    longer
}

fn path_rule(random: &mut Random, alphabet: &Alphabet) -> Option<Vec<u8>> {
    let symbols = alphabet.symbols();
    if random.once_in(3) {
        return Some(rules::parity(symbols, alphabet.digit_set(), random.once_in(2)));
    }
    let slash = Block { symbols: 1 << alphabet.separator(0), least: 1, most: Some(1) };
    let before = Block { symbols: alphabet.named_set(), least: random.below(3) as u8, most: None };
    let after = Block { symbols: below(symbols) & !slash.symbols, least: random.below(3) as u8, most: Some(random.between(4, 14) as u8) };
    rules::rule(symbols, &[before, slash, after])
}

/// Holds a string to a rule, if there is one and place for it, and mostly only if it accepts the piece that the string is made from. Every other rule lists only
/// the moves that exist.
fn hold(random: &mut Random, draft: &mut Draft, string: u8, piece: &[u8], rule: Option<Vec<u8>>) {
    let Some(rule) = rule else { return };
    if draft.machines.len() < 8 && (rules::accepts(&rule, draft.symbols, piece) || random.once_in(8)) {
        let at = draft.machine(if random.once_in(2) { gaps::without_sink(&rule, draft.symbols) } else { rule });
        draft.regular(string, at);
    }
}

/// One string more: another name, the name read backwards, or a part of it at an unknown place. The part may be empty, and may start just past the name.
fn relate(random: &mut Random, draft: &mut Draft, whole: u8, name: &[u8]) {
    let symbols = below(draft.symbols);
    match random.below(4) {
        0 => {
            let other = draft.string(just(name));
            draft.neq(whole, other);
        }
        1 => {
            let backwards = draft.string(any(0, 24, symbols));
            draft.records.push([3, whole, backwards, 0]);
        }
        2 => {
            let from = random.below(name.len() + 1);
            let inside = draft.string(just(&name[from..random.between(from, name.len())]));
            let place = draft.number(*random.pick(&[below(LIMIT), !below(from + 1)]));
            draft.sub(whole, inside, place);
        }
        _ => {}
    }
}

#[cfg(test)]
mod tests {
    use super::*;

    #[test]
    fn template_sets_are_accepted() {
        for index in 0..1000 {
            let file = clash(&mut Random::new(3, index)).bytes();
            assert!(second::read(&file).is_ok(), "index {index}: {:?}", second::read(&file));
        }
    }
}
