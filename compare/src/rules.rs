//! Automata: those of path rules, and any.

use crate::draft::machine;
use crate::random::Random;
use second::relations::GAP;

/// A part of a path rule: from `least` to `most` of these symbols one after the other, or any number from `least` on.
#[derive(Clone, Copy)]
pub struct Block {
    pub symbols: u64,
    pub least: u8,
    pub most: Option<u8>,
}

/// Where the reading of a rule may stand: in a block, after so many of its symbols.
type Place = (usize, u8);

/// With a block that may end, the next one may begin.
fn closed(blocks: &[Block], mut places: Vec<Place>) -> Vec<Place> {
    for b in 0..blocks.len() {
        if places.iter().any(|&(block, n)| block == b && n >= blocks[b].least) {
            places.push((b + 1, 0));
        }
    }
    places.sort_unstable();
    places.dedup();
    places
}

/// Where it may stand after one symbol more. In an endless block the count stays at its least.
fn moved(blocks: &[Block], places: &[Place], symbol: usize) -> Vec<Place> {
    let mut after = Vec::new();
    for &(b, n) in places {
        let Some(block) = blocks.get(b) else { continue };
        if block.symbols >> symbol & 1 == 1 && block.most.is_none_or(|most| n < most) {
            let stays = block.most.is_none() && n == block.least;
            after.push((b, if stays { n } else { n + 1 }));
        }
    }
    closed(blocks, after)
}

/// The automaton of the rule that is these blocks one after the other, if 32 states are enough.
pub fn rule(symbols: usize, blocks: &[Block]) -> Option<Vec<u8>> {
    let mut states = vec![closed(blocks, vec![(0, 0)])];
    let mut moves = Vec::new();
    let mut read = 0;
    while read < states.len() {
        for symbol in 0..symbols {
            let after = moved(blocks, &states[read], symbol);
            let known = states.iter().position(|places| *places == after);
            moves.push(known.unwrap_or(states.len()) as u8);
            if known.is_none() {
                states.push(after);
            }
        }
        read += 1;
        if states.len() > 32 {
            return None;
        }
    }
    let ended = |places: &Vec<Place>| places.contains(&(blocks.len(), 0));
    let accepting = (0..states.len()).filter(|&q| ended(&states[q])).fold(0, |set, q| set | 1 << q);
    Some(machine(states.len(), accepting, &moves))
}

/// Accepts the strings in which the counted symbols are even in number, or odd.
pub fn parity(symbols: usize, counted: u64, odd: bool) -> Vec<u8> {
    let moves: Vec<u8> = (0..2).flat_map(|state| (0..symbols).map(move |a| state ^ (counted >> a & 1) as u8)).collect();
    machine(2, if odd { 2 } else { 1 }, &moves)
}

/// The state in which the automaton in these bytes ends after the string, or none where a move is missing.
pub fn end(bytes: &[u8], symbols: usize, string: &[u8]) -> Option<usize> {
    string.iter().try_fold(0, |state, &symbol| match bytes[5 + state * symbols + usize::from(symbol)] {
        GAP => None,
        next => Some(usize::from(next)),
    })
}

/// Whether it accepts the string.
pub fn accepts(bytes: &[u8], symbols: usize, string: &[u8]) -> bool {
    let accepting = u32::from_le_bytes([bytes[1], bytes[2], bytes[3], bytes[4]]);
    end(bytes, symbols, string).is_some_and(|state| accepting >> state & 1 == 1)
}

/// Any automaton of so many states that has every move.
pub fn any(random: &mut Random, symbols: usize, states: usize) -> Vec<u8> {
    let moves: Vec<u8> = (0..states * symbols).map(|_| random.below(states) as u8).collect();
    let share = random.between(1, 7);
    machine(states, random.subset(states, share) as u32, &moves)
}

#[cfg(test)]
mod tests {
    use super::*;

    #[test]
    fn a_rule_accepts_its_blocks() {
        // One or two of 0 or 1, any number of 2, then one or more of 1.
        let blocks = [(0b011, 1, Some(2)), (0b100, 0, None), (0b010, 1, None)].map(|(symbols, least, most)| Block { symbols, least, most });
        let rule = rule(3, &blocks).unwrap();
        for good in [&[0, 1][..], &[1, 1], &[0, 2, 2, 1, 1], &[1, 0, 1], &[0, 1, 1, 1, 1], &[1, 1, 2, 1]] {
            assert!(accepts(&rule, 3, good), "{good:?}");
        }
        for bad in [&[][..], &[1], &[0, 0, 0, 1], &[2, 1], &[0, 2], &[0, 2, 0, 1], &[0, 1, 0]] {
            assert!(!accepts(&rule, 3, bad), "{bad:?}");
        }
    }

    #[test]
    fn a_rule_of_too_many_states_is_none() {
        assert!(rule(2, &[Block { symbols: 1, least: 40, most: None }]).is_none());
    }

    #[test]
    fn parity_counts() {
        let odd = parity(3, 0b110, true);
        assert!(accepts(&odd, 3, &[0, 1, 0]) && accepts(&odd, 3, &[1, 2, 1]));
        assert!(!accepts(&odd, 3, &[]) && !accepts(&odd, 3, &[1, 2]));
    }
}
