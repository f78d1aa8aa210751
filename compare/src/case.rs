//! One case: a problem file made from a seed and an index alone.

use crate::damage::{self, Damage};
use crate::draft::Draft;
use crate::gaps::{self, Pair};
use crate::kind::{Kind, COSTLY_EVERY};
use crate::measure::Measure;
use crate::random::Random;
use crate::trees::{self, Known};
use crate::{generate, hard, late, noise, oversized, suffix, templates};
use std::sync::OnceLock;

/// The sort of a known tree changes after so many cases: of those that come up in any run the first is deep, the second bushy, and so on.
const TREE_EVERY: u64 = 2000;

/// The kind of a case, its file, what is known of its tree, the files that go with one of a pair, how much of it is called, and the random words for that.
pub struct Case {
    pub kind: Kind,
    pub file: Vec<u8>,
    pub known: Option<Known>,
    pub pair: Option<Pair>,
    pub measure: Measure,
    pub random: Random,
}

impl Case {
    pub fn new(seed: u64, index: u64) -> Case {
        let mut random = Random::new(seed, index);
        let kind = Kind::of(index, &mut random);
        let (file, known, pair) = match kind {
            Kind::Tree => with_tree(trees::known(&mut random, index / TREE_EVERY)),
            Kind::Full => with_tree(trees::full(&mut random, index / COSTLY_EVERY)),
            Kind::Pairs => with_sinks(&gaps::fillable(&mut random)),
            _ => (file(kind, &mut random), None, None),
        };
        let measure = Measure::of(kind, &mut random);
        Case { kind, file, known, pair, measure, random }
    }
}

/// A file, and what there is beside it.
type Given = (Vec<u8>, Option<Known>, Option<Pair>);

fn with_tree((draft, known): (Draft, Known)) -> Given {
    (draft.bytes(), Some(known), None)
}

fn with_sinks(draft: &Draft) -> Given {
    (draft.bytes(), None, Some(Pair::of(draft)))
}

fn file(kind: Kind, random: &mut Random) -> Vec<u8> {
    match kind {
        Kind::Small => generate::small(random).bytes(),
        Kind::Suffix => suffix::optional(random).bytes(),
        Kind::Large => generate::large(random).bytes(),
        Kind::Limits => generate::limits(random).bytes(),
        Kind::Many if random.once_in(6) => late::tangle(random).bytes(),
        Kind::Many => generate::many(random).bytes(),
        Kind::Templates => templates::clash(random).bytes(),
        Kind::Hard => hard::hard(random).bytes(),
        Kind::Late => late::difference(random).bytes(),
        Kind::Chain => late::chain(random).bytes(),
        Kind::Gaps => gaps::ruled(random, gaps::MOST_STATES).bytes(),
        Kind::Damaged => damaged(random, damage::sound, false),
        Kind::TwiceDamaged => damaged(random, damage::sound, true),
        Kind::DamagedLimits => {
            let twice = random.once_in(4);
            damaged(random, damage::sound_at_limits, twice)
        }
        Kind::Changed => changed(random),
        Kind::Noise => noise::bytes(random),
        Kind::Oversized => oversized::bytes(random),
        Kind::Endless => hard::endless().bytes(),
        Kind::Tree | Kind::Full | Kind::Pairs => unreachable!("known trees and pairs have their own way"),
    }
}

/// A sound problem with one damage, or with two that have different refusals.
fn damaged(random: &mut Random, sound: fn(&mut Random) -> Draft, twice: bool) -> Vec<u8> {
    static DAMAGES: OnceLock<Vec<Damage>> = OnceLock::new();
    let draft = sound(random);
    let damages = damage::picked(random, DAMAGES.get_or_init(damage::all), &draft, twice);
    damage::damaged(random, draft, damages)
}

fn changed(random: &mut Random) -> Vec<u8> {
    let draft = if random.once_in(2) { damage::sound(random) } else { generate::small(random) };
    let table = 8 * (64 * draft.rows.len() + draft.numbers.len());
    noise::changed(random, draft.bytes(), table)
}

#[cfg(test)]
mod tests {
    use super::*;

    #[test]
    fn a_case_is_its_seed_and_index() {
        for index in 0..50 {
            let (one, other) = (Case::new(3, index), Case::new(3, index));
            assert!(one.kind == other.kind && one.file == other.file);
        }
        assert!((0..50).any(|index| Case::new(3, index).file != Case::new(4, index).file));
    }
}
