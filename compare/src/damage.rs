//! Damaged files: for each of the refusals 1 to 8, and for each of its clauses in document 01, a change that the file is refused for.

mod change;
mod parts;
mod trailer;

use crate::draft::{below, Draft, LIMIT, NOTHING};
use crate::gaps;
use crate::generate::record;
use crate::random::Random;
pub use change::Damage;
use change::{Change, MOST_RECORDS};

/// A problem that every damage can be done to: there is something of each sort, and no count is at its limit.
pub fn sound(random: &mut Random) -> Draft {
    let most = *random.pick(&[5, 5, 5, 62]);
    let symbols = random.between(2, most);
    let mut draft = Draft::over(symbols);
    let (strings, numbers, automata) = if random.once_in(8) { (15, 15, 7) } else { (random.between(3, 4), random.between(1, 2), random.between(1, 2)) };
    for _ in 0..strings {
        let mut row = NOTHING;
        row[0] = random.word() & random.word();
        row[1..random.between(2, LIMIT)].iter_mut().for_each(|word| *word = random.subset(symbols, 4));
        draft.rows.push(row);
    }
    draft.numbers = random.words(numbers);
    for _ in 0..automata {
        let states = random.between(1, 6);
        draft.machines.push(gaps::any(random, symbols, states));
    }
    for kind in 1..=random.between(1, 7) as u8 {
        draft.records.extend(record(random, kind, strings, numbers, automata));
    }
    draft
}

/// A problem with most counts at their limit, and some one below.
pub fn sound_at_limits(random: &mut Random) -> Draft {
    let symbols = *random.pick(&[64, 63, 63, 62]);
    let mut draft = Draft::over(symbols);
    let [strings, numbers, automata, constraints] = [16, 16, 8, MOST_RECORDS].map(|limit| limit - usize::from(random.once_in(4)));
    for _ in 0..strings {
        draft.rows.push(std::array::from_fn(|place| random.word() & if place == 0 { u64::MAX } else { below(symbols) }));
    }
    draft.numbers = random.words(numbers);
    for _ in 0..automata {
        let states = *random.pick(&[32, 32, 32, 31, 1]);
        draft.machines.push(gaps::any(random, symbols, states));
    }
    for at in 0..constraints {
        draft.records.extend(record(random, 1 + (at % 7) as u8, strings, numbers, automata));
    }
    draft
}

/// One of the damages that can be done to the problem, or two with different refusals.
pub fn picked<'a>(random: &mut Random, all: &'a [Damage], draft: &Draft, twice: bool) -> Vec<&'a Damage> {
    let fitting: Vec<&Damage> = all.iter().filter(|damage| (damage.fits)(draft)).collect();
    let one = *random.pick(&fitting);
    let others: Vec<&Damage> = fitting.into_iter().filter(|other| twice && other.refusal != one.refusal).collect();
    if others.is_empty() {
        return vec![one];
    }
    vec![one, *random.pick(&others)]
}

/// The file with these damages. Those of a higher refusal come first, so that none undoes what a lower one did.
pub fn damaged(random: &mut Random, mut draft: Draft, mut damages: Vec<&Damage>) -> Vec<u8> {
    damages.sort_by_key(|damage| std::cmp::Reverse(damage.refusal));
    for damage in &damages {
        if let Change::Draft(change) = &damage.change {
            change(&mut draft, random);
        }
    }
    let mut laid = draft.laid();
    for damage in &damages {
        if let Change::Laid(change) = &damage.change {
            change(&mut laid, random);
        }
    }
    let mut bytes = laid.bytes();
    for damage in &damages {
        if let Change::Bytes(change) = &damage.change {
            change(&mut bytes, random);
        }
    }
    bytes
}

/// All damages.
pub fn all() -> Vec<Damage> {
    let mut all = trailer::all();
    all.extend(parts::all());
    all
}

#[cfg(test)]
mod tests {
    use super::*;

    #[test]
    fn the_sound_problem_is_accepted() {
        for index in 0..500 {
            let draft = sound(&mut Random::new(5, index));
            assert!(second::read(&draft.bytes()).is_ok(), "index {index}");
            assert!(draft.rows.len() < 16 && draft.numbers.len() < 16 && draft.machines.len() < 8 && draft.symbols < 63);
        }
    }

    #[test]
    fn a_problem_at_the_limits_is_accepted() {
        let mut at_limits = [0; 5];
        for index in 0..100 {
            let draft = sound_at_limits(&mut Random::new(5, index));
            assert!(second::read(&draft.bytes()).is_ok(), "index {index}");
            let reached = [draft.symbols == 64, draft.rows.len() == 16, draft.numbers.len() == 16, draft.machines.len() == 8, draft.records.len() == 64];
            at_limits.iter_mut().zip(reached).for_each(|(count, reached)| *count += i32::from(reached));
        }
        assert!(at_limits.iter().all(|&count| count > 10), "{at_limits:?}");
    }

    #[test]
    fn each_damage_alone_has_its_refusal() {
        let damages = all();
        for refusal in 1..=8 {
            assert!(damages.iter().filter(|damage| damage.refusal == refusal).count() >= 4, "refusal {refusal}");
        }
        for (at, damage) in damages.iter().enumerate() {
            for index in 0..40 {
                let random = &mut Random::new(6 + at as u64, index);
                for draft in [sound(random), sound_at_limits(random)] {
                    if (damage.fits)(&draft) {
                        let file = damaged(random, draft, vec![damage]);
                        assert_eq!(second::read(&file), Err(damage.refusal), "damage {at}, index {index}");
                    }
                }
            }
        }
    }

    #[test]
    fn of_two_refusals_the_lower_comes_first() {
        let damages = all();
        for one in &damages {
            for other in damages.iter().filter(|other| one.refusal < other.refusal) {
                let random = &mut Random::new(7, 0);
                for draft in [sound(random), sound_at_limits(random)] {
                    if (one.fits)(&draft) && (other.fits)(&draft) {
                        let file = damaged(random, draft, vec![one, other]);
                        assert_eq!(second::read(&file), Err(one.refusal), "with {}", other.refusal);
                    }
                }
            }
        }
    }
}
