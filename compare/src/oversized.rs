//! Files larger than the largest sound one: nothing but refusals, and most by 4 or 5.

use crate::damage;
use crate::draft::Laid;
use crate::random::Random;
use second::file::LARGEST_FILE;

/// The most bytes that such a file has beside those of a sound one.
const MORE: usize = 130_000;

/// A sound problem with bytes more, before it or in its automata, and with distances that take notice of them or not.
pub fn bytes(random: &mut Random) -> Vec<u8> {
    let draft = if random.once_in(2) { damage::sound_at_limits(random) } else { damage::sound(random) };
    let mut laid = draft.laid();
    // One byte may be taken away again.
    let least = LARGEST_FILE + 2 - laid.bytes().len();
    let any = random.between(least, MORE);
    let more = *random.pick(&[least, 1 << 16, 1 << 16, (1 << 16) - 1, any, any]);
    let filler: Vec<u8> = if random.once_in(2) { vec![1; more.max(least)] } else { (0..more.max(least)).map(|_| random.byte()).collect() };
    match random.below(8) {
        0..=2 => behind(&mut laid, &filler, [true; 3]),
        3 => before(&mut laid, &filler, random.once_in(2)),
        4 => automata(&mut laid, draft.machines.first().map_or(&[][..], |machine| machine), filler.len()),
        5 => behind(&mut laid, &filler, [0; 3].map(|_| random.once_in(2))),
        6 => {
            behind(&mut laid, &filler, [true; 3]);
            laid.body.truncate(laid.body.len() - 1);
        }
        _ => {
            behind(&mut laid, &filler, [true; 3]);
            laid.mark[random.below(4)] ^= u8::from(random.once_in(2));
            laid.counts[random.below(4)] += 60;
        }
    }
    laid.bytes()
}

/// Bytes behind the automata, and which distances count them.
fn behind(laid: &mut Laid, filler: &[u8], counted: [bool; 3]) {
    laid.body.extend(filler);
    for (distance, counted) in laid.distances.iter_mut().zip(counted) {
        *distance += if counted { filler.len() as u32 } else { 0 };
    }
}

/// Bytes before the table, and whether the table's distance counts them.
fn before(laid: &mut Laid, filler: &[u8], counted: bool) {
    laid.body = [filler, &laid.body].concat();
    laid.distances[0] += if counted { filler.len() as u32 } else { 0 };
}

/// More automata than the trailer says, each of them sound.
fn automata(laid: &mut Laid, machine: &[u8], least: usize) {
    let filler = machine.repeat(least.div_ceil(machine.len().max(1)));
    behind(laid, &filler, [true; 3]);
}

#[cfg(test)]
mod tests {
    use super::*;

    #[test]
    fn all_are_too_large_and_refused() {
        let mut refused = [0; 9];
        for index in 0..400 {
            let file = bytes(&mut Random::new(16, index));
            assert!(file.len() > LARGEST_FILE && file.len() <= 160_000, "{} bytes", file.len());
            refused[usize::from(second::read(&file).unwrap_err())] += 1;
        }
        assert!(refused[2] > 0 && refused[3] > 0 && refused[4] > 50 && refused[5] > 50, "{refused:?}");
    }
}
