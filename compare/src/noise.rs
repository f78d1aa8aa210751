//! Files that nobody meant.

use crate::random::Random;

/// Some bytes changed: anywhere, or in what is not the table.
pub fn changed(random: &mut Random, mut bytes: Vec<u8>, table: usize) -> Vec<u8> {
    let from = if random.once_in(3) { 0 } else { table };
    for _ in 0..*random.pick(&[1, 1, 2, 3]) {
        let at = random.between(from, bytes.len() - 1);
        bytes[at] = match random.below(4) {
            0 => random.byte(),
            1 => bytes[at].wrapping_add(1),
            2 => bytes[at].wrapping_sub(1),
            _ => bytes[at] ^ 1 << random.below(8),
        };
    }
    bytes
}

/// Random bytes; at times with the mark at the end, with counts that are nearly good, or with distances that fit one automaton and nothing else.
pub fn bytes(random: &mut Random) -> Vec<u8> {
    let size = *random.pick(&[0, 23, 24, 25, 48, 100, 600, 2000]) + random.below(20);
    let mut bytes: Vec<u8> = (0..size).map(|_| random.byte()).collect();
    let form = random.below(4);
    if form == 0 || size < 24 {
        return bytes;
    }
    let trailer = size - 24;
    bytes[trailer + 20..].copy_from_slice(b"TAIL");
    if form >= 2 {
        for (at, limit) in [64, 16, 16, 8, 64].into_iter().enumerate() {
            bytes[trailer + at] = random.below(limit + 2) as u8;
        }
        bytes[trailer + 5..trailer + 8].fill(0);
    }
    if form >= 3 {
        bytes[trailer + 1..trailer + 5].copy_from_slice(&[0, 0, 1, 0]);
        let distance = (trailer as u32).to_le_bytes();
        bytes[trailer + 8..trailer + 20].copy_from_slice(&[distance; 3].concat());
    }
    bytes
}
