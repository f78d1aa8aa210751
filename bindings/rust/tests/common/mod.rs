//! P14 of the scope paper, put down by hand.
#![allow(dead_code)]

/// Three rows and a number.
pub const WORDS: usize = 3 * 64 + 1;
pub const ROOM: usize = 3 * WORDS;

/// X {1,2}, {0,1}, {0,1}; Y {0,1}, {1}; Z {2}, {0}, {0,1}; the number {0,1,2,3}.
pub fn p14_table() -> Vec<u64> {
    let mut table = vec![0; WORDS];
    table[..3].copy_from_slice(&[0b110, 0b11, 0b11]);
    table[64..66].copy_from_slice(&[0b11, 0b10]);
    table[128..131].copy_from_slice(&[0b100, 0b1, 0b11]);
    table[192] = 0b1111;
    table
}

/// Cat leaves X only 0 at place 1, where Z has nothing else.
pub fn after_cat() -> Vec<u64> {
    let mut table = p14_table();
    table[1] = 0b1;
    table
}

/// Len leaves the number the lengths 1 and 2.
pub fn after_both() -> Vec<u64> {
    let mut table = after_cat();
    table[192] = 0b110;
    table
}

/// Steps 0 Cat(X, Y, Z) and 1 Len(X, number), then the trimmings of X, Y and Z: X is touched by 0, 1 and 2, Y by 0 and 3, Z by 0 and 4, the number by 1.
pub const P14_INDEX: [u64; 8] = [0b111, 0, 0b1001, 0, 0b10001, 0, 0b10, 0];

/// X is 0, Y is 1, Z is 0 1, the number is 1.
pub fn solved() -> Vec<u64> {
    let mut table = vec![0; WORDS];
    table[..2].copy_from_slice(&[0b10, 0b1]);
    table[64..66].copy_from_slice(&[0b10, 0b10]);
    table[128..131].copy_from_slice(&[0b100, 0b1, 0b10]);
    table[192] = 0b10;
    table
}

/// The table, then Cat(X, Y, Z) and Len(X, number), no automaton, and the trailer: k 2, 3 strings, 1 number, 2 constraints.
pub fn p14() -> Vec<u8> {
    let mut file: Vec<u8> = p14_table().iter().flat_map(|word| word.to_le_bytes()).collect();
    file.extend([4, 0, 1, 2, 6, 0, 0, 0]);
    let back = file.len() as u32;
    file.extend([2, 3, 1, 0, 2, 0, 0, 0]);
    file.extend([back, 8, 0].iter().flat_map(|distance| distance.to_le_bytes()));
    file.extend(b"TAIL");
    file
}

/// 24 bytes: 2 symbols and nothing else.
pub fn bare() -> Vec<u8> {
    let mut file = vec![0; 24];
    file[0] = 2;
    file[20..].copy_from_slice(b"TAIL");
    file
}
