//! Each refusal by itself, and which one comes first.

mod common;
use common::*;
use second::Header;

/// Where things lie in `good`: rows at 0 and 512, number at 1024,
/// constraints at 1032 and 1036, automaton at 1040, trailer at 1051.
fn good() -> Draft {
    Draft {
        symbols: 3,
        rows: vec![row(&[1], &[&[0, 1]]), row(&[0, 2], &[&[2], &[1]])],
        numbers: vec![set(&[1, 63])],
        constraints: vec![[2, 0, 1, 0], [7, 1, 0, 0]],
        automata: vec![automaton(0b10, &[&[0, 1, 0], &[1, 1, 0]])],
    }
}
const TRAILER: usize = 1051;
const WORDS: usize = 129;

/// Read must give this, and so must the others, without writing.
fn all_refuse(file: &[u8], number: u8) {
    assert_eq!(second::read(file), Err(number));
    let mut lent = vec![1; WORDS];
    assert_eq!(second::unpack(file, &mut lent), Err(number));
    assert_eq!(second::step(file, 0, &mut lent), Err(number));
    assert_eq!(second::settle(file, &mut lent), Err(number));
    assert_eq!(
        second::settle_by_index(file, &[1; 6], &mut lent),
        Err(number)
    );
    let mut index = vec![1; 6];
    assert_eq!(second::index(file, &mut index), Err(number));
    assert_eq!(index, vec![1; 6]);
    let mut room = vec![1; 3 * WORDS];
    assert_eq!(second::search(file, 9, &mut room, &mut lent), Err(number));
    assert_eq!(lent, vec![1; WORDS]);
    assert_eq!(room, vec![1; 3 * WORDS]);
}

#[test]
fn the_good_file_is_read() {
    let header = Header {
        symbols: 3,
        strings: 2,
        numbers: 1,
        automata: 1,
        constraints: 2,
    };
    let file = good().bytes();
    assert_eq!(file.len(), TRAILER + 24);
    assert_eq!(second::read(&file), Ok(header));
    let mut lent = vec![5; WORDS];
    assert_eq!(second::unpack(&file, &mut lent), Ok(()));
    assert_eq!(lent, good().table());
}

#[test]
fn refusal_1() {
    let file = good().bytes();
    all_refuse(&[], 1);
    all_refuse(b"TAIL", 1);
    all_refuse(&file[file.len() - 23..], 1);
}

#[test]
fn refusal_2() {
    let file = good().bytes();
    for i in 0..4 {
        let mut broken = file.clone();
        broken[TRAILER + 20 + i] ^= 0x20;
        all_refuse(&broken, 2);
    }
    all_refuse(&[0; 24], 2);
    let mut longer = file.clone();
    longer.push(0);
    all_refuse(&longer, 2);
}

#[test]
fn refusal_3() {
    let file = good().bytes();
    let wrong = [
        (0, 0),
        (0, 65),
        (1, 17),
        (2, 17),
        (3, 9),
        (4, 65),
        (5, 1),
        (6, 1),
        (7, 1),
    ];
    for (at, value) in wrong {
        let mut broken = file.clone();
        broken[TRAILER + at] = value;
        all_refuse(&broken, 3);
    }
    // In range, these are no longer a case for 3.
    for (at, value) in [(1, 16), (2, 16), (4, 64)] {
        let mut broken = file.clone();
        broken[TRAILER + at] = value;
        all_refuse(&broken, 4);
    }
    for (at, value) in [(0, 64), (0, 1), (3, 8)] {
        let mut broken = file.clone();
        broken[TRAILER + at] = value;
        all_refuse(&broken, 5);
    }
}

#[test]
fn refusal_4() {
    let file = good().bytes();
    for at in 8..20 {
        let mut broken = file.clone();
        broken[TRAILER + at] ^= 1;
        all_refuse(&broken, 4);
    }
    // A byte too many or too few before the table.
    let mut longer = vec![0];
    longer.extend(&file);
    all_refuse(&longer, 4);
    all_refuse(&file[1..], 4);
}

#[test]
fn refusal_4_past_32_bits() {
    // All three equations hold modulo 2^32, none or not all exactly.
    let file = good().bytes();
    for automata in [
        u32::MAX,
        u32::MAX - 8,
        0u32.wrapping_sub(8),
        0u32.wrapping_sub(1040),
    ] {
        let constraints = automata.wrapping_add(8);
        let table = constraints.wrapping_add(1032);
        let mut broken = file.clone();
        broken[TRAILER + 8..TRAILER + 12].copy_from_slice(&table.to_le_bytes());
        broken[TRAILER + 12..TRAILER + 16].copy_from_slice(&constraints.to_le_bytes());
        broken[TRAILER + 16..TRAILER + 20].copy_from_slice(&automata.to_le_bytes());
        all_refuse(&broken, 4);
        // And with the size that goes with it.
        let size = table.wrapping_add(24) as usize;
        if (24..=file.len()).contains(&size) {
            all_refuse(&broken[file.len() - size..], 4);
        }
    }
}

#[test]
fn refusal_5() {
    let with = |automata: &[&[u8]]| {
        let mut draft = good();
        draft.automata = automata.iter().map(|a| a.to_vec()).collect();
        draft.bytes()
    };
    let fine: &[u8] = &[2, 0b11, 0, 0, 0, 0, 1, 0, 1, 1, 0];
    assert!(second::read(&with(&[fine])).is_ok());
    all_refuse(&with(&[&[]]), 5); // no byte
    all_refuse(&with(&[&[0, 0, 0, 0, 0]]), 5); // no state
    all_refuse(&with(&[&[2, 0b111, 0, 0, 0, 0, 1, 0, 1, 1, 0]]), 5); // accepts 2
    all_refuse(&with(&[&[2, 0, 0, 0, 0x80, 0, 1, 0, 1, 1, 0]]), 5); // accepts 31
    all_refuse(&with(&[&[2, 1, 0, 0, 0, 0, 1, 2, 1, 1, 0]]), 5); // goes to 2
    all_refuse(&with(&[&[2, 1, 0, 0]]), 5); // cut in the set
    all_refuse(&with(&[&[2, 1, 0, 0, 0, 0, 1, 0, 1, 1]]), 5); // cut in the rows
    all_refuse(&with(&[&[2, 1, 0, 0, 0, 0, 1, 0, 1, 1, 0, 0]]), 5); // a spare byte
    all_refuse(&with(&[fine, &[1, 0, 0, 0, 0, 0, 0]]), 5); // second cut
                                                           // 32 and 33 states.
    let mut many = vec![32, 0xff, 0xff, 0xff, 0xff];
    many.extend([31; 96]);
    assert!(second::read(&with(&[&many])).is_ok());
    many[0] = 33;
    many.extend([31; 3]);
    all_refuse(&with(&[&many]), 5);
    // Bytes where no automaton is.
    let mut none = good();
    none.constraints.clear();
    none.automata = vec![vec![0]];
    let mut file = none.bytes();
    let trailer = file.len() - 24;
    file[trailer + 3] = 0;
    all_refuse(&file, 5);
}

#[test]
fn refusal_6() {
    for (x, i) in [(0, 1), (0, 63), (1, 1), (1, 40), (1, 63)] {
        for a in [3, 4, 63] {
            let mut draft = good();
            draft.rows[x][i] |= 1 << a;
            all_refuse(&draft.bytes(), 6);
        }
    }
    // Lengths and numbers are free, and with k 64 the symbols are too.
    let mut draft = good();
    draft.rows[0][0] = u64::MAX;
    draft.rows[1][0] = 1 << 63;
    draft.numbers[0] = u64::MAX;
    assert!(second::read(&draft.bytes()).is_ok());
    draft.symbols = 64;
    draft.rows[0] = [u64::MAX; 64];
    draft.automata = vec![automaton(1, &[&[0; 64]])];
    assert!(second::read(&draft.bytes()).is_ok());
}

#[test]
fn refusal_7() {
    // Two strings, one number, one automaton.
    let fine = [
        [1, 0, 1, 0],
        [2, 1, 0, 0],
        [3, 0, 1, 0],
        [5, 0, 1, 0],
        [6, 0, 0, 0],
        [6, 1, 0, 0],
        [7, 0, 0, 0],
        [7, 1, 0, 0],
    ];
    for record in fine {
        let mut draft = good();
        draft.constraints[1] = record;
        assert!(second::read(&draft.bytes()).is_ok(), "{record:?}");
    }
    let bad = [
        [0, 0, 0, 0],
        [0, 0, 1, 0],
        [8, 0, 0, 0],
        [255, 0, 1, 0],
        [1, 2, 1, 0],
        [1, 0, 2, 0],
        [1, 0, 1, 1],
        [2, 2, 1, 0],
        [2, 0, 2, 0],
        [2, 0, 1, 255],
        [3, 255, 1, 0],
        [3, 0, 2, 0],
        [3, 0, 1, 2],
        [4, 2, 0, 1],
        [4, 0, 2, 1],
        [4, 0, 1, 2],
        [5, 2, 0, 0],
        [5, 0, 2, 0],
        [5, 0, 1, 1],
        [6, 2, 0, 0],
        [6, 0, 1, 0],
        [6, 0, 0, 1],
        [7, 2, 0, 0],
        [7, 0, 1, 0],
        [7, 0, 0, 1],
    ];
    for record in bad {
        for place in 0..2 {
            let mut draft = good();
            draft.constraints[place] = record;
            all_refuse(&draft.bytes(), 7);
        }
    }
}

#[test]
fn refusal_8() {
    let mut three = good();
    three.rows.push(NOTHING);
    for record in [
        [4, 0, 1, 2],
        [4, 2, 1, 0],
        [5, 2, 0, 0],
        [6, 0, 0, 0],
        [7, 0, 0, 0],
    ] {
        three.constraints[0] = record;
        assert!(second::read(&three.bytes()).is_ok());
    }
    let twice = [
        [1, 1, 1, 0],
        [2, 0, 0, 0],
        [3, 2, 2, 0],
        [4, 0, 0, 1],
        [4, 0, 1, 0],
        [4, 1, 0, 0],
        [4, 2, 2, 2],
        [5, 1, 1, 0],
    ];
    for record in twice {
        three.constraints[0] = record;
        three.constraints[1] = [7, 1, 0, 0];
        assert_eq!(second::read(&three.bytes()), Err(8));
        // 8 is looked for only when every record has passed 7.
        three.constraints[1] = [9, 0, 0, 0];
        assert_eq!(second::read(&three.bytes()), Err(7));
    }
}

#[test]
fn refusals_9_10_11() {
    let file = good().bytes();
    for length in [0, WORDS - 1, WORDS + 1] {
        let mut lent = vec![u64::MAX; length];
        assert_eq!(second::unpack(&file, &mut lent), Err(9));
        assert_eq!(second::step(&file, 99, &mut lent), Err(9));
        assert_eq!(second::settle(&file, &mut lent), Err(9));
        assert_eq!(lent, vec![u64::MAX; length]);
    }
    for at in [1, 63, 65, 127] {
        let mut lent = vec![0; WORDS];
        lent[at] = 1 << 3;
        let before = lent.clone();
        assert_eq!(second::step(&file, 99, &mut lent), Err(10));
        assert_eq!(second::step(&file, 0, &mut lent), Err(10));
        assert_eq!(second::settle(&file, &mut lent), Err(10));
        assert_eq!(lent, before);
        assert_eq!(second::unpack(&file, &mut lent), Ok(()));
    }
    // Lengths and numbers are free.
    let mut lent = vec![0; WORDS];
    for at in [0, 64, 128] {
        lent[at] = u64::MAX;
    }
    let before = lent.clone();
    for j in [4, 5, u64::from(u32::MAX), 1 << 32, u64::MAX] {
        assert_eq!(second::step(&file, j, &mut lent), Err(11));
        assert_eq!(lent, before);
    }
    for j in 0..4 {
        assert!(second::step(&file, j, &mut lent).is_ok());
    }
}

#[test]
fn refusals_12_13() {
    let file = good().bytes();
    let try_with = |room: usize, answer: usize| {
        let mut room = vec![3; room];
        let mut table = vec![4; answer];
        let result = second::search(&file, 5, &mut room, &mut table);
        if result.is_err() {
            assert!(room.iter().all(|&w| w == 3) && table.iter().all(|&w| w == 4));
        }
        result.err()
    };
    assert_eq!(try_with(3 * WORDS - 1, WORDS), Some(12));
    assert_eq!(try_with(0, 0), Some(12));
    assert_eq!(try_with(3 * WORDS, WORDS - 1), Some(13));
    assert_eq!(try_with(3 * WORDS, WORDS + 1), Some(13));
    assert_eq!(try_with(3 * WORDS, WORDS), None);
    assert_eq!(try_with(3 * WORDS + 1, WORDS), None);
}

/// The index of `good`: Neq, Regular, and the trimmings 2 and 3.
const INDEX: [u64; 6] = [0b0101, 0, 0b1011, 0, 0, 0];

/// With an index of this length, one bit of it changed or not: 18 and 19 come
/// after the refusals before them.
fn settles_by_index(file: &[u8], lent: &[u64], (length, bit): (usize, u64), before: Option<u8>) {
    let mut index = INDEX.to_vec();
    index.resize(length, 0);
    index[5] ^= bit << 63;
    let mut table = lent.to_vec();
    let wanted = before
        .or((length != 6).then_some(18))
        .or((bit != 0).then_some(19));
    assert_eq!(
        second::settle_by_index(file, &index, &mut table).err(),
        wanted
    );
    assert!(wanted.is_none() || table == lent);
    // Building it refuses by the file, then by the length alone.
    let to_8 = before.filter(|&number| number <= 8);
    let wanted = to_8.or((length != 6).then_some(18));
    let was = index.clone();
    assert_eq!(second::index(file, &mut index).err(), wanted);
    assert_eq!(
        index,
        if wanted.is_some() {
            was
        } else {
            INDEX.to_vec()
        }
    );
}

/// Every set of refusals that apply at once: the first must win.
#[test]
fn the_first_that_applies() {
    for broken in 0u32..1 << 14 {
        if broken & 1 == 1 {
            continue;
        }
        let is = |number: u32| broken >> number & 1 == 1;
        let mut file = good().bytes();
        if is(2) {
            file[TRAILER + 23] = b'T';
        }
        if is(3) {
            file[TRAILER + 6] = 1;
        }
        if is(4) {
            file[TRAILER + 8] ^= 1;
        }
        if is(5) {
            file[1045] = 2;
        }
        if is(6) {
            file[8] |= 8;
        }
        if is(7) {
            file[1036] = 0;
        }
        if is(8) {
            file[1034] = 0;
        }
        if is(1) {
            file.drain(..TRAILER + 1);
        }
        let mut lent = vec![0; if is(9) { WORDS + 1 } else { WORDS }];
        if is(10) {
            lent[2] = 8;
        }
        let j = if is(11) { 4 } else { 3 };
        let mut room = vec![1; if is(12) { 3 * WORDS - 1 } else { 3 * WORDS }];
        let mut answer = vec![1; if is(13) { WORDS - 1 } else { WORDS }];

        let first = |numbers: &[u32]| numbers.iter().find(|&&n| is(n)).map(|&n| n as u8);
        let (lent_before, room_before, answer_before) =
            (lent.clone(), room.clone(), answer.clone());
        let to_8 = first(&[1, 2, 3, 4, 5, 6, 7, 8]);
        assert_eq!(second::read(&file).err(), to_8);
        let wanted = to_8.or(first(&[9, 10, 11]));
        assert_eq!(second::step(&file, j, &mut lent).err(), wanted);
        if wanted.is_some() {
            assert_eq!(lent, lent_before);
        }
        let wanted = to_8.or(first(&[9, 10]));
        assert_eq!(second::settle(&file, &mut lent).err(), wanted);
        if wanted.is_some() {
            assert_eq!(lent, lent_before);
        }
        let wanted = to_8.or(first(&[9]));
        assert_eq!(second::unpack(&file, &mut lent).err(), wanted);
        if wanted.is_some() {
            assert_eq!(lent, lent_before);
        }
        for index in [(6, 0), (7, 0), (6, 1), (7, 1)] {
            settles_by_index(&file, &lent_before, index, to_8.or(first(&[9, 10])));
        }
        let wanted = to_8.or(first(&[12, 13]));
        assert_eq!(
            second::search(&file, 3, &mut room, &mut answer).err(),
            wanted
        );
        if wanted.is_some() {
            assert_eq!((room, answer), (room_before, answer_before));
        }
    }
}

/// Changed and cut files: any answer, but no panic, and always the same
/// number from each call.
#[test]
fn no_panic() {
    let mut random = Random::new(11);
    let base = [good().bytes(), p14()];
    for turn in 0..60_000 {
        let mut file = base[turn % 2].clone();
        let trailer = file.len() - 24;
        for _ in 0..1 + random.below(3) {
            let at = match random.below(3) {
                0 => random.below(file.len()),
                1 => trailer + random.below(24),
                _ => file.len() - 1 - random.below(60),
            };
            file[at] = match random.below(3) {
                0 => random.below(256) as u8,
                1 => random.below(8) as u8,
                _ => file[at] ^ 1 << random.below(8),
            };
        }
        if random.once_in(8) {
            file.drain(..random.below(file.len()));
        }
        if random.once_in(8) {
            file.truncate(random.below(file.len() + 1));
        }
        let read = second::read(&file);
        let words = read.map_or(WORDS, |h| 64 * h.strings + h.numbers);
        let mut lent = vec![0; words];
        let unpacked = second::unpack(&file, &mut lent);
        assert_eq!(unpacked.err(), read.err());
        let j = random.below(8) as u64;
        let stepped = second::step(&file, j, &mut lent);
        assert!(stepped.err() == read.err() || stepped == Err(11));
        assert_eq!(second::settle(&file, &mut lent).err(), read.err());
        let mut index = vec![0; read.map_or(6, |h| 2 * (h.strings + h.numbers))];
        assert_eq!(second::index(&file, &mut index).err(), read.err());
        assert_eq!(
            second::settle_by_index(&file, &index, &mut lent).err(),
            read.err()
        );
        let mut room = vec![0; 3 * words];
        let searched = second::search(&file, 20, &mut room, &mut lent);
        assert_eq!(searched.err(), read.err());
    }
}
