//! The plain method against trying every choice.

mod common;
use common::*;
use second::domain::count_strings;
use second::enumerate::all_strings;
use second::file::Problem;
use second::Outcome;

/// A subset of 0 to n − 1; the denser the higher `density`, 0 to 4.
fn subset(random: &mut Random, n: usize, density: usize) -> u64 {
    (0..n)
        .filter(|_| random.below(4) < density)
        .fold(0, |w, b| w | 1 << b)
}

/// A row over k symbols none of whose strings is longer than `longest`.
fn small_row(random: &mut Random, k: usize, longest: usize) -> Row {
    let mut row = [0; 64];
    let density = random.below(5);
    row[0] = subset(random, longest + 1, density);
    let density = 1 + random.below(4);
    for i in 1..=longest {
        if !random.once_in(10) {
            row[i] = subset(random, k, density);
        }
    }
    match random.below(4) {
        0 => {
            // Symbols past the longest string.
            for _ in 0..1 + random.below(4) {
                let i = longest + 1 + random.below(63 - longest);
                row[i] |= subset(random, k, 2);
            }
        }
        1 => {
            // Lengths that cannot be filled, perhaps symbols beyond.
            for _ in 0..1 + random.below(3) {
                row[0] |= 1 << (longest + 1 + random.below(63 - longest));
                let i = longest + 2 + random.below(62 - longest);
                row[i] |= subset(random, k, 2);
            }
        }
        _ => {}
    }
    if random.once_in(40) {
        row[0] = 0;
    }
    row
}

fn small_number(random: &mut Random, longest: usize) -> u64 {
    match random.below(8) {
        0 => random.word(),
        1 => 0,
        2 => random.word() & random.word() & random.word(),
        density => subset(random, longest + 2, density % 4 + 1),
    }
}

/// Every other one with gaps, few or many.
fn random_automaton(random: &mut Random, k: usize, most_states: usize) -> Vec<u8> {
    let gaps = [0, 0, 1, 3][random.below(4)];
    let states = 1 + random.below(most_states);
    let mut bytes = vec![states as u8];
    let accepting = (random.word() & random.word()) as u32 & ((1u64 << states) - 1) as u32;
    bytes.extend(accepting.to_le_bytes());
    for _ in 0..states * k {
        let gap = random.below(4) < gaps;
        bytes.push(if gap { 255 } else { random.below(states) as u8 });
    }
    bytes
}

fn random_string(random: &mut Random, k: usize, longest: usize) -> Vec<usize> {
    let length = random.below(longest + 1);
    (0..length).map(|_| random.below(k)).collect()
}

/// Strings and a number that meet the kind, if they can be made; for kind 2
/// often, for kind 7 always such that may not.
fn solution(
    random: &mut Random,
    kind: u8,
    k: usize,
    longest: usize,
) -> Option<(Vec<Vec<usize>>, usize)> {
    let x = random_string(random, k, longest);
    let y = random_string(random, k, longest);
    Some(match kind {
        1 => (vec![x.clone(), x], 0),
        2 if random.once_in(2) => (vec![x.clone(), x], 0),
        2 => (vec![x, y], 0),
        3 => {
            let back = x.iter().rev().copied().collect();
            (vec![x, back], 0)
        }
        4 => {
            let z = [x.clone(), y.clone()].concat();
            if z.len() > longest {
                return None;
            }
            (vec![x, y, z], 0)
        }
        5 => {
            let n = 1 + random.below((x.len() + 1).min(63));
            let m = random.below(x.len() + 2 - n);
            let part = x[n - 1..n - 1 + m].to_vec();
            (vec![x, part], n)
        }
        6 => {
            let n = x.len();
            (vec![x], n)
        }
        _ => (vec![x], 0),
    })
}

/// One constraint of the kind on the last strings of the file, in some order.
fn one_constraint(random: &mut Random, kind: u8, strings: usize) -> [u8; 4] {
    let mut names: Vec<u8> = (0..strings as u8).collect();
    for i in (1..names.len()).rev() {
        names.swap(i, random.below(i + 1));
    }
    match kind {
        1..=3 => [kind, names[0], names[1], 0],
        4 => [4, names[0], names[1], names[2]],
        5 => [5, names[0], names[1], random.below(2) as u8],
        6 => [6, names[0], random.below(2) as u8, 0],
        _ => [7, names[0], random.below(2) as u8, 0],
    }
}

/// Adds the bits of a solution to the table's variables.
fn plant(table: &mut [u64], record: [u8; 4], strings: &[Vec<usize>], number: usize) {
    for (at, string) in strings.iter().enumerate() {
        let x = usize::from(record[1 + at]);
        for (i, &word) in just(string).iter().enumerate() {
            table[64 * x + i] |= word;
        }
    }
    if matches!(record[0], 5 | 6) {
        let n = usize::from(record[1 + strings.len()]);
        let words = table.len();
        table[words - 2 + n] |= 1 << number;
    }
}

#[derive(Default, Debug)]
struct Tally {
    compared: usize,
    skipped: usize,
    struck: usize,
    /// Something struck, and a choice left.
    narrowed: usize,
    /// The same, on a trimmed table.
    narrowed_trimmed: usize,
}

/// Step j, which is about string x, both ways on the lent table.
fn compare_step(file: &[u8], j: u64, x: usize, lent: &[u64], most: u128, tally: &mut Tally) {
    let mut tried = lent.to_vec();
    let Some(wanted) = second::step_by_enumeration(file, j, &mut tried, most).unwrap() else {
        assert_eq!(tried, lent);
        tally.skipped += 1;
        return;
    };
    let mut plain = lent.to_vec();
    let struck = second::step(file, j, &mut plain).unwrap();
    assert_eq!(plain, tried, "step {j}");
    assert_eq!(struck, wanted);
    let fewer: u32 = lent
        .iter()
        .zip(&plain)
        .map(|(b, a)| (b & !a).count_ones())
        .sum();
    assert!(lent.iter().zip(&plain).all(|(b, a)| a & !b == 0));
    assert_eq!(struck, fewer);

    // Once more strikes nothing.
    assert_eq!(second::step(file, j, &mut plain), Ok(0));

    tally.compared += 1;
    tally.struck += usize::from(struck > 0);
    let narrowed = struck > 0 && plain[64 * x] != 0;
    tally.narrowed += usize::from(narrowed);
    tally.narrowed_trimmed += usize::from(narrowed && trimmed(file, lent) == lent);
}

/// The table with every string trimmed.
fn trimmed(file: &[u8], lent: &[u64]) -> Vec<u64> {
    let header = second::read(file).unwrap();
    let mut lent = lent.to_vec();
    for x in 0..header.strings {
        second::step(file, (header.constraints + x) as u64, &mut lent).unwrap();
    }
    lent
}

/// Small domains of every kind, with and without a planted solution.
#[test]
fn small_domains() {
    let mut random = Random::new(2024);
    let mut trims = Tally::default();
    for kind in 1..=7u8 {
        let mut tally = Tally::default();
        for turn in 0..6000 {
            let k = 1 + random.below(3);
            let longest = if random.once_in(4) {
                4
            } else {
                1 + random.below(3)
            };
            let mut draft = Draft {
                symbols: k as u8,
                rows: vec![NOTHING; 3],
                numbers: vec![0; 2],
                constraints: vec![],
                automata: (0..2)
                    .map(|_| random_automaton(&mut random, k, 4))
                    .collect(),
            };
            let record = one_constraint(&mut random, kind, 3);
            draft.constraints.push(record);
            let file = draft.bytes();
            let rows: Vec<Row> = (0..3).map(|_| small_row(&mut random, k, longest)).collect();
            let numbers = [
                small_number(&mut random, longest),
                small_number(&mut random, longest),
            ];
            let mut lent = table(&rows, &numbers);
            if turn % 2 == 0 {
                if let Some((strings, n)) = solution(&mut random, kind, k, longest) {
                    plant(&mut lent, record, &strings, n);
                }
            }
            let x = usize::from(record[1]);
            compare_step(&file, 0, x, &lent, 300_000, &mut tally);
            compare_step(&file, 0, x, &trimmed(&file, &lent), 300_000, &mut tally);
            // Trimming too.
            let x = random.below(3);
            compare_step(&file, 1 + x as u64, x, &lent, 300_000, &mut trims);
        }
        println!("kind {kind}: {tally:?}");
        assert!(tally.compared > 11_500 && tally.struck < tally.compared);
        assert!(tally.narrowed > 1000 && tally.narrowed_trimmed > 100);
    }
    println!("trimming: {trims:?}");
    assert!(trims.narrowed > 1000);
}

/// Every pair of rows over one or two symbols and lengths up to 2, for the
/// kinds with two strings.
#[test]
fn every_tiny_pair() {
    // Over k 2: 8 sets of lengths, 4 of symbols at each of two places.
    let mut rows = Vec::new();
    for lengths in 0..8 {
        for first in 0..4 {
            for second in 0..4 {
                let mut row = [0; 64];
                row[0] = lengths;
                row[1] = first;
                row[2] = second;
                rows.push(row);
            }
        }
    }
    for kind in 1..=3 {
        let draft = Draft {
            symbols: 2,
            rows: vec![NOTHING; 2],
            constraints: vec![[kind, 0, 1, 0]],
            ..Draft::default()
        };
        let file = draft.bytes();
        let mut tally = Tally::default();
        for x in &rows {
            for y in &rows {
                compare_step(&file, 0, 0, &table(&[*x, *y], &[]), 10_000, &mut tally);
            }
        }
        assert_eq!(tally.compared, 128 * 128);
    }
    let draft = Draft {
        symbols: 2,
        rows: vec![NOTHING; 2],
        numbers: vec![0],
        constraints: vec![[5, 0, 1, 0], [6, 0, 0, 0]],
        ..Draft::default()
    };
    let file = draft.bytes();
    let mut random = Random::new(5);
    let mut tally = Tally::default();
    for x in &rows {
        for y in &rows {
            let lent = table(&[*x, *y], &[random.word() & 15]);
            compare_step(&file, 0, 0, &lent, 10_000, &mut tally);
            compare_step(&file, 1, 0, &lent, 10_000, &mut tally);
        }
    }
    assert_eq!(tally.compared, 2 * 128 * 128);
}

/// Long strings over many symbols, but few strings in each row.
#[test]
fn long_domains() {
    let mut random = Random::new(77);
    for kind in 1..=7u8 {
        let mut tally = Tally::default();
        for turn in 0..900 {
            let k = [64, 2, 63, 17][random.below(4)];
            let mut draft = Draft {
                symbols: k as u8,
                rows: vec![NOTHING; 3],
                numbers: vec![0; 2],
                constraints: vec![],
                automata: (0..2)
                    .map(|_| random_automaton(&mut random, k, 32))
                    .collect(),
            };
            let record = one_constraint(&mut random, kind, 3);
            draft.constraints.push(record);
            let file = draft.bytes();
            let mut lent = table(&[NOTHING; 3], &[0, 0]);
            if turn % 2 == 0 {
                // A solution, and some bits around it.
                let longest = 63 - random.below(4);
                let Some((strings, n)) = solution(&mut random, kind, k, longest) else {
                    continue;
                };
                plant(&mut lent, record, &strings, n);
                for x in 0..3 {
                    for _ in 0..random.below(4) {
                        lent[64 * x] |= 1 << random.below(64);
                    }
                    for _ in 0..random.below(5) {
                        let i = 1 + random.below(63);
                        lent[64 * x + i] |= 1 << random.below(k);
                    }
                }
            } else {
                // Nearly one symbol only, many lengths.
                let a = random.below(k);
                for x in 0..3 {
                    let row = &mut lent[64 * x..64 * x + 64];
                    row[0] = random.word() & random.word() & random.word();
                    if random.once_in(2) {
                        row[0] |= 1 << 63;
                    }
                    let end = 64 - random.below(20) * random.below(2);
                    row[1..end].fill(1 << a);
                    for _ in 0..random.below(3) {
                        row[1 + random.below(63)] = 1 << random.below(k);
                        row[1 + random.below(63)] |= 1 << random.below(k);
                    }
                }
            }
            for n in 0..2 {
                for _ in 0..random.below(6) {
                    lent[192 + n] |= 1 << random.below(64);
                }
            }
            let x = usize::from(record[1]);
            compare_step(&file, 0, x, &lent, 20_000, &mut tally);
            compare_step(&file, 0, x, &trimmed(&file, &lent), 20_000, &mut tally);
        }
        println!("kind {kind}: {tally:?}");
        assert!(tally.compared > 1000 && tally.narrowed > 100);
        assert!(tally.narrowed_trimmed > 20);
    }
}

/// Large dense domains: a bit stays exactly if the domain cut down to it
/// still has a choice.
#[test]
fn large_domains_bit_by_bit() {
    let mut random = Random::new(31);
    for kind in 1..=7u8 {
        for turn in 0..6 {
            let k = 40 + random.below(25);
            let mut draft = Draft {
                symbols: k as u8,
                rows: vec![NOTHING; 3],
                numbers: vec![0; 2],
                constraints: vec![],
                automata: (0..2)
                    .map(|_| random_automaton(&mut random, k, 32))
                    .collect(),
            };
            let record = one_constraint(&mut random, kind, 3);
            draft.constraints.push(record);
            let file = draft.bytes();
            let mut lent = vec![0; 194];
            for word in &mut lent {
                *word = random.word() & random.word();
                if turn % 2 == 0 {
                    *word &= random.word();
                }
            }
            for (i, word) in lent.iter_mut().enumerate() {
                if i % 64 != 0 && i < 192 && k < 64 {
                    *word &= (1 << k) - 1;
                }
            }
            let mut after = lent.clone();
            second::step(&file, 0, &mut after).unwrap();
            let width = [0, 2, 2, 2, 3, 2, 1, 1][usize::from(kind)];
            for _ in 0..300 {
                let x = usize::from(record[1 + random.below(width)]);
                let i = if random.once_in(4) {
                    0
                } else {
                    1 + random.below(63)
                };
                let b = random.below(64);
                let at = 64 * x + i;
                if lent[at] >> b & 1 == 0 {
                    continue;
                }
                let mut cut = lent.clone();
                cut[at] = 1 << b;
                if i > 0 {
                    cut[64 * x] &= u64::MAX << i;
                }
                second::step(&file, 0, &mut cut).unwrap();
                let any = cut[64 * x] != 0;
                assert_eq!(after[at] >> b & 1 == 1, any, "kind {kind}");
            }
        }
    }
}

/// A small problem with several constraints.
fn small_problem(random: &mut Random) -> Draft {
    let k = 1 + random.below(3);
    let longest = 1 + random.below(3);
    let strings = random.below(5);
    let mut draft = Draft {
        symbols: k as u8,
        rows: (0..strings)
            .map(|_| small_row(random, k, longest))
            .collect(),
        numbers: (0..2).map(|_| small_number(random, longest)).collect(),
        constraints: vec![],
        automata: (0..2).map(|_| random_automaton(random, k, 3)).collect(),
    };
    let kinds: &[u8] = match strings {
        0 => &[],
        1 => &[6, 7],
        2 => &[1, 2, 3, 5, 6, 7, 2],
        _ => &[1, 2, 3, 4, 5, 6, 7, 2, 2, 3],
    };
    if !kinds.is_empty() {
        for _ in 0..random.below(8) {
            let kind = kinds[random.below(kinds.len())];
            draft
                .constraints
                .push(one_constraint(random, kind, strings));
        }
    }
    match random.below(8) {
        0..=3 => lean_to_a_search(random, &mut draft, longest),
        4 | 5 => crowd(random, &mut draft),
        _ => {}
    }
    draft
}

/// Short strings, nearly all to be different; dead ends lie deep.
fn crowd(random: &mut Random, draft: &mut Draft) {
    let k = usize::from(draft.symbols);
    let strings = 3 + random.below(3);
    draft.rows = (0..strings)
        .map(|_| {
            let mut row = [0; 64];
            row[0] = 2 | subset(random, 2, 1);
            row[1] = 1 << random.below(k) | subset(random, k, 3);
            row
        })
        .collect();
    draft.numbers = vec![1 << random.below(2) | 1 << random.below(2); 2];
    draft.constraints.clear();
    for x in 0..strings as u8 {
        for y in 0..x {
            if !random.once_in(6) {
                draft.constraints.push([2, y, x, 0]);
            }
        }
    }
    let kind = [2, 3, 4, 5, 6, 7][random.below(6)];
    draft
        .constraints
        .push(one_constraint(random, kind, strings));
}

/// Full tables around one choice, and mostly constraints that it meets.
fn lean_to_a_search(random: &mut Random, draft: &mut Draft, longest: usize) {
    let k = usize::from(draft.symbols);
    let mut chosen: Vec<Vec<usize>> = Vec::new();
    for x in 0..draft.rows.len() {
        let string = match (x, random.below(4)) {
            (1 | 3, 0) => chosen[0].clone(),
            (1 | 3, 1) => chosen[0].iter().rev().copied().collect(),
            (2, 0..=2) if chosen[0].len() + chosen[1].len() <= longest => {
                [chosen[0].clone(), chosen[1].clone()].concat()
            }
            _ => random_string(random, k, longest),
        };
        let mut row = just(&string);
        row[0] |= subset(random, longest + 1, 1);
        for i in 1..=longest {
            row[i] |= 1 << random.below(k) | subset(random, k, 2);
        }
        draft.rows[x] = row;
        chosen.push(string);
    }
    let numbers: Vec<usize> = (0..2).map(|_| 1 + random.below(longest + 1)).collect();
    for n in 0..2 {
        draft.numbers[n] = 1 << numbers[n] | subset(random, longest + 1, 1);
    }
    let problem = Problem::parse(&draft.bytes()).unwrap();
    let bytes: Vec<Vec<u8>> = chosen
        .iter()
        .map(|x| x.iter().map(|&a| a as u8).collect())
        .collect();
    let mut j = 0;
    draft.constraints.retain(|_| {
        let c = problem.constraints[j];
        j += 1;
        let strings: Vec<&[u8]> = c.strings().iter().map(|&x| &bytes[x][..]).collect();
        let number = c.number().map_or(0, |n| numbers[n]);
        c.is_met(&strings, number, &problem.automata) || random.once_in(6)
    });
}

/// Rounds of enumerated steps.
fn settle_by_enumeration(file: &[u8], lent: &mut [u64]) -> u32 {
    let header = second::read(file).unwrap();
    let (s, c) = (header.strings as u64, header.constraints as u64);
    let mut rounds = 0;
    loop {
        rounds += 1;
        let mut struck = 0;
        for j in (c..c + s).chain(0..c) {
            struck += second::step_by_enumeration(file, j, lent, u128::MAX)
                .unwrap()
                .unwrap();
        }
        if struck == 0 {
            return rounds;
        }
    }
}

/// The values of every variable, in the order of solutions.
fn values(draft: &Draft, lent: &[u64]) -> (Vec<Vec<Vec<u8>>>, Vec<Vec<usize>>) {
    let s = draft.rows.len();
    let strings = (0..s)
        .map(|x| all_strings(&second::domain::row(lent, x)))
        .collect();
    let numbers = lent[64 * s..]
        .iter()
        .map(|&w| (0..64).filter(|&v| w >> v & 1 == 1).collect())
        .collect();
    (strings, numbers)
}

/// The tree by plain recursion, whole: answers its nodes and, of the first
/// solved one, its number and table.
fn whole_tree(
    draft: &Draft,
    file: &[u8],
    mut lent: Vec<u64>,
    nodes: &mut u32,
    first: &mut Option<(u32, Vec<u64>)>,
) {
    *nodes += 1;
    settle_by_enumeration(file, &mut lent);
    let (strings, numbers) = values(draft, &lent);
    let s = strings.len();
    let counts: Vec<usize> = strings
        .iter()
        .map(|v| v.len())
        .chain(numbers.iter().map(|v| v.len()))
        .collect();
    if counts.contains(&0) {
        return;
    }
    let Some(v) = counts.iter().position(|&c| c > 1) else {
        if first.is_none() {
            *first = Some((*nodes, lent));
        }
        return;
    };
    let word = if v >= s {
        64 * s + v - s
    } else if lent[64 * v].count_ones() > 1 {
        64 * v
    } else {
        (64 * v + 1..64 * v + 64)
            .find(|&i| lent[i].count_ones() > 1)
            .unwrap()
    };
    for value in 0..64 {
        if lent[word] >> value & 1 == 1 {
            let mut child = lent.clone();
            child[word] = 1 << value;
            whole_tree(draft, file, child, nodes, first);
        }
    }
}

/// The least solution by trying all, as a table.
fn least_solution(draft: &Draft, file: &[u8]) -> Option<Vec<u64>> {
    let problem = Problem::parse(file).unwrap();
    let (strings, numbers) = values(draft, &draft.table());
    let mut sizes: Vec<usize> = strings.iter().map(|v| v.len()).collect();
    sizes.extend(numbers.iter().map(|v| v.len()));
    if sizes.contains(&0) {
        return None;
    }
    let mut at = vec![0; sizes.len()];
    loop {
        let xs: Vec<&[u8]> = strings.iter().zip(&at).map(|(v, &i)| &v[i][..]).collect();
        let ns: Vec<usize> = numbers
            .iter()
            .zip(&at[strings.len()..])
            .map(|(v, &i)| v[i])
            .collect();
        let met = problem.constraints.iter().all(|c| {
            let chosen: Vec<&[u8]> = c.strings().iter().map(|&x| xs[x]).collect();
            let n = c.number().map_or(0, |n| ns[n]);
            c.is_met(&chosen, n, &problem.automata)
        });
        if met {
            let rows: Vec<Row> = xs
                .iter()
                .map(|x| just(&x.iter().map(|&a| usize::from(a)).collect::<Vec<_>>()))
                .collect();
            let words: Vec<u64> = ns.iter().map(|&n| 1 << n).collect();
            return Some(table(&rows, &words));
        }
        // The next choice, the last variable moving first.
        let mut v = sizes.len();
        loop {
            if v == 0 {
                return None;
            }
            v -= 1;
            at[v] += 1;
            if at[v] < sizes[v] {
                break;
            }
            at[v] = 0;
        }
    }
}

fn choices(draft: &Draft) -> u128 {
    let strings: u128 = draft.rows.iter().map(count_strings).product();
    let numbers: u128 = draft
        .numbers
        .iter()
        .map(|n| u128::from(n.count_ones()))
        .product();
    strings * numbers
}

#[test]
fn settle_against_enumeration() {
    let mut random = Random::new(8);
    let mut longest = 0;
    let mut compared = 0;
    while compared < 3000 {
        let draft = small_problem(&mut random);
        if choices(&draft) > 60_000 {
            continue;
        }
        compared += 1;
        let file = draft.bytes();
        let mut tried = draft.table();
        let wanted = settle_by_enumeration(&file, &mut tried);
        let mut lent = draft.table();
        let (rounds, all) = second::settle(&file, &mut lent).unwrap();
        assert_eq!((rounds, &lent), (wanted, &tried));
        let (strings, numbers) = values(&draft, &lent);
        let each = strings.iter().all(|v| !v.is_empty()) && numbers.iter().all(|v| !v.is_empty());
        assert_eq!(all, each);
        longest = longest.max(rounds);

        // No step strikes any more, and the order of constraints is all one.
        let steps = draft.constraints.len() + draft.rows.len();
        for j in 0..steps as u64 {
            assert_eq!(second::step(&file, j, &mut lent), Ok(0));
        }
        let mut turned = draft.clone();
        turned.constraints.reverse();
        let mut other = draft.table();
        second::settle(&turned.bytes(), &mut other).unwrap();
        assert_eq!(other, lent);
    }
    assert!(longest >= 4);
}

#[test]
fn search_against_enumeration() {
    let mut random = Random::new(9);
    let (mut compared, mut found, mut none) = (0, 0, 0);
    let (mut deep_found, mut deep_none) = (0, 0);
    while compared < 8000 {
        let draft = small_problem(&mut random);
        if choices(&draft) > 3_000 {
            continue;
        }
        compared += 1;
        let file = draft.bytes();
        let start = draft.table();
        let words = start.len();
        let (mut nodes, mut first) = (0, None);
        whole_tree(&draft, &file, start, &mut nodes, &mut first);
        let least = least_solution(&draft, &file);
        assert_eq!(first.as_ref().map(|f| &f.1), least.as_ref());

        let (count, wanted) = match &first {
            Some((count, _)) => (*count, Outcome::Found(*count)),
            None => (nodes, Outcome::None(nodes)),
        };
        match wanted {
            Outcome::Found(_) => {
                found += 1;
                deep_found += usize::from(count > 4);
            }
            _ => {
                none += 1;
                deep_none += usize::from(count > 2);
            }
        }
        for budget in [0, 1, count - 1, count, count + 1, u32::MAX] {
            let mut room = vec![u64::MAX; 3 * words + 2];
            let mut answer = vec![6; words];
            let outcome = second::search(&file, budget, &mut room, &mut answer).unwrap();
            if budget < count {
                assert_eq!(outcome, Outcome::Spent(budget));
            } else {
                assert_eq!(outcome, wanted);
            }
            match outcome {
                Outcome::Found(_) => assert_eq!(Some(&answer), least.as_ref()),
                _ => assert_eq!(answer, vec![6; words]),
            }
            assert!(room[..3 * words].iter().all(|&w| w == 0));
            assert!(room[3 * words..].iter().all(|&w| w == u64::MAX));
        }
    }
    println!("found {found}, {deep_found} of them after more than four nodes");
    println!("none {none}, {deep_none} of them after more than two nodes");
    assert!(found > 500 && none > 500 && deep_found > 500 && deep_none > 50);
}
