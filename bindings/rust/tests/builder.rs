//! Files from a builder, held against bytes put down by hand, against the examples, and against `read` at every limit.

mod common;
use cobleskeg::{read, solve, unpack, Answer, AutomatonHandle, BuildError, Builder, Counts, NumberHandle, Row, StringHandle, Values, LARGEST_FILE};
use common::{bare, p14};
use std::fs;
use std::path::Path;

type Built<T> = Result<T, BuildError>;

fn examples() -> Vec<(String, Vec<u8>)> {
    let folder = Path::new(env!("CARGO_MANIFEST_DIR")).join("../../examples");
    let paths = fs::read_dir(folder).unwrap().map(|entry| entry.unwrap().path()).filter(|path| path.extension().is_some_and(|end| end == "problem"));
    paths.map(|path| (path.file_stem().unwrap().to_string_lossy().into_owned(), fs::read(path).unwrap())).collect()
}

/// X {1,2}, {0,1}, {0,1}; Y {0,1}, {1}; Z {2}, {0}, {0,1}; the number {0,1,2,3}; Cat(X, Y, Z), Len(X, number).
fn build_p14() -> Built<(Builder, [StringHandle; 3], NumberHandle)> {
    let mut problem = Builder::new(2)?;
    let bits = Values::of([0, 1])?;
    let x = problem.string(Row::new(Values::of([1, 2])?, bits))?;
    let y = problem.string(Row::new(Values::of([0, 1])?, Values::of([1])?))?;
    let z = problem.string(Row::new(Values::of([2])?, bits).at(1, Values::of([0])?)?)?;
    let n = problem.number(Values::of(0..4)?)?;
    problem.cat(x, y, z)?;
    problem.len(x, n)?;
    Ok((problem, [x, y, z], n))
}

#[test]
fn p14_by_its_bytes() -> Built<()> {
    let (problem, _, _) = build_p14()?;
    let (_, example) = examples().into_iter().find(|(name, _)| name == "p14").unwrap();
    assert_eq!(problem.file(), example);
    assert_eq!(problem.file(), p14());
    Ok(())
}

/// The answer that document 01 gives of P14, by the handles.
#[test]
fn positions_find_the_answer() -> Built<()> {
    let (problem, [x, y, z], n) = build_p14()?;
    let Ok(Answer::Found { nodes: 2, strings, numbers }) = solve(&problem.file(), 65_536) else { panic!("P14 has a solution") };
    assert_eq!((&strings[x.position()][..], &strings[y.position()][..], &strings[z.position()][..]), (&[0][..], &[1][..], &[0, 1][..]));
    assert_eq!(numbers[n.position()], 1);
    Ok(())
}

/// The example of docs/FORMAT.md, built by the calls that it gives; its bytes here are made of the words by hand.
#[test]
fn the_example_of_the_format() -> Built<()> {
    let mut problem = Builder::new(2)?;
    let (zero, any) = (Values::of([0])?, Values::of([0, 1])?);
    let x = problem.string(Row::new(Values::of([1, 2])?, any).at(1, zero)?)?;
    let y = problem.string(Row::new(Values::of(0..=2)?, any))?;
    let n = problem.number(Values::of(0..=3)?)?;
    let zeros = problem.automaton(Values::of([0])?, &[[1, 0], [0, 1]])?;
    problem.rev(x, y)?;
    problem.len(y, n)?;
    problem.regular(x, zeros)?;
    let file = problem.file();
    let mut words = [0u64; 129];
    words[..3].copy_from_slice(&[0b110, 0b1, 0b11]);
    words[64..67].copy_from_slice(&[0b111, 0b11, 0b11]);
    words[128] = 0b1111;
    let table: Vec<u8> = words.iter().flat_map(|word| word.to_le_bytes()).collect();
    assert_eq!(file[..1032], table);
    assert_eq!(file[1032..1053], [3, 0, 1, 0, 6, 1, 0, 0, 7, 0, 0, 0, 2, 1, 0, 0, 0, 1, 0, 0, 1]);
    assert_eq!(file[1053..], [&[2, 2, 1, 1, 3, 0, 0, 0, 0x1d, 4, 0, 0, 21, 0, 0, 0, 9, 0, 0, 0][..], b"TAIL"].concat());
    Ok(())
}

#[test]
fn nothing_but_an_alphabet() -> Built<()> {
    assert_eq!(Builder::new(2)?.file(), bare());
    for symbols in [1, 64] {
        assert_eq!(read(&Builder::new(symbols)?.file()), Ok(Counts { symbols, ..Counts::default() }));
    }
    Ok(())
}

/// The kind, then the arguments in the order of document 01, then 0.
#[test]
fn each_kind_by_its_record() -> Built<()> {
    let mut problem = Builder::new(1)?;
    let text = Row::text(&[0])?;
    let [x, y, z] = [problem.string(text)?, problem.string(text)?, problem.string(text)?];
    let [_, n] = [problem.number(Values::EVERY)?, problem.number(Values::EVERY)?];
    let [d, e] = [problem.automaton(Values::NONE, &[[0]])?, problem.automaton(Values::of([0, 1])?, &[[1], [0]])?];
    problem.eq(z, y)?;
    problem.neq(x, z)?;
    problem.rev(y, x)?;
    problem.cat(z, x, y)?;
    problem.sub(y, z, n)?;
    problem.len(z, n)?;
    problem.regular(y, e)?;
    problem.regular(z, d)?;
    let file = problem.file();
    let records = [[1, 2, 1, 0], [2, 0, 2, 0], [3, 1, 0, 0], [4, 2, 0, 1], [5, 1, 2, 1], [6, 2, 1, 0], [7, 1, 1, 0], [7, 2, 0, 0]];
    let at = 8 * (3 * 64 + 2);
    assert_eq!(file[at..at + 32], records.concat());
    // one state that does not accept and leads to itself; two that both accept and lead to one another
    assert_eq!(file[at + 32..at + 45], [1, 0, 0, 0, 0, 0, 2, 3, 0, 0, 0, 1, 0]);
    assert_eq!(read(&file), Ok(Counts { symbols: 1, strings: 3, numbers: 2, automata: 2, constraints: 8 }));
    Ok(())
}

#[test]
fn rows_by_their_words() -> Built<()> {
    let mut words = [0; 64];
    assert_eq!(Row::new(Values::NONE, Values::EVERY).words(), &words);
    words[0] = 0b1;
    assert_eq!(Row::new(Values::of([0])?, Values::EVERY).words(), &words);
    assert_eq!(Row::text(&[])?.words(), &words);
    words[..4].copy_from_slice(&[0b1001, 0b110, 0b110, 0b110]);
    assert_eq!(Row::new(Values::of([3, 0])?, Values::of([2, 1])?).words(), &words);
    words[2] = 0b1;
    words[63] = 1 << 63;
    assert_eq!(Row::new(Values::of([3, 0])?, Values::of([2, 1])?).at(2, Values::of([0])?)?.at(63, Values::of([63])?)?.words(), &words);
    assert_eq!(Row::from_words(words).words(), &words);
    let longest = Row::text(&[5; 63])?;
    assert_eq!((longest.words()[0], &longest.words()[1..]), (1 << 63, &[1 << 5; 63][..]));
    assert_eq!(Row::new(Values::EVERY, Values::EVERY).words(), &[u64::MAX; 64]);
    Ok(())
}

/// 64 symbols, 16 strings and 16 numbers with every bit, 8 automata of 32 accepting states, 64 constraints: the largest file of document 01.
#[test]
fn every_count_at_its_limit() -> Built<()> {
    let mut problem = Builder::new(64)?;
    let strings = (0..16).map(|_| problem.string(Row::from_words([u64::MAX; 64]))).collect::<Built<Vec<_>>>()?;
    let numbers = (0..16).map(|_| problem.number(Values::EVERY)).collect::<Built<Vec<_>>>()?;
    let automata = (0..8).map(|_| problem.automaton(Values::of(0..32)?, &[[31; 64]; 32])).collect::<Built<Vec<_>>>()?;
    for i in 0..16 {
        problem.sub(strings[i], strings[(i + 1) % 16], numbers[i])?;
        problem.cat(strings[i], strings[(i + 1) % 16], strings[(i + 2) % 16])?;
        problem.len(strings[i], numbers[i])?;
        problem.regular(strings[i], automata[i % 8])?;
    }
    let file = problem.file();
    assert_eq!(file.len(), LARGEST_FILE);
    assert_eq!(read(&file), Ok(Counts { symbols: 64, strings: 16, numbers: 16, automata: 8, constraints: 64 }));
    Ok(())
}

/// Takes an accepted file apart by document 01's layout, and builds it again.
fn rebuilt(file: &[u8]) -> Built<Vec<u8>> {
    let counts = read(file).unwrap();
    let mut table = vec![0; counts.words()];
    unpack(file, &mut table).unwrap();
    let (rows, numbers) = table.split_at(64 * counts.strings);
    let (records, mut automata) = file[8 * counts.words()..file.len() - 24].split_at(4 * counts.constraints);
    let mut problem = Builder::new(counts.symbols)?;
    let strings = rows.chunks(64).map(|row| problem.string(Row::from_words(row.try_into().unwrap()))).collect::<Built<Vec<_>>>()?;
    let numbers = numbers.iter().map(|&word| problem.number(Values::from_word(word))).collect::<Built<Vec<_>>>()?;
    let mut machines: Vec<AutomatonHandle> = vec![];
    while let [states, a, b, c, d, rest @ ..] = automata {
        let (moves, behind) = rest.split_at(usize::from(*states) * counts.symbols);
        let accepting = Values::from_word(u64::from(u32::from_le_bytes([*a, *b, *c, *d])));
        machines.push(problem.automaton(accepting, &moves.chunks(counts.symbols).collect::<Vec<_>>())?);
        automata = behind;
    }
    for record in records.chunks(4) {
        let [x, y, z] = [record[1], record[2], record[3]].map(usize::from);
        match record[0] {
            1 => problem.eq(strings[x], strings[y])?,
            2 => problem.neq(strings[x], strings[y])?,
            3 => problem.rev(strings[x], strings[y])?,
            4 => problem.cat(strings[x], strings[y], strings[z])?,
            5 => problem.sub(strings[x], strings[y], numbers[z])?,
            6 => problem.len(strings[x], numbers[y])?,
            _ => problem.regular(strings[x], machines[y])?,
        }
    }
    Ok(problem.file())
}

#[test]
fn every_accepted_example_can_be_built() -> Built<()> {
    let accepted: Vec<_> = examples().into_iter().filter(|(_, file)| read(file).is_ok()).collect();
    assert!(accepted.len() >= 8);
    for (name, file) in accepted {
        assert_eq!(rebuilt(&file)?, file, "{name}");
    }
    Ok(())
}
