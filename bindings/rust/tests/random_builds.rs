//! Builds at random, right and wrong calls mixed: `read` accepts whatever comes of them, with just what was added.

use cobleskeg::{read, unpack, AutomatonHandle, BuildError, Builder, Counts, NumberHandle, Row, StringHandle, Values, GAP};

const BUILDS: u64 = 600;

/// SplitMix64, so that a build follows from its number.
struct Random(u64);

impl Random {
    fn word(&mut self) -> u64 {
        self.0 = self.0.wrapping_add(0x9E37_79B9_7F4A_7C15);
        let mut word = self.0;
        word = (word ^ word >> 30).wrapping_mul(0xBF58_476D_1CE4_E5B9);
        word = (word ^ word >> 27).wrapping_mul(0x94D0_49BB_1331_11EB);
        word ^ word >> 31
    }

    fn below(&mut self, count: usize) -> usize {
        (self.word() % count as u64) as usize
    }

    /// Once in so many calls.
    fn seldom(&mut self, times: usize) -> bool {
        self.below(times) == 0
    }

    fn one_of<T: Copy>(&mut self, items: &[T]) -> T {
        items[self.below(items.len())]
    }
}

/// A builder, the handles that it gave, some of another builder among them, and what it should hold.
struct Build {
    problem: Builder,
    strings: Vec<StringHandle>,
    numbers: Vec<NumberHandle>,
    automata: Vec<AutomatonHandle>,
    counts: Counts,
    rows: Vec<u64>,
    values: Vec<u64>,
}

fn start(symbols: usize) -> Result<Build, BuildError> {
    let mut other = Builder::new(symbols)?;
    let strings = vec![other.string(Row::text(&[])?)?];
    let numbers = vec![other.number(Values::NONE)?];
    let automata = vec![other.automaton(Values::NONE, &[vec![0; symbols]])?];
    let counts = Counts { symbols, ..Counts::default() };
    Ok(Build { problem: Builder::new(symbols)?, strings, numbers, automata, counts, rows: vec![], values: vec![] })
}

impl Build {
    /// A string whose symbols are mostly in the alphabet.
    fn string(&mut self, random: &mut Random) -> Result<(), BuildError> {
        let alphabet = if random.seldom(8) { u64::MAX } else { u64::MAX >> (64 - self.counts.symbols) };
        let mut words = [0; 64].map(|_| random.word() & alphabet);
        words[0] = random.word();
        self.strings.push(self.problem.string(Row::from_words(words))?);
        self.counts.strings += 1;
        self.rows.extend(words);
        Ok(())
    }

    fn number(&mut self, random: &mut Random) -> Result<(), BuildError> {
        let word = random.word();
        self.numbers.push(self.problem.number(Values::from_word(word))?);
        self.counts.numbers += 1;
        self.values.push(word);
        Ok(())
    }

    /// An automaton of 0 to 33 states, with a gap here and there; seldom with a row too long, a move too far or an accepting state too high.
    fn automaton(&mut self, random: &mut Random) -> Result<(), BuildError> {
        let states = random.below(34);
        let ends = (states + usize::from(random.seldom(8))).max(1);
        let width = self.counts.symbols + usize::from(random.seldom(8));
        let mut next = || if random.seldom(4) { GAP } else { random.below(ends) as u8 };
        let moves: Vec<Vec<u8>> = (0..states).map(|_| (0..width).map(|_| next()).collect()).collect();
        let accepting = random.word() >> (64 - ends);
        self.automata.push(self.problem.automaton(Values::from_word(accepting), &moves)?);
        self.counts.automata += 1;
        Ok(())
    }

    fn constraint(&mut self, kind: usize, random: &mut Random) -> Result<(), BuildError> {
        let [x, y, z] = [0; 3].map(|_| random.one_of(&self.strings));
        let n = random.one_of(&self.numbers);
        match kind {
            1 => self.problem.eq(x, y)?,
            2 => self.problem.neq(x, y)?,
            3 => self.problem.rev(x, y)?,
            4 => self.problem.cat(x, y, z)?,
            5 => self.problem.sub(x, y, n)?,
            6 => self.problem.len(x, n)?,
            _ => self.problem.regular(x, random.one_of(&self.automata))?,
        }
        self.counts.constraints += 1;
        Ok(())
    }
}

/// Some calls, each of which changes the file just where it is taken. Counts those of each kind that were taken, and at 0 those that were not.
fn run(random: &mut Random, taken: &mut [usize; 11]) -> Result<Build, BuildError> {
    let mut build = start(1 + random.below(64))?;
    let mut file = build.problem.file();
    for _ in 0..random.below(160) {
        let kind = 1 + random.below(10);
        let answer = match kind {
            8 => build.string(random),
            9 => build.number(random),
            10 => build.automaton(random),
            _ => build.constraint(kind, random),
        };
        taken[if answer.is_ok() { kind } else { 0 }] += 1;
        let after = build.problem.file();
        assert_eq!(answer.is_err(), after == file);
        file = after;
    }
    Ok(build)
}

#[test]
fn whatever_is_built_is_accepted() -> Result<(), BuildError> {
    let mut taken = [0; 11];
    for seed in 0..BUILDS {
        let build = run(&mut Random(seed), &mut taken)?;
        let file = build.problem.file();
        assert_eq!(read(&file), Ok(build.counts), "build {seed}");
        let mut table = vec![0; build.counts.words()];
        assert_eq!(unpack(&file, &mut table), Ok(()));
        assert_eq!(table, [build.rows, build.values].concat(), "build {seed}");
    }
    assert!(taken.iter().all(|&calls| calls > 500), "calls that were not taken, then those of each kind that were: {taken:?}");
    Ok(())
}
