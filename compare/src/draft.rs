//! Problem files from descriptions, as document 01 lays them out.

/// One more than the longest string and the greatest number.
pub const LIMIT: usize = 64;

pub type Row = [u64; LIMIT];

pub const NOTHING: Row = [0; LIMIT];

/// The word of the values below n.
pub fn below(n: usize) -> u64 {
    match n {
        64 => u64::MAX,
        _ => (1 << n) - 1,
    }
}

/// The row of one string.
pub fn just(symbols: &[u8]) -> Row {
    let mut row = NOTHING;
    row[0] = 1 << symbols.len();
    for (word, &symbol) in row[1..].iter_mut().zip(symbols) {
        *word = 1 << symbol;
    }
    row
}

/// The row of all strings with a length from the least to the most and these symbols at every place.
pub fn any(least: usize, most: usize, symbols: u64) -> Row {
    let mut row = NOTHING;
    row[0] = below(most + 1) & !below(least);
    row[1..=most].fill(symbols);
    row
}

/// A problem; an automaton is its bytes, see [`machine`].
#[derive(Clone, Default)]
pub struct Draft {
    pub symbols: usize,
    pub rows: Vec<Row>,
    pub numbers: Vec<u64>,
    pub records: Vec<[u8; 4]>,
    pub machines: Vec<Vec<u8>>,
}

/// An automaton in its bytes; the moves are those of state 0 by symbols, then those of state 1, and so on.
pub fn machine(states: usize, accepting: u32, moves: &[u8]) -> Vec<u8> {
    let mut bytes = vec![states as u8];
    bytes.extend(accepting.to_le_bytes());
    bytes.extend(moves);
    bytes
}

impl Draft {
    pub fn over(symbols: usize) -> Draft {
        Draft { symbols, ..Draft::default() }
    }

    /// Adds a string; answers its position.
    pub fn string(&mut self, row: Row) -> u8 {
        self.rows.push(row);
        (self.rows.len() - 1) as u8
    }

    /// Adds a number; answers its position.
    pub fn number(&mut self, values: u64) -> u8 {
        self.numbers.push(values);
        (self.numbers.len() - 1) as u8
    }

    /// Adds an automaton; answers its position.
    pub fn machine(&mut self, bytes: Vec<u8>) -> u8 {
        self.machines.push(bytes);
        (self.machines.len() - 1) as u8
    }

    pub fn eq(&mut self, x: u8, y: u8) {
        self.records.push([1, x, y, 0]);
    }

    pub fn neq(&mut self, x: u8, y: u8) {
        self.records.push([2, x, y, 0]);
    }

    pub fn cat(&mut self, x: u8, y: u8, z: u8) {
        self.records.push([4, x, y, z]);
    }

    pub fn sub(&mut self, x: u8, y: u8, n: u8) {
        self.records.push([5, x, y, n]);
    }

    pub fn len(&mut self, x: u8, n: u8) {
        self.records.push([6, x, n, 0]);
    }

    pub fn regular(&mut self, x: u8, d: u8) {
        self.records.push([7, x, d, 0]);
    }

    pub fn laid(&self) -> Laid {
        let words = self.rows.iter().flatten().chain(&self.numbers);
        let table: Vec<u8> = words.flat_map(|word| word.to_le_bytes()).collect();
        let (records, machines) = (self.records.concat(), self.machines.concat());
        let (to_automata, to_constraints) = (machines.len(), machines.len() + records.len());
        Laid {
            counts: [self.symbols as u8, self.rows.len() as u8, self.numbers.len() as u8, self.machines.len() as u8],
            constraints: self.records.len() as u16,
            spare: [0, 0],
            distances: [(table.len() + to_constraints) as u32, to_constraints as u32, to_automata as u32],
            mark: *b"TAIL",
            body: [table, records, machines].concat(),
        }
    }

    pub fn bytes(&self) -> Vec<u8> {
        self.laid().bytes()
    }
}

/// A file by the fields of its trailer, each of which can be made wrong, and what lies before it.
pub struct Laid {
    pub body: Vec<u8>,
    pub counts: [u8; 4],
    pub constraints: u16,
    pub spare: [u8; 2],
    pub distances: [u32; 3],
    pub mark: [u8; 4],
}

impl Laid {
    pub fn bytes(&self) -> Vec<u8> {
        let mut bytes = self.body.clone();
        bytes.extend(self.counts);
        bytes.extend(self.constraints.to_le_bytes());
        bytes.extend(self.spare);
        bytes.extend(self.distances.iter().flat_map(|distance| distance.to_le_bytes()));
        bytes.extend(self.mark);
        bytes
    }
}
