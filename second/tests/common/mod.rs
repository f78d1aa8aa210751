//! Making files and tables for the tests.
#![allow(dead_code)]

pub type Row = [u64; 64];

/// A small xorshift generator.
pub struct Random(u64);

impl Random {
    pub fn new(seed: u64) -> Random {
        Random(seed | 1)
    }

    pub fn word(&mut self) -> u64 {
        self.0 ^= self.0 << 13;
        self.0 ^= self.0 >> 7;
        self.0 ^= self.0 << 17;
        self.0.wrapping_mul(0x2545_F491_4F6C_DD1D)
    }

    /// From 0 to n − 1.
    pub fn below(&mut self, n: usize) -> usize {
        ((self.word() >> 33) % n as u64) as usize
    }

    /// True once in n.
    pub fn once_in(&mut self, n: usize) -> bool {
        self.below(n) == 0
    }
}

/// The word with these bits.
pub fn set(members: &[usize]) -> u64 {
    members.iter().fold(0, |word, &m| word | 1 << m)
}

/// The row with these lengths and these symbols from place 1 on.
pub fn row(lengths: &[usize], places: &[&[usize]]) -> Row {
    let mut row = [0; 64];
    row[0] = set(lengths);
    for (i, place) in places.iter().enumerate() {
        row[i + 1] = set(place);
    }
    row
}

/// The row of one tidy string.
pub fn just(symbols: &[usize]) -> Row {
    let mut row = [0; 64];
    row[0] = set(&[symbols.len()]);
    for (i, &a) in symbols.iter().enumerate() {
        row[i + 1] = set(&[a]);
    }
    row
}

pub const NOTHING: Row = [0; 64];

pub fn table(rows: &[Row], numbers: &[u64]) -> Vec<u64> {
    let mut table = rows.concat();
    table.extend(numbers);
    table
}

/// The bytes of an automaton.
pub fn automaton(accepting: u32, next: &[&[u8]]) -> Vec<u8> {
    let mut bytes = vec![next.len() as u8];
    bytes.extend(accepting.to_le_bytes());
    for states in next {
        bytes.extend(*states);
    }
    bytes
}

/// A problem file in the making; `bytes` computes counts and distances.
#[derive(Clone, Default)]
pub struct Draft {
    pub symbols: u8,
    pub rows: Vec<Row>,
    pub numbers: Vec<u64>,
    pub constraints: Vec<[u8; 4]>,
    pub automata: Vec<Vec<u8>>,
}

impl Draft {
    pub fn table(&self) -> Vec<u64> {
        table(&self.rows, &self.numbers)
    }

    pub fn bytes(&self) -> Vec<u8> {
        let mut bytes = Vec::new();
        for word in self.table() {
            bytes.extend(word.to_le_bytes());
        }
        for record in &self.constraints {
            bytes.extend(record);
        }
        for automaton in &self.automata {
            bytes.extend(automaton);
        }
        let to_automata: usize = self.automata.iter().map(|a| a.len()).sum();
        let to_constraints = to_automata + 4 * self.constraints.len();
        let to_table = bytes.len();
        bytes.push(self.symbols);
        bytes.push(self.rows.len() as u8);
        bytes.push(self.numbers.len() as u8);
        bytes.push(self.automata.len() as u8);
        bytes.extend((self.constraints.len() as u16).to_le_bytes());
        bytes.extend([0, 0]);
        for distance in [to_table, to_constraints, to_automata] {
            bytes.extend((distance as u32).to_le_bytes());
        }
        bytes.extend(b"TAIL");
        bytes
    }
}

/// A problem without automata.
pub fn draft(symbols: u8, rows: &[Row], numbers: &[u64], constraints: &[[u8; 4]]) -> Draft {
    Draft {
        symbols,
        rows: rows.to_vec(),
        numbers: numbers.to_vec(),
        constraints: constraints.to_vec(),
        automata: vec![],
    }
}

/// The file of P14, put down byte by byte.
pub fn p14() -> Vec<u8> {
    let mut file = vec![0u8; 1576];
    // X: lengths {1,2}, places {0,1}, {0,1}
    file[0] = 0b110;
    file[8] = 0b11;
    file[16] = 0b11;
    // Y: lengths {0,1}, place {1}
    file[512] = 0b11;
    file[520] = 0b10;
    // Z: lengths {2}, places {0}, {0,1}
    file[1024] = 0b100;
    file[1032] = 0b1;
    file[1040] = 0b11;
    // number {0,1,2,3}
    file[1536] = 0b1111;
    // Cat(X, Y, Z)
    file[1544] = 4;
    file[1545] = 0;
    file[1546] = 1;
    file[1547] = 2;
    // Len(X, number)
    file[1548] = 6;
    file[1549] = 0;
    file[1550] = 0;
    file[1551] = 0;
    // k, s, t, d
    file[1552] = 2;
    file[1553] = 3;
    file[1554] = 1;
    file[1555] = 0;
    // c
    file[1556] = 2;
    // 1552 = 0x0610 back to the table, 8 to the constraints, 0 to the automata
    file[1560] = 0x10;
    file[1561] = 0x06;
    file[1564] = 8;
    file[1568] = 0;
    file[1572] = b'T';
    file[1573] = b'A';
    file[1574] = b'I';
    file[1575] = b'L';
    file
}
