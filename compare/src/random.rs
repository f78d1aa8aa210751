//! Random words: xoshiro256**, started by splitmix64. A seed and an index give the same words everywhere.

#[derive(Clone)]
pub struct Random([u64; 4]);

fn splitmix(state: &mut u64) -> u64 {
    *state = state.wrapping_add(0x9E37_79B9_7F4A_7C15);
    let mut word = *state;
    word = (word ^ word >> 30).wrapping_mul(0xBF58_476D_1CE4_E5B9);
    word = (word ^ word >> 27).wrapping_mul(0x94D0_49BB_1331_11EB);
    word ^ word >> 31
}

impl Random {
    pub fn new(seed: u64, index: u64) -> Random {
        let mut of_seed = seed;
        let mut state = splitmix(&mut of_seed) ^ index;
        Random([0; 4].map(|_| splitmix(&mut state)))
    }

    pub fn word(&mut self) -> u64 {
        let [a, b, c, d] = self.0;
        let answer = b.wrapping_mul(5).rotate_left(7).wrapping_mul(9);
        let (c, d) = (c ^ a, d ^ b);
        self.0 = [a ^ d, b ^ c, c ^ b << 17, d.rotate_left(45)];
        answer
    }

    /// From 0 to n - 1; n is not 0.
    pub fn below(&mut self, n: usize) -> usize {
        ((u128::from(self.word()) * n as u128) >> 64) as usize
    }

    /// From the least to the most, both included.
    pub fn between(&mut self, least: usize, most: usize) -> usize {
        least + self.below(most - least + 1)
    }

    pub fn byte(&mut self) -> u8 {
        self.word() as u8
    }

    /// True once in n.
    pub fn once_in(&mut self, n: usize) -> bool {
        self.below(n) == 0
    }

    pub fn pick<'a, T>(&mut self, from: &'a [T]) -> &'a T {
        &from[self.below(from.len())]
    }

    /// One of these, as often as its share says of the sum of all shares.
    pub fn by_share<T: Copy>(&mut self, from: &[T], share: fn(T) -> usize) -> T {
        let mut left = self.below(from.iter().map(|&one| share(one)).sum());
        for &one in from {
            if left < share(one) {
                return one;
            }
            left -= share(one);
        }
        unreachable!("what is below the sum lies in one of the shares")
    }

    /// A subset of 0 to n - 1, each in it with a chance of `share` in 8.
    pub fn subset(&mut self, n: usize, share: usize) -> u64 {
        (0..n).filter(|_| self.below(8) < share).fold(0, |word, bit| word | 1 << bit)
    }

    pub fn words(&mut self, n: usize) -> Vec<u64> {
        (0..n).map(|_| self.word()).collect()
    }

    pub fn shuffle<T>(&mut self, all: &mut [T]) {
        for i in (1..all.len()).rev() {
            all.swap(i, self.below(i + 1));
        }
    }
}
