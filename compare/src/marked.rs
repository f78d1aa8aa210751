//! Results behind pointers: marked before a call, so that it shows what was written.

use crate::random::Random;

/// A result between two neighbours that no entry may touch. The order is fixed: a write that is too wide ends in the marks, and so is seen, or in the spare
/// ones behind them.
#[repr(C)]
pub struct Marked<T> {
    cells: [T; 3],
    marks: [T; 3],
    _spare: [T; 8],
}

/// What such a result should be and is, with its neighbours.
pub struct Held {
    pub name: &'static str,
    pub ours: [u64; 3],
    pub theirs: [u64; 3],
}

/// A type that results have.
pub trait Word: Copy {
    /// A mark that no answer is likely to be.
    fn mark(random: &mut Random) -> Self;
    fn wide(self) -> u64;
}

impl Word for u8 {
    fn mark(random: &mut Random) -> u8 {
        // Outcomes and flags are all below 4.
        random.byte() | 4
    }

    fn wide(self) -> u64 {
        self.into()
    }
}

impl Word for u32 {
    fn mark(random: &mut Random) -> u32 {
        random.word() as u32
    }

    fn wide(self) -> u64 {
        self.into()
    }
}

impl Word for usize {
    fn mark(random: &mut Random) -> usize {
        random.word() as usize
    }

    fn wide(self) -> u64 {
        self as u64
    }
}

impl<T: Word> Marked<T> {
    pub fn new(random: &mut Random) -> Marked<T> {
        let marks = [0; 3].map(|_| T::mark(random));
        Marked { cells: marks, marks, _spare: [marks[0]; 8] }
    }

    pub fn pointer(&mut self) -> *mut T {
        (self as *mut Marked<T>).cast::<T>().wrapping_add(1)
    }

    /// A call that accepts writes the result alone, and one that refuses writes nothing.
    pub fn held(&self, name: &'static str, wanted: Option<T>) -> Held {
        let mut theirs = self.marks.map(T::wide);
        if let Some(result) = wanted {
            theirs[1] = result.wide();
        }
        Held { name, ours: self.cells.map(T::wide), theirs }
    }
}

#[cfg(test)]
mod tests {
    use super::*;

    #[test]
    fn what_is_written_is_seen() {
        let mut result = Marked::<u32>::new(&mut Random::new(13, 0));
        let untouched = result.held("rounds", None);
        assert_eq!(untouched.ours, untouched.theirs);
        unsafe { *result.pointer() = 5 };
        let written = result.held("rounds", Some(5));
        assert_eq!(written.ours, written.theirs);
        assert_ne!(result.held("rounds", None).theirs, written.ours);
        result.cells[2] ^= 1;
        let beside = result.held("rounds", Some(5));
        assert_ne!(beside.ours, beside.theirs);
    }
}
