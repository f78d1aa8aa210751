//! What is lent to the library: buffers that lie against a page that nobody may touch, with marked words on their other side, and a file, a text, a list and
//! an index that cannot be written.

use crate::pages::Pages;
use crate::random::Random;
use std::rc::Rc;

/// The largest buffers: a table for a trailer with the greatest counts, a room for it with many words beyond, a file larger than any sound one, and a buffer
/// that is larger than any automaton.
const TABLE_WORDS: usize = 1 << 15;
const ROOM_WORDS: usize = 1 << 17;
const FILE_BYTES: usize = 1 << 18;
const LIST_CALLS: usize = 1 << 14;
const INDEX_WORDS: usize = 1 << 13;
const AUTOMATON_BYTES: usize = 1 << 16;

/// How many words beside a buffer of words are looked at, or bytes beside one of bytes; many of them at times only, since they cost time.
const BESIDE: [usize; 16] = [8, 8, 8, 8, 8, 8, 8, 8, 8, 8, 8, 8, 8, 64, 64, 2048];

/// The memory that the buffers of one thread lie in.
pub struct Memory {
    pub table: Rc<Pages>,
    pub room: Rc<Pages>,
    pub automaton: Rc<Pages>,
    bytes: Pages,
    list: Pages,
    index: Pages,
}

impl Memory {
    pub fn new() -> Memory {
        let [table, room] = [TABLE_WORDS, ROOM_WORDS].map(|words| Rc::new(Pages::new(8 * words)));
        let automaton = Rc::new(Pages::new(AUTOMATON_BYTES));
        let [bytes, list, index] = [FILE_BYTES, 4 * LIST_CALLS, 8 * INDEX_WORDS].map(Pages::new);
        Memory { table, room, automaton, bytes, list, index }
    }

    /// A file or a text, at any address: it ends where the pages end, or begins a few bytes behind their start. It can only be read. There is one at a time.
    pub fn bytes(&self, random: &mut Random, bytes: &[u8]) -> &[u8] {
        let from = if random.once_in(4) { random.below(9) } else { self.bytes.bytes() - bytes.len() };
        lay(&self.bytes, from, bytes)
    }

    /// The list, with the end of its pages right behind it. It can only be read.
    pub fn list(&self, list: &[u32]) -> &[u32] {
        lay(&self.list, self.list.bytes() - 4 * list.len(), list)
    }

    /// An index at either end of its pages. It can only be read.
    pub fn index(&self, random: &mut Random, index: &[u64]) -> &[u64] {
        let from = if random.once_in(2) { 0 } else { self.index.bytes() - 8 * index.len() };
        lay(&self.index, from, index)
    }
}

/// Copies the elements to a place of the pages, where they can only be read from then on.
fn lay<'a, T: Copy>(pages: &'a Pages, from: usize, elements: &[T]) -> &'a [T] {
    assert!(from + size_of_val(elements) <= pages.bytes(), "it is larger than its pages");
    pages.allow_writing();
    // The pages hold the bytes from this place on, and the place fits the type: bytes fit anywhere, and a list or an index begins or ends where its pages do.
    let laid = unsafe {
        let at = pages.start().add(from).cast::<T>();
        at.copy_from_nonoverlapping(elements.as_ptr(), elements.len());
        std::slice::from_raw_parts(at, elements.len())
    };
    pages.forbid_writing();
    laid
}

/// What a buffer consists of: the words of a table or a room, the bytes of an automaton.
pub trait Element: Copy + PartialEq + Into<u64> {
    fn any(random: &mut Random) -> Self;
}

impl Element for u64 {
    fn any(random: &mut Random) -> u64 {
        random.word()
    }
}

impl Element for u8 {
    fn any(random: &mut Random) -> u8 {
        random.byte()
    }
}

/// One buffer for the library and one for the second solver, the same in every element, those beside it included.
pub struct Lent<T = u64> {
    /// The pages are not freed before the buffer.
    _pages: Rc<Pages>,
    /// The library's elements, from the first that is looked at.
    ours: *mut T,
    theirs: Vec<T>,
    /// Where among them the buffer lies.
    from: usize,
    count: usize,
}

impl<T: Element> Lent<T> {
    /// A buffer at the end of the pages with marked elements before it, or at their start with marked ones behind. There is one buffer at a time.
    pub fn new(pages: &Rc<Pages>, random: &mut Random, elements: &[T]) -> Lent<T> {
        let beside = *random.pick(&BESIDE);
        let margin: Vec<T> = any(random, beside);
        let at_end = random.once_in(2);
        let (from, theirs) = if at_end { (margin.len(), [&margin, elements].concat()) } else { (0, [elements, &margin].concat()) };
        let room = pages.bytes() / size_of::<T>();
        assert!(theirs.len() <= room, "the buffer is larger than its pages");
        // The pages hold that many elements from here on.
        let ours = unsafe {
            let ours = pages.start().cast::<T>().add(if at_end { room - theirs.len() } else { 0 });
            ours.copy_from_nonoverlapping(theirs.as_ptr(), theirs.len());
            ours
        };
        Lent { _pages: pages.clone(), ours, theirs, from, count: elements.len() }
    }

    /// So many random elements: one that is not written shows.
    pub fn random(pages: &Rc<Pages>, random: &mut Random, count: usize) -> Lent<T> {
        let elements = any(random, count);
        Lent::new(pages, random, &elements)
    }

    /// All that is looked at of the library's elements.
    pub fn all_ours(&self) -> &[T] {
        unsafe { std::slice::from_raw_parts(self.ours, self.theirs.len()) }
    }

    pub fn ours(&mut self) -> &mut [T] {
        unsafe { std::slice::from_raw_parts_mut(self.ours.add(self.from), self.count) }
    }

    pub fn theirs(&mut self) -> &mut [T] {
        &mut self.theirs[self.from..self.from + self.count]
    }

    /// The first element that differs: its place, negative before the buffer, ours and theirs.
    pub fn difference(&self) -> Option<(isize, u64, u64)> {
        let ours = self.all_ours();
        if ours == self.theirs {
            return None;
        }
        let at = (0..ours.len()).find(|&i| ours[i] != self.theirs[i])?;
        Some((at as isize - self.from as isize, ours[at].into(), self.theirs[at].into()))
    }
}

fn any<T: Element>(random: &mut Random, count: usize) -> Vec<T> {
    (0..count).map(|_| T::any(random)).collect()
}

#[cfg(test)]
mod tests {
    use super::*;

    fn differs_where_it_is_changed<T: Element>(pages: &Rc<Pages>, random: &mut Random, other: fn(T) -> T) {
        for _ in 0..20 {
            let mut lent = Lent::<T>::random(pages, random, 10);
            assert_eq!(lent.difference(), None);
            let beside = if lent.from == 0 { 17 } else { -8 };
            let at = lent.ours.wrapping_offset(beside + lent.from as isize);
            let was = unsafe { at.replace(other(*at)) };
            assert_eq!(lent.difference().map(|(place, ..)| place), Some(beside));
            unsafe { *at = was };
            lent.ours()[3] = other(lent.ours()[3]);
            assert_eq!(lent.difference().map(|(place, ..)| place), Some(3));
        }
    }

    #[test]
    fn a_difference_is_seen_beside_the_buffer_too() {
        let (random, pages) = (&mut Random::new(9, 0), Rc::new(Pages::new(1 << 16)));
        differs_where_it_is_changed(&pages, random, |word: u64| word ^ 1);
        differs_where_it_is_changed(&pages, random, |byte: u8| byte ^ 0x80);
    }

    #[test]
    fn what_is_only_read_is_laid_as_it_is() {
        let (random, memory) = (&mut Random::new(10, 0), Memory::new());
        for size in [0, 1, 24, 1000, 150_000] {
            let file: Vec<u8> = (0..size).map(|_| random.byte()).collect();
            assert_eq!(memory.bytes(random, &file), file);
            let list: Vec<u32> = (0..size.min(9000)).map(|n| n as u32).collect();
            assert_eq!(memory.list(&list), list);
            let index = random.words(size.min(2000));
            assert_eq!(memory.index(random, &index), index);
        }
    }
}
