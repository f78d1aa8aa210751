//! Says in which case or pattern and in which call the library ended the process, for instance by touching a page that nobody may touch.

use std::cell::Cell;
use std::sync::atomic::{AtomicU64, Ordering};

/// What a thread is at; where there are no signals, nobody asks.
#[cfg_attr(not(unix), allow(dead_code))]
#[derive(Clone, Copy)]
struct At {
    what: &'static str,
    index: u64,
    kind: &'static str,
    entry: &'static str,
}

thread_local! {
    static AT: Cell<At> = const { Cell::new(At { what: "", index: 0, kind: "", entry: "" }) };
}

static SEED: AtomicU64 = AtomicU64::new(0);

/// This thread is at this case or pattern now.
pub fn at(what: &'static str, index: u64, kind: &'static str) {
    AT.set(At { what, index, kind, entry: "none" });
}

/// This thread calls this entry now.
pub fn at_entry(entry: &'static str) {
    AT.set(At { entry, ..AT.get() });
}

/// From now on a signal that ends the process is reported first, on standard output as a disagreement is, and the exit status is 1.
pub fn watch(seed: u64) {
    SEED.store(seed, Ordering::Relaxed);
    #[cfg(unix)]
    signals::watch();
}

#[cfg(unix)]
mod signals {
    use super::*;
    use std::ffi::c_void;
    use std::io::Write;

    extern "C" {
        fn signal(number: i32, handler: extern "C" fn(i32)) -> usize;
        fn write(file: i32, bytes: *const c_void, count: usize) -> isize;
        fn _exit(status: i32) -> !;
    }

    /// An instruction that is none, an abort, a bus error (by two numbers, as systems have it), an arithmetic error, a page that may not be touched.
    const ENDING: [i32; 6] = [4, 6, 7, 8, 10, 11];

    pub fn watch() {
        for number in ENDING {
            unsafe { signal(number, report) };
        }
    }

    /// Runs in a thread that was stopped anywhere, so it takes no lock and no memory.
    extern "C" fn report(number: i32) {
        let mut text = [0u8; 400];
        let mut left = &mut text[..];
        let (At { what, index, kind, entry }, seed) = (AT.get(), SEED.load(Ordering::Relaxed));
        let _full = write!(left, "compare: {what} {index} of seed {seed} disagrees\n  kind:          {kind}\n  call:          {entry}\n")
            .and_then(|()| write!(left, "  proved:        ends the process by signal {number}\n"));
        let count = 400 - left.len();
        unsafe {
            write(1, text.as_ptr().cast(), count);
            _exit(1)
        }
    }
}
