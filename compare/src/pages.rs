//! Memory between pages that nobody may touch: a read or a write past either end stops the process, as `ended` then reports.
//!
//! Where the system has no such pages the memory is plain, and only the words beside a buffer show a write past its end.

#[cfg(unix)]
pub use guarded::Pages;
#[cfg(not(unix))]
pub use plain::Pages;

#[cfg(unix)]
mod guarded {
    use std::ffi::c_void;

    extern "C" {
        fn mmap(address: *mut c_void, bytes: usize, protection: i32, flags: i32, file: i32, offset: i64) -> *mut c_void;
        fn mprotect(address: *mut c_void, bytes: usize, protection: i32) -> i32;
        fn munmap(address: *mut c_void, bytes: usize) -> i32;
    }

    const NONE: i32 = 0;
    const READ: i32 = 1;
    const READ_AND_WRITE: i32 = 3;
    const PRIVATE: i32 = 2;
    const ANONYMOUS: i32 = if cfg!(target_os = "linux") { 0x20 } else { 0x1000 };

    /// A multiple of every usual size of a page.
    const UNIT: usize = 1 << 16;
    /// The bytes before and behind that nobody may touch.
    const GUARD: usize = 64 * UNIT;

    pub struct Pages {
        start: *mut u8,
        bytes: usize,
    }

    impl Pages {
        /// At least so many bytes.
        pub fn new(least: usize) -> Pages {
            let bytes = least.next_multiple_of(UNIT);
            // No memory of this process lies where the system puts new pages, so nothing else is changed by it.
            unsafe {
                let all = mmap(std::ptr::null_mut(), bytes + 2 * GUARD, NONE, PRIVATE | ANONYMOUS, -1, 0);
                assert!(all as isize != -1, "there is no memory for {bytes} bytes");
                let start = all.cast::<u8>().add(GUARD);
                let pages = Pages { start, bytes };
                pages.protect(READ_AND_WRITE);
                pages
            }
        }

        fn protect(&self, protection: i32) {
            let done = unsafe { mprotect(self.start.cast(), self.bytes, protection) };
            assert!(done == 0, "the pages cannot be protected");
        }

        pub fn forbid_writing(&self) {
            self.protect(READ);
        }

        pub fn allow_writing(&self) {
            self.protect(READ_AND_WRITE);
        }

        pub fn start(&self) -> *mut u8 {
            self.start
        }

        pub fn bytes(&self) -> usize {
            self.bytes
        }
    }

    impl Drop for Pages {
        fn drop(&mut self) {
            unsafe { munmap(self.start.sub(GUARD).cast(), self.bytes + 2 * GUARD) };
        }
    }
}

#[cfg(not(unix))]
mod plain {
    use std::cell::UnsafeCell;

    pub struct Pages(Vec<UnsafeCell<u64>>);

    impl Pages {
        /// At least so many bytes.
        pub fn new(least: usize) -> Pages {
            Pages((0..least.div_ceil(8)).map(|_| UnsafeCell::new(0)).collect())
        }

        pub fn forbid_writing(&self) {}

        pub fn allow_writing(&self) {}

        pub fn start(&self) -> *mut u8 {
            self.0.as_ptr().cast_mut().cast()
        }

        pub fn bytes(&self) -> usize {
            8 * self.0.len()
        }
    }
}
