//! The entries as include/cobleskeg.h declares them.

extern "C" {
    pub fn cobleskeg_version() -> u32;
    pub fn cobleskeg_read(
        file: *const u8,
        size: usize,
        symbols: *mut usize,
        strings: *mut usize,
        numbers: *mut usize,
        automata: *mut usize,
        constraints: *mut usize,
    ) -> u8;
    pub fn cobleskeg_unpack(file: *const u8, size: usize, table: *mut u64, words: usize) -> u8;
    pub fn cobleskeg_step(file: *const u8, size: usize, j: usize, table: *mut u64, words: usize, struck: *mut u32) -> u8;
    pub fn cobleskeg_settle(file: *const u8, size: usize, table: *mut u64, words: usize, rounds: *mut u32, every_value: *mut u8) -> u8;
    pub fn cobleskeg_index(file: *const u8, size: usize, index: *mut u64, index_words: usize) -> u8;
    pub fn cobleskeg_settle_by_index(
        file: *const u8,
        size: usize,
        index: *const u64,
        index_words: usize,
        table: *mut u64,
        words: usize,
        steps: *mut u32,
        every_value: *mut u8,
    ) -> u8;
    pub fn cobleskeg_search(
        file: *const u8,
        size: usize,
        budget: u32,
        room: *mut u64,
        room_words: usize,
        table: *mut u64,
        words: usize,
        outcome: *mut u8,
        nodes: *mut u32,
    ) -> u8;
    pub fn cobleskeg_perform(file: *const u8, size: usize, list: *const u32, calls: usize, table: *mut u64, words: usize);
    pub fn cobleskeg_perform_by_index(
        file: *const u8,
        size: usize,
        list: *const u32,
        calls: usize,
        index: *const u64,
        index_words: usize,
        table: *mut u64,
        words: usize,
    );
    pub fn cobleskeg_compile(text: *const u8, size: usize, symbols: usize, buffer: *mut u8, room: usize, written: *mut usize) -> u8;
}
