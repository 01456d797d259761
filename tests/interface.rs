//! The library's three calls, as `include/forfochry.h` declares them.
#![allow(dead_code)] // not every program calls all three

unsafe extern "C" {
    pub fn forfochry_format(pool: *mut u8, pool_len: usize) -> u32;
    pub fn forfochry_run(
        pool: *mut u8,
        pool_len: usize,
        commands: *const u8,
        commands_len: usize,
        answers: *mut u8,
        answers_len: usize,
    ) -> u64;
    pub fn forfochry_mark(line: *const u8, line_len: usize) -> u8;
}
