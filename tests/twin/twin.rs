//! The unproved twin: the index of docs/RULES.md over the layout of docs/LAYOUT.md, in plain Rust.
//!
//! It has the library's C interface, so that tests can be written and tried against it, and it is the
//! benchmark's baseline. `--cfg 'fault="NAME"'` plants one fault; every place that one touches says
//! `cfg!(fault = "NAME")`. `--cfg renamed` exports the calls as `twin_*`, to link it beside the library.

mod branch;
mod check;
mod frames;
mod layout;
mod leaf;
mod line;
mod map;
mod tree;

use core::slice;

/// A lent buffer; nothing may be assumed of the pointer to an empty one.
unsafe fn lent<'a>(bytes: *const u8, length: usize) -> &'a [u8] {
    if length == 0 { &[] } else { unsafe { slice::from_raw_parts(bytes, length) } }
}

unsafe fn lent_mut<'a>(bytes: *mut u8, length: usize) -> &'a mut [u8] {
    if length == 0 { &mut [] } else { unsafe { slice::from_raw_parts_mut(bytes, length) } }
}

/// # Safety
/// `pool` is valid for reads and writes of `pool_len` bytes.
#[cfg_attr(not(renamed), unsafe(export_name = "forfochry_format"))]
#[cfg_attr(renamed, unsafe(export_name = "twin_format"))]
pub unsafe extern "C" fn format(pool: *mut u8, pool_len: usize) -> u32 {
    layout::format(unsafe { lent_mut(pool, pool_len) })
}

/// The status times 2^32, plus the number of frames run.
///
/// # Safety
/// The three buffers don't overlap, and each is valid for its length.
#[cfg_attr(not(renamed), unsafe(export_name = "forfochry_run"))]
#[cfg_attr(renamed, unsafe(export_name = "twin_run"))]
pub unsafe extern "C" fn run(
    pool: *mut u8,
    pool_len: usize,
    commands: *const u8,
    commands_len: usize,
    answers: *mut u8,
    answers_len: usize,
) -> u64 {
    if cfg!(fault = "refuses_null") && commands.is_null() {
        return 102 << 32;
    }
    let pool = unsafe { lent_mut(pool, pool_len) };
    let commands = unsafe { lent(commands, commands_len) };
    let answers = unsafe { lent_mut(answers, answers_len) };
    match frames::run(pool, commands, answers) {
        Ok(count) => count as u64,
        Err(status) => (status as u64) << 32,
    }
}

/// # Safety
/// `line` is valid for reads of `line_len` bytes.
#[cfg_attr(not(renamed), unsafe(export_name = "forfochry_mark"))]
#[cfg_attr(renamed, unsafe(export_name = "twin_mark"))]
pub unsafe extern "C" fn mark(line: *const u8, line_len: usize) -> u8 {
    line::mark(unsafe { lent(line, line_len) })
}
