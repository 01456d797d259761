//! The library, the twin and another archive of the library behind their C interfaces, and the rope behind its own.

#[path = "../interface.rs"]
mod interface;

use interface::{forfochry_format, forfochry_run};
use std::ffi::c_void;

pub type Format = unsafe extern "C" fn(*mut u8, usize) -> u32;
pub type Run = unsafe extern "C" fn(*mut u8, usize, *const u8, usize, *mut u8, usize) -> u64;

unsafe extern "C" {
    fn twin_format(pool: *mut u8, pool_len: usize) -> u32;
    fn twin_run(p: *mut u8, pn: usize, c: *const u8, cn: usize, a: *mut u8, an: usize) -> u64;
    fn rope_of(marks: *const u8, many: usize) -> *mut c_void;
    fn rope_free(rope: *mut c_void);
    fn rope_insert(rope: *mut c_void, place: usize, mark: u8);
    fn rope_delete(rope: *mut c_void, place: usize) -> u8;
}

pub type Contestant = (Format, Run);

pub const LIBRARY: Contestant = (forfochry_format, forfochry_run);
pub const TWIN: Contestant = (twin_format, twin_run);

/// The other archive, if `run.sh` was told one; it has put `before_` in front of all names that the archive defines.
#[cfg(not(before))]
pub const BEFORE: Option<Contestant> = None;
#[cfg(before)]
pub const BEFORE: Option<Contestant> = Some((before_forfochry_format, before_forfochry_run));

#[cfg(before)]
unsafe extern "C" {
    fn before_forfochry_format(pool: *mut u8, pool_len: usize) -> u32;
    fn before_forfochry_run(p: *mut u8, pn: usize, c: *const u8, cn: usize, a: *mut u8, an: usize) -> u64;
}

pub type Frame = [u8; 8];

pub fn frame(code: u8, name: usize, symbol: u8, number: usize) -> Frame {
    let [n0, n1, n2, n3] = (number as u32).to_be_bytes();
    [code, name as u8, symbol, 0, n0, n1, n2, n3]
}

/// A pool of the largest size and the calls that work on it.
#[derive(Clone)]
pub struct Index {
    run: Run,
    pool: Vec<u8>,
    answers: Vec<u8>,
}

impl Index {
    pub fn new((format, run): Contestant) -> Index {
        let mut pool = vec![0xFF; 65_536];
        // SAFETY: one buffer of the length told.
        let status = unsafe { format(pool.as_mut_ptr(), pool.len()) };
        assert_eq!(status, 0, "a pool of 65,536 bytes is formatted");
        Index { run, pool, answers: vec![0; 8_192] }
    }

    /// Runs frames, so many a call; every call must be accepted. The last answers stay to be looked at.
    pub fn run(&mut self, frames: &[Frame], batch: usize) {
        for call in frames.chunks(batch) {
            self.call(call.as_flattened());
        }
    }

    pub fn call(&mut self, commands: &[u8]) {
        let (pool, answers) = (&mut self.pool, &mut self.answers);
        // SAFETY: three buffers of the lengths told, none within another.
        let told = unsafe {
            (self.run)(
                pool.as_mut_ptr(),
                pool.len(),
                commands.as_ptr(),
                commands.len(),
                answers.as_mut_ptr(),
                answers.len(),
            )
        };
        assert_eq!(told, commands.len() as u64 / 8, "the call is accepted");
    }

    /// No answer of the last call is a refusal.
    pub fn all_well(&self, frames: usize) -> bool {
        self.answers.as_chunks::<8>().0[..frames].iter().all(|answer| answer[0] == 0)
    }

    pub fn answers(&self) -> &[u8] {
        &self.answers
    }

    pub fn pool(&self) -> &[u8] {
        &self.pool
    }
}

pub struct Rope(*mut c_void);

impl Rope {
    pub fn of(marks: &[u8]) -> Rope {
        // SAFETY: the marks are copied.
        Rope(unsafe { rope_of(marks.as_ptr(), marks.len()) })
    }

    pub fn insert(&mut self, place: usize, mark: u8) {
        // SAFETY: the rope lives, and the place is one of its places or the next.
        unsafe { rope_insert(self.0, place, mark) }
    }

    pub fn delete(&mut self, place: usize) -> u8 {
        // SAFETY: the rope lives, and the place is one of its places.
        unsafe { rope_delete(self.0, place) }
    }
}

impl Drop for Rope {
    fn drop(&mut self) {
        // SAFETY: nobody uses the rope after this.
        unsafe { rope_free(self.0) }
    }
}
