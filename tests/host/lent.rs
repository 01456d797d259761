//! The library's C interface, called with buffers that stand between guard bytes.

#[path = "../interface.rs"]
mod interface;

use interface::{forfochry_format, forfochry_mark, forfochry_run};

pub type Outcome<T> = Result<T, String>;

/// Odd, so that no buffer is aligned.
const GUARD: usize = 61;
const GUARD_BYTE: u8 = 0xA7;

/// A buffer to lend, between guard bytes.
#[derive(Clone)]
pub struct Lent {
    all: Vec<u8>,
    /// Where an empty buffer is said to stand, if not between its guard bytes.
    elsewhere: Option<usize>,
}

impl Lent {
    pub fn of(content: &[u8]) -> Lent {
        let guard = [GUARD_BYTE; GUARD];
        Lent { all: [&guard, content, &guard].concat(), elsewhere: None }
    }

    /// An empty buffer with any address at all.
    pub fn empty_at(address: usize) -> Lent {
        Lent { elsewhere: Some(address), ..Lent::of(&[]) }
    }

    pub fn filled(length: usize, byte: u8) -> Lent {
        Lent::of(&vec![byte; length])
    }

    pub fn len(&self) -> usize {
        self.all.len() - 2 * GUARD
    }

    pub fn bytes(&self) -> &[u8] {
        &self.all[GUARD..self.all.len() - GUARD]
    }

    pub fn bytes_mut(&mut self) -> &mut [u8] {
        let end = self.all.len() - GUARD;
        &mut self.all[GUARD..end]
    }

    fn address(&self) -> *const u8 {
        self.elsewhere.map_or(self.bytes().as_ptr(), std::ptr::without_provenance)
    }

    fn address_mut(&mut self) -> *mut u8 {
        self.elsewhere.map_or(self.bytes_mut().as_mut_ptr(), std::ptr::without_provenance_mut)
    }

    fn guarded(&self, what: &str) -> Outcome<()> {
        let outside = self.all[..GUARD].iter().chain(&self.all[self.all.len() - GUARD..]);
        if outside.copied().all(|byte| byte == GUARD_BYTE) {
            Ok(())
        } else {
            Err(format!("a byte outside the {what} was written"))
        }
    }
}

pub fn format(pool: &mut Lent) -> Outcome<u32> {
    // SAFETY: one buffer of the length told.
    let status = unsafe { forfochry_format(pool.address_mut(), pool.len()) };
    pool.guarded("pool")?;
    Ok(status)
}

/// A call: its status and its count. That a refused call changes nothing, and that an accepted one runs
/// all frames and leaves the rest of the answer room alone, is seen to here.
pub fn run(pool: &mut Lent, commands: &Lent, answers: &mut Lent) -> Outcome<u32> {
    let (old_pool, old_answers, old_commands) = (pool.clone(), answers.clone(), commands.clone());
    // SAFETY: three buffers of the lengths told, none within another.
    let told = unsafe {
        forfochry_run(
            pool.address_mut(),
            pool.len(),
            commands.address(),
            commands.len(),
            answers.address_mut(),
            answers.len(),
        )
    };
    let (status, count) = ((told >> 32) as u32, told as u32);
    pool.guarded("pool")?;
    commands.guarded("commands")?;
    answers.guarded("answer room")?;
    same("the commands", old_commands.bytes(), commands.bytes())?;
    if status != 0 {
        same("the pool of a refused call", old_pool.bytes(), pool.bytes())?;
        same("the answer room of a refused call", old_answers.bytes(), answers.bytes())?;
        return if count == 0 {
            Ok(status)
        } else {
            Err(format!("a call refused with {status} counts {count} frames"))
        };
    }
    if count as usize != commands.len() / 8 {
        return Err(format!("{count} frames counted of {}", commands.len() / 8));
    }
    let past = commands.len();
    same("the answer room past the answers", &old_answers.bytes()[past..], &answers.bytes()[past..])?;
    Ok(0)
}

pub fn mark(line: &Lent) -> Outcome<u8> {
    let old = line.clone();
    // SAFETY: one buffer of the length told.
    let mark = unsafe { forfochry_mark(line.address(), line.len()) };
    line.guarded("line")?;
    same("the line", old.bytes(), line.bytes())?;
    Ok(mark)
}

/// Two stretches of bytes are the same.
pub fn same(what: &str, old: &[u8], new: &[u8]) -> Outcome<()> {
    if old == new {
        return Ok(());
    }
    let at = old.iter().zip(new).position(|(a, b)| a != b).unwrap_or(old.len().min(new.len()));
    Err(format!("{what} changed at byte {at}"))
}
