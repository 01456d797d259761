//! The lines of a Fortran file that carry EQUIVALENCE, by the index: rustc first_day.rs, linked with libforfochry.a.

use std::process::ExitCode;

extern "C" {
    fn forfochry_format(pool: *mut u8, pool_len: usize) -> u32;
    fn forfochry_run(
        pool: *mut u8,
        pool_len: usize,
        commands: *const u8,
        commands_len: usize,
        answers: *mut u8,
        answers_len: usize,
    ) -> u64;
    fn forfochry_mark(line: *const u8, line_len: usize) -> u8;
}

const OPEN: u8 = 1;
const INSERT: u8 = 3;
const RANK: u8 = 6;
const SELECT: u8 = 7;
const STORAGE_SHARED: u8 = 3;

/// The mark of one line.
fn mark(line: &[u8]) -> u8 {
    unsafe { forfochry_mark(line.as_ptr(), line.len()) }
}

/// Runs one frame to name 0 and gives its value, or says which status it got.
fn ask(pool: &mut [u8], code: u8, symbol: u8, number: u32) -> Result<u32, String> {
    let mut frame = [code, 0, symbol, 0, 0, 0, 0, 0];
    frame[4..].copy_from_slice(&number.to_be_bytes());
    let mut answer = [0u8; 8];
    let outcome = unsafe {
        forfochry_run(
            pool.as_mut_ptr(),
            pool.len(),
            frame.as_ptr(),
            frame.len(),
            answer.as_mut_ptr(),
            answer.len(),
        )
    };
    match (outcome >> 32, answer[0]) {
        (0, 0) => Ok(u32::from_be_bytes([answer[4], answer[5], answer[6], answer[7]])),
        (call, status) => Err(format!(
            "command {code} is refused: call {call}, status {status}; forfochry.h says what they mean"
        )),
    }
}

/// A line without its line feed, nor the carriage return just before one.
fn without_end(line: &[u8]) -> &[u8] {
    match line.strip_suffix(b"\n") {
        Some(line) => line.strip_suffix(b"\r").unwrap_or(line),
        None => line,
    }
}

/// Puts the file's marks into name 0 and prints the lines that carry EQUIVALENCE.
fn session(text: &[u8]) -> Result<(), String> {
    let mut pool = vec![0u8; 65536];
    if unsafe { forfochry_format(pool.as_mut_ptr(), pool.len()) } != 0 {
        return Err("the pool's length isn't allowed".to_string());
    }
    ask(&mut pool, OPEN, 16, 508)?;
    let lines: Vec<&[u8]> = text.split_inclusive(|&byte| byte == b'\n').map(without_end).collect();
    for (k, line) in lines.iter().enumerate() {
        ask(&mut pool, INSERT, mark(line), k as u32 + 1)?;
    }
    let shared = ask(&mut pool, RANK, STORAGE_SHARED, lines.len() as u32)?;
    println!("{shared} of {} lines carry EQUIVALENCE", lines.len());
    for j in 1..=shared {
        let line = ask(&mut pool, SELECT, STORAGE_SHARED, j)?;
        println!("{line}: {}", String::from_utf8_lossy(lines[line as usize - 1]));
    }
    Ok(())
}

fn main() -> ExitCode {
    let text = std::env::args().nth(1).ok_or("none is given".to_string());
    let text = text.and_then(|path| std::fs::read(path).map_err(|why| why.to_string()));
    let told = text
        .map_err(|why| format!("give the path of a fixed-form Fortran file ({why})"))
        .and_then(|text| session(&text));
    match told {
        Ok(()) => ExitCode::SUCCESS,
        Err(message) => {
            eprintln!("first_day: {message}");
            ExitCode::FAILURE
        }
    }
}
