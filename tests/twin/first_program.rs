//! The first program over the C interface, for trying tests of it before the proved one is there.

#[path = "../interface.rs"]
mod interface;

use interface::{forfochry_format, forfochry_run};
use std::io::{Read, Write, stdin, stdout};

const POOL_BYTES: usize = 16_384;
const BAD_LINE: [u8; 8] = [0xFF, 0, 0, 0, 0, 0, 0, 0];

fn frame(line: &[u8]) -> Option<[u8; 8]> {
    let digits: Vec<u8> = line.iter().map_while(|&byte| (byte as char).to_digit(16)).map(|d| d as u8).collect();
    if line.len() != 16 || digits.len() != 16 {
        return None;
    }
    Some(std::array::from_fn(|i| 16 * digits[2 * i] + digits[2 * i + 1]))
}

fn answer(pool: &mut [u8], line: &[u8]) -> String {
    let mut answer = BAD_LINE;
    if let Some(frame) = frame(line) {
        // SAFETY: three buffers of the lengths told, none within another.
        unsafe { forfochry_run(pool.as_mut_ptr(), pool.len(), frame.as_ptr(), 8, answer.as_mut_ptr(), 8) };
    }
    answer.iter().map(|byte| format!("{byte:02X}")).collect::<String>() + "\n"
}

pub fn main() -> std::io::Result<()> {
    let mut pool = vec![0; POOL_BYTES];
    // SAFETY: one buffer of the length told.
    unsafe { forfochry_format(pool.as_mut_ptr(), pool.len()) };
    let mut line = Vec::new();
    let mut chunk = [0; 4096];
    loop {
        let many = stdin().read(&mut chunk)?;
        let mut output = String::new();
        for &byte in &chunk[..many] {
            if byte == b'\n' {
                output += &answer(&mut pool, &line);
                line.clear();
            } else {
                line.push(byte);
            }
        }
        if many == 0 && !line.is_empty() {
            output += &answer(&mut pool, &line);
        }
        stdout().write_all(output.as_bytes())?;
        stdout().flush()?;
        if many == 0 {
            return Ok(());
        }
    }
}
