//! A pool that a host lends, and the index that it should be: every answer is compared.

use crate::index::{Frame, Index, hexadecimal};
use crate::layout::{self, Reading};
use crate::lent::{self, Lent, Outcome, same};
use std::sync::atomic::{AtomicBool, Ordering};

static WITHOUT_MODEL: AtomicBool = AtomicBool::new(false);

/// From here on answers and what pools mean aren't compared with the index.
pub fn leave_the_model_out() {
    WITHOUT_MODEL.store(true, Ordering::Relaxed);
}

fn goes_by_model() -> bool {
    !WITHOUT_MODEL.load(Ordering::Relaxed)
}

#[derive(Clone)]
pub struct Lender {
    pub pool: Lent,
    pub index: Index,
}

impl Lender {
    /// A pool that held junk, formatted.
    pub fn formatted(length: usize) -> Outcome<Lender> {
        let mut pool = Lent::filled(length, 0x5B);
        match lent::format(&mut pool)? {
            0 => Ok(Lender { pool, index: Index::new((length - layout::DIRECTORY) / layout::BLOCK) }),
            status => Err(format!("format of {length} bytes gives {status}")),
        }
    }

    pub fn of_shares(shares: usize) -> Outcome<Lender> {
        Lender::formatted(layout::DIRECTORY + layout::BLOCK * shares)
    }

    /// A pool as it stands.
    pub fn of_bytes(bytes: &[u8], index: Index) -> Lender {
        Lender { pool: Lent::of(bytes), index }
    }

    /// Runs frames in one call and compares the answers.
    pub fn call(&mut self, frames: &[Frame]) -> Outcome<Vec<Frame>> {
        let commands = Lent::of(frames.as_flattened());
        let mut room = Lent::filled(8 * frames.len() + 5, 0xEE);
        match lent::run(&mut self.pool, &commands, &mut room)? {
            0 => self.compare(frames, room.bytes().as_chunks().0),
            status => Err(format!("a call of {} frames is refused with {status}", frames.len())),
        }
    }

    fn compare(&mut self, frames: &[Frame], answers: &[Frame]) -> Outcome<Vec<Frame>> {
        for (number, (frame, answer)) in frames.iter().zip(answers).enumerate() {
            let expected = self.index.respond(frame);
            if *answer != expected && goes_by_model() {
                let [frame, expected, got] = [frame, &expected, answer].map(hexadecimal);
                return Err(format!("frame {} of a call, {frame}: expected {expected}, got {got}", number + 1));
            }
        }
        Ok(answers[..frames.len()].to_vec())
    }

    /// Reads the pool by its layout: it is sound, keeps to the rules, and means what it should.
    pub fn read(&self) -> Outcome<Reading> {
        let reading = layout::read(self.pool.bytes()).map_err(|why| format!("a call left a pool unsound: {why}"))?;
        layout::keeps_the_rules(&reading).map_err(|why| format!("a call left a pool against the rules: {why}"))?;
        if reading.index != self.index && goes_by_model() {
            return Err("a pool's bytes mean another index than its answers".to_string());
        }
        Ok(reading)
    }

    /// Runs one frame and sees that what it has no business with keeps its bytes.
    pub fn careful_call(&mut self, frame: &Frame) -> Outcome<Frame> {
        let (old, before) = (self.pool.clone(), self.read()?);
        let was_query = frame[0] >= 5;
        let refused = self.index.status(frame) != 0;
        let answer = self.call(&[*frame])?[0];
        let after = self.read()?;
        let shown = hexadecimal(frame);
        if refused || was_query {
            same(&format!("the pool, by {shown}, refused or a query,"), old.bytes(), self.pool.bytes())?;
        }
        for name in self.index.open_names() {
            if name != frame[1] as usize {
                untouched(&format!("{shown}: name {name}"), name, &old, &before, &self.pool, &after)?;
            }
        }
        Ok(answer)
    }
}

/// A name's record and blocks have the bytes that they had.
fn untouched(who: &str, name: usize, old: &Lent, before: &Reading, new: &Lent, after: &Reading) -> Outcome<()> {
    if before.held[name] != after.held[name] {
        return Err(format!("{who} holds other blocks"));
    }
    let (record, length) = (layout::record_at(name), layout::RECORD);
    same(&format!("{who}: its record"), &old.bytes()[record..record + length], &new.bytes()[record..record + length])?;
    for &block in &after.held[name] {
        let at = layout::block_at(block);
        let stretch = at..at + layout::BLOCK;
        same(&format!("{who}: its block {block}"), &old.bytes()[stretch.clone()], &new.bytes()[stretch])?;
    }
    Ok(())
}
