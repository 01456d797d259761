//! Who holds each block: made by the check, kept up to date by the frames of a call.

use crate::layout::MOST_SHARES;

pub struct Map {
    /// 0 for a free block, else the holder's name plus 1.
    holders: [u8; MOST_SHARES],
    shares: usize,
}

impl Map {
    pub fn new(shares: usize) -> Map {
        Map { holders: [0; MOST_SHARES], shares }
    }

    pub fn is_free(&self, block: usize) -> bool {
        block < self.shares && self.holders[block] == 0
    }

    pub fn hold(&mut self, block: usize, name: usize) {
        self.holders[block] = name as u8 + 1;
    }

    pub fn lowest_free(&self) -> Option<usize> {
        self.holders[..self.shares].iter().position(|&holder| holder == 0)
    }

    /// The lowest free block, for a name that was promised it.
    pub fn take(&mut self, name: usize) -> usize {
        let block = self.lowest_free().expect("the shares promised are there");
        self.hold(block, name);
        block
    }

    pub fn release(&mut self, block: usize) {
        self.holders[block] = 0;
    }

    pub fn release_all(&mut self, name: usize) {
        for holder in &mut self.holders[..self.shares] {
            if *holder == name as u8 + 1 {
                *holder = 0;
            }
        }
    }

    /// A block that some other name holds.
    pub fn of_another(&self, name: usize) -> Option<usize> {
        self.holders[..self.shares].iter().position(|&holder| holder != 0 && holder != name as u8 + 1)
    }
}
