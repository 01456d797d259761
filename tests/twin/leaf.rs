//! A leaf: up to 125 marks, one to a byte.

use crate::layout::*;

/// How many of the first `places` marks are `symbol`. The whole block is looked at, so that the loop has
/// a fixed length and narrow counters.
pub fn rank(block: &Block, symbol: u8, places: usize) -> usize {
    let mut met = 0u8;
    for (&mark, &offset) in block.iter().zip(&OFFSETS) {
        met += (mark == symbol) as u8 & (offset < places as u8) as u8;
    }
    met as usize
}

/// The place of the `ordinal`-th `symbol`, which is there.
pub fn select(block: &Block, symbol: u8, ordinal: usize) -> usize {
    let mut left = ordinal as u8;
    let mut before = 0;
    for chunk in block.as_chunks::<16>().0 {
        let here = chunk.iter().fold(0u8, |met, &mark| met + (mark == symbol) as u8);
        if left <= here {
            break;
        }
        left -= here;
        before += 16;
    }
    for (at, &mark) in block[before..].iter().enumerate() {
        left -= (mark == symbol) as u8;
        if left == 0 {
            return before + at + 1;
        }
    }
    MOST_LEAF
}

/// Puts a mark into a leaf that isn't full.
pub fn insert(block: &mut Block, place: usize, mark: u8) {
    let many = entries(block);
    block.copy_within(place - 1..many, place);
    block[place - 1] = mark;
    set_entries(block, many + 1);
}

/// Takes a mark out.
pub fn delete(block: &mut Block, place: usize) -> u8 {
    let many = entries(block);
    let mark = block[place - 1];
    block.copy_within(place..many, place - 1);
    set_entries(block, many - 1);
    mark
}

/// Puts a mark into a full leaf and moves the upper half to another block.
pub fn insert_split(block: &mut Block, place: usize, mark: u8) -> Block {
    let mut upper = [0; BLOCK_BYTES];
    let cut = if place <= LEAST_LEAF { LEAST_LEAF - 1 } else { LEAST_LEAF };
    let moved = MOST_LEAF - cut;
    upper[..moved].copy_from_slice(&block[cut..MOST_LEAF]);
    set_entries(&mut upper, moved);
    set_entries(block, cut);
    if place <= LEAST_LEAF {
        insert(block, place, mark);
    } else {
        insert(&mut upper, place - cut, mark);
    }
    upper
}

/// Joins two leaves into the left one if they fit, else shares their marks out evenly; whether they fit.
pub fn join_or_share(left: &mut Block, right: &mut Block) -> bool {
    let (low, high) = (entries(left), entries(right));
    let all = low + high;
    if all <= MOST_LEAF {
        left[low..all].copy_from_slice(&right[..high]);
        set_entries(left, all);
        return true;
    }
    let half = all / 2;
    if low < half {
        let moved = half - low;
        left[low..half].copy_from_slice(&right[..moved]);
        right.copy_within(moved..high, 0);
    } else {
        let moved = low - half;
        right.copy_within(0..high, moved);
        right[..moved].copy_from_slice(&left[half..low]);
    }
    set_entries(left, half);
    set_entries(right, all - half);
    false
}
