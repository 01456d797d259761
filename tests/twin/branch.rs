//! A branch: two or three entries, each the summary of a child.

use crate::layout::*;

pub const ENTRY_BYTES: usize = 36;
const MARKS_AT: usize = 2;
const COUNTS_AT: usize = 4;

/// Marks below a block, and how many of them are each symbol.
#[derive(Clone, Copy, PartialEq)]
pub struct Summary {
    pub marks: u16,
    pub counts: [u16; SYMBOLS],
}

impl Summary {
    const NONE: Summary = Summary { marks: 0, counts: [0; SYMBOLS] };

    pub fn of_leaf(block: &Block) -> Summary {
        let mut summary = Summary { marks: entries(block) as u16, ..Summary::NONE };
        for &mark in &block[..entries(block)] {
            summary.counts[mark as usize % SYMBOLS] += 1;
        }
        summary
    }

    pub fn of_branch(block: &Block) -> Summary {
        let mut sum = entry(block, 0).summary.plus(&entry(block, 1).summary);
        if entries(block) == MOST_BRANCH {
            sum = sum.plus(&entry(block, 2).summary);
        }
        sum
    }

    pub fn of(block: &Block, level: usize) -> Summary {
        if level == 0 { Summary::of_leaf(block) } else { Summary::of_branch(block) }
    }

    fn plus(&self, other: &Summary) -> Summary {
        let mut sum = *self;
        sum.marks = sum.marks.wrapping_add(other.marks);
        for (count, &more) in sum.counts.iter_mut().zip(&other.counts) {
            *count = count.wrapping_add(more);
        }
        sum
    }
}

#[derive(Clone, Copy)]
pub struct Entry {
    pub link: usize,
    pub summary: Summary,
}

pub fn link(block: &Block, child: usize) -> usize {
    word(block, ENTRY_BYTES * child)
}

pub fn marks(block: &Block, child: usize) -> usize {
    word(block, ENTRY_BYTES * child + MARKS_AT)
}

pub fn count(block: &Block, child: usize, symbol: usize) -> usize {
    word(block, ENTRY_BYTES * child + COUNTS_AT + 2 * symbol)
}

#[inline]
pub fn entry(block: &Block, child: usize) -> Entry {
    let at = ENTRY_BYTES * child;
    let words: &[u8; ENTRY_BYTES] = block[at..at + ENTRY_BYTES].try_into().expect("an entry's bytes");
    let counts = core::array::from_fn(|symbol| word(words, COUNTS_AT + 2 * symbol) as u16);
    Entry { link: word(words, 0), summary: Summary { marks: word(words, MARKS_AT) as u16, counts } }
}

pub fn put_entry(block: &mut Block, child: usize, entry: &Entry) {
    let at = ENTRY_BYTES * child;
    let words: &mut [u8; ENTRY_BYTES] = (&mut block[at..at + ENTRY_BYTES]).try_into().expect("an entry's bytes");
    put_word(words, 0, entry.link);
    put_word(words, MARKS_AT, entry.summary.marks as usize);
    for (symbol, &count) in entry.summary.counts.iter().enumerate() {
        put_word(words, COUNTS_AT + 2 * symbol, count as usize);
    }
}

/// One mark more below a child.
pub fn add_mark(block: &mut Block, child: usize, mark: usize) {
    let at = ENTRY_BYTES * child;
    put_word(block, at + MARKS_AT, word(block, at + MARKS_AT) + 1);
    put_word(block, at + COUNTS_AT + 2 * mark, word(block, at + COUNTS_AT + 2 * mark) + 1);
}

/// One mark fewer below a child.
pub fn take_mark(block: &mut Block, child: usize, mark: usize) {
    let at = ENTRY_BYTES * child;
    put_word(block, at + MARKS_AT, word(block, at + MARKS_AT) - 1);
    put_word(block, at + COUNTS_AT + 2 * mark, word(block, at + COUNTS_AT + 2 * mark) - 1);
}

/// A new branch over two children.
pub fn over_two(left: &Entry, right: &Entry) -> Block {
    let mut block = [0; BLOCK_BYTES];
    put_entry(&mut block, 0, left);
    put_entry(&mut block, 1, right);
    set_entries(&mut block, 2);
    block
}

/// Puts an entry into a branch that isn't full.
pub fn insert(block: &mut Block, child: usize, entry: &Entry) {
    let many = entries(block);
    block.copy_within(ENTRY_BYTES * child..ENTRY_BYTES * many, ENTRY_BYTES * (child + 1));
    put_entry(block, child, entry);
    set_entries(block, many + 1);
}

/// Takes an entry out.
pub fn remove(block: &mut Block, child: usize) {
    let many = entries(block);
    block.copy_within(ENTRY_BYTES * (child + 1)..ENTRY_BYTES * many, ENTRY_BYTES * child);
    set_entries(block, many - 1);
}

/// Puts an entry into a full branch, of which two of the four entries go to another block.
pub fn insert_split(block: &mut Block, child: usize, new: &Entry) -> Block {
    let old = [entry(block, 0), entry(block, 1), entry(block, 2)];
    let mut all = [*new; 4];
    all[..child].copy_from_slice(&old[..child]);
    all[child + 1..].copy_from_slice(&old[child..]);
    put_entry(block, 0, &all[0]);
    put_entry(block, 1, &all[1]);
    set_entries(block, 2);
    over_two(&all[2], &all[3])
}

/// Joins two branches into the left one if they fit, else shares their four entries out; whether they fit.
pub fn join_or_share(left: &mut Block, right: &mut Block) -> bool {
    let (low, high) = (entries(left), entries(right));
    if low + high <= MOST_BRANCH {
        for child in 0..high {
            put_entry(left, low + child, &entry(right, child));
        }
        set_entries(left, low + high);
        return true;
    }
    if low < high {
        put_entry(left, low, &entry(right, 0));
        set_entries(left, low + 1);
        remove(right, 0);
    } else {
        insert(right, 0, &entry(left, low - 1));
        set_entries(left, low - 1);
    }
    false
}

/// The child that takes a place or an ordinal, and what the children before it add up to.
pub struct Seat {
    pub child: usize,
    pub before: usize,
}

/// The first child up to which `reach` adds up to `wanted`, or the last.
pub fn seat(block: &Block, wanted: usize, reach: impl Fn(usize) -> usize) -> Seat {
    let first = reach(0);
    let limit = if entries(block) == MOST_BRANCH { first + reach(1) } else { usize::MAX };
    let mut seat = Seat { child: 0, before: 0 };
    if wanted > first {
        seat = Seat { child: 1, before: first };
    }
    if wanted > limit {
        seat = Seat { child: 2, before: limit };
    }
    seat
}

/// The sum of a word of the entries before a child.
pub fn before(child: usize, value: impl Fn(usize) -> usize) -> usize {
    let first = if child > 0 { value(0) } else { 0 };
    let second = if child > 1 { value(1) } else { 0 };
    first + second
}
