//! One name's tree: queries and edits, down from the root.

use crate::branch::{self, Entry, Summary};
use crate::layout::*;
use crate::leaf;
use crate::map::Map;

/// A branch on the way down, and the child taken there.
#[derive(Clone, Copy, Default)]
struct Step {
    block: usize,
    child: usize,
}

type Path = [Step; MOST_HEIGHT + 1];

/// The mark at a place, and the blocks entered on the way to it.
pub fn access(pool: &Pool, record: &Record, place: usize) -> (u8, usize) {
    let mut block = &pool.blocks[record.root];
    let mut left = place;
    for _ in 0..record.height {
        let seat = branch::seat(block, left, |child| branch::marks(block, child));
        left -= seat.before;
        block = &pool.blocks[branch::link(block, seat.child)];
    }
    let depth = record.height + 1;
    let invented = cfg!(fault = "invented_depth") && depth > 2;
    (block[left - 1], if invented { depth - 1 } else { depth })
}

pub fn rank(pool: &Pool, record: &Record, symbol: usize, place: usize) -> usize {
    let mut block = &pool.blocks[record.root];
    let mut left = if cfg!(fault = "rank_stops_before") { place.saturating_sub(1) } else { place };
    let mut met = 0;
    for _ in 0..record.height {
        let seat = branch::seat(block, left, |child| branch::marks(block, child));
        left -= seat.before;
        met += branch::before(seat.child, |child| branch::count(block, child, symbol));
        block = &pool.blocks[branch::link(block, seat.child)];
    }
    met + leaf::rank(block, symbol as u8, left)
}

/// How many marks of the whole tree are a symbol.
pub fn count(pool: &Pool, record: &Record, symbol: usize) -> usize {
    let root = &pool.blocks[record.root];
    if record.height == 0 {
        leaf::rank(root, symbol as u8, record.length)
    } else {
        branch::before(2, |child| branch::count(root, child, symbol))
            + if entries(root) == MOST_BRANCH { branch::count(root, 2, symbol) } else { 0 }
    }
}

/// The place of the `ordinal`-th `symbol`, which is there.
pub fn select(pool: &Pool, record: &Record, symbol: usize, ordinal: usize) -> usize {
    let mut block = &pool.blocks[record.root];
    let mut left = ordinal;
    let mut before = 0;
    for _ in 0..record.height {
        let seat = branch::seat(block, left, |child| branch::count(block, child, symbol));
        left -= seat.before;
        before += branch::before(seat.child, |child| branch::marks(block, child));
        block = &pool.blocks[branch::link(block, seat.child)];
    }
    before + leaf::select(block, symbol as u8, left)
}

/// A tree under edit: the pool, the map, the name and its record, put back at the end.
pub struct Edit<'a, 'b> {
    pub pool: &'a mut Pool<'b>,
    pub map: &'a mut Map,
    pub name: usize,
    pub record: Record,
}

impl Edit<'_, '_> {
    /// Opens the name with an empty leaf.
    pub fn open(&mut self) {
        self.record.root = self.map.take(self.name);
        let root = &mut self.pool.blocks[self.record.root];
        set_form(root);
        if !cfg!(fault = "reopening_keeps_marks") {
            set_entries(root, 0);
        }
        self.record.length = entries(root);
        self.pool.put_record(self.name, self.record);
    }

    pub fn insert(&mut self, place: usize, mark: u8) {
        let mut path = Path::default();
        let (number, left) = self.way_in(&mut path, place, mark);
        let block = &mut self.pool.blocks[number];
        if entries(block) < MOST_LEAF {
            leaf::insert(block, left, mark);
        } else {
            let upper = leaf::insert_split(block, left, mark);
            self.split_up(&path, number, upper);
        }
        self.record.length += 1;
        self.pool.put_record(self.name, self.record);
    }

    /// The leaf that takes a place and what is left of the place there; the entries on the way tell of one mark more.
    fn way_in(&mut self, path: &mut Path, place: usize, mark: u8) -> (usize, usize) {
        let mut number = self.record.root;
        let mut left = place;
        for step in &mut path[..self.record.height] {
            let block = &mut self.pool.blocks[number];
            let seat = branch::seat(block, left, |child| branch::marks(block, child));
            branch::add_mark(block, seat.child, mark as usize);
            *step = Step { block: number, child: seat.child };
            left -= seat.before;
            number = branch::link(block, seat.child);
        }
        (number, left)
    }

    /// Puts the upper part of a split block beside it, and splits the full branches above it.
    fn split_up(&mut self, path: &Path, lower: usize, upper: Block) {
        let mut lower = lower;
        let mut upper = self.store(upper);
        for level in 0..self.record.height {
            let step = path[self.record.height - 1 - level];
            let right = self.entry_of(upper, level);
            let left = self.lower_entry(lower, level, step, &right);
            let parent = &mut self.pool.blocks[step.block];
            branch::put_entry(parent, step.child, &left);
            if entries(parent) < MOST_BRANCH {
                return branch::insert(parent, step.child + 1, &right);
            }
            let half = branch::insert_split(parent, step.child + 1, &right);
            upper = self.store(half);
            lower = step.block;
        }
        self.grow(lower, upper);
    }

    /// The entry of the lower part of a split block.
    fn lower_entry(&self, lower: usize, level: usize, step: Step, upper: &Entry) -> Entry {
        let mut entry = self.entry_of(lower, level);
        if cfg!(fault = "split_leaves_a_count") {
            let symbol = self.record.alphabet - 1;
            let old = branch::count(&self.pool.blocks[step.block], step.child, symbol) as u16;
            entry.summary.counts[symbol] = old.max(upper.summary.counts[symbol]);
        }
        entry
    }

    fn entry_of(&self, number: usize, level: usize) -> Entry {
        Entry { link: number, summary: Summary::of(&self.pool.blocks[number], level) }
    }

    fn store(&mut self, block: Block) -> usize {
        let number = self.map.take(self.name);
        self.pool.blocks[number] = block;
        number
    }

    /// A new root over two blocks.
    fn grow(&mut self, lower: usize, upper: usize) {
        let level = self.record.height;
        let root = branch::over_two(&self.entry_of(lower, level), &self.entry_of(upper, level));
        self.record.root = self.store(root);
        self.record.height += 1;
    }

    /// Takes a mark out and gives it.
    pub fn delete(&mut self, place: usize) -> u8 {
        let mut path = Path::default();
        let (number, left) = self.way_out(&mut path, place);
        let mark = leaf::delete(&mut self.pool.blocks[number], left);
        for step in &path[..self.record.height] {
            branch::take_mark(&mut self.pool.blocks[step.block], step.child, mark as usize);
        }
        self.record.length -= 1;
        if entries(&self.pool.blocks[number]) < LEAST_LEAF {
            self.mend_up(&path);
        }
        self.pool.put_record(self.name, self.record);
        mark
    }

    fn way_out(&mut self, path: &mut Path, place: usize) -> (usize, usize) {
        let mut number = self.record.root;
        let mut left = place;
        for step in &mut path[..self.record.height] {
            let block = &self.pool.blocks[number];
            let seat = branch::seat(block, left, |child| branch::marks(block, child));
            *step = Step { block: number, child: seat.child };
            left -= seat.before;
            number = branch::link(block, seat.child);
        }
        (number, left)
    }

    /// Mends the short block at the end of a path, and those above that get short by it.
    fn mend_up(&mut self, path: &Path) {
        for level in 0..self.record.height {
            let step = path[self.record.height - 1 - level];
            let joined = self.mend(step.block, self.first_of_pair(step), level);
            if !joined || entries(&self.pool.blocks[step.block]) >= LEAST_BRANCH {
                return;
            }
        }
        if self.record.height > 0 {
            self.collapse();
        }
    }

    /// A short child is mended with its left neighbour, the first with its right one.
    fn first_of_pair(&self, step: Step) -> usize {
        let last_pair = entries(&self.pool.blocks[step.block]) - 2;
        let by_number = cfg!(fault = "shape_goes_by_block_numbers") && step.block % 2 == 1;
        let right = cfg!(fault = "mends_with_the_right") || by_number;
        if right { step.child.min(last_pair) } else { step.child.saturating_sub(1) }
    }

    /// Joins two neighbours or shares out what they have; whether they were joined.
    fn mend(&mut self, parent: usize, first: usize, level: usize) -> bool {
        let left = branch::link(&self.pool.blocks[parent], first);
        let right = branch::link(&self.pool.blocks[parent], first + 1);
        let [low, high] = self.pool.blocks.get_disjoint_mut([left, right]).expect("no block stands twice");
        let joined = if level == 0 { leaf::join_or_share(low, high) } else { branch::join_or_share(low, high) };
        let entry = self.entry_of(left, level);
        branch::put_entry(&mut self.pool.blocks[parent], first, &entry);
        if joined {
            self.unlink(parent, first + 1, right);
        } else {
            let entry = self.entry_of(right, level);
            branch::put_entry(&mut self.pool.blocks[parent], first + 1, &entry);
        }
        joined
    }

    /// Frees a block that was joined to its left neighbour.
    fn unlink(&mut self, parent: usize, child: usize, number: usize) {
        let block = &mut self.pool.blocks[parent];
        if cfg!(fault = "merge_leaves_a_link") && entries(block) == MOST_BRANCH {
            let empty = Summary { marks: 0, counts: [0; SYMBOLS] };
            branch::put_entry(block, child, &Entry { link: number, summary: empty });
        } else {
            branch::remove(block, child);
        }
        self.map.release(number);
    }

    /// A root with one child gives way to it.
    fn collapse(&mut self) {
        let old = self.record.root;
        self.record.root = branch::link(&self.pool.blocks[old], 0);
        self.record.height -= 1;
        self.map.release(old);
    }
}
