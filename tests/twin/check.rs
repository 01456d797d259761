//! Whether a pool is sound, by docs/LAYOUT.md, and who holds each of its blocks.

use crate::branch::{self, Summary};
use crate::layout::*;
use crate::map::Map;

struct Walk<'a> {
    blocks: &'a [Block],
    map: &'a mut Map,
    name: usize,
    alphabet: usize,
}

/// The map of a sound pool.
pub fn check(pool: &Pool) -> Option<Map> {
    let mut map = Map::new(pool.shares());
    let good = pool.good_header()
        && (pool.promised() <= pool.shares() || cfg!(fault = "check_skips_promises"))
        && (0..NAMES).all(|name| good_name(pool, &mut map, name));
    good.then_some(map)
}

fn good_name(pool: &Pool, map: &mut Map, name: usize) -> bool {
    if !pool.is_open(name) {
        return pool.record_bytes(name).iter().all(|&byte| byte == 0);
    }
    let record = pool.record(name);
    if !good_record(pool.record_bytes(name), &record) {
        return false;
    }
    let mut walk = Walk { blocks: pool.blocks, map, name, alphabet: record.alphabet };
    if record.height == 0 {
        walk.good_root_leaf(record.root, record.length)
    } else {
        walk.good_branch(record.root, record.height)
            && Summary::of_branch(&pool.blocks[record.root]).marks as usize == record.length
    }
}

fn good_record(bytes: &RecordBytes, record: &Record) -> bool {
    bytes[0] == 1
        && (2..=SYMBOLS).contains(&record.alphabet)
        && record.height <= if cfg!(fault = "check_refuses_height_6") { 5 } else { MOST_HEIGHT }
        && bytes[3] == 0
        && record.shares >= 1
        && record.length <= record.room()
        && bytes[10..].iter().all(|&byte| byte == 0)
}

impl Walk<'_> {
    /// Enters a block that nobody holds yet and that has a fitting number of entries.
    fn enter(&mut self, number: usize, least: usize, most: usize) -> Option<&Block> {
        let meets = number < self.blocks.len() && cfg!(fault = "check_lets_links_meet");
        if !self.map.is_free(number) && !meets {
            return None;
        }
        let block = &self.blocks[number];
        let form = has_form(block) || cfg!(fault = "check_skips_forms");
        let strict = cfg!(fault = "check_refuses_junk_behind_marks") && most == MOST_LEAF;
        let junk = strict && block[entries(block).min(MOST_LEAF)..MOST_LEAF].iter().any(|&byte| byte >= 16);
        if !form || junk || !(least..=most).contains(&entries(block)) {
            return None;
        }
        self.map.hold(number, self.name);
        Some(block)
    }

    fn good_root_leaf(&mut self, number: usize, length: usize) -> bool {
        let alphabet = self.alphabet as u8;
        match self.enter(number, 0, MOST_LEAF) {
            Some(block) => entries(block) == length && block[..length].iter().all(|&mark| mark < alphabet),
            None => false,
        }
    }

    fn good_branch(&mut self, number: usize, level: usize) -> bool {
        let Some(many) = self.enter(number, LEAST_BRANCH, MOST_BRANCH).map(entries) else { return false };
        (0..many).all(|child| self.good_child(number, child, level - 1))
    }

    fn good_child(&mut self, parent: usize, child: usize, level: usize) -> bool {
        let told = branch::entry(&self.blocks[parent], child);
        if level == 0 {
            let alphabet = self.alphabet;
            return match self.enter(told.link, LEAST_LEAF, MOST_LEAF) {
                Some(leaf) => is_told(leaf, &told.summary, alphabet),
                None => false,
            };
        }
        self.good_branch(told.link, level) && Summary::of_branch(&self.blocks[told.link]) == told.summary
    }
}

/// A leaf has the marks that its entry tells. Only symbols told are counted: if they add up to the leaf's
/// size, all its marks are in the alphabet. Differences are gathered and looked at once.
fn is_told(leaf: &Block, told: &Summary, alphabet: usize) -> bool {
    let many = entries(leaf);
    let mut marks = *leaf;
    for (mark, &place) in marks.iter_mut().zip(&OFFSETS) {
        *mark |= ((place >= many as u8) as u8).wrapping_neg();
    }
    let (mut sum, mut wrong) = (0, told.marks ^ many as u16);
    for (symbol, &count) in told.counts.iter().enumerate() {
        if count != 0 {
            wrong |= difference(&marks, symbol as u8, count) | (symbol >= alphabet) as u16;
            sum += count as usize;
        }
    }
    wrong == 0 && sum == many
}

fn difference(marks: &Block, symbol: u8, count: u16) -> u16 {
    let met = marks.iter().fold(0u8, |met, &mark| met + (mark == symbol) as u8);
    if cfg!(fault = "check_skips_counts") { 0 } else { met as u16 ^ count }
}
