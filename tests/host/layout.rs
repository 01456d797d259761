//! Reads a pool by docs/LAYOUT.md: what it means and which blocks each name holds, or why it isn't sound.

use crate::index::{BRANCH, Index, LEAF, MARKS_PER_SHARE, NAMES, Name, Node};

pub const DIRECTORY: usize = 512;
pub const BLOCK: usize = 128;
pub const RECORD: usize = 24;
pub const ENTRY: usize = 36;

pub struct Reading {
    pub index: Index,
    /// The blocks of each name, parents before their children.
    pub held: [Vec<usize>; NAMES],
}

pub fn allowed(length: usize) -> bool {
    length % BLOCK == 0 && (640..=65_536).contains(&length)
}

pub fn word(bytes: &[u8], at: usize) -> usize {
    bytes[at] as usize + 256 * bytes[at + 1] as usize
}

pub fn record_at(name: usize) -> usize {
    128 + RECORD * name
}

pub fn block_at(block: usize) -> usize {
    DIRECTORY + BLOCK * block
}

pub fn read(pool: &[u8]) -> Result<Reading, String> {
    demand(allowed(pool.len()), "length")?;
    demand(pool[0] == 1 && pool[1..128].iter().all(|&byte| byte == 0), "header")?;
    let shares = (pool.len() - DIRECTORY) / BLOCK;
    let mut reader = Reader { pool, met: vec![false; shares], held: Vec::new(), alphabet: 0 };
    let mut reading = Reading { index: Index::new(shares), held: Default::default() };
    let mut promised = 0;
    for name in 0..NAMES {
        reading.index.names[name] = reader.name(name)?;
        promised += reading.index.names[name].as_ref().map_or(0, |open| open.shares);
        reading.held[name] = std::mem::take(&mut reader.held);
    }
    demand(promised <= shares, "promises")?;
    Ok(reading)
}

fn demand(holds: bool, what: &str) -> Result<(), String> {
    if holds { Ok(()) } else { Err(what.to_string()) }
}

struct Reader<'a> {
    pool: &'a [u8],
    met: Vec<bool>,
    held: Vec<usize>,
    alphabet: usize,
}

impl Reader<'_> {
    fn name(&mut self, name: usize) -> Result<Option<Name>, String> {
        let record = &self.pool[record_at(name)..record_at(name) + RECORD];
        if record.iter().all(|&byte| byte == 0) {
            return Ok(None);
        }
        let (alphabet, height) = (record[1] as usize, record[2] as usize);
        let (shares, root, length) = (word(record, 4), word(record, 6), word(record, 8));
        demand(record[0] == 1, "kind")?;
        demand((2..=16).contains(&alphabet), "alphabet")?;
        demand(height <= 7, "height")?;
        demand(record[3] == 0 && record[10..].iter().all(|&byte| byte == 0), "zeros of a record")?;
        demand(shares >= 1, "shares")?;
        demand(length <= MARKS_PER_SHARE * shares, "room")?;
        self.alphabet = alphabet;
        let least = if height == 0 { 0 } else { BRANCH.0 };
        let tree = self.node(root, height, least)?;
        demand(tree.marks() == length, "length of a name")?;
        Ok(Some(Name { alphabet, shares, marks: tree.flat(), tree }))
    }

    fn node(&mut self, block: usize, level: usize, least: usize) -> Result<Node, String> {
        demand(block < self.met.len(), "link")?;
        demand(!self.met[block], "links that meet")?;
        self.met[block] = true;
        self.held.push(block);
        let bytes = &self.pool[block_at(block)..block_at(block) + BLOCK];
        let many = word(bytes, 126);
        let most = if level == 0 { LEAF.1 } else { BRANCH.1 };
        demand(bytes[125] == 0, "form")?;
        demand((least..=most).contains(&many), "fill")?;
        if level == 0 {
            let marks = bytes[..many].to_vec();
            demand(marks.iter().all(|&mark| (mark as usize) < self.alphabet), "mark")?;
            return Ok(Node::Leaf(marks));
        }
        let entries = bytes[..ENTRY * many].chunks(ENTRY);
        entries.map(|entry| self.child(entry, level - 1)).collect::<Result<_, _>>().map(Node::Branch)
    }

    fn child(&mut self, entry: &[u8], level: usize) -> Result<Node, String> {
        let least = if level == 0 { LEAF.0 } else { BRANCH.0 };
        let child = self.node(word(entry, 0), level, least)?;
        let marks = child.flat();
        demand(word(entry, 2) == marks.len(), "marks below")?;
        let mut counts = [0; 16];
        for mark in marks {
            counts[mark as usize] += 1;
        }
        demand((0..16).all(|symbol| word(entry, 4 + 2 * symbol) == counts[symbol]), "counts")?;
        Ok(child)
    }
}

/// Every depth meets RULES, Depth, and no name holds more blocks than it was promised.
pub fn keeps_the_rules(reading: &Reading) -> Result<(), String> {
    for (name, held) in reading.index.names.iter().zip(&reading.held) {
        let Some(name) = name else { continue };
        let (length, depth) = (name.marks.len(), name.tree.height() + 1);
        let measure = (length / 48).max(1);
        demand(1 << (depth - 1) <= measure * measure, "depth by the rule")?;
        demand(length > 95 || depth == 1, "depth of 95 marks or fewer")?;
        demand(held.len() <= name.shares, "blocks within the promise")?;
    }
    Ok(())
}
