//! Sizes, words, and the directory: docs/LAYOUT.md in code.

pub const BLOCK_BYTES: usize = 128;
pub const DIRECTORY_BYTES: usize = 512;
pub const LEAST_POOL: usize = DIRECTORY_BYTES + BLOCK_BYTES;
pub const MOST_POOL: usize = 65_536;
pub const MOST_SHARES: usize = (MOST_POOL - DIRECTORY_BYTES) / BLOCK_BYTES;

pub const NAMES: usize = 16;
pub const SYMBOLS: usize = 16;
pub const MARKS_PER_SHARE: usize = 24;
pub const MOST_HEIGHT: usize = 7;

pub const LEAST_LEAF: usize = 63;
pub const MOST_LEAF: usize = 125;
pub const LEAST_BRANCH: usize = 2;
pub const MOST_BRANCH: usize = 3;

const HEADER_BYTES: usize = 128;
const RECORD_BYTES: usize = 24;
const LAYOUT_NUMBER: u8 = 1;
const FORM_AT: usize = 125;
const ENTRIES_AT: usize = 126;

pub type Block = [u8; BLOCK_BYTES];
pub type RecordBytes = [u8; RECORD_BYTES];

/// The offsets in a block, as bytes: a comparison with them stays as narrow as the marks.
pub const OFFSETS: Block = {
    let mut offsets = [0; BLOCK_BYTES];
    let mut at = 0;
    while at < BLOCK_BYTES {
        offsets[at] = at as u8;
        at += 1;
    }
    offsets
};

pub fn word<const N: usize>(bytes: &[u8; N], at: usize) -> usize {
    u16::from_le_bytes([bytes[at], bytes[at + 1]]) as usize
}

pub fn put_word<const N: usize>(bytes: &mut [u8; N], at: usize, value: usize) {
    bytes[at..at + 2].copy_from_slice(&(value as u16).to_le_bytes());
}

/// How many entries a block has.
pub fn entries(block: &Block) -> usize {
    word(block, ENTRIES_AT)
}

pub fn set_entries(block: &mut Block, many: usize) {
    put_word(block, ENTRIES_AT, many);
}

/// A block's form is 0: one mark to a byte.
pub fn has_form(block: &Block) -> bool {
    block[FORM_AT] == 0
}

pub fn set_form(block: &mut Block) {
    block[FORM_AT] = 0;
}

pub fn allowed_length(length: usize) -> bool {
    let least = if cfg!(fault = "format_takes_512") { DIRECTORY_BYTES } else { LEAST_POOL };
    length % BLOCK_BYTES == 0 && (least..=MOST_POOL).contains(&length)
}

pub fn format(bytes: &mut [u8]) -> u32 {
    let longer = cfg!(fault = "format_takes_longer_pools") && bytes.len() > MOST_POOL;
    if !allowed_length(bytes.len()) && !longer {
        return 101;
    }
    let set = if cfg!(fault = "format_leaves_blocks") { DIRECTORY_BYTES } else { bytes.len() };
    bytes[..set].fill(0);
    bytes[0] = LAYOUT_NUMBER;
    0
}

/// The record of an open name.
#[derive(Clone, Copy)]
pub struct Record {
    pub alphabet: usize,
    pub height: usize,
    pub shares: usize,
    pub root: usize,
    pub length: usize,
}

impl Record {
    pub fn room(&self) -> usize {
        MARKS_PER_SHARE * self.shares
    }
}

/// A pool of an allowed length, taken apart.
pub struct Pool<'a> {
    header: &'a mut [u8; HEADER_BYTES],
    records: &'a mut [RecordBytes],
    pub blocks: &'a mut [Block],
}

impl<'a> Pool<'a> {
    pub fn of(bytes: &'a mut [u8]) -> Pool<'a> {
        let (directory, rest) = bytes.split_at_mut(DIRECTORY_BYTES);
        let (header, records) = directory.split_first_chunk_mut().expect("a directory has a header");
        let (records, _) = records.as_chunks_mut();
        let (blocks, _) = rest.as_chunks_mut();
        Pool { header, records, blocks }
    }

    pub fn shares(&self) -> usize {
        self.blocks.len()
    }

    pub fn good_header(&self) -> bool {
        self.header[0] == LAYOUT_NUMBER && self.header[1..].iter().all(|&byte| byte == 0)
    }

    pub fn is_open(&self, name: usize) -> bool {
        self.records[name][0] != 0
    }

    pub fn record_bytes(&self, name: usize) -> &RecordBytes {
        &self.records[name]
    }

    pub fn record(&self, name: usize) -> Record {
        let bytes = &self.records[name];
        Record {
            alphabet: bytes[1] as usize,
            height: bytes[2] as usize,
            shares: word(bytes, 4),
            root: word(bytes, 6),
            length: word(bytes, 8),
        }
    }

    pub fn put_record(&mut self, name: usize, record: Record) {
        let bytes = &mut self.records[name];
        bytes[0] = 1;
        bytes[1] = record.alphabet as u8;
        bytes[2] = record.height as u8;
        put_word(bytes, 4, record.shares);
        put_word(bytes, 6, record.root);
        put_word(bytes, 8, record.length);
    }

    pub fn clear_record(&mut self, name: usize) {
        self.records[name].fill(0);
    }

    pub fn promised(&self) -> usize {
        self.records.iter().map(|bytes| word(bytes, 4)).sum()
    }
}
