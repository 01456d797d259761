//! Calls and their refusals, frames and their statuses.

use crate::check;
use crate::layout::{self, NAMES, Pool, Record, SYMBOLS};
use crate::map::Map;
use crate::tree::{self, Edit};
use core::sync::atomic::{AtomicBool, Ordering};

const FRAME: usize = 8;
const MOST_COMMANDS: usize = 8_192;
const NO_NAME: u8 = 255;

const OPEN: u8 = 1;
const CLOSE: u8 = 2;
const INSERT: u8 = 3;
const DELETE: u8 = 4;
const ACCESS: u8 = 5;
const RANK: u8 = 6;
const SELECT: u8 = 7;
const LENGTH: u8 = 8;
const UNPROMISED: u8 = 9;

struct Command {
    code: u8,
    name: u8,
    symbol: u8,
    zero: u8,
    number: u32,
}

impl Command {
    fn of(bytes: &[u8; FRAME]) -> Command {
        let [code, name, symbol, zero, n0, n1, n2, n3] = *bytes;
        let number = u32::from_be_bytes([n0, n1, n2, n3]);
        let cut = cfg!(fault = "numbers_cut_to_sixteen_bits");
        Command { code, name, symbol, zero, number: if cut { number & 0xFFFF } else { number } }
    }

    fn uses_symbol(&self) -> bool {
        matches!(self.code, OPEN | INSERT | RANK | SELECT)
    }

    fn uses_number(&self) -> bool {
        matches!(self.code, OPEN | INSERT | DELETE | ACCESS | RANK | SELECT)
    }

    /// Statuses 1 to 3, which look at the frame alone.
    fn malformed(&self) -> Option<u8> {
        if !(OPEN..=UNPROMISED).contains(&self.code) {
            Some(1)
        } else if if self.code == UNPROMISED { self.name != NO_NAME } else { self.name as usize >= NAMES } {
            Some(2)
        } else if self.spare() && !(cfg!(fault = "code_09_takes_any_field") && self.code == UNPROMISED) {
            Some(3)
        } else {
            None
        }
    }

    /// The fourth byte or an unused field isn't zero.
    fn spare(&self) -> bool {
        self.zero != 0 || (!self.uses_symbol() && self.symbol != 0) || (!self.uses_number() && self.number != 0)
    }
}

#[derive(Default)]
struct Answer {
    symbol: u8,
    depth: u8,
    value: u32,
}

impl Answer {
    fn value(value: usize) -> Answer {
        Answer { value: value as u32, ..Answer::default() }
    }
}

struct Index<'a> {
    pool: Pool<'a>,
    map: Map,
}

/// Runs a call: the number of frames run, or the number of its refusal.
pub fn run(pool: &mut [u8], commands: &[u8], answers: &mut [u8]) -> Result<usize, u32> {
    if let Some(status) = refused_by_lengths(pool, commands, answers) {
        return Err(status);
    }
    let (frames, _) = commands.as_chunks::<FRAME>();
    if cfg!(fault = "no_check_without_frames") && frames.is_empty() {
        return Ok(0);
    }
    let pool = Pool::of(pool);
    let map = check::check(&pool).ok_or(104u32)?;
    if !cfg!(fault = "does_nothing") {
        Index { pool, map }.answer_all(frames, answers);
    }
    Ok(frames.len())
}

/// Statuses 101 to 103, which look at the lengths alone.
fn refused_by_lengths(pool: &[u8], commands: &[u8], answers: &mut [u8]) -> Option<u32> {
    let bad_commands = commands.len() % FRAME != 0 || commands.len() > MOST_COMMANDS;
    if cfg!(fault = "commands_looked_at_first") && bad_commands {
        Some(102)
    } else if !layout::allowed_length(pool.len()) {
        Some(101)
    } else if bad_commands {
        Some(102)
    } else if answers.len() < commands.len() {
        if cfg!(fault = "refusal_writes_answers") {
            answers.fill(0);
        }
        Some(103)
    } else if cfg!(fault = "refuses_all") {
        Some(104)
    } else {
        None
    }
}

/// What a fault keeps from one call to the next.
static LAST_WAS_EMPTY: AtomicBool = AtomicBool::new(false);

/// The impostors that don't look, or look at the first frame only.
fn pretends(number: usize) -> bool {
    cfg!(fault = "fixed_answer") || (cfg!(fault = "pretends_after_the_first_frame") && number > 0)
}

fn pretended(frame: &[u8; FRAME]) -> [u8; FRAME] {
    [0, frame[1], 0, 0, 0, 0, 0, 0]
}

impl<'a> Index<'a> {
    fn answer_all(&mut self, frames: &[[u8; FRAME]], answers: &mut [u8]) {
        let (room, past) = answers.as_chunks_mut::<FRAME>();
        let empty = frames.is_empty();
        let forgets = cfg!(fault = "remembers_an_empty_call") && LAST_WAS_EMPTY.swap(empty, Ordering::Relaxed);
        for (number, (frame, answer)) in frames.iter().zip(room.iter_mut()).enumerate() {
            let pretends = pretends(number) || (forgets && frame[0] == INSERT);
            *answer = if pretends { pretended(frame) } else { self.answer(frame) };
        }
        if cfg!(fault = "empty_call_leaves_a_trace") && empty {
            self.mark_unused_byte(0);
        }
        if cfg!(fault = "writes_past_the_answers") && room.len() == frames.len() {
            past.fill(0);
        }
        if cfg!(fault = "clears_the_whole_room") {
            room[frames.len()..].fill([0; FRAME]);
        }
    }

    /// Changes a byte of a block where no entry stands.
    fn mark_unused_byte(&mut self, number: usize) {
        let block = &mut self.pool.blocks[number];
        if layout::entries(block) < layout::MOST_LEAF {
            block[layout::MOST_LEAF - 1] ^= 1;
        }
    }

    fn answer(&mut self, frame: &[u8; FRAME]) -> [u8; FRAME] {
        let command = Command::of(frame);
        match self.refusal(&command) {
            Some(status) => [status, command.name, 0, 0, 0, 0, 0, 0],
            None => {
                let Answer { symbol, depth, value } = self.carry_out(&command);
                let [v0, v1, v2, v3] = value.to_be_bytes();
                [0, command.name, symbol, depth, v0, v1, v2, v3]
            }
        }
    }

    /// The lowest status that applies.
    fn refusal(&self, command: &Command) -> Option<u8> {
        if let Some(status) = command.malformed() {
            return Some(status);
        }
        match command.code {
            UNPROMISED => None,
            OPEN => self.opening_refused(command),
            _ if !self.pool.is_open(command.name as usize) => Some(5),
            _ => self.refused(command, &self.pool.record(command.name as usize)),
        }
    }

    fn opening_refused(&self, command: &Command) -> Option<u8> {
        if self.pool.is_open(command.name as usize) {
            Some(4)
        } else if !(2..=SYMBOLS).contains(&(command.symbol as usize)) {
            Some(6)
        } else if command.number == 0 {
            Some(7)
        } else if command.number as usize > self.unpromised() {
            Some(12)
        } else {
            None
        }
    }

    /// The refusals of commands on an open name.
    fn refused(&self, command: &Command, record: &Record) -> Option<u8> {
        let place = command.number as usize;
        let places = match command.code {
            INSERT => 1..=record.length + 1,
            DELETE | ACCESS => 1..=record.length,
            RANK => 0..=record.length,
            _ => 0..=usize::MAX,
        };
        if cfg!(fault = "place_before_symbol") && !places.contains(&place) {
            Some(9)
        } else if matches!(command.code, INSERT | RANK | SELECT) && command.symbol as usize >= record.alphabet {
            Some(8)
        } else if !places.contains(&place) {
            Some(9)
        } else if command.code == SELECT && !self.selects(record, command.symbol as usize, place) {
            Some(10)
        } else if command.code == INSERT && self.is_full(record) {
            Some(11)
        } else {
            None
        }
    }

    fn selects(&self, record: &Record, symbol: usize, ordinal: usize) -> bool {
        (1..=tree::count(&self.pool, record, symbol)).contains(&ordinal)
    }

    fn is_full(&self, record: &Record) -> bool {
        let ten = cfg!(fault = "full_when_ten_names_hold_all") && self.open_names() == 10;
        let by_blocks = cfg!(fault = "full_when_no_block_is_free") || ten;
        record.length >= record.room() || (by_blocks && self.map.lowest_free().is_none())
    }

    fn unpromised(&self) -> usize {
        self.pool.shares() - self.pool.promised()
    }

    /// Does what a command that isn't refused asks for.
    fn carry_out(&mut self, command: &Command) -> Answer {
        let name = command.name as usize;
        let number = command.number as usize;
        match command.code {
            OPEN => self.open(name, command.symbol as usize, number),
            CLOSE => self.close(name),
            INSERT => self.insert(name, number, command.symbol),
            DELETE => self.delete(name, number),
            UNPROMISED => Answer::value(self.unpromised()),
            _ => self.query(command),
        }
    }

    fn query(&mut self, command: &Command) -> Answer {
        let record = self.pool.record(command.name as usize);
        let (symbol, number) = (command.symbol as usize, command.number as usize);
        match command.code {
            ACCESS => {
                let (symbol, depth) = tree::access(&self.pool, &record, number);
                self.leave_a_trace(&record);
                let depth = if cfg!(fault = "depth_counts_open_names") { depth + self.open_names() } else { depth };
                let crowded = cfg!(fault = "crowded_depth") && record.length > 500 && self.open_names() > 10;
                let depth = if crowded { depth - 1 } else { depth };
                Answer { symbol, depth: depth as u8, value: 0 }
            }
            RANK => Answer::value(tree::rank(&self.pool, &record, symbol, number)),
            SELECT => Answer::value(tree::select(&self.pool, &record, symbol, number)),
            LENGTH => Answer::value(record.length),
            _ => Answer::default(),
        }
    }

    /// The fault of a query that writes, where no entry stands.
    fn leave_a_trace(&mut self, record: &Record) {
        if cfg!(fault = "query_leaves_a_trace") && record.length < layout::MOST_LEAF {
            self.pool.blocks[record.root][layout::MOST_LEAF - 1] = 1;
        }
    }

    fn open_names(&self) -> usize {
        (0..NAMES).filter(|&name| self.pool.is_open(name)).count()
    }

    fn edit(&mut self, name: usize, record: Record) -> Edit<'_, 'a> {
        Edit { pool: &mut self.pool, map: &mut self.map, name, record }
    }

    fn open(&mut self, name: usize, alphabet: usize, shares: usize) -> Answer {
        self.edit(name, Record { alphabet, height: 0, shares, root: 0, length: 0 }).open();
        Answer::default()
    }

    fn close(&mut self, name: usize) -> Answer {
        self.pool.clear_record(name);
        if !cfg!(fault = "closing_keeps_blocks") {
            self.map.release_all(name);
        }
        Answer::default()
    }

    fn insert(&mut self, name: usize, place: usize, mark: u8) -> Answer {
        self.scribble(name);
        let record = self.pool.record(name);
        self.edit(name, record).insert(place, mark);
        self.sign(name);
        Answer::value(record.length + 1)
    }

    /// The fault of an edit that leaves the pool's address in it, where no entry stands.
    fn sign(&mut self, name: usize) {
        if cfg!(fault = "pool_bears_its_address") {
            let (record, address) = (self.pool.record(name), self.pool.blocks.as_ptr().addr().to_le_bytes());
            if record.length < layout::MOST_LEAF {
                self.pool.blocks[record.root][layout::MOST_LEAF - 1] = address.iter().fold(0, |sum, byte| sum ^ byte);
            }
        }
    }

    fn delete(&mut self, name: usize, place: usize) -> Answer {
        let record = self.pool.record(name);
        let symbol = self.edit(name, record).delete(place);
        let symbol = if cfg!(fault = "delete_answers_no_mark") { 0 } else { symbol };
        Answer { symbol, depth: 0, value: record.length as u32 - 1 }
    }

    /// The impostor that writes to another name's block, where no entry stands.
    fn scribble(&mut self, name: usize) {
        if cfg!(fault = "scribbles_on_another_name") {
            if let Some(number) = self.map.of_another(name) {
                self.mark_unused_byte(number);
            }
        }
    }
}
