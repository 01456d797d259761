//! Makes random frames that lead names up and down through the sizes where trees change.

use crate::dice::Dice;
use crate::index::*;

#[derive(Clone, Copy)]
enum Habit {
    Anywhere,
    Front,
    Back,
    Cursor,
}

/// What a player does, of a thousand frames; the rest are edits.
#[derive(Clone, Copy)]
pub struct Style {
    pub opening: usize,
    pub query: usize,
    pub wrong: usize,
    /// Shares of an opening at most.
    pub shares: usize,
    /// Shares that openings leave unpromised.
    pub reserve: usize,
}

pub const MIXED: Style = Style { opening: 40, query: 300, wrong: 80, shares: 20, reserve: 0 };
pub const EDITS: Style = Style { opening: 0, query: 100, wrong: 10, shares: 508, reserve: 0 };
pub const CHURN: Style = Style { opening: 300, query: 150, wrong: 100, shares: 12, reserve: 0 };

pub struct Player {
    pub dice: Dice,
    style: Style,
    names: Vec<usize>,
    targets: [usize; NAMES],
    current: usize,
    cursor: usize,
    habit: Habit,
}

impl Player {
    /// A player that speaks of the names given.
    pub fn new(seed: u64, style: Style, names: &[usize]) -> Player {
        Player {
            dice: Dice::new(seed),
            style,
            names: names.to_vec(),
            targets: [0; NAMES],
            current: names[0],
            cursor: 1,
            habit: Habit::Anywhere,
        }
    }

    pub fn of_all_names(seed: u64, style: Style) -> Player {
        Player::new(seed, style, &(0..NAMES).collect::<Vec<_>>())
    }

    pub fn next(&mut self, index: &Index) -> Frame {
        let roll = self.dice.below(1000);
        let Style { opening, query, wrong, .. } = self.style;
        if roll < opening {
            self.open_or_close(index)
        } else if roll < opening + query {
            self.query(index)
        } else if roll < opening + query + wrong {
            self.wrong(index)
        } else {
            self.edit(index)
        }
    }

    /// Frames to run in one call, as the index will be when each is run.
    pub fn batch(&mut self, index: &Index, many: usize) -> Vec<Frame> {
        let mut ahead = index.clone();
        let mut frames = Vec::new();
        for _ in 0..many {
            let frame = self.next(&ahead);
            ahead.respond(&frame);
            frames.push(frame);
        }
        frames
    }

    fn some_name(&mut self, index: &Index) -> usize {
        if index.names[self.current].is_none() || self.dice.percent(2) {
            let open: Vec<usize> = self.names.iter().copied().filter(|&name| index.names[name].is_some()).collect();
            self.current = if open.is_empty() { self.dice.pick(&self.names) } else { self.dice.pick(&open) };
            self.habit = self.dice.pick(&[Habit::Anywhere, Habit::Anywhere, Habit::Front, Habit::Back, Habit::Cursor]);
        }
        self.current
    }

    fn open_or_close(&mut self, index: &Index) -> Frame {
        let name = self.dice.pick(&self.names);
        if index.names[name].is_some() {
            return frame(CLOSE, name, 0, 0);
        }
        let most = index.unpromised().saturating_sub(self.style.reserve).min(self.style.shares);
        if most == 0 {
            return frame(OPEN, name, 4, index.shares + self.dice.below(3) + 1);
        }
        let shares = if self.dice.percent(40) { most } else { self.dice.between(1, most) };
        frame(OPEN, name, self.dice.pick(&[2, 3, 4, 5, 15, 16]), shares)
    }

    fn edit(&mut self, index: &Index) -> Frame {
        let name = self.some_name(index);
        let Some(held) = &index.names[name] else { return self.open_or_close(index) };
        let length = held.marks.len();
        if length == self.targets[name] || self.targets[name] > held.room() + 1 {
            self.targets[name] = self.target(held.room());
        }
        if length < self.targets[name] {
            if length == held.room() {
                self.targets[name] = self.target(held.room());
            }
            return frame(INSERT, name, self.mark(held), self.place(length + 1));
        }
        let place = self.place(length.max(1));
        frame(DELETE, name, 0, place)
    }

    /// A length to go to: an end, one past the room, around a size where trees change, or any.
    fn target(&mut self, room: usize) -> usize {
        let around = self.dice.pick(&[63, 96, 126, 190, 250, 380, 1000]) + self.dice.below(4);
        let any = self.dice.below(room + 1);
        self.dice.pick(&[0, room, room + 1, any, around]).min(room + 1)
    }

    fn mark(&mut self, held: &Name) -> usize {
        let common = self.dice.percent(50);
        self.dice.below(if common { held.alphabet.min(3) } else { held.alphabet })
    }

    fn place(&mut self, last: usize) -> usize {
        self.cursor = match self.habit {
            Habit::Front => 1,
            Habit::Back => last,
            Habit::Cursor if self.dice.percent(95) => (self.cursor + 1).min(last),
            _ => self.dice.between(1, last),
        };
        self.cursor
    }

    fn query(&mut self, index: &Index) -> Frame {
        let name = self.some_name(index);
        let Some(held) = &index.names[name] else { return frame(LENGTH, name, 0, 0) };
        let length = held.marks.len();
        let symbol = self.mark(held);
        match self.dice.below(8) {
            0 | 1 => frame(ACCESS, name, 0, self.dice.between(1, length.max(1))),
            2 | 3 => frame(RANK, name, symbol, self.dice.between(0, length)),
            4 | 5 => frame(SELECT, name, symbol, self.dice.between(0, held.count(symbol) + 1)),
            6 => frame(LENGTH, name, 0, 0),
            _ if self.names.len() == NAMES => frame(UNPROMISED, 255, 0, 0),
            _ => frame(ACCESS, name, 0, length + self.dice.below(2)),
        }
    }

    /// A frame with a field at an edge or past it. It may open nothing, so that shares stay as planned.
    fn wrong(&mut self, index: &Index) -> Frame {
        let mut made = if self.dice.percent(50) { self.query(index) } else { self.edit(index) };
        let name = self.dice.pick(&self.names);
        let length = index.names[name].as_ref().map_or(0, |held| held.marks.len());
        match self.dice.below(6) {
            0 => made[0] = self.dice.pick(&[0, 2, 3, 5, 8, 9, 10, 17, 255]),
            1 if self.names.len() == NAMES => made[1] = self.dice.pick(&[0, 15, 16, 99, 255]),
            2 => made[2] = self.dice.pick(&[0, 1, 2, 15, 16, 17, 255]),
            3 => made[3] = self.dice.pick(&[1, 255]),
            4 => {
                let far = self.dice.pick(&[0, length + 1, length + 2, 65_536 + length, 0x1_0001, 0xFFFF_FFFF]);
                made = frame(made[0], made[1] as usize, made[2] as usize, far);
            }
            _ => made = frame(OPEN, name, self.dice.pick(&[0, 1, 4, 17]), self.dice.pick(&[0, 509, 0xFFFF_FFFF])),
        }
        if made[0] == OPEN && index.status(&made) == 0 {
            made[3] = 1;
        }
        made
    }
}
