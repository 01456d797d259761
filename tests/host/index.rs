//! The index of docs/RULES.md as flat lists, with each name's tree as nested lists beside them.

pub const NAMES: usize = 16;
pub const MARKS_PER_SHARE: usize = 24;
pub const LEAF: (usize, usize) = (63, 125);
pub const BRANCH: (usize, usize) = (2, 3);

pub const OPEN: u8 = 1;
pub const CLOSE: u8 = 2;
pub const INSERT: u8 = 3;
pub const DELETE: u8 = 4;
pub const ACCESS: u8 = 5;
pub const RANK: u8 = 6;
pub const SELECT: u8 = 7;
pub const LENGTH: u8 = 8;
pub const UNPROMISED: u8 = 9;

pub type Frame = [u8; 8];

pub fn frame(code: u8, name: usize, symbol: usize, number: usize) -> Frame {
    let [n0, n1, n2, n3] = (number as u32).to_be_bytes();
    [code, name as u8, symbol as u8, 0, n0, n1, n2, n3]
}

pub fn hexadecimal(frame: &Frame) -> String {
    frame.iter().map(|byte| format!("{byte:02X}")).collect()
}

pub fn frame_of(digits: &str) -> Frame {
    u64::from_str_radix(digits, 16).expect("sixteen digits").to_be_bytes()
}

/// Nested lists, all leaves at one level.
#[derive(Clone, PartialEq)]
pub enum Node {
    Leaf(Vec<u8>),
    Branch(Vec<Node>),
}

use Node::{Branch, Leaf};

impl Node {
    pub fn marks(&self) -> usize {
        match self {
            Leaf(marks) => marks.len(),
            Branch(children) => children.iter().map(Node::marks).sum(),
        }
    }

    pub fn flat(&self) -> Vec<u8> {
        match self {
            Leaf(marks) => marks.clone(),
            Branch(children) => children.iter().flat_map(Node::flat).collect(),
        }
    }

    pub fn height(&self) -> usize {
        match self {
            Leaf(_) => 0,
            Branch(children) => 1 + children[0].height(),
        }
    }

    fn entries(&self) -> usize {
        match self {
            Leaf(marks) => marks.len(),
            Branch(children) => children.len(),
        }
    }

    fn limits(&self) -> (usize, usize) {
        if matches!(self, Leaf(_)) { LEAF } else { BRANCH }
    }

    /// Cuts a node with too many entries in two, and gives the upper half.
    fn chop(&mut self) -> Option<Node> {
        if self.entries() <= self.limits().1 {
            return None;
        }
        let half = self.entries() / 2;
        Some(match self {
            Leaf(marks) => Leaf(marks.split_off(half)),
            Branch(children) => Branch(children.split_off(half)),
        })
    }

    fn append(&mut self, right: Node) {
        match (self, right) {
            (Leaf(marks), Leaf(more)) => marks.extend(more),
            (Branch(children), Branch(more)) => children.extend(more),
            _ => unreachable!("neighbours stand at one level"),
        }
    }

    fn insert(&mut self, place: usize, mark: u8) -> Option<Node> {
        match self {
            Leaf(marks) => marks.insert(place - 1, mark),
            Branch(children) => {
                let (k, left) = seat(children, place);
                if let Some(upper) = children[k].insert(left, mark) {
                    children.insert(k + 1, upper);
                }
            }
        }
        self.chop()
    }

    fn delete(&mut self, place: usize) {
        match self {
            Leaf(marks) => {
                marks.remove(place - 1);
            }
            Branch(children) => {
                let (k, left) = seat(children, place);
                children[k].delete(left);
                if children[k].entries() < children[k].limits().0 {
                    mend(children, k.saturating_sub(1));
                }
            }
        }
    }

    /// The nodes from this one to the leaf that bears a place, both counted.
    fn depth(&self, place: usize) -> usize {
        match self {
            Leaf(_) => 1,
            Branch(children) => {
                let (k, left) = seat(children, place);
                1 + children[k].depth(left)
            }
        }
    }
}

/// The first child that reaches a place, or the last, and what is left of the place there.
fn seat(children: &[Node], place: usize) -> (usize, usize) {
    let mut left = place;
    for (k, child) in children[..children.len() - 1].iter().enumerate() {
        let marks = child.marks();
        if left <= marks {
            return (k, left);
        }
        left -= marks;
    }
    (children.len() - 1, left)
}

/// Joins two neighbours and cuts them again if they are too large for one.
fn mend(children: &mut Vec<Node>, first: usize) {
    let right = children.remove(first + 1);
    children[first].append(right);
    if let Some(upper) = children[first].chop() {
        children.insert(first + 1, upper);
    }
}

#[derive(Clone, PartialEq)]
pub struct Name {
    pub alphabet: usize,
    pub shares: usize,
    pub marks: Vec<u8>,
    pub tree: Node,
}

impl Name {
    pub fn new(alphabet: usize, shares: usize) -> Name {
        Name { alphabet, shares, marks: Vec::new(), tree: Leaf(Vec::new()) }
    }

    pub fn room(&self) -> usize {
        MARKS_PER_SHARE * self.shares
    }

    pub fn count(&self, symbol: usize) -> usize {
        self.rank(symbol, self.marks.len())
    }

    fn rank(&self, symbol: usize, place: usize) -> usize {
        self.marks[..place].iter().filter(|&&mark| mark as usize == symbol).count()
    }

    fn select(&self, symbol: usize, ordinal: usize) -> usize {
        let mut places = (1..).zip(&self.marks).filter(|&(_, &mark)| mark as usize == symbol);
        places.nth(ordinal - 1).expect("as many are there").0
    }

    fn insert(&mut self, place: usize, mark: u8) {
        self.marks.insert(place - 1, mark);
        if let Some(upper) = self.tree.insert(place, mark) {
            let lower = std::mem::replace(&mut self.tree, Branch(Vec::new()));
            self.tree = Branch(vec![lower, upper]);
        }
    }

    fn delete(&mut self, place: usize) -> u8 {
        self.tree.delete(place);
        if let Branch(children) = &mut self.tree {
            if children.len() == 1 {
                self.tree = children.remove(0);
            }
        }
        self.marks.remove(place - 1)
    }
}

#[derive(Clone, PartialEq)]
pub struct Index {
    pub shares: usize,
    pub names: [Option<Name>; NAMES],
}

impl Index {
    pub fn new(shares: usize) -> Index {
        Index { shares, names: Default::default() }
    }

    pub fn unpromised(&self) -> usize {
        self.shares - self.names.iter().flatten().map(|name| name.shares).sum::<usize>()
    }

    pub fn open_names(&self) -> Vec<usize> {
        (0..NAMES).filter(|&name| self.names[name].is_some()).collect()
    }

    /// The lowest number that applies to a frame, or 0.
    pub fn status(&self, frame: &Frame) -> u8 {
        let [code, byte, symbol, zero, ..] = *frame;
        let number = number_of(frame);
        let uses_symbol = [OPEN, INSERT, RANK, SELECT].contains(&code);
        let uses_number = uses_symbol || code == DELETE || code == ACCESS;
        if code == 0 || code > UNPROMISED {
            1
        } else if if code == UNPROMISED { byte != 255 } else { byte > 15 } {
            2
        } else if zero != 0 || (symbol != 0 && !uses_symbol) || (number != 0 && !uses_number) {
            3
        } else if code == UNPROMISED {
            0
        } else {
            match (&self.names[byte as usize], code) {
                (Some(_), OPEN) => 4,
                (None, OPEN) => self.opening_status(symbol as usize, number),
                (None, _) => 5,
                (Some(name), _) => name_status(name, code, symbol as usize, number),
            }
        }
    }

    fn opening_status(&self, alphabet: usize, shares: usize) -> u8 {
        if !(2..=16).contains(&alphabet) {
            6
        } else if shares == 0 {
            7
        } else if shares > self.unpromised() {
            12
        } else {
            0
        }
    }

    pub fn respond(&mut self, frame: &Frame) -> Frame {
        let status = self.status(frame);
        if status != 0 {
            return [status, frame[1], 0, 0, 0, 0, 0, 0];
        }
        let (symbol, depth, value) = self.carry_out(frame[0], frame[1] as usize, frame[2], number_of(frame));
        let [v0, v1, v2, v3] = (value as u32).to_be_bytes();
        [0, frame[1], symbol, depth as u8, v0, v1, v2, v3]
    }

    /// Symbol, depth and value of the answer to a command that isn't refused.
    fn carry_out(&mut self, code: u8, byte: usize, symbol: u8, number: usize) -> (u8, usize, usize) {
        match code {
            OPEN => self.names[byte] = Some(Name::new(symbol as usize, number)),
            CLOSE => self.names[byte] = None,
            UNPROMISED => return (0, 0, self.unpromised()),
            _ => return on_name(self.names[byte].as_mut().expect("an open name"), code, symbol, number),
        }
        (0, 0, 0)
    }
}

fn on_name(name: &mut Name, code: u8, symbol: u8, number: usize) -> (u8, usize, usize) {
    match code {
        INSERT => {
            name.insert(number, symbol);
            (0, 0, name.marks.len())
        }
        DELETE => (name.delete(number), 0, name.marks.len()),
        ACCESS => (name.marks[number - 1], name.tree.depth(number), 0),
        RANK => (0, 0, name.rank(symbol as usize, number)),
        SELECT => (0, 0, name.select(symbol as usize, number)),
        _ => (0, 0, name.marks.len()),
    }
}

fn name_status(name: &Name, code: u8, symbol: usize, number: usize) -> u8 {
    let length = name.marks.len();
    let outside = match code {
        INSERT => number < 1 || number > length + 1,
        DELETE | ACCESS => number < 1 || number > length,
        RANK => number > length,
        _ => false,
    };
    if [INSERT, RANK, SELECT].contains(&code) && symbol >= name.alphabet {
        8
    } else if outside {
        9
    } else if code == SELECT && (number == 0 || number > name.count(symbol)) {
        10
    } else if code == INSERT && length == name.room() {
        11
    } else {
        0
    }
}

pub fn number_of(frame: &Frame) -> usize {
    u32::from_be_bytes([frame[4], frame[5], frame[6], frame[7]]) as usize
}
