//! What a user would write first: one flat array a file, edits by memmove, counts in narrow counters.

pub struct Flat {
    marks: Vec<u8>,
}

/// A byte-wide counter doesn't overflow in a piece of this length.
const PIECE: usize = 192;

fn count(marks: &[u8], symbol: u8) -> usize {
    let (pieces, rest) = marks.as_chunks::<PIECE>();
    let in_piece = |piece: &[u8]| piece.iter().fold(0u8, |met, &mark| met + (mark == symbol) as u8) as usize;
    pieces.iter().map(|piece| in_piece(piece)).sum::<usize>() + in_piece(rest)
}

impl Flat {
    pub fn of(marks: &[u8]) -> Flat {
        let mut held = Vec::with_capacity(20_000);
        held.extend_from_slice(marks);
        Flat { marks: held }
    }

    #[inline(never)]
    pub fn access(&self, place: usize) -> usize {
        self.marks[place - 1] as usize
    }

    #[inline(never)]
    pub fn rank(&self, symbol: u8, place: usize) -> usize {
        count(&self.marks[..place], symbol)
    }

    #[inline(never)]
    pub fn select(&self, symbol: u8, ordinal: usize) -> usize {
        let mut left = ordinal;
        let mut before = 0;
        for piece in self.marks.chunks(PIECE) {
            let here = count(piece, symbol);
            if left <= here {
                break;
            }
            left -= here;
            before += PIECE;
        }
        for (at, &mark) in self.marks[before..].iter().enumerate() {
            left -= (mark == symbol) as usize;
            if left == 0 {
                return before + at + 1;
            }
        }
        0
    }

    #[inline(never)]
    pub fn insert(&mut self, place: usize, mark: u8) -> usize {
        self.marks.insert(place - 1, mark);
        self.marks.len()
    }

    #[inline(never)]
    pub fn delete(&mut self, place: usize) -> usize {
        self.marks.remove(place - 1) as usize
    }
}
