//! The library beside the unproved twin, a flat array, the C++ library's rope and, if there is one, another archive of
//! the library, in one run.
//!
//! Times are nanoseconds a frame, the best of some tries. The library and the twin are called with so many
//! frames a call, and every call checks the pool; the flat array and the rope are called once an operation.
//! Tries go through different rounds of random frames: a processor learns the branches of frames that come
//! again and again, and a user's frames don't.

mod contestants;
#[path = "../host/dice.rs"]
#[allow(dead_code)]
mod dice;
mod flat;

use contestants::{BEFORE, Contestant, Frame, Index, LIBRARY, Rope, TWIN, frame};
use dice::Dice;
use flat::Flat;
use std::hint::black_box;
use std::time::Instant;

const LENGTHS: [usize; 4] = [100, 1_000, 4_000, 12_192];
const BATCHES: [usize; 3] = [1, 16, 1_024];
const FRAMES: usize = 1_024;
const TRIES: usize = 192;
/// Different frames for the tries.
const ROUNDS: usize = 32;
/// Calls of one try.
const CALLS: usize = 16;
const NAME: usize = 5;
const ALPHABET: u8 = 16;

const INSERT: u8 = 3;
const DELETE: u8 = 4;

/// Of a hundred lines: comments, continuations, a few that share storage or are common, the rest others.
fn usual_mark(dice: &mut Dice) -> u8 {
    match dice.below(100) {
        0..30 => 1,
        30..40 => 2,
        40 => 3,
        41..43 => 4,
        _ => 0,
    }
}

fn even_mark(dice: &mut Dice) -> u8 {
    dice.below(16) as u8
}

/// One file under test: its marks, and frames that made it.
struct File {
    marks: Vec<u8>,
    frames: Vec<Frame>,
}

fn some_file(length: usize, name: usize, shares: usize, mark: fn(&mut Dice) -> u8) -> File {
    let mut dice = Dice::new(length as u64);
    let mut file = File { marks: Vec::new(), frames: vec![frame(1, name, ALPHABET, shares)] };
    for n in 1..=length {
        let (place, mark) = (dice.between(1, n), mark(&mut dice));
        file.marks.insert(place - 1, mark);
        file.frames.push(frame(INSERT, name, mark, place));
    }
    file
}

/// Frames that are timed, and frames that come before them.
struct Round {
    before: Vec<Frame>,
    frames: Vec<Frame>,
}

/// One try of a contestant at a round: the nanoseconds of an operation in it.
type Try<'a> = Box<dyn Fn(usize) -> f64 + 'a>;

/// A try of so many operations. What prepares it is not counted, nor is a first go, at another round, that warms up what the contestants
/// before it left cold.
fn one_try<'a, T>(operations: usize, prepare: impl Fn(usize) -> T + 'a, work: impl Fn(&mut T, usize) + 'a) -> Try<'a> {
    Box::new(move |round| {
        let other = (round + 1) % ROUNDS;
        work(&mut prepare(other), other);
        let mut subject = prepare(round);
        let start = Instant::now();
        work(&mut subject, round);
        let took = start.elapsed().as_nanos() as f64 / operations as f64;
        black_box(subject);
        took
    })
}

/// The least time of each contestant, no number where it has none. They take turns, so that a slow or a fast spell of the machine meets
/// all of them, and tries are short, so that some of them aren't broken off by other work. The first two exchange places from turn to
/// turn, also where a round comes again, so that neither always follows the same other.
fn best<const MANY: usize>(contestants: [Option<Try>; MANY]) -> [f64; MANY] {
    let mut least = [f64::NAN; MANY];
    for turn in 0..TRIES {
        let exchanged = (turn + turn / ROUNDS) % 2;
        for place in 0..MANY {
            let k = if place < 2 { place ^ exchanged } else { place };
            let took = contestants[k].as_ref().map_or(f64::NAN, |once| once(turn % ROUNDS));
            least[k] = least[k].min(took); // the number, where one of the two is none
        }
    }
    least
}

/// The library's time, each other's time and the library's over it, as the end of a line. The other archive's come last, where there is
/// one; no number is a dash.
fn times(library: f64, others: &[f64], before: f64, digits: usize) -> String {
    let shown = |value: f64, digits: usize| if value.is_nan() { "-".to_string() } else { format!("{value:.digits$}") };
    let beside = |other: &f64| format!(" {:>10} {:>8}", shown(*other, digits), shown(library / other, 2));
    let last = BEFORE.map(|_| beside(&before)).unwrap_or_default();
    format!("{:>10}{}{last}", shown(library, digits), others.iter().map(beside).collect::<String>())
}

/// The heading over `times`.
fn headings(others: &[&str]) -> String {
    let beside = |other: &str| format!(" {:>10} {:>8}", format!("{other} ns"), "ratio");
    let last = BEFORE.map(|_| beside("before")).unwrap_or_default();
    format!("{:>10}{}{last}", "library ns", others.iter().map(|other| beside(other)).collect::<String>())
}

/// A round of queries of one kind, each at a random place.
fn queries(code: u8, file: &File, seed: u64) -> Round {
    let mut dice = Dice::new(seed);
    let length = file.marks.len();
    let one = |dice: &mut Dice| {
        let place = dice.between(1, length);
        let symbol = file.marks[place - 1];
        let ordinal = file.marks[..place].iter().filter(|&&mark| mark == symbol).count();
        match code {
            5 => frame(5, NAME, 0, place),
            6 => frame(6, NAME, symbol, place),
            _ => frame(7, NAME, symbol, ordinal),
        }
    };
    Round { before: vec![], frames: (0..FRAMES).map(|_| one(&mut dice)).collect() }
}

/// Deletes at random places, and the inserts that follow them: the file shrinks by `many` marks and grows again.
fn edits(file: &File, many: usize, seed: u64) -> [Vec<Frame>; 2] {
    let mut dice = Dice::new(seed);
    let length = file.marks.len();
    let deletes = (0..many).map(|k| frame(DELETE, NAME, 0, dice.between(1, length - k))).collect();
    let inserts =
        (0..many).map(|k| frame(INSERT, NAME, usual_mark(&mut dice), dice.between(1, length - many + k + 1))).collect();
    [deletes, inserts]
}

fn number(frame: &Frame) -> usize {
    u32::from_be_bytes([frame[4], frame[5], frame[6], frame[7]]) as usize
}

/// A frame done on a flat array.
fn on_flat(flat: &mut Flat, frame: &Frame) -> usize {
    match frame[0] {
        INSERT => flat.insert(number(frame), frame[2]),
        DELETE => flat.delete(number(frame)),
        5 => flat.access(number(frame)),
        6 => flat.rank(frame[2], number(frame)),
        _ => flat.select(frame[2], number(frame)),
    }
}

fn on_rope(rope: &mut Rope, frame: &Frame) -> usize {
    match frame[0] {
        INSERT => rope.insert(number(frame), frame[2]),
        _ => return rope.delete(number(frame)) as usize,
    }
    0
}

fn indexed(contestant: Contestant, file: &File) -> Index {
    let mut index = Index::new(contestant);
    index.run(&file.frames, 1_024);
    index
}

/// The calls of a try are few where each has one frame, since each checks the pool.
fn try_index<'a>(contestant: Contestant, file: &File, rounds: &'a [Round], batch: usize) -> Try<'a> {
    let filled = indexed(contestant, file);
    let after = |round: &Round| {
        let mut index = filled.clone();
        index.run(&round.before, 1_024);
        index
    };
    let ready: Vec<Index> = rounds.iter().map(after).collect();
    let many = rounds[0].frames.len().min(CALLS * batch);
    let work = move |index: &mut Index, round: usize| {
        index.run(&rounds[round].frames[..many], batch);
        assert!(index.all_well(many.min(batch)), "no frame of the benchmark is refused");
    };
    one_try(many, move |round| ready[round].clone(), work)
}

fn try_flat<'a>(file: &'a File, rounds: &'a [Round]) -> Try<'a> {
    let prepare = |round: usize| {
        let mut flat = Flat::of(&file.marks);
        rounds[round].before.iter().for_each(|frame| _ = on_flat(&mut flat, frame));
        flat
    };
    let work = |flat: &mut Flat, round: usize| {
        rounds[round].frames.iter().for_each(|frame| _ = black_box(on_flat(flat, frame)))
    };
    one_try(rounds[0].frames.len(), prepare, work)
}

fn try_rope<'a>(file: &'a File, rounds: &'a [Round]) -> Try<'a> {
    let prepare = |round: usize| {
        let mut rope = Rope::of(&file.marks);
        rounds[round].before.iter().for_each(|frame| _ = on_rope(&mut rope, frame));
        rope
    };
    let work = |rope: &mut Rope, round: usize| {
        rounds[round].frames.iter().for_each(|frame| _ = black_box(on_rope(rope, frame)))
    };
    one_try(rounds[0].frames.len(), prepare, work)
}

/// The library gives the same answers as the twin and the other archive, before their times are compared.
fn same_answers(file: &File, frames: &[Frame]) {
    for other in [Some(TWIN), BEFORE].into_iter().flatten() {
        let [mut library, mut other] = [LIBRARY, other].map(|contestant| indexed(contestant, file));
        for call in frames.chunks(1_024) {
            library.call(call.as_flattened());
            other.call(call.as_flattened());
            assert_eq!(library.answers()[..8 * call.len()], other.answers()[..8 * call.len()], "the same answers");
        }
    }
}

/// One line of the table. Edits of a short file are fewer than the largest batch: the line tells how many a call had.
fn row(operation: &str, file: &File, rounds: &[Round], batch: usize) {
    let batch = batch.min(rounds[0].frames.len());
    let edits = operation == "insert" || operation == "delete";
    let [library, before, twin, flat, rope] = best([
        Some(try_index(LIBRARY, file, rounds, batch)),
        BEFORE.map(|contestant| try_index(contestant, file, rounds, batch)),
        Some(try_index(TWIN, file, rounds, batch)),
        Some(try_flat(file, rounds)),
        edits.then(|| try_rope(file, rounds)),
    ]);
    let times = times(library, &[twin, flat, rope], before, 1);
    println!("{operation:<8} {:>6} {batch:>6} {times}", file.marks.len());
}

fn operations() {
    println!("{:<8} {:>6} {:>6} {}", "command", "n", "a call", headings(&["twin", "flat", "rope"]));
    for length in LENGTHS {
        let file = some_file(length, NAME, length.div_ceil(24), usual_mark);
        for (operation, code) in [("access", 5), ("rank", 6), ("select", 7)] {
            let rounds = rounds(|seed| queries(code, &file, seed));
            same_answers(&file, &rounds[0].frames);
            BATCHES.iter().for_each(|&batch| row(operation, &file, &rounds, batch));
        }
        let many = FRAMES.min(length / 4);
        let edits = |seed| edits(&file, many, seed);
        same_answers(&file, &edits(0).concat());
        let deletes = rounds(|seed| Round { before: vec![], frames: edits(seed)[0].clone() });
        let inserts = rounds(|seed| {
            let [before, frames] = edits(seed);
            Round { before, frames }
        });
        for batch in BATCHES {
            row("insert", &file, &inserts, batch);
            row("delete", &file, &deletes, batch);
        }
    }
}

fn rounds(one: impl Fn(u64) -> Round) -> Vec<Round> {
    (0..ROUNDS as u64).map(one).collect()
}

/// The check of a full pool: a call without frames, beside a plain sum of the bytes of all blocks held.
fn checks() {
    println!("\n{:<8} {:>6} {:>6} {}", "check", "marks", "names", headings(&["twin", "sum"]));
    for (label, mark) in [("usual", usual_mark as fn(&mut Dice) -> u8), ("even", even_mark)] {
        for names in [1, 16] {
            let shares = |name: usize| 508 * (name + 1) / names - 508 * name / names;
            let files: Vec<File> =
                (0..names).map(|name| some_file(24 * shares(name), name, shares(name), mark)).collect();
            let filled = |contestant| {
                let mut index = Index::new(contestant);
                files.iter().for_each(|file| index.run(&file.frames, 1_024));
                index
            };
            let checked = |contestant| {
                let ready = filled(contestant);
                one_try(CALLS, move |_| ready.clone(), |index, _| (0..CALLS).for_each(|_| index.call(&[])))
            };
            let ready = filled(TWIN);
            let blocks = held(ready.pool());
            let summed =
                one_try(CALLS, |_| (), |_, _| (0..CALLS).for_each(|_| _ = black_box(plain_sum(black_box(blocks)))));
            let [library, before, twin, sum] =
                best([Some(checked(LIBRARY)), BEFORE.map(checked), Some(checked(TWIN)), Some(summed)]);
            let marks = files.iter().map(|file| file.marks.len()).sum::<usize>();
            println!("{label:<8} {marks:>6} {names:>6} {}", times(library, &[twin, sum], before, 0));
        }
    }
}

/// The held blocks of a pool of the twin's that was only filled: it takes the lowest free block, so they come first.
fn held(pool: &[u8]) -> &[u8] {
    let blocks = pool[512..].chunks(128);
    let many = blocks.filter(|block| block.iter().any(|&byte| byte != 0)).count();
    &pool[512..512 + 128 * many]
}

#[inline(never)]
fn plain_sum(bytes: &[u8]) -> u32 {
    bytes.iter().map(|&byte| byte as u32).sum()
}

fn main() {
    operations();
    checks();
}
