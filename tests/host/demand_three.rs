//! Demand 3: one name's answers go by its own frames and the statuses of its openings alone.

use crate::index::*;
use crate::lender::Lender;
use crate::lent::Outcome;
use crate::player::{CHURN, MIXED, Player, Style};

/// Shares that the other names leave, so that every opening of the name that fits in one run fits in the other.
const RESERVE: usize = 40;
const FRAMES: usize = 2_500;

/// Two runs with pools of different sizes and other neighbours: the same frames to one name get the same answers.
pub fn same_for_name() -> Outcome<String> {
    let (mut answers, mut deepest) = (0, 0);
    for seed in 0..40 {
        let name = seed as usize % NAMES;
        let frames = frames_of(seed, name);
        let first = run(100 + seed, name, &frames, 60 + 3 * seed as usize, MIXED)?;
        let second = run(200 + seed, name, &frames, 508 - 7 * seed as usize, CHURN)?;
        if first != second {
            let differs = first.iter().zip(&second).position(|(a, b)| a != b).unwrap_or(0);
            return Err(format!(
                "seed {seed}: frame {} to name {name} is answered {} in one run and {} in another",
                hexadecimal(&frames[differs]),
                hexadecimal(&first[differs]),
                hexadecimal(&second[differs]),
            ));
        }
        answers += first.len();
        deepest = first.iter().map(|answer| answer[3]).fold(deepest, u8::max);
    }
    Ok(format!("{answers} answers twice, depths up to {deepest}"))
}

/// Frames that name one name, made for a pool that has what it may open with.
fn frames_of(seed: u64, name: usize) -> Vec<Frame> {
    let style = Style { opening: 2, query: 300, wrong: 80, shares: RESERVE, reserve: 0 };
    let mut player = Player::new(seed, style, &[name]);
    let mut alone = Index::new(RESERVE);
    let mut frames = Vec::new();
    while frames.len() < FRAMES {
        let frame = player.next(&alone);
        let opens_by_size = frame[0] == OPEN && alone.status(&frame) == 12;
        if frame[1] as usize == name && !(opens_by_size && number_of(&frame) < 509) {
            alone.respond(&frame);
            frames.push(frame);
        }
    }
    frames
}

/// The answers to a name's frames, with frames to all other names between them.
fn run(seed: u64, name: usize, frames: &[Frame], shares: usize, style: Style) -> Outcome<Vec<Frame>> {
    let others: Vec<usize> = (0..NAMES).filter(|&other| other != name).collect();
    let mut player = Player::new(seed, Style { reserve: RESERVE, ..style }, &others);
    let mut lender = Lender::of_shares(shares)?;
    let mut ahead = lender.index.clone();
    let mut mixed = Vec::new();
    for frame in frames {
        for _ in 0..player.dice.below(4) {
            let between = next_of_others(&mut player, &ahead, name);
            ahead.respond(&between);
            mixed.push(between);
        }
        ahead.respond(frame);
        mixed.push(*frame);
    }
    let mut answers = Vec::new();
    for call in mixed.chunks(player.dice.between(1, 1024)) {
        let answered = lender.call(call)?;
        answers.extend(answered.into_iter().filter(|answer| answer[1] as usize == name));
    }
    lender.read()?;
    Ok(answers)
}

/// A frame to another name. Where the name itself is open its shares are promised, and the reserve counts them.
fn next_of_others(player: &mut Player, index: &Index, name: usize) -> Frame {
    let mut seen = index.clone();
    if let Some(open) = &mut seen.names[name] {
        open.shares = 0;
    }
    player.next(&seen)
}
