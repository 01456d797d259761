//! Long random sessions, whole and in parts, here and elsewhere.

use crate::index::*;
use crate::layout;
use crate::lender::Lender;
use crate::lent::{self, Lent, Outcome, same};
use crate::player::{CHURN, EDITS, MIXED, Player, Style};

const POOLS: [usize; 8] = [1, 2, 5, 16, 40, 124, 300, 508];
const BATCHES: [usize; 6] = [1, 2, 7, 60, 400, 1024];

/// What sessions came to: how often each status was answered, the longest name and the greatest height.
#[derive(Default)]
struct Reach {
    statuses: [usize; 13],
    longest: usize,
    highest: usize,
}

/// Sessions on pools of many sizes, in calls of many sizes; the pool is read after each call.
pub fn random_sessions() -> Outcome<String> {
    let mut reach = Reach::default();
    for (seed, shares) in (0..).zip(POOLS) {
        let all: Vec<usize> = (0..NAMES).collect();
        for (style, names, many) in [(MIXED, &all[..], 12_000), (EDITS, &[4, 11], 40_000), (CHURN, &all, 12_000)] {
            session(Player::new(seed, style, names), shares, many, &mut reach)?;
        }
    }
    let Reach { statuses, longest, highest } = reach;
    if statuses.contains(&0) || highest < 4 {
        return Err(format!("the sessions reach too little: statuses {statuses:?}, height {highest}"));
    }
    let frames: usize = statuses.iter().sum();
    Ok(format!("{frames} frames, statuses from 0 {statuses:?}, up to {longest} marks and height {highest}"))
}

fn session(mut player: Player, shares: usize, many: usize, reach: &mut Reach) -> Outcome<()> {
    let named = |why| format!("{shares} shares: {why}");
    let mut lender = Lender::of_shares(shares)?;
    let mut frames = 0;
    while frames < many {
        let size = player.dice.pick(&BATCHES);
        let batch = player.batch(&lender.index, size);
        for answer in lender.call(&batch).map_err(named)? {
            reach.statuses[answer[0] as usize] += 1;
        }
        for name in lender.read().map_err(named)?.index.names.iter().flatten() {
            reach.longest = reach.longest.max(name.marks.len());
            reach.highest = reach.highest.max(name.tree.height());
        }
        frames += size;
    }
    Ok(())
}

/// One name with all 508 shares, to 12,192 marks and back to none, growing at either end or anywhere.
pub fn largest_name() -> Outcome<String> {
    let mut deepest = 0;
    for habit in 0..4 {
        let mut lender = Lender::of_shares(508)?;
        lender.call(&[frame(OPEN, 9, 16, 508)])?;
        let mut dice = crate::dice::Dice::new(habit);
        let mut place = |last: usize| match habit {
            0 => 1,
            1 => last,
            2 => dice.between(1, last),
            _ => last / 2 + 1,
        };
        for start in (0..12_192).step_by(1_016) {
            let grown: Vec<Frame> =
                (start..start + 1_016).map(|n| frame(INSERT, 9, n * n % 16, place(n + 1).min(n + 1))).collect();
            lender.call(&grown)?;
            lender.read()?;
        }
        deepest = deepest.max(ask_around(&mut lender, 9, 12_192)?);
        let full = [frame(INSERT, 9, 0, 1), frame(INSERT, 9, 0, 12_193), frame(INSERT, 9, 0, 12_194)];
        let statuses: Vec<u8> = lender.call(&full)?.iter().map(|answer| answer[0]).collect();
        if statuses != [11, 11, 9] {
            return Err(format!("inserts into the largest name give {statuses:?}"));
        }
        for start in (0..12_192).rev().step_by(1_016) {
            let shrunk: Vec<Frame> =
                (start + 1 - 1_016..=start).rev().map(|n| frame(DELETE, 9, 0, place(n + 1).min(n + 1))).collect();
            lender.call(&shrunk)?;
            lender.read()?;
        }
        ask_around(&mut lender, 9, 0)?;
    }
    Ok(format!("12,192 marks four times, depth up to {deepest}"))
}

/// Every few places and ordinals of a name; the largest depth.
fn ask_around(lender: &mut Lender, name: usize, length: usize) -> Outcome<u8> {
    let mut deepest = 0;
    for place in (1..=length).step_by(97) {
        let symbol = place % 16;
        let asked =
            [frame(ACCESS, name, 0, place), frame(RANK, name, symbol, place), frame(SELECT, name, symbol, place / 16)];
        deepest = deepest.max(lender.call(&asked)?[0][3]);
    }
    Ok(deepest)
}

/// One call gives the same answers and meaning as the same frames in several.
pub fn one_call_or_several() -> Outcome<String> {
    let mut calls = 0;
    for seed in 0..120 {
        let mut player = Player::of_all_names(1000 + seed, if seed % 2 == 0 { CHURN } else { MIXED });
        let shares = player.dice.pick(&[1, 3, 16, 60, 200]);
        let mut together = Lender::of_shares(shares)?;
        let warm = player.batch(&together.index, 600);
        together.call(&warm)?;
        let mut apart = together.clone();
        let frames = player.batch(&together.index, 900);
        let answers = together.call(&frames)?;
        let mut several = Vec::new();
        let mut rest = &frames[..];
        while !rest.is_empty() {
            let (now, later) = rest.split_at(player.dice.between(1, 60).min(rest.len()));
            several.extend(apart.call(now)?);
            apart.call(&[])?;
            rest = later;
            calls += 1;
        }
        if answers != several || together.read()?.index != apart.read()?.index {
            return Err(format!("seed {seed}: one call and several differ"));
        }
    }
    Ok(format!("120 calls and the same in {calls}"))
}

/// A pool saved, its bytes elsewhere, taken up again; another that goes on with the same calls has the
/// same bytes in the end. A longer pool with the saved one in front goes on as well.
pub fn saved_pools() -> Outcome<String> {
    let mut saved = 0;
    for seed in 0..60 {
        let mut player = Player::of_all_names(2000 + seed, if seed % 2 == 0 { EDITS } else { MIXED });
        let mut lender = Lender::of_shares([2, 30, 124, 400][seed as usize % 4])?;
        for _ in 0..6 {
            let batch = player.batch(&lender.index, 300);
            lender.call(&batch)?;
            let mut again = Lender::of_bytes(lender.pool.bytes(), lender.index.clone());
            let more = player.batch(&lender.index, 200);
            lender.call(&more)?;
            again.call(&more)?;
            same("a pool by where it stands", lender.pool.bytes(), again.pool.bytes())?;
            saved += 1;
        }
        go_on_longer(&lender, &mut player)?;
    }
    Ok(format!("{saved} pools taken up again"))
}

fn go_on_longer(lender: &Lender, player: &mut Player) -> Outcome<()> {
    let more = player.dice.between(1, 100);
    let tail = player.dice.bytes(layout::BLOCK * more);
    let mut index = lender.index.clone();
    index.shares += more;
    let mut longer = Lender::of_bytes(&[lender.pool.bytes(), &tail].concat(), index);
    for _ in 0..3 {
        let batch = player.batch(&longer.index, 200);
        longer.call(&batch)?;
        longer.read()?;
    }
    Ok(())
}

/// Frame by frame: refused frames and queries change no byte, and no frame changes a byte of a block or
/// of the record of a name that it doesn't name.
pub fn others_untouched() -> Outcome<String> {
    let neighbours = Style { opening: 5, query: 120, wrong: 40, shares: 30, reserve: 0 };
    let all: Vec<usize> = (0..NAMES).collect();
    let kinds = [(MIXED, &all[..], 40), (CHURN, &all, 16), (neighbours, &[1, 6, 12], 90), (neighbours, &[0, 15], 40)];
    let (mut frames, mut beside_branches) = (0, 0);
    for seed in 0..24 {
        let (style, names, shares) = kinds[seed as usize % kinds.len()];
        let mut player = Player::new(3000 + seed, style, names);
        let mut lender = Lender::of_shares(shares)?;
        for _ in 0..2_000 {
            let frame = player.next(&lender.index);
            beside_branches += edits_beside_a_branch(&lender.index, &frame) as usize;
            lender.careful_call(&frame)?;
            frames += 1;
        }
    }
    if beside_branches < 2_000 {
        return Err(format!("only {beside_branches} edits stand beside another name's branches"));
    }
    Ok(format!("{frames} frames, {beside_branches} of them edits beside another name's branches"))
}

fn edits_beside_a_branch(index: &Index, frame: &Frame) -> bool {
    let others = (0..NAMES).filter(|&name| name != frame[1] as usize).filter_map(|name| index.names[name].as_ref());
    [INSERT, DELETE].contains(&frame[0])
        && index.status(frame) == 0
        && others.map(|name| name.tree.height()).max() > Some(0)
}

/// Every name has one share and no block is free: a name isn't full because of its neighbours.
pub fn no_block_free() -> Outcome<String> {
    for shares in 1..=NAMES {
        let mut lender = Lender::of_shares(shares)?;
        let openings: Vec<Frame> = (0..shares).map(|name| frame(OPEN, name, 4, 1)).collect();
        lender.call(&openings)?;
        for mark in 0..24 {
            let inserts: Vec<Frame> = (0..shares).map(|name| frame(INSERT, name, mark % 4, mark / 2 + 1)).collect();
            lender.call(&inserts)?;
        }
        lender.read()?;
        let churn: Vec<Frame> = (0..100)
            .flat_map(|turn| [frame(CLOSE, turn % shares, 0, 0), frame(OPEN, turn % shares, 2, 1)])
            .flat_map(|opening| [opening, frame(LENGTH, opening[1] as usize, 0, 0)])
            .collect();
        lender.call(&churn)?;
        lender.read()?;
    }
    Ok("pools of 1 to 16 shares".to_string())
}

/// An unsound pool gives 104 also where no frame is to be run, and a call without frames changes nothing.
pub fn no_frames() -> Outcome<String> {
    let mut lender = Lender::of_shares(8)?;
    lender.call(&[frame(OPEN, 1, 4, 8), frame(INSERT, 1, 3, 1)])?;
    let old = lender.pool.clone();
    lender.call(&[])?;
    same("the pool of a call without frames", old.bytes(), lender.pool.bytes())?;
    lender.pool.bytes_mut()[5] = 1;
    let status = lent::run(&mut lender.pool, &Lent::of(&[]), &mut Lent::of(&[]))?;
    if status == 104 { Ok("two calls".to_string()) } else { Err(format!("an unsound pool and no frames: {status}")) }
}
