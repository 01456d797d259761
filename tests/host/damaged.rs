//! Pools damaged at random: a call ends with 104 and nothing changed exactly where the pool isn't sound by
//! docs/LAYOUT.md, and goes on as the index that the pool then means where it is.

use crate::dice::Dice;
use crate::index::*;
use crate::layout::{self, BLOCK, ENTRY, Reading, block_at, record_at};
use crate::lender::Lender;
use crate::lent::{self, Lent, Outcome};
use crate::player::{EDITS, MIXED, Player, Style};

pub fn damaged_pools() -> Outcome<String> {
    let (mut refused, mut sound) = (0, 0);
    for seed in 0..60 {
        let (lender, mut dice) = some_pool(seed)?;
        let reading = lender.read()?;
        for _ in 0..250 {
            let mut bytes = lender.pool.bytes().to_vec();
            for _ in 0..dice.pick(&[1, 1, 1, 2, 5]) {
                damage(&mut bytes, &reading, &mut dice);
            }
            match layout::read(&bytes) {
                Err(why) => {
                    expect_refusal(&bytes, &why)?;
                    refused += 1;
                }
                Ok(reading) => {
                    expect_index(&bytes, reading, &mut dice)?;
                    sound += 1;
                }
            }
        }
    }
    if refused < 1000 || sound < 1000 {
        return Err(format!("the trial is lopsided: {refused} refused, {sound} sound"));
    }
    Ok(format!("{refused} refused, {sound} still sound"))
}

fn some_pool(seed: u64) -> Outcome<(Lender, Dice)> {
    let style = if seed % 2 == 0 { MIXED } else { Style { shares: 80, ..EDITS } };
    let mut player = Player::of_all_names(5000 + seed, style);
    let mut lender = Lender::of_shares([4, 40, 124, 250][seed as usize % 4])?;
    for _ in 0..8 {
        let batch = player.batch(&lender.index, 400);
        lender.call(&batch)?;
    }
    Ok((lender, player.dice))
}

/// One change somewhere that matters, or anywhere.
fn damage(bytes: &mut [u8], reading: &Reading, dice: &mut Dice) {
    let open = reading.index.open_names();
    let held: Vec<usize> = reading.held.iter().flatten().copied().collect();
    if open.is_empty() || dice.percent(15) {
        let at = dice.below(bytes.len());
        bytes[at] = dice.byte();
        return;
    }
    let name = dice.pick(&open);
    let record = record_at(name);
    let block = block_at(dice.pick(&held));
    let (other, root) = (dice.pick(&held), reading.held[name][0]);
    match dice.below(14) {
        0 => bytes[record + dice.below(24)] = dice.pick(&[0, 1, 2, 3, 7, 8, 16, 17, 255]),
        1 => put_word(bytes, record + 4, dice.pick(&[0, 1, reading.index.shares, 600, 65_535])),
        2 => put_word(bytes, record + 6, other),
        3 => bytes[record + 8] = bytes[record + 8].wrapping_add(dice.pick(&[1, 255])),
        4 => bytes[block + dice.below(BLOCK)] ^= 1 << dice.below(8),
        5 => bytes[block + dice.below(BLOCK)] = dice.below(16) as u8,
        6 => put_word(bytes, block + ENTRY * dice.below(3), dice.pick(&[other, root, 0, reading.index.shares, 65_535])),
        7 => put_word(bytes, block + 126, dice.pick(&[0, 1, 2, 3, 4, 62, 63, 125, 126, 65_535])),
        8 => bytes[block + 125] = dice.pick(&[1, 2, 255]),
        9 => bytes.swap(block + dice.below(63), block + dice.below(63)),
        10 => move_count(bytes, block + ENTRY * dice.below(3), dice),
        11 => bytes[block + dice.pick(&[108, 115, 124])] = dice.byte(),
        12 => exchange_records(bytes, reading, dice),
        _ => bytes[dice.below(128)] ^= dice.pick(&[0, 1, 128]),
    }
}

fn put_word(bytes: &mut [u8], at: usize, value: usize) {
    bytes[at..at + 2].copy_from_slice(&(value as u16).to_le_bytes());
}

/// One symbol's count given to another symbol: the sum of all counts stays.
fn move_count(bytes: &mut [u8], entry: usize, dice: &mut Dice) {
    let (from, to) = (entry + 4 + 2 * dice.below(16), entry + 4 + 2 * dice.below(16));
    if to + 2 <= bytes.len() && bytes[from] > 0 && bytes[to] < 255 {
        bytes[from] -= 1;
        bytes[to] += 1;
    }
}

/// Two names change places: still sound, and another index.
fn exchange_records(bytes: &mut [u8], reading: &Reading, dice: &mut Dice) {
    let open = reading.index.open_names();
    let (one, other) = (record_at(dice.pick(&open)), record_at(dice.pick(&open)));
    for offset in 0..layout::RECORD {
        bytes.swap(one + offset, other + offset);
    }
}

fn expect_refusal(bytes: &[u8], why: &str) -> Outcome<()> {
    let commands = Lent::of(frame(UNPROMISED, 255, 0, 0).as_slice());
    match lent::run(&mut Lent::of(bytes), &commands, &mut Lent::filled(8, 0x77))? {
        104 => Ok(()),
        status => Err(format!("a pool that isn't sound ({why}) gives {status}")),
    }
}

/// All of a pool that is still sound is read back through queries, and edits go on from there.
fn expect_index(bytes: &[u8], reading: Reading, dice: &mut Dice) -> Outcome<()> {
    let mut lender = Lender::of_bytes(bytes, reading.index);
    for name in lender.index.open_names() {
        read_back(&mut lender, name, dice)?;
    }
    let mut player = Player::of_all_names(dice.roll(), MIXED);
    let batch = player.batch(&lender.index, 60);
    lender.call(&batch)?;
    lender.read().map(|_| ())
}

fn read_back(lender: &mut Lender, name: usize, dice: &mut Dice) -> Outcome<()> {
    let held = lender.index.names[name].as_ref().expect("an open name");
    let (length, alphabet) = (held.marks.len(), held.alphabet);
    let mut asked = vec![frame(LENGTH, name, 0, 0)];
    let stride = if dice.percent(10) { 1 } else { 17 };
    for place in (1..=length).step_by(stride) {
        let symbol = dice.below(alphabet);
        asked.push(frame(ACCESS, name, 0, place));
        asked.push(frame(RANK, name, symbol, place));
        asked.push(frame(SELECT, name, symbol, place / alphabet + 1));
    }
    for call in asked.chunks(1024) {
        lender.call(call)?;
    }
    Ok(())
}
