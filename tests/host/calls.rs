//! Whole calls: lengths of the three buffers, refusals and their order.

use crate::dice::Dice;
use crate::index::*;
use crate::layout;
use crate::lender::Lender;
use crate::lent::{self, Lent, Outcome, same};

/// Pools of every allowed length: formatted, asked, promised to the last share, filled a little, emptied.
pub fn allowed_lengths() -> Outcome<String> {
    let mut dice = Dice::new(1);
    for shares in 1..=508 {
        let mut lender = Lender::of_shares(shares)?;
        let mut other = Lent::of(&dice.bytes(lender.pool.len()));
        lent::format(&mut other)?;
        same("a formatted pool, by what stood there,", lender.pool.bytes(), other.bytes())?;
        lender.read()?;
        lender.call(&[frame(UNPROMISED, 255, 0, 0), frame(OPEN, 3, 4, shares + 1), frame(OPEN, 3, 4, shares)])?;
        lender.call(&[frame(INSERT, 3, 1, 1), frame(INSERT, 3, 2, 1), frame(UNPROMISED, 255, 0, 0)])?;
        lender.call(&[frame(ACCESS, 3, 0, 2), frame(RANK, 3, 1, 2), frame(SELECT, 3, 2, 1)])?;
        lender.read()?;
        lender.call(&[frame(DELETE, 3, 0, 1), frame(CLOSE, 3, 0, 0), frame(OPEN, 4, 2, shares)])?;
        lender.read()?;
    }
    Ok("508 pool lengths".to_string())
}

/// Pools of other lengths are refused, by both calls.
pub fn other_lengths() -> Outcome<String> {
    let mut dice = Dice::new(2);
    let mut lengths: Vec<usize> = (0..1400).chain(65_400..65_700).collect();
    lengths.extend([65_664, 131_072]);
    lengths.extend((0..400).map(|_| dice.below(70_000)));
    lengths.retain(|&length| !layout::allowed(length));
    for &length in &lengths {
        let mut pool = Lent::filled(length, dice.byte());
        pool.bytes_mut().iter_mut().take(1).for_each(|byte| *byte = 1);
        let old = pool.clone();
        let formatted = lent::format(&mut pool)?;
        same("the pool of a refused format", old.bytes(), pool.bytes())?;
        let ran = lent::run(&mut pool, &Lent::of(&[]), &mut Lent::of(&[]))?;
        if (formatted, ran) != (101, 101) {
            return Err(format!("a pool of {length} bytes: format gives {formatted}, run {ran}"));
        }
    }
    Ok(format!("{} lengths refused", lengths.len()))
}

/// An empty buffer may stand anywhere: between guard bytes, at no address, at one that no buffer can have.
pub fn empty_buffers() -> Outcome<String> {
    let empties = [Lent::of(&[]), Lent::empty_at(0), Lent::empty_at(1), Lent::empty_at(usize::MAX)];
    let mut sound = Lent::filled(640, 0);
    lent::format(&mut sound)?;
    let question = Lent::of(&frame(UNPROMISED, 255, 0, 0));
    let mut calls = 0;
    for empty in &empties {
        let given = (lent::format(&mut empty.clone())?, lent::mark(empty)?);
        if given != (101, 1) {
            return Err(format!("format of an empty pool and mark of an empty line give {given:?}"));
        }
        for other in &empties {
            for (pool, commands, answers, expected) in [
                (empty, other, empty, 101),
                (empty, &question, other, 101),
                (&sound, empty, other, 0),
                (&sound, empty, &Lent::filled(5, 9), 0),
                (&sound, &question, empty, 103),
                (&Lent::filled(640, 0), empty, other, 104),
            ] {
                let status = lent::run(&mut pool.clone(), commands, &mut answers.clone())?;
                if status != expected {
                    return Err(format!("a call with empty buffers: {status} in place of {expected}"));
                }
                calls += 1;
            }
        }
    }
    Ok(format!("{calls} calls"))
}

/// Command lists and answer rooms of every length around the limits.
pub fn command_lengths() -> Outcome<String> {
    let mut lender = Lender::of_shares(6)?;
    lender.call(&[frame(OPEN, 0, 2, 3), frame(INSERT, 0, 1, 1)])?;
    let question = frame(RANK, 0, 1, 1);
    let answer = lender.index.respond(&question);
    let mut calls = 0;
    for length in 0..=8_300 {
        let commands = Lent::of(&question.repeat(length / 8 + 1)[..length]);
        for room in [length.saturating_sub(1), length, length + 1, length + 8, length + 37] {
            let mut answers = Lent::filled(room, 0xC3);
            let expected = if length % 8 != 0 || length > 8_192 {
                102
            } else if room < length {
                103
            } else {
                0
            };
            let status = lent::run(&mut lender.pool, &commands, &mut answers)?;
            if status != expected {
                return Err(format!("{length} bytes of commands, room for {room}: {status} in place of {expected}"));
            }
            if status == 0 && answers.bytes()[..length] != answer.repeat(length / 8) {
                return Err(format!("{length} bytes of commands: a wrong answer"));
            }
            calls += 1;
        }
    }
    for length in [16_384, 65_536, 65_544] {
        let status = lent::run(&mut lender.pool, &Lent::filled(length, 0), &mut Lent::filled(length, 0))?;
        if status != 102 {
            return Err(format!("{length} bytes of commands: {status} in place of 102"));
        }
    }
    Ok(format!("{calls} calls"))
}

/// Where several refusals apply the first is given.
pub fn order_of_refusals() -> Outcome<String> {
    let mut calls = 0;
    for case in 0..16 {
        let [bad_pool, bad_commands, bad_room, unsound] = [1, 2, 4, 8].map(|bit| case & bit != 0);
        for pool_length in if bad_pool { [0, 511, 512, 639, 65_664] } else { [640, 768, 1024, 8_192, 65_536] } {
            for commands_length in if bad_commands { [1, 7, 9, 8_193, 8_200] } else { [8, 16, 24, 800, 8_192] } {
                for room in if bad_room { [0, commands_length - 1] } else { [commands_length, commands_length + 3] } {
                    let mut pool = Lent::filled(pool_length, 0);
                    pool.bytes_mut().iter_mut().take(1).for_each(|byte| *byte = if unsound { 2 } else { 1 });
                    let commands = Lent::filled(commands_length, 0);
                    let status = lent::run(&mut pool, &commands, &mut Lent::filled(room, 9))?;
                    let applies = [(bad_pool, 101), (bad_commands, 102), (bad_room, 103), (unsound, 104)];
                    let expected = applies.iter().find(|(applies, _)| *applies).map_or(0, |&(_, number)| number);
                    if status != expected {
                        let lengths = format!("pool {pool_length}, commands {commands_length}, room {room}");
                        return Err(format!("{lengths}, unsound: {unsound}: {status} in place of {expected}"));
                    }
                    calls += 1;
                }
            }
        }
    }
    Ok(format!("{calls} calls"))
}

/// The edges of the rules: the shares of a fresh pool, and commands with the answers written out.
const EDGES: [(usize, &[(&str, &str)]); 8] = [
    // an empty open name
    (
        1,
        &[
            ("0100040000000001", "0000000000000000"),
            ("0800000000000000", "0000000000000000"),
            ("0600000000000000", "0000000000000000"),
            ("0600000000000001", "0900000000000000"),
            ("0500000000000001", "0900000000000000"),
            ("0400000000000001", "0900000000000000"),
            ("0700000000000001", "0A00000000000000"),
        ],
    ),
    // 1, 2, 2 in alphabet 4
    (
        1,
        &[
            ("0100040000000001", "0000000000000000"),
            ("0300010000000001", "0000000000000001"),
            ("0300020000000002", "0000000000000002"),
            ("0300020000000003", "0000000000000003"),
            ("0600020000000003", "0000000000000002"),
            ("0700020000000003", "0A00000000000000"),
            ("0300000000000005", "0900000000000000"),
            ("0300000000000004", "0000000000000004"),
        ],
    ),
    // alphabets
    (9, &[("0100010000000001", "0600000000000000"), ("0100110000000001", "0600000000000000")]),
    (9, &[("0100020000000001", "0000000000000000"), ("0101100000000001", "0001000000000000")]),
    // one share
    (1, &[("0100040000000002", "0C00000000000000"), ("0100040000000001", "0000000000000000")]),
    // symbol before place, place before room, and numbers that aren't cut
    (
        2,
        &[
            ("0107040000000002", "0007000000000000"),
            ("0307040000000000", "0807000000000000"),
            ("0307030000010001", "0907000000000000"),
            ("0307030000000001", "0007000000000001"),
            ("0507000000010001", "0907000000000000"),
            ("0607030000010001", "0907000000000000"),
            ("0707030000010001", "0A07000000000000"),
            ("0707030000000000", "0A07000000000000"),
            ("0707030000000001", "0007000000000001"),
            ("0108040000010001", "0C08000000000000"),
            ("01080400FFFFFFFF", "0C08000000000000"),
        ],
    ),
    // codes and names
    (
        2,
        &[
            ("0900000000000000", "0200000000000000"),
            ("0063000000000000", "0163000000000000"),
            ("0AFF010101010101", "01FF000000000000"),
            ("0110040000000001", "0210000000000000"),
            ("09FF000000000000", "00FF000000000002"),
            ("09FF010000000000", "03FF000000000000"),
            ("09FF000100000000", "03FF000000000000"),
            ("09FF000000000001", "03FF000000000000"),
            ("0203000000000001", "0303000000000000"),
            ("0203010000000000", "0303000000000000"),
            ("0803000000000000", "0503000000000000"),
        ],
    ),
    // 4 before 6, 6 before 7, 7 before all else
    (
        1,
        &[
            ("0105020000000001", "0005000000000000"),
            ("0105010000000000", "0405000000000000"),
            ("0106010000000000", "0606000000000000"),
            ("0106100000000000", "0706000000000000"),
        ],
    ),
];

/// Each edge has the answer that is written.
pub fn edges() -> Outcome<String> {
    for (shares, lines) in EDGES {
        let mut lender = Lender::of_shares(shares)?;
        for (line, written) in lines {
            let answer = lender.call(&[frame_of(line)])?[0];
            if hexadecimal(&answer) != *written {
                return Err(format!("{line}: {written} is written, and {} answered", hexadecimal(&answer)));
            }
        }
    }
    full_name()?;
    Ok("the list of RULES, Edges".to_string())
}

/// q = 1, alphabet 4, in a pool of one share: the 24th insert is taken, after that 11 and 9.
fn full_name() -> Outcome<()> {
    let mut lender = Lender::of_shares(1)?;
    lender.call(&[frame(OPEN, 0, 4, 1)])?;
    for place in 1..=24 {
        lender.call(&[frame(INSERT, 0, 2, place)])?;
    }
    for (place, status) in [(25, 11), (1, 11), (26, 9), (0, 9)] {
        let answer = lender.call(&[frame(INSERT, 0, 2, place)])?[0];
        if answer[0] != status {
            return Err(format!("insert at {place} of a full name gives {}", answer[0]));
        }
    }
    Ok(())
}
