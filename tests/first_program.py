#!/usr/bin/env python3
"""Holds the first program, `answers`, to the independent index where its input comes in pieces or is long, and keeps its stored session.

    tests/first_program.py --write    write crates/answers/stdin and stdout: the session below
    tests/first_program.py            run target/bin/answers on that session, on small and long inputs handed over in pieces of random
                                      sizes, on an input cut at each place, on a million frames and where reading or writing fails; exit 1
                                      at the first difference. Only the time of the million is printed: no test depends on it
"""
import os
import random
import sys
import time

import stored
from program import Difference, Talk, compare, fail, here, hold_failures, pieces, run

sys.path.insert(0, os.path.join(stored.TOP, "tests", "independent"))
import sessions  # noqa: E402

ANSWER = len(sessions.BAD_ANSWER) + 1

# The stored session, line by line: what is sent and what is answered.
SESSION = [
    ("0100040000000002", "0000000000000000"),
    ("0300020000000001", "0000000000000001"),
    ("0300010000000001", "0000000000000002"),
    ("0300020000000003", "0000000000000003"),
    ("0600020000000002", "0000000000000001"),
    ("0700020000000002", "0000000000000003"),
    ("0500000000000001", "0000010100000000"),
    ("0500000000000004", "0900000000000000"),
    ("09FF000000000000", "00FF00000000007A"),
]

# What a million frames are made of: two marks come and go, and are asked for between.
CYCLE = [
    b"0300020000000001",
    b"0300010000000002",
    b"0600020000000002",
    b"0700010000000001",
    b"0400000000000001",
    b"0500000000000001",
    b"0400000000000001",
    b"0800000000000000",
]


def long_inputs():
    """More lines in one read than the output holds, more than one call takes, and lines longer than a read."""
    question, answer, bad = b"09FF000000000000", b"00FF00000000007C\n", sessions.BAD_ANSWER + b"\n"
    yield (b"\n" * 5000 + question + b"\n") * 20, (bad * 5000 + answer) * 20
    yield (question + b"\n") * 5000, answer * 5000
    yield b"\n" * 200000 + question, bad * 200000 + answer
    yield (b"F" * 70000 + b"\n" + question + b"\n") * 5, (bad + answer) * 5


def in_pieces(program, session):
    """Hands each input over in pieces of random sizes, the long ones and the stored session in one go too; how many runs that are."""
    runs = 0
    for data, wanted in [session, *long_inputs()]:
        compare("in one go", data, wanted, run(program, data))
        runs += 1
    for data, wanted in [session, *sessions.small_inputs(), *long_inputs()]:
        handed = pieces(data, sessions.PIECES, random.Random(len(data)))
        compare(f"{len(data)} bytes in pieces", data, wanted, Talk(program).end(handed))
        runs += 1
    return runs


def cut_everywhere(program, data):
    """Hands an input over in two pieces, cut at each place. What the first piece ends is answered before the second is sent."""
    whole = sessions.answers(data)
    for place in range(len(data) + 1):
        first = ANSWER * data[:place].count(b"\n")
        talk = Talk(program)
        talk.send(data[:place])
        heard = talk.hear(first)
        rest, status = talk.end([data[place:]])
        compare(f"cut at {place}, before the second piece", data, whole[:first], (heard, 0))
        compare(f"cut at {place}", data, whole, (heard + rest, status))
    return len(data) + 1


def a_million(program):
    """A million frames in one go: a cycle that leaves the index as it was, over and over; the seconds that they take."""
    cycle = b"".join(frame + b"\n" for frame in CYCLE)
    opening, answer = SESSION[0][0].encode() + b"\n", SESSION[0][1].encode() + b"\n"
    once = sessions.answers(opening + cycle)[len(answer) :]
    if sessions.answers(opening + cycle * 2) != answer + once * 2:
        raise Difference("the cycle doesn't leave the index as it was")
    began = time.time()
    result = run(program, opening + cycle * 125000)
    took = time.time() - began
    compare("a million frames", opening + cycle * 125000, answer + once * 125000, result)
    return took


def main(words):
    sent, wanted = ("".join(line + "\n" for line in side).encode() for side in zip(*SESSION))
    stored.hold("answers", {"stdin": sent, "stdout": wanted}, words, __doc__)
    if sessions.answers(sent) != wanted:
        sys.exit("first program: the stored session and the independent index disagree")
    program = here("answers")
    try:
        runs = in_pieces(program, (sent, wanted))
        cuts = cut_everywhere(program, sent + b"\n09ff000000000000\r\n0\n0" + b"0" * 16 + b"\n09FF000000000000")
        print(f"first program: {runs} inputs in pieces or long and {cuts} cuts answered as the independent index says")
        print(f"first program: a million frames in one go took {a_million(program):.2f} s")
        hold_failures(program)
        print("first program: a read and a write that fail are told under its name, with exit status 1")
    except Difference as difference:
        fail("first program", difference)


main(sys.argv[1:])
