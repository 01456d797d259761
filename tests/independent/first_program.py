#!/usr/bin/env python3
"""Holds the first program to docs/RULES.md by an independent index.

    tests/independent/first_program.py make SEED FRAMES INPUT OUTPUT   write a session and the answers wanted to two files
    tests/independent/first_program.py against PROGRAM                 run sessions of fixed seeds through a program and compare

`against` exits with 1 at the first difference, and if a status was never seen.
"""
import os
import random
import sys

sys.path.insert(0, os.path.dirname(os.path.dirname(os.path.abspath(__file__))))
import sessions  # noqa: E402
from program import Difference, Talk, compare, pieces, run  # noqa: E402

STATUSES = range(13)

# seed, kind and frames of each session
FIXED = [(seed, kind, 5000) for seed, kind in enumerate(list(sessions.KINDS) * 6)]
FIXED += [(seed, "one large name", 20000) for seed in (100, 101)]
IN_PIECES = range(2 * len(sessions.KINDS))  # the seeds of sessions that are run twice, the second time handed over in pieces


def fixed_sessions(program):
    """Runs them all: how many lines are frames and how many are not, and how often each status was answered."""
    frames, bad, seen = 0, 0, {status: 0 for status in STATUSES}
    for seed, kind, many in FIXED:
        data, wanted, spoilt = sessions.make(seed, many, kind)
        compare(f"seed {seed} ({kind})", data, wanted, run(program, data))
        if seed in IN_PIECES:
            handed = pieces(data, sessions.PIECES, random.Random(seed))
            compare(f"seed {seed} ({kind}) in pieces", data, wanted, Talk(program).end(handed))
        bad += spoilt
        frames += many - spoilt
        for answer in wanted.split():
            if answer != sessions.BAD_ANSWER:
                seen[int(answer[:2], 16)] += 1
    return frames, bad, seen


def grown_names(program):
    """Names grown to the last share of the pool and shrunk again, by each rule of places; the number of frames."""
    frames = 0
    for rule in sessions.PLACES:
        data, wanted = sessions.grown(rule)
        compare(f"names grown {rule}", data, wanted, run(program, data))
        frames += wanted.count(b"\n")
    return frames


def small_inputs(program):
    """Edges of the rules, bad lines and line ends."""
    for data, wanted in sessions.small_inputs():
        compare(f"small input {data[:60]!r}", data, wanted, run(program, data))


def conversation(program, seed=7, frames=1500):
    """Sends a session and the bad lines in pieces, mostly line by line: an answer has to come before more is sent."""
    data, wanted, _ = sessions.make(seed, frames, "many small names")
    lines, answers = data.split(b"\n")[:-1] + sessions.BAD_LINES, wanted.split() + [sessions.BAD_ANSWER] * len(sessions.BAD_LINES)
    dice, talk = sessions.Dice(seed), Talk(program)
    for k, line in enumerate(lines):
        cut = dice.below(len(line) + 1)
        for piece in [line[:cut], line[cut:] + b"\n"] if dice.chance(200) else [line + b"\n"]:
            talk.send(piece)
        got = talk.hear(len(answers[k]) + 1)
        if got != answers[k] + b"\n":
            talk.stop()
            raise Difference(f"conversation, line {k + 1}: {line[:60]!r}: expected {answers[k].decode()} before more is sent, got {got!r}")
    compare("after the conversation", b"", b"", talk.end())
    return len(lines)


def against(program):
    try:
        small_inputs(program)
        talked = conversation(program)
        grown = grown_names(program)
        frames, bad, seen = fixed_sessions(program)
    except Difference as difference:
        print(f"{program}: {difference}")
        return 1
    counts = ", ".join(f"{status}: {times}" for status, times in seen.items())
    print(f"{frames} frames and {bad} bad lines, {talked} more in conversation and {grown} to the last share and back; statuses {counts}")
    missing = [status for status in STATUSES if not seen[status]]
    if missing:
        print(f"never seen: {missing}")
    return 1 if missing else 0


def write(seed, frames, data_path, wanted_path):
    data, wanted, _ = sessions.make(seed, frames, list(sessions.KINDS)[seed % len(sessions.KINDS)])
    for path, content in ((data_path, data), (wanted_path, wanted)):
        with open(path, "wb") as file:
            file.write(content)
    return 0


def main(words):
    if len(words) == 5 and words[0] == "make":
        return write(int(words[1]), int(words[2]), *words[3:])
    if len(words) == 2 and words[0] == "against":
        return against(os.path.abspath(words[1]))
    print(__doc__)
    return 2


if __name__ == "__main__":
    sys.exit(main(sys.argv[1:]))
