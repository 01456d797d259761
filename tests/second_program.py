#!/usr/bin/env python3
"""Holds the second program, `marks`, to the rules on lines (RULES, Marks of a line), written here once more from the rules alone.

    tests/second_program.py --write    write crates/marks/stdin and stdout from the table of cases below
    tests/second_program.py            run target/bin/marks on the table's cases, at the limit of 12,192 lines, on long lines and on
                                       random files, each handed over in pieces of random sizes, and where reading or writing fails;
                                       exit 1 at the first difference
"""
import random
import sys

import stored
from program import Difference, Talk, compare, fail, here, hold_failures, pieces

LIMIT = 12192
SIZES = [1, 2, 3, 71, 72, 73, 4096, 65536]

# A line with its line end, and the mark that the rules give it. One table for both sides of each rule.
CASES = [
    # the edges of the rules
    (b"     1X=1\n", 2),
    (b"      EQ UIVALENCE (A,B)\n", 3),
    # comments: nothing, blanks, or C, c, * in column 1
    (b"\n", 1),
    (b" \n", 1),
    (b" " * 72 + b"\n", 1),
    (b" " * 72 + b"X\n", 1),
    (b" " * 71 + b"X\n", 0),
    (b"C     EQUIVALENCE(A,B)\n", 1),
    (b"c\n", 1),
    (b"*\n", 1),
    (b"!\n", 0),
    (b"D     X = 1\n", 0),
    (b" C\n", 0),
    # a byte outside 32 to 126 comes before every other rule, up to column 72
    (b"C" + b" " * 38 + b"\x01\n", 15),
    (b"\t\n", 15),
    (b"      X = 1\x1f\n", 15),
    (b"      X = 1 \n", 0),
    (b"      X = 1~\n", 0),
    (b"      X = 1\x7f\n", 15),
    (b"      X = 1\x80\n", 15),
    (b"      X = 1\xff\n", 15),
    (b"\x00\n", 15),
    (b"      X" + b" " * 64 + b"\x01\n", 15),
    (b"      X" + b" " * 65 + b"\x01\n", 0),
    (b"     1\x01\n", 15),
    # continuations: columns 1 to 5 blank, column 6 not
    (b"     A\n", 2),
    (b"     0X = 1\n", 2),
    (b"     +EQUIVALENCE(A,B)\n", 2),
    (b"    1 X = 1\n", 0),
    (b"    1+X = 1\n", 0),
    (b"12345A\n", 0),
    (b"      A\n", 0),
    # EQUIVALENCE( in columns 7 to 72, blanks taken out and case ignored
    (b"      EQUIVALENCE(A,B)\n", 3),
    (b"      equivalence(a,b)\n", 3),
    (b"      eQuIvAlEnCe  (a,b)\n", 3),
    (b"      E Q U I V A L E N C E (\n", 3),
    (b"  100 EQUIVALENCE(A,B)\n", 3),
    (b"123456EQUIVALENCE(A,B)\n", 3),
    (b"      EQUIVALENCE\n", 0),
    (b"      EQUIVALENCE A,B\n", 0),
    (b"      EQUIVALENCE[A,B]\n", 0),
    (b"      EQUIVALENCF(A,B)\n", 0),
    (b"      XEQUIVALENCE(A,B)\n", 0),
    (b"      {QUIVALENCE(A,B)\n", 0),
    (b"      EQUIVALENCE(1) = 2\n", 3),
    (b" " * 60 + b"EQUIVALENCE(\n", 3),
    (b" " * 61 + b"EQUIVALENCE(\n", 0),
    (b" " * 5 + b" EQUIVALENCE(A,B)\n", 3),
    # COMMON in columns 7 to 72
    (b"      COMMON /ICE/ H(10)\n", 4),
    (b"      common h\n", 4),
    (b"      CO MM ON\n", 4),
    (b"      COMMONS = 1\n", 4),
    (b"      COMMO\n", 0),
    (b"      COMMOM\n", 0),
    (b" " * 66 + b"COMMON\n", 4),
    (b" " * 67 + b"COMMON\n", 0),
    # line ends: one carriage return just before the line feed belongs to it, and no other
    (b"      COMMON H\r\n", 4),
    (b"\r\n", 1),
    (b"\r\r\n", 15),
    (b"      X = 1\r\r\n", 15),
    (b"      X\r = 1\n", 15),
    # a line longer than the columns that are read
    (b"      EQUIVALENCE(" + b"A" * 200 + b")\n", 3),
    # a last line without its line feed keeps its carriage return
    (b"      COMMON H\r", 15),
]


def mark(line):
    """The mark of a line, rule by rule."""
    card = line[:72]
    if any(byte < 32 or byte > 126 for byte in card):
        return 15
    columns = card.decode("ascii").ljust(72)
    if columns.strip(" ") == "" or columns[0] in "Cc*":
        return 1
    if columns[:5] == "     " and columns[5] != " ":
        return 2
    text = columns[6:].replace(" ", "").upper()
    if text.startswith("EQUIVALENCE("):
        return 3
    return 4 if text.startswith("COMMON") else 0


def lines(data):
    """The lines of a file without their ends."""
    pieces = data.split(b"\n")
    last = pieces.pop()
    found = [piece[:-1] if piece.endswith(b"\r") else piece for piece in pieces]
    return found + ([last] if last else [])


def frames(marks):
    """What the program writes for lines of these marks."""
    return b"".join(b"0300%02X00%08X\n" % (m, k + 1) for k, m in enumerate(marks[:LIMIT]))


def random_line(chance):
    """A line that is near one of the rules' edges."""
    start = chance.choice([b"", b"     ", b"      ", b"  10  ", b"     1", b"C", b"*", b" " * chance.randrange(75)])
    word = chance.choice([b"", b"EQUIVALENCE(A,B)", b"equivalence (", b"COMMON/X/", b"co mmon", b"X = Y", b"EQUIVALENCE"])
    noise = bytes(chance.choice([32, 32, 65, 99, 126, 127, 31, 9, 13, 255]) for _ in range(chance.choice([0, 0, 0, 1, 80])))
    return start + word + noise


def random_file(chance):
    """A file of random lines, line ends of both kinds among them, now and then without the last one."""
    whole = b"".join(random_line(chance) + chance.choice([b"\n", b"\n", b"\r\n"]) for _ in range(chance.randrange(400)))
    return whole + random_line(chance) if chance.random() < 0.5 else whole


def inputs(table, chance):
    """The table's lines, the limit of lines, long lines, and random files."""
    yield from (table, b"", b"\n", b"X", b"\r", b"\n" * (LIMIT - 1) + b"X", b"      COMMON\n" * LIMIT + b"X", b"\n" * (LIMIT + 9))
    yield from (b"      EQUIVALENCE(" + b"A" * 200000 + b"\r\n\n", b"\r" * 70000 + b"\n")
    yield from (random_file(chance) for _ in range(200))


def main(words):
    table = b"".join(line for line, _ in CASES)
    expected = frames([m for _, m in CASES])
    stored.hold("marks", {"stdin": table, "stdout": expected}, words, __doc__)
    if frames([mark(line) for line in lines(table)]) != expected:
        sys.exit("second program: the table of cases and the rules as written here disagree")
    program, chance, tried = here("marks"), random.Random(1977), 0
    try:
        for data in inputs(table, chance):
            by_rules = frames([mark(line) for line in lines(data)])
            compare(f"input {tried}", data, by_rules, Talk(program).end(pieces(data, SIZES, chance)))
            tried += 1
        hold_failures(program)
    except Difference as difference:
        fail("second program", difference)
    print(f"second program: {tried} inputs answered as the rules say")
    print("second program: a read and a write that fail are told under its name, with exit status 1")


main(sys.argv[1:])
