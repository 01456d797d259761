"""Sessions for the first program, random by seed or written out: lines of input and the answers that the rules want."""
from index import ACCESS, CLOSE, DELETE, INSERT, LENGTH, OPEN, RANK, SELECT, UNPROMISED, Index

SHARES = 124
BAD_ANSWER = b"FF00000000000000"
PIECES = [1, 2, 3, 16, 17, 18, 4096, 65536]  # bytes that are handed over at a time
HEXADECIMAL = frozenset(b"0123456789abcdefABCDEF")


class Dice:
    """A small generator of its own (xorshift), so that a seed means the same everywhere."""

    def __init__(self, seed):
        self.state = (seed * 0x9E3779B97F4A7C15 + 0x1234567) % 2**64 or 1

    def roll(self):
        x = self.state
        x ^= (x << 13) & 0xFFFFFFFFFFFFFFFF
        x ^= x >> 7
        x ^= (x << 17) & 0xFFFFFFFFFFFFFFFF
        self.state = x
        return x >> 16

    def below(self, n):
        return self.roll() % n

    def between(self, low, high):
        return low + self.below(high - low + 1)

    def chance(self, per_thousand):
        return self.below(1000) < per_thousand

    def pick(self, items):
        return items[self.below(len(items))]

    def octets(self, n):
        return bytes(self.below(256) for _ in range(n))


def frame(code, name, symbol=0, number=0, zero=0):
    return bytes([code, name, symbol, zero]) + number.to_bytes(4, "big")


def answer_line(index, line):
    """What the first program writes for a line of input without its line feed."""
    if len(line) == 16 and all(byte in HEXADECIMAL for byte in line):
        return index.respond(bytes.fromhex(line.decode("ascii"))).hex().upper().encode()
    return BAD_ANSWER


def answers(data):
    """What the first program writes for an input."""
    lines = data.split(b"\n")
    if not lines[-1]:
        lines.pop()
    index = Index(SHARES)
    return b"".join(answer_line(index, line) + b"\n" for line in lines)


# What a session is like: how many names it uses, the shares of an opening at least and at most, and of a thousand lines how many open or
# close a name, are queries, have a wrong field, are noise, and are no frame at all. The rest are edits.
KINDS = {
    "many small names": dict(names=16, shares=(1, 9), opening=60, query=330, wrong=60, noise=10, bad=15),
    "one large name": dict(names=1, shares=(100, 124), opening=1, query=150, wrong=25, noise=2, bad=5),
    "few large names": dict(names=4, shares=(20, 60), opening=4, query=200, wrong=40, noise=5, bad=10),
    "opening and closing": dict(names=16, shares=(1, 30), opening=350, query=200, wrong=100, noise=10, bad=10),
    "promised to the last share": dict(names=16, shares=(1, 8), opening=20, query=200, wrong=100, noise=5, bad=10),
    "noise": dict(names=16, shares=(1, 40), opening=100, query=300, wrong=200, noise=150, bad=100),
}


class Session:
    def __init__(self, seed, kind):
        self.dice = Dice(seed)
        self.kind = KINDS[kind]
        self.full = kind == "promised to the last share"
        self.index = Index(SHARES)
        self.targets = {}  # the length to which each open name is being led
        self.current, self.cursor, self.habit = 0, 1, "anywhere"

    # lines

    def next_line(self):
        if self.dice.chance(self.kind["bad"]):
            return self.bad_line()
        text = self.next_frame().hex().encode()
        case = self.dice.below(4)
        return text if case == 0 else bytes(self.either_case(b) for b in text) if case == 1 else text.upper()

    def either_case(self, byte):
        return byte - 32 if byte >= 97 and self.dice.below(2) else byte

    def bad_line(self):
        good = self.next_frame().hex().upper().encode()
        spoilt = bytearray(good)
        spoilt[self.dice.below(16)] = self.dice.pick(b"/:@GZ[`gz{ \t\r\x00\x7f\x80\xff-x")
        return self.dice.pick(
            [
                b"",
                b"\r",
                b" ",
                good + b"\r",
                good + b" ",
                b" " + good,
                good[:15],
                good + b"0",
                good + good,
                good + good * self.dice.below(400),
                good[: self.dice.below(16)],
                b"0x" + good[:14],
                bytes(spoilt),
                bytes(byte for byte in self.dice.octets(16) if byte != 10),
            ]
        )

    # frames

    def next_frame(self):
        roll = self.dice.below(1000)
        for action in ("opening", "query", "wrong", "noise"):
            if roll < self.kind[action]:
                return getattr(self, action)()
            roll -= self.kind[action]
        return self.edit()

    def some_name(self):
        """An open name as a rule, and the one that the session is at more often than not."""
        if self.current not in self.index.names or self.dice.chance(30):
            names = sorted(self.index.names)
            self.current = self.dice.pick(names) if names else self.dice.below(self.kind["names"])
            self.habit = self.dice.pick(["anywhere", "anywhere", "front", "back", "at the cursor"])
        return self.current

    def opening(self):
        name = self.dice.below(self.kind["names"])
        if name in self.index.names:
            return frame(CLOSE, name)
        least, most = (min(shares, max(1, self.index.unpromised())) for shares in self.kind["shares"])
        shares = most if self.dice.chance(250) else self.dice.between(least, most)
        if self.full and len(self.index.names) == 15:
            shares = self.index.unpromised()
        if self.dice.chance(60):
            shares = self.index.unpromised() + self.dice.below(3)
        return frame(OPEN, name, self.dice.pick([2, 3, 4, 4, 5, 15, 16]), shares)

    def edit(self):
        name = self.some_name()
        held = self.index.names.get(name)
        if held is None:
            return self.opening()
        length = len(held.marks)
        if self.targets.get(name, -1) not in range(held.room() + 2) or length == self.targets[name]:
            self.targets[name] = self.next_target(held)
        if length < self.targets[name]:
            if length == held.room():
                self.targets[name] = self.next_target(held)
            return frame(INSERT, name, self.mark(held), self.place(length + 1))
        return frame(DELETE, name, 0, self.place(length) if length else 1)

    def next_target(self, held):
        """Around the sizes where trees change, at both ends, one past the room, or anywhere."""
        room = held.room()
        around = [63, 96, 126, 190, 250, 380, 760]
        choices = [0, room, room + 1, self.dice.below(room + 1), self.dice.pick(around) + self.dice.below(4) - 2]
        return min(self.dice.pick(choices), room + 1)

    def mark(self, held):
        return self.dice.below(min(3, held.alphabet)) if self.dice.chance(600) else self.dice.below(held.alphabet)

    def place(self, last):
        if self.habit == "front":
            return 1
        if self.habit == "back":
            return last
        if self.habit == "at the cursor" and self.dice.chance(950):
            self.cursor = min(self.cursor + 1, last)
        else:
            self.cursor = self.dice.between(1, last)
        return self.cursor

    def query(self):
        name = self.some_name() if self.dice.chance(900) else self.dice.below(16)
        held = self.index.names.get(name)
        code = self.dice.pick([ACCESS, ACCESS, RANK, RANK, SELECT, SELECT, LENGTH, UNPROMISED])
        if code == UNPROMISED:
            return frame(UNPROMISED, 255)
        if code == LENGTH or held is None:
            return frame(LENGTH, name)
        length = len(held.marks)
        if code == ACCESS:
            return frame(ACCESS, name, 0, self.dice.between(1, max(1, length)))
        symbol = self.mark(held)
        if code == RANK:
            return frame(RANK, name, symbol, self.dice.between(0, length))
        most = held.marks.count(symbol)
        return frame(SELECT, name, symbol, self.dice.pick([1, most, self.dice.between(0, most + 1)]))

    def wrong(self):
        """A frame with one field at an edge or past it; it may still be right."""
        made = bytearray(self.query() if self.dice.chance(400) else self.edit())
        field = self.dice.below(5)
        held = self.index.names.get(made[1])
        if field == 0:
            made[0] = self.dice.pick([0, 1, 2, 3, 4, 5, 6, 7, 8, 9, 10, 16, 17, 255])
        elif field == 1:
            made[1] = self.dice.pick([0, 15, 16, 99, 254, 255])
        elif field == 2:
            made[2] = self.dice.pick([0, 1, 2, 15, 16, 17, 255, held.alphabet if held else 1])
        elif field == 3:
            made[3] = self.dice.pick([1, 128, 255])
        else:
            made[4:] = self.edge_number(held).to_bytes(4, "big")
        return bytes(made)

    def edge_number(self, held):
        length, room = (len(held.marks), held.room()) if held else (0, 24)
        edges = [0, 1, length, length + 1, length + 2, room, room + 1, 125, 126]
        edges += [self.index.unpromised(), self.index.unpromised() + 1]
        edges += [65536, 65536 + length, 2**24 + 1, 2**31, 2**32 - 1, 2**32 - 2]
        return self.dice.pick(edges)

    def noise(self):
        if self.dice.chance(500):
            return self.dice.octets(8)
        return bytes([self.dice.below(11), self.dice.below(18), self.dice.below(18), 0, 0, 0, 0, self.dice.below(40)])


# The edges of the rules, those marked P among them, and what is answered: run at the start of one session.
EDGES = [
    ("0100010000000001", "0600000000000000"),
    ("0100110000000001", "0600000000000000"),
    ("0100020000000001", "0000000000000000"),
    ("0101100000000001", "0001000000000000"),
    ("0100020000000001", "0400000000000000"),
    ("0102040000000000", "0702000000000000"),
    ("010204000000007B", "0C02000000000000"),
    ("010204000000007A", "0002000000000000"),
    ("0303000000000001", "0503000000000000"),
    ("0302040000000000", "0802000000000000"),
    ("0302030000000000", "0902000000000000"),
    ("0900000000000000", "0200000000000000"),
    ("0063000000000000", "0163000000000000"),
    ("0AFF000000000001", "01FF000000000000"),
    ("09FF000000000000", "00FF000000000000"),
    ("09FF010000000000", "03FF000000000000"),
    ("09FF000100000000", "03FF000000000000"),
    ("09FF000000000001", "03FF000000000000"),
    ("0802000000000000", "0002000000000000"),
    ("0602000000000000", "0002000000000000"),
    ("0602000000000001", "0902000000000000"),
    ("0502000000000001", "0902000000000000"),
    ("0402000000000001", "0902000000000000"),
    ("0702000000000001", "0A02000000000000"),
    ("0702000000000000", "0A02000000000000"),
    ("0702040000000000", "0802000000000000"),
    ("03020100FFFFFFFF", "0902000000000000"),
    ("0202000000000001", "0302000000000000"),
    ("0202000000000000", "0002000000000000"),
    ("0202000000000000", "0502000000000000"),
]


# Lines that aren't exactly sixteen hexadecimal digits.
BAD_LINES = [
    b"",
    b"\r",
    b" ",
    b"0",
    b"09FF00000000000",
    b"09FF0000000000000",
    b"09FF000000000000\r",
    b" 09FF00000000000",
    b"09FF000000000000 ",
    b"09FF00000000000G",
    b"G9FF000000000000",
    b"09FF0000/0000000",
    b"09FF0000:0000000",
    b"09FF0000@0000000",
    b"09FF0000`0000000",
    b"09FF0000g0000000",
    b"0x09FF0000000000",
    b"-9FF000000000000",
    b"09FF\x000000000000",
    b"\xff" * 16,
    b"09FF000000000000" * 2,
    b"0" * 17,
    b"0" * 1000,
    b"0" * 100000,
    b"0" * 200000,
]


def small_inputs():
    """The edges above, bad lines of every kind and line ends, each with the answers wanted, which are written out."""
    bad = BAD_ANSWER + b"\n"
    question, answer = b"09FF000000000000", b"00FF00000000007C\n"
    yield tuple(b"".join(side.encode() + b"\n" for side in sides) for sides in zip(*EDGES))
    yield b"", b""
    yield b"\n\n", bad * 2
    yield b"\n" * 100, bad * 100
    yield question, answer
    yield question + b"\n", answer
    yield question + b"\n\n", answer + bad
    yield question[:8] + b"\n" + question[8:], bad * 2
    for line in BAD_LINES:
        yield line + b"\n", bad
        yield line, bad if line else b""
        yield question + b"\n" + line + b"\n" + question.lower() + b"\n" + line, answer + bad + answer + (bad if line else b"")


# Where a growing name of n marks takes the next, and a shrinking one gives one back.
PLACES = {
    "in sequence": lambda dice, last: last,
    "at the front": lambda dice, last: 1,
    "at random": lambda dice, last: dice.between(1, last),
}


def grown(rule):
    """Four names that have all shares between them, filled in turn until each is full, read mark by mark, and emptied again."""
    dice, place, share = Dice(1), PLACES[rule], SHARES // 4
    room = 24 * share
    frames = [frame(1, name, 16, share) for name in range(4)] + [frame(1, 4, 16, 1)]
    frames += [frame(3, name, dice.below(16), place(dice, n + 1)) for n in range(room + 1) for name in range(4)]
    frames += [frame(5, name, 0, n + 1) for n in range(room) for name in range(4)]
    frames += [frame(code, name, mark, number) for name in range(4) for mark in range(16) for code, number in ((6, room), (7, 1), (7, 20))]
    frames += [frame(4, name, 0, place(dice, n)) for n in range(room, 0, -1) for name in range(4)]
    index = Index(SHARES)
    lines = [one.hex().upper().encode() for one in frames]
    return b"".join(line + b"\n" for line in lines), b"".join(answer_line(index, line) + b"\n" for line in lines)


def make(seed, frames, kind):
    """A session's input, the output wanted, and the number of bad lines in it."""
    session = Session(seed, kind)
    lines, answers, bad = [], [], 0
    for count in range(frames):
        line = session.next_line()
        answer = answer_line(session.index, line)
        bad += answer == BAD_ANSWER
        lines.append(line)
        answers.append(answer)
    ended = b"\n" if seed % 3 or not lines[-1] else b""
    return b"\n".join(lines) + ended, b"".join(answer + b"\n" for answer in answers), bad
