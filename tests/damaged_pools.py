#!/usr/bin/env python3
"""Builds the pools that `pool_check_cases` checks, sound ones and ones with one fault each, both sides of each limit, and its verdicts.

    tests/damaged_pools.py --write    write crates/pool_check_cases/stdin and stdout
    tests/damaged_pools.py            exit 1 unless the stored files are what would be written

Nothing here is shared with the code under test: a pool is built from docs/LAYOUT.md by its own few functions.
A case in stdin is a head of 64 bytes and then the pool's bytes up to the last that isn't 0. The head is the pool's length and how many
of its bytes follow (3 bytes each, low byte first), and a label padded with blanks. A line of stdout is the label and the verdict.
"""
import sys

import stored

HEAD, NUMBER, SHARES = 64, 3, 10


class Pool:
    def __init__(self, shares=SHARES):
        self.bytes = bytearray(512 + 128 * shares)
        self.bytes[0] = 1

    def long(self, n):
        """The same pool cut or filled up with zeros to n bytes."""
        self.bytes = self.bytes[:n].ljust(n, b"\0")
        return self

    def put(self, at, value):
        self.bytes[at] = value
        return self

    def word(self, at, value):
        self.bytes[at] = value % 256
        self.bytes[at + 1] = value // 256
        return self

    def get(self, at):
        return self.bytes[at] + 256 * self.bytes[at + 1]

    def name(self, i, alphabet, height, q, root, n):
        at = 128 + 24 * i
        self.put(at, 1).put(at + 1, alphabet).put(at + 2, height)
        return self.word(at + 4, q).word(at + 6, root).word(at + 8, n)

    def leaf(self, b, marks):
        at = 512 + 128 * b
        for i, mark in enumerate(marks):
            self.put(at + i, mark)
        self.word(at + 126, len(marks))
        return [len(marks)] + [marks.count(c) for c in range(16)]

    def branch(self, b, children):
        """children: pairs of a block and its summary"""
        at = 512 + 128 * b
        for k, (child, summary) in enumerate(children):
            self.word(at + 36 * k, child)
            for i, value in enumerate(summary):
                self.word(at + 36 * k + 2 + 2 * i, value)
        self.word(at + 126, len(children))
        return [sum(values) for values in zip(*(s for _, s in children))]


def marks(n, alphabet, start=0):
    """A 126th mark would stand at the block's form, so it is 0."""
    return [(start + i * i) % alphabet if i < 125 else 0 for i in range(n)]


def two_names(sizes=(63, 70), first=0, second=1, root=2, alphabet=4):
    """Name 0 has a branch over leaves, name 3 one leaf."""
    p = Pool()
    blocks = [first, second, 3, 4][: len(sizes)]
    children = [(b, p.leaf(b, marks(n, alphabet, b))) for b, n in zip(blocks, sizes)]
    total = p.branch(root, children)
    p.name(0, alphabet, 1, (total[0] + 23) // 24, root, total[0])
    p.leaf(5, marks(20, 16))
    return p.name(3, 16, 0, 1, 5, 20)


def one_leaf(n, alphabet=4, q=None, root=0):
    p = Pool()
    p.leaf(root, marks(n, alphabet))
    return p.name(0, alphabet, 0, q or max(1, (n + 23) // 24), root, n)


def tall(height):
    """Leaves of 63 under branches of 2."""
    p, free = Pool(336), iter(range(336))

    def grow(level):
        if level == 0:
            b = next(free)
            return b, p.leaf(b, marks(63, 16, b))
        children = [grow(level - 1), grow(level - 1)]
        b = next(free)
        return b, p.branch(b, children)

    root, summary = grow(height)
    return p.name(0, 16, height, 336, root, summary[0])


def entry(k, i=-1, block=2):
    """Where entry k of a branch has its link (-2), its marks (-1) or its count of symbol i."""
    return 512 + 128 * block + 36 * k + 4 + 2 * i


def changed(pool, *changes):
    for at, difference in changes:
        pool.word(at, pool.get(at) + difference)
    return pool


def cases():
    yes, no = "sound", "refused"
    length_of_0, q_of_0, root_of_0 = 128 + 8, 128 + 4, 128 + 6
    closed = 128 + 24
    yield "formatted, one share", Pool(1), yes
    yield "two names", two_names(), yes
    for n, verdict in ((0, no), (512, no), (639, no), (640, yes), (641, no), (768, yes)):
        yield f"{n} bytes", Pool().long(n), verdict
    for n, verdict in ((65535, no), (65536, yes), (65537, no), (65664, no)):
        yield f"{n} bytes", Pool().long(n), verdict
        yield f"{n} bytes with marks", two_names().long(n), verdict
    for root, verdict in ((507, yes), (508, no)):
        yield f"an empty root at block {root} of 508", Pool(508).name(0, 4, 0, 1, root, 0), verdict
    for q, verdict in ((508, yes), (509, no)):
        yield f"promised {q} of 508 shares", Pool(508).name(0, 4, 0, q, 0, 0), verdict

    yield "a branch that is its own child", two_names().put(128 + 2, 2).word(entry(0, -2), 2), no
    p = two_names((63, 63))
    p.branch(2, [(0, p.leaf(0, marks(63, 4))), (0, p.leaf(0, marks(63, 4)))])
    yield "two entries of one branch meet", p, no
    yield "two names meet", two_names().name(3, 16, 0, 3, 0, 63), no
    yield "name 3 at a block of its own instead", two_names().name(3, 16, 0, 3, 5, 20), yes
    yield "a link to the last block", two_names(second=9), yes
    yield "a link past the last block", changed(two_names(second=9), (entry(1, -2), 1)), no
    yield "a root at the last block", one_leaf(20, root=9), yes
    yield "a root past the last block", changed(one_leaf(20, root=9), (root_of_0, 1)), no

    for k in (0, 1):
        for d in (1, -1):
            yield f"marks below child {k} off by {d}", changed(two_names(), (entry(k), d), (length_of_0, d)), no
    for c in range(16):
        yield f"count of symbol {c} of child 0 off by 1", changed(two_names(), (entry(0, c), 1)), no
        yield f"count of symbol {c} of child 1 over by 256", changed(two_names(), (entry(1, c), 256)), no
    yield "a mark at the alphabet's size", two_names(alphabet=5).put(128 + 1, 4), no
    yield "marks below the alphabet's size", two_names(alphabet=5), yes

    for n, verdict in ((62, no), (63, yes), (125, yes), (126, no)):
        yield f"a leaf of {n} below a branch", two_names((n, 70)), verdict
    for n, verdict in ((0, yes), (62, yes), (125, yes), (126, no)):
        yield f"a root that is a leaf of {n}", one_leaf(n), verdict
    yield "a branch of 1", two_names((70,)), no
    yield "a branch of 3", two_names((63, 70, 63)), yes
    yield "a branch of 4", two_names((63, 70, 63)).word(512 + 128 * 2 + 126, 4), no
    yield "a leaf of another form", two_names().put(512 + 125, 1), no
    yield "a branch of another form", two_names().put(512 + 128 * 2 + 125, 1), no
    yield "a free block of another form", two_names().put(512 + 128 * 7 + 125, 1), yes

    for j in (1, 2, 3, 4, 7, 9, 10, 23):
        yield f"a closed record with byte {j} set", two_names().put(closed + j, 1), no
    yield "another kind", two_names().put(128, 2), no
    for j in (3, 10, 16, 23):
        yield f"an open record with byte {j} set", two_names().put(128 + j, 1), no
    for value in (0, 2):
        yield f"header byte 0 is {value}", two_names().put(0, value), no
    for j in (1, 64, 127):
        yield f"header byte {j} set", two_names().put(j, 1), no

    for alphabet, verdict in ((1, no), (2, yes), (16, yes), (17, no)):
        p = one_leaf(20, min(alphabet, 16))
        yield f"alphabet {alphabet}", p.put(128 + 1, alphabet), verdict
    for q, verdict in ((0, no), (1, yes)):
        yield f"q = {q}, no marks", one_leaf(0).word(q_of_0, q), verdict
    for d in (1, -1):
        yield f"n off by {d}", changed(two_names(), (length_of_0, d)), no
    for n, verdict in ((48, yes), (49, no)):
        yield f"n = {n}, q = 2", one_leaf(n, q=2), verdict
    for q, verdict in ((4, yes), (5, no)):
        yield f"promised {6 + q} of 10 shares", two_names().word(128 + 3 * 24 + 4, q), verdict
    yield "height 7", tall(7), yes
    yield "height 8", two_names().put(128 + 2, 8), no
    yield "height 255", two_names().put(128 + 2, 255), no


def built():
    """Standard input and the output that it should have."""
    stdin, stdout = b"", ""
    for label, pool, verdict in cases():
        given = bytes(pool.bytes).rstrip(b"\0")
        numbers = b"".join(len(b).to_bytes(NUMBER, "little") for b in (pool.bytes, given))
        stdin += (numbers + label.encode()).ljust(HEAD, b" ") + given
        stdout += f"{label.ljust(HEAD - len(numbers))}{verdict}\n"
    return {"stdin": stdin, "stdout": stdout.encode()}


stored.hold("pool_check_cases", built(), sys.argv[1:], __doc__)
print("tests/damaged_pools.py: the stored files are as they should be")
