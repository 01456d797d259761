#!/usr/bin/env python3
"""Builds the pool that `tree_query_cases` asks, from docs/LAYOUT.md alone, and the marks and depths that it should answer.

    tests/query_pool.py --write    write crates/tree_query_cases/stdin and stdout
    tests/query_pool.py            exit 1 unless the stored files are what would be written
"""
import sys

import stored

POOL = 8192
DIRECTORY = 512
BLOCK = 128
SHARES = (POOL - DIRECTORY) // BLOCK
NAMES = 16
SYMBOLS = 16
# what the program expects behind the pool: so many bytes for each name
SLOT = 1024

# Of each open name its alphabet, its shares, and its tree: a number is a leaf of so many marks, a list is a branch.
OPEN = {
    0: (5, 30, [[63, 125], [100, 64, 118], [124, 106]]),
    7: (16, 8, [125, 64]),
    15: (2, 2, 40),
}


def word(n):
    """Two bytes, low byte first."""
    return bytes([n % 256, n // 256])


class Pool:
    def __init__(self):
        # what a free block holds is of no account
        self.blocks = [bytes([0xEE]) * BLOCK for _ in range(SHARES)]
        # the blocks are handed out in a scattered order
        self.order = [(7 + 23 * k) % SHARES for k in range(SHARES)]
        assert sorted(self.order) == list(range(SHARES))
        self.state = 1

    def draw(self, below):
        """The next number of a fixed series."""
        self.state = (self.state * 1103515245 + 12345) % 2**31
        return (self.state >> 16) % below

    def put(self, entries, how_many):
        """A block with these bytes of entries; what stands behind the last one is of no account."""
        b = self.order.pop(0)
        self.blocks[b] = entries + bytes([0xDD]) * (125 - len(entries)) + bytes([0]) + word(how_many)
        return b

    def leaf(self, size, alphabet):
        # a leaf of odd size lacks the last symbol of the alphabet
        symbols = alphabet - size % 2
        marks = bytes(self.draw(symbols) for _ in range(size))
        return self.put(marks, size), marks

    def branch(self, children, alphabet):
        entries, marks = b"", b""
        for child in children:
            b, below = self.tree(child, alphabet)
            entries += word(b) + word(len(below)) + b"".join(word(below.count(c)) for c in range(SYMBOLS))
            marks += below
        return self.put(entries, len(children)), marks

    def tree(self, shape, alphabet):
        """The root's block and the tree's marks in order."""
        return self.branch(shape, alphabet) if isinstance(shape, list) else self.leaf(shape, alphabet)


def height_of(shape):
    return 1 + height_of(shape[0]) if isinstance(shape, list) else 0


def record_of(alphabet, height, q, root, n):
    return bytes([1, alphabet, height, 0]) + word(q) + word(root) + word(n) + bytes(14)


def built():
    """Standard input and the output that it should have."""
    pool = Pool()
    records, slots, out = b"", b"", b""
    for name in range(NAMES):
        if name not in OPEN:
            records += bytes(24)
            slots += bytes(SLOT)
            continue
        alphabet, q, shape = OPEN[name]
        root, marks = pool.tree(shape, alphabet)
        assert len(marks) <= 24 * q and set(marks) == set(range(alphabet))
        records += record_of(alphabet, height_of(shape), q, root, len(marks))
        depth = height_of(shape) + 1
        slots += (bytes([depth, 0]) + word(len(marks)) + marks).ljust(SLOT, b"\0")
        out += b"name %d: %d marks at depth %d, every answer right\n" % (name, len(marks), depth)
    assert sum(q for _, q, _ in OPEN.values()) <= SHARES
    header = bytes([1]) + bytes(127)
    stdin = header + records + b"".join(pool.blocks) + slots
    assert len(header + records) == DIRECTORY and len(stdin) == POOL + NAMES * SLOT
    return {"stdin": stdin, "stdout": out}


stored.hold("tree_query_cases", built(), sys.argv[1:], __doc__)
print("tests/query_pool.py: the stored files are as they should be")
