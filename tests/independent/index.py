"""The index of docs/RULES.md as flat lists, with the shape of each name's tree beside them for the depth.

Written from docs/RULES.md, and the depth from the shape rules that crates/shape has; no code is shared with what is tested.
"""

FIELDS = {  # code: whether the symbol and the number are used
    1: (True, True),
    2: (False, False),
    3: (True, True),
    4: (False, True),
    5: (False, True),
    6: (True, True),
    7: (True, True),
    8: (False, False),
    9: (False, False),
}
OPEN, CLOSE, INSERT, DELETE, ACCESS, RANK, SELECT, LENGTH, UNPROMISED = range(1, 10)

MARKS_PER_SHARE = 24
LEAF = (63, 125)  # marks of a leaf, at least and at most
BRANCH = (2, 3)  # children of a branch


# A tree's shape: nested lists, all leaves at one level. A leaf is a list of marks, a branch a list of nodes.


def size(level, node):
    return len(node) if level == 0 else sum(size(level - 1, child) for child in node)


def limits(level):
    return LEAF if level == 0 else BRANCH


def chop(most, items):
    half = len(items) // 2
    return [items] if len(items) <= most else [items[:half], items[half:]]


def seat(level, children, place):
    """Which child takes a place, and what is left of the place there: the first that reaches it, or the last."""
    for k, child in enumerate(children[:-1]):
        marks = size(level - 1, child)
        if place <= marks:
            return k, place
        place -= marks
    return len(children) - 1, place


def insert(level, node, place, mark):
    """The one or two nodes that a node becomes."""
    if level == 0:
        items = node[: place - 1] + [mark] + node[place - 1 :]
    else:
        k, left = seat(level, node, place)
        items = node[:k] + insert(level - 1, node[k], left, mark) + node[k + 1 :]
    return chop(limits(level)[1], items)


def delete(level, node, place):
    if level == 0:
        return node[: place - 1] + node[place:]
    k, left = seat(level, node, place)
    children = node[:k] + [delete(level - 1, node[k], left)] + node[k + 1 :]
    least, most = limits(level - 1)
    if len(children[k]) >= least:
        return children
    first = k - 1 if k > 0 else k
    return children[:first] + chop(most, children[first] + children[first + 1]) + children[first + 2 :]


class Tree:
    def __init__(self):
        self.height, self.root = 0, []

    def insert(self, place, mark):
        pieces = insert(self.height, self.root, place, mark)
        if len(pieces) == 1:
            self.root = pieces[0]
        else:
            self.height, self.root = self.height + 1, pieces

    def delete(self, place):
        self.root = delete(self.height, self.root, place)
        if self.height > 0 and len(self.root) == 1:
            self.height, self.root = self.height - 1, self.root[0]

    def access(self, place):
        """The mark at a place and the nodes entered on the way to it."""
        node, depth = self.root, 1
        for level in range(self.height, 0, -1):
            k, place = seat(level, node, place)
            node, depth = node[k], depth + 1
        return node[place - 1], depth


class Name:
    def __init__(self, alphabet, shares):
        self.alphabet, self.shares = alphabet, shares
        self.marks, self.tree = bytearray(), Tree()

    def room(self):
        return MARKS_PER_SHARE * self.shares


class Index:
    def __init__(self, shares):
        self.shares = shares
        self.names = {}

    def unpromised(self):
        return self.shares - sum(name.shares for name in self.names.values())

    def status(self, code, byte, symbol, zero, number):
        """The lowest number that applies, or 0."""
        if code not in FIELDS:
            return 1
        if (byte != 255) if code == UNPROMISED else (byte > 15):
            return 2
        uses_symbol, uses_number = FIELDS[code]
        if zero != 0 or (symbol != 0 and not uses_symbol) or (number != 0 and not uses_number):
            return 3
        name = self.names.get(byte)
        if code == OPEN:
            return self.opening_status(name, symbol, number)
        if code == UNPROMISED:
            return 0
        return 5 if name is None else self.name_status(name, code, symbol, number)

    def opening_status(self, name, alphabet, shares):
        if name is not None:
            return 4
        if not 2 <= alphabet <= 16:
            return 6
        if shares == 0:
            return 7
        return 12 if shares > self.unpromised() else 0

    def name_status(self, name, code, symbol, number):
        n = len(name.marks)
        first, last = {INSERT: (1, n + 1), DELETE: (1, n), ACCESS: (1, n), RANK: (0, n)}.get(code, (0, 2**32))
        if code in (INSERT, RANK, SELECT) and symbol >= name.alphabet:
            return 8
        if not first <= number <= last:
            return 9
        if code == SELECT and not 1 <= number <= name.marks.count(symbol):
            return 10
        return 11 if code == INSERT and n == name.room() else 0

    def result(self, code, byte, symbol, number):
        """Does a command that isn't refused: symbol, depth and value of its answer."""
        name = self.names.get(byte)
        if code == OPEN:
            self.names[byte] = Name(symbol, number)
        elif code == CLOSE:
            del self.names[byte]
        elif code == INSERT:
            name.marks.insert(number - 1, symbol)
            name.tree.insert(number, symbol)
            return 0, 0, len(name.marks)
        elif code == DELETE:
            taken = name.marks.pop(number - 1)
            name.tree.delete(number)
            return taken, 0, len(name.marks)
        elif code == ACCESS:
            mark, depth = name.tree.access(number)
            assert mark == name.marks[number - 1]
            return mark, depth, 0
        elif code == RANK:
            return 0, 0, name.marks.count(symbol, 0, number)
        elif code == SELECT:
            return 0, 0, select(name.marks, symbol, number)
        elif code == LENGTH:
            return 0, 0, len(name.marks)
        elif code == UNPROMISED:
            return 0, 0, self.unpromised()
        return 0, 0, 0

    def respond(self, frame):
        """The answer's eight bytes to a command's."""
        code, byte, symbol, zero = frame[:4]
        number = int.from_bytes(frame[4:], "big")
        status = self.status(code, byte, symbol, zero, number)
        found, depth, value = (0, 0, 0) if status else self.result(code, byte, symbol, number)
        return bytes([status, byte, found, depth]) + value.to_bytes(4, "big")


def select(marks, symbol, ordinal):
    """The place of the ordinal-th symbol."""
    at = -1
    for _ in range(ordinal):
        at = marks.index(symbol, at + 1)
    return at + 1
