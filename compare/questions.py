"""Random rows on memory, each with the answer that compare/objects.py has for it."""

import random

from objects import SCALARS, Memory, Trap, difference, order

BIGGEST = 2**127 - 1


def shown(pointer):
    return f"{pointer >> 32}:{pointer & 0xFFFFFFFF}"


def listed(piece):
    return ",".join(map(str, piece)) or "-"


class Rows:
    def __init__(self, seed):
        self.random = random.Random(seed)
        self.memory = Memory()

    def pointer(self):
        pick = self.random.random()
        if pick < 0.04:
            return self.random.choice([0, 7, 2**32 - 1])
        number = self.random.randint(max(1, self.memory.made - 6), self.memory.made + 1)
        if pick < 0.1:
            number = self.random.randint(1, self.memory.made + 2)
        return (number << 32) + self.random.choice([0, 0, 0, 1, 2, 3, 4, 7, 8, 12, self.random.randint(0, 40), 2**32 - 1])

    def count(self):
        return self.random.choice([0, 1, 1, 2, 3, 4, 8, 12, self.random.randint(0, 40), 2**32, 2**64 - 1])

    def few(self):
        return self.random.choice([0, 1, 2, 3, 4, 8, 12, self.random.randint(0, 40)])

    def value(self, kind):
        if kind == "bool":
            return self.random.randint(0, 1)
        if kind == "ptr":
            return self.pointer()
        size, signed = SCALARS[kind]
        least = -(2 ** (8 * size - 1)) if signed else 0
        return self.random.choice([least, least + 2 ** (8 * size) - 1, self.random.randint(least, least + 2 ** (8 * size) - 1)])

    def row(self):
        """A row, and a function that gives its answer or traps."""
        m, p = self.memory, self.pointer()
        ask = self.random.choice(
            "make make make-zeroed mark end put put put fill copy copy unset span span text text-up-to load load store store "
            "move move-wide difference order".split()
        )
        at = f"memory {ask} {shown(p)}"
        if ask in ("make", "make-zeroed"):
            size = self.random.choice([1, 2, 4, 8, 16, 33])
            cell = 0 if ask == "make-zeroed" else None
            return f"memory {ask} {size}", lambda: shown(m.make(size, cell))
        if ask == "mark":
            return "memory mark", lambda: str(m.made)
        if ask == "end":
            mark = max(0, m.made - self.random.choice([0, 0, 1, 1, 2, 3]))
            return f"memory end {mark}", lambda: m.end(mark)
        if ask == "put":
            piece = [self.random.choice([0, 1, 65, 128, 255]) for _ in range(self.random.randint(1, 9))]
            return f"{at} {listed(piece)}", lambda: m.write(p, piece)
        if ask == "fill":
            n, byte = self.few(), self.random.choice([0, 7, 255])
            return f"{at} {n} {byte}", lambda: m.write(p, [byte] * n)
        if ask == "unset":
            n = self.few()
            return f"{at} {n}", lambda: m.write(p, [None] * n)
        if ask == "copy":
            source, n = self.pointer(), self.count()
            return f"{at} {shown(source)} {n}", lambda: m.copy(p, source, n)
        if ask == "span":
            n = self.count()
            return f"{at} {n}", lambda: listed(m.read(p, n))
        if ask == "text":
            return at, lambda: listed(m.text(p))
        if ask == "text-up-to":
            n = self.count()
            return f"{at} {n}", lambda: listed(m.text(p, n))
        if ask == "load":
            kind = self.random.choice(list(SCALARS))
            see = shown if kind == "ptr" else str
            return f"{at} {kind}", lambda: see(m.load(p, kind))
        if ask == "store":
            kind = self.random.choice(list(SCALARS))
            value = self.value(kind)
            see = shown if kind == "ptr" else str
            return f"{at} {kind} {see(value)}", lambda: m.store(p, kind, value)
        if ask in ("move", "move-wide"):
            most = 2**63 - 1 if ask == "move" else BIGGEST
            by = self.random.choice([0, 1, -1, 2, -2, 3, 8, -8, most, -most - 1])
            size = self.random.choice([0, 1, 2, 4, 8, 2**63, 2**64 - 1])
            return f"{at} {by} {size}", lambda: shown(m.move(p, by, size))
        other = self.pointer()
        if ask == "difference":
            size = self.random.choice([1, 2, 4, 8, 3])
            return f"{at} {shown(other)} {size}", lambda: str(difference(p, other, size))
        return f"{at} {shown(other)}", lambda: order(p, other)

    def answered(self):
        row, answer = self.row()
        try:
            return f"{row} = {answer() or 'done'}"
        except Trap as trap:
            return f"{row} = {trap}"
