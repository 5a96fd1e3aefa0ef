"""The memory of a C program as docs/MEMORY.md tells it: objects of cells, pointers, and the trap of each access."""

UNSET = None
MOST_BYTES = 2**28
MOST_OBJECTS = 2**32

# The size of each scalar type and whether it has a sign.
SCALARS = {
    "bool": (1, False),
    "char": (1, True),
    "uchar": (1, False),
    "short": (2, True),
    "ushort": (2, False),
    "int": (4, True),
    "uint": (4, False),
    "long": (8, True),
    "ulong": (8, False),
    "llong": (8, True),
    "ullong": (8, False),
    "ptr": (8, False),
}


class Trap(Exception):
    """What an access through a pointer ends with."""


class Memory:
    def __init__(self):
        self.alive = {}
        self.made = 0

    def make(self, size, cell=UNSET):
        alive = sum(len(cells) for cells in self.alive.values())
        if self.made + 1 >= MOST_OBJECTS or alive + size > MOST_BYTES:
            raise Trap("Spent")
        self.made += 1
        self.alive[self.made] = [cell] * size
        return self.made << 32

    def end(self, mark):
        self.alive = {number: cells for number, cells in self.alive.items() if number <= mark}

    def object(self, pointer):
        number = pointer >> 32
        if number == 0:
            raise Trap("Null")
        if number not in self.alive:
            raise Trap("Dead")
        return self.alive[number], pointer & 0xFFFFFFFF

    def reach(self, pointer, count):
        cells, offset = self.object(pointer)
        if offset + count > len(cells):
            raise Trap("Outside")
        return cells, offset

    def read(self, pointer, count):
        cells, offset = self.reach(pointer, count)
        found = cells[offset : offset + count]
        if UNSET in found:
            raise Trap("Unset")
        return found

    def write(self, pointer, piece):
        cells, offset = self.reach(pointer, len(piece))
        cells[offset : offset + len(piece)] = piece

    def copy(self, to, source, count):
        cells, offset = self.reach(source, count)
        self.write(to, cells[offset : offset + count])

    def text(self, pointer, limit=None):
        """The bytes before a zero byte, each read by itself, and at most `limit`."""
        found = []
        while limit is None or len(found) < limit:
            byte = self.read(pointer + len(found), 1)[0]
            if byte == 0:
                break
            found.append(byte)
        return found

    def load(self, pointer, kind):
        size, signed = SCALARS[kind]
        number = int.from_bytes(self.read(pointer, size), "little", signed=signed)
        return int(number != 0) if kind == "bool" else number

    def store(self, pointer, kind, value):
        size, signed = SCALARS[kind]
        self.write(pointer, list(value.to_bytes(size, "little", signed=signed)))

    def move(self, pointer, by, size):
        cells, offset = self.object(pointer)
        to = offset + by * size
        if not 0 <= to <= len(cells):
            raise Trap("Outside")
        return (pointer >> 32 << 32) + to


def difference(to, source, size):
    if to >> 32 != source >> 32:
        raise Trap("Outside")
    distance = to - source
    return -(-distance // size) if distance < 0 else distance // size


def order(one, other):
    return "less" if one < other else "equal" if one == other else "greater"
