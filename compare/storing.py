"""Values between C and SQL, from the rules alone: what a host gives, what a field stores, and sqlca.

Memory is a dictionary from the numbers of objects to lists of cells, a cell being a byte or None where it is unset; an
object that isn't in it was never made or has ended. A pointer is the object's number times 2^32 plus an offset.
"""

WIDTHS = {"short": 2, "unsigned-short": 2, "int": 4, "unsigned-int": 4, "long": 8, "unsigned-long": 8, "long-long": 8,
          "unsigned-long-long": 8}
TEXTS = {"char", "unsigned-char"}


class Trap(Exception):
    """A trap, by its name."""


class Code(Exception):
    """A code of sqlca, by its number."""


def reached(memory, pointer, count):
    """The cells and the offset of an access of so many bytes."""
    number, offset = pointer >> 32, pointer & 0xFFFFFFFF
    if number == 0:
        raise Trap("Null")
    if number not in memory:
        raise Trap("Dead")
    if offset + count > len(memory[number]):
        raise Trap("Outside")
    return memory[number], offset


def load(memory, pointer, count):
    cells, offset = reached(memory, pointer, count)
    found = cells[offset:offset + count]
    if None in found:
        raise Trap("Unset")
    return bytes(found)


def put(memory, pointer, data):
    cells, offset = reached(memory, pointer, len(data))
    cells[offset:offset + len(data)] = list(data)


def moved(memory, pointer, distance):
    """A pointer that is so many bytes further on; one past the end is inside."""
    number, offset = pointer >> 32, pointer & 0xFFFFFFFF
    reached(memory, number << 32, 0)
    if not 0 <= offset + distance <= len(memory[number]):
        raise Trap("Outside")
    return pointer + distance


def text(memory, pointer, most=None):
    """The bytes up to the first zero byte, or up to it or a length; each is an access of its own."""
    out = b""
    while most is None or len(out) < most:
        number, offset = pointer >> 32, pointer & 0xFFFFFFFF
        if number in memory and number and offset + len(out) > 0xFFFFFFFF:
            raise Trap("Outside")
        byte = load(memory, pointer + len(out), 1)
        if byte == b"\0":
            break
        out += byte
    return out


def signed(symbol):
    return not symbol.startswith("unsigned")


def number_at(memory, pointer, symbol):
    return int.from_bytes(load(memory, pointer, WIDTHS[symbol]), "little", signed=signed(symbol))


def to_text(memory, host):
    """What a host gives as a parameter: bytes, or None for NULL."""
    symbol, pointer, size, indicator = host["symbol"], host["at"], host["size"], host.get("indicator")
    if indicator and number_at(memory, indicator["at"], indicator["symbol"]) < 0:
        return None
    if symbol in WIDTHS:
        return str(number_at(memory, pointer, symbol)).encode()
    if symbol == "bool":
        return b"t" if load(memory, pointer, 1) != b"\0" else b"f"
    if symbol in TEXTS:
        if size:
            return text(memory, pointer, size)
        return text(memory, int.from_bytes(load(memory, pointer, 8), "little"))
    length = number_at(memory, pointer, "int")
    if not 0 <= length <= size:
        raise Trap("BadLen")
    return text(memory, moved(memory, pointer, 4), length)


def is_number(field):
    digits = field[1:] if field[:1] in (b"+", b"-") else field
    return digits.isdigit() and digits.isascii() and len(digits) > 0


def bytes_of(symbol, size, field):
    """The bytes that a field stores, and whether it is cut."""
    if symbol in WIDTHS:
        refused = Code(-204 if signed(symbol) else -205)
        if not is_number(field):
            raise refused
        try:
            return int(field).to_bytes(WIDTHS[symbol], "little", signed=signed(symbol)), False
        except OverflowError:
            raise refused from None
    if symbol == "bool":
        if field not in (b"t", b"f"):
            raise Code(-211)
        return bytes([field == b"t"]), False
    if symbol in TEXTS:
        if not size or len(field) < size:
            return field + b"\0", False
        return field[:size], len(field) > size
    taken = field[:size]
    return len(taken).to_bytes(4, "little") + taken + bytes(size - len(taken)), len(field) > size


def tell(memory, indicator, row, value):
    pointer = moved(memory, indicator["at"], row * indicator["step"])
    put(memory, pointer, value.to_bytes(WIDTHS[indicator["symbol"]], "little", signed=True))


def from_text(memory, host, row, field):
    """Stores a field, or None for NULL, in an element of a host. Whether it was cut. The memory is changed in place."""
    symbol, size, indicator = host["symbol"], host["size"], host.get("indicator")
    if field is None:
        if not indicator:
            raise Code(-213)
        tell(memory, indicator, row, -1)
        return False
    data, cut = bytes_of(symbol, size, field)
    pointer = moved(memory, host["at"], row * host["step"])
    if symbol in TEXTS and not size:
        pointer = int.from_bytes(load(memory, pointer, 8), "little")
    put(memory, pointer, data)
    if indicator:
        greatest = 2 ** (8 * WIDTHS[indicator["symbol"]] - 1) - 1
        tell(memory, indicator, row, min(len(field), greatest) if cut else 0)
    return cut


OPENING = (b"SQLCA   " + (256).to_bytes(8, "little") + bytes(8) + bytes(4) + bytes(150) + bytes(2) + b"NOT SET "
           + bytes(4) + bytes(48) + bytes(8) + b"00000" + bytes(3))
MEMBERS = [(0, 8), (8, 8), (16, 8), (24, 4), (28, 150), (180, 8), (192, 48), (240, 8), (248, 5)]


def reset(area):
    """Each member as at the opening; the bytes between members stay."""
    for offset, count in MEMBERS:
        area[offset:offset + count] = list(OPENING[offset:offset + count])


def raise_code(area, code, state, message, line):
    kept = (message + b" on line " + str(line).encode())[:149]
    kept += bytes(150 - len(kept))
    area[16:24] = list(code.to_bytes(8, "little", signed=True))
    area[24:28] = list(kept.index(0).to_bytes(4, "little"))
    area[28:178] = list(kept)
    area[248:253] = list(state)


def warn(area):
    area[240:242] = list(b"WW")


def notice(area):
    area[240] = area[242] = ord("W")


def rows(area, count):
    area[208:216] = list((count & (2 ** 64 - 1)).to_bytes(8, "little"))
