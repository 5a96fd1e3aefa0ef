"""Rows of crates/ec_run_rows (docs/rows/ROWS.md) on programs of written C: as they are given, and what each has to leave."""

import re
from dataclasses import dataclass, field

from calls_made import Link, Run, Slot

NAMES = {"turns_spent": "turns spent"}
NOTICE = " notice"
DEFAULT_TURNS, ROOM = 1_000_000, 1 << 16


@dataclass
class Place:
    """A slot: its name, and what its link answers."""

    is_ready: bool
    name: bytes
    replies: list = field(default_factory=list)
    breaks: list = field(default_factory=list)

    def slot(self):
        return Slot(self.is_ready, self.name, Link(self.replies, self.breaks))


@dataclass
class Row:
    title: str
    source: str
    turns: int = None
    places: list = field(default_factory=list)

    def run(self):
        return Run(self.source, DEFAULT_TURNS if self.turns is None else self.turns, [p.slot() for p in self.places])


# ---- parts of lines

def quoted(text):
    plain = lambda b: 32 <= b <= 126 and b not in b'"\\'
    return '"' + "".join(chr(b) if plain(b) else f"\\{b:02x}" for b in text) + '"'


def unquoted(text):
    return re.sub(rb"\\([0-9a-f]{2})", lambda m: bytes([int(m[1], 16)]), text.encode("latin-1"))


def field_text(value):
    return "-" if value is None else quoted(value)


def request_text(kind, first=None, second=None, *more):
    """A request of a kind: what it names, and the text, the parameters, or the user and the password behind that."""
    if kind == "close":
        return kind
    if kind == "connect":
        return " ".join([kind, quoted(first), *(field_text(text) for text in (second, *more))])
    if second is None:
        return f"{kind} {quoted(first)}"
    if kind == "prepare":
        return f"{kind} {quoted(first)} {quoted(second)}"
    return f"{kind} {quoted(first)} {len(second)}" + "".join(" " + field_text(value) for value in second)


def fields(text):
    return [None if word == "-" else unquoted(word[1:-1]) for word in re.findall(r'-|"[^"]*"', text)]


def reply_lines(reply):
    kind, *rest = reply
    if kind == "rows":
        tx, columns, rows, has_notice = rest
        return [f"< rows {tx}" + NOTICE * has_notice, *(f"c {quoted(name)} {code}" for name, code in columns),
                *("r" + "".join(" " + field_text(f) for f in row) for row in rows)]
    if kind == "done":
        tx, count, has_notice = rest
        return [f"< done {tx} {'-' if count is None else count}" + NOTICE * has_notice]
    if kind == "refused":
        return [f"< refused {rest[0]} {rest[1].decode('latin-1')} {quoted(rest[2])}"]
    return [f"< {kind}"]


# ---- what a row is given

def given(row):
    """The lines of a row, with its source."""
    lines = ["source", *(f"| {line}" for line in row.source.split("\n")[:-1]), f"row {row.title}"]
    lines += ["words exec" + ("" if row.turns is None else f" --turns {row.turns}"), f"room {ROOM}"]
    for place in row.places:
        lines.append(f"slot {'ready' if place.is_ready else 'free'} {quoted(place.name)}")
        if place.breaks:
            lines.append("breaks " + " ".join(map(str, sorted(place.breaks))))
        for reply in place.replies:
            lines += reply_lines(reply)
    return "\n".join([*lines, "go", "", ""])


def reply_read(words):
    kind, *rest = words.split(" ", 3)
    has_notice = rest[-1:] == ["notice"]
    if kind == "rows":
        return ("rows", rest[0], [], [], has_notice)
    if kind == "done":
        return ("done", rest[0], None if rest[1] == "-" else int(rest[1]), has_notice)
    if kind == "refused":
        return ("refused", rest[0], rest[1].encode("latin-1"), unquoted(rest[2][1:-1]))
    return (kind,)


def escaped_bytes(text):
    return unquoted(text).decode("latin-1")


def source_line(word, rest):
    """What a line adds to the source."""
    if word == "times":
        count, _, line = rest.partition(" ")
        return (line + "\n") * int(count)
    return rest + "\n" if word == "|" else escaped_bytes(rest)


def place_line(place, word, rest):
    """Takes a line that belongs to a slot."""
    if word == "breaks":
        place.breaks = [int(n) for n in rest.split()]
    elif word == "<":
        place.replies.append(reply_read(rest))
    elif word == "c":
        name, code = re.fullmatch(r'"([^"]*)" (-?\d+)', rest).groups()
        place.replies[-1][2].append((unquoted(name), int(code)))
    elif word == "r":
        place.replies[-1][3].append(fields(rest))


def section(text, name="runs"):
    """The lines of a section, or of a whole file that has none."""
    parts = re.split(r"^section (\w+)\n", text, flags=re.M)
    return dict(zip(parts[1::2], parts[2::2]))[name] if len(parts) > 1 else text


def read(text, command="exec"):
    """The rows of a file that run written C, or sources, over outputs which take all."""
    found, source, is_wanted = [], "", True
    for line in section(text).split("\n"):
        word, _, rest = line.partition(" ")
        if word == "source":
            source = ""
        elif word in ("|", "+", "times"):
            source += source_line(word, rest)
        elif word == "row":
            row, is_wanted = Row(rest, source), command == "run"
        elif word == "words":
            words = re.fullmatch(rf"{command}(?: --turns (\d+))?", rest)
            is_wanted = words is not None
            row.turns = int(words[1]) if words and words[1] else None
        elif word in ("reads", "puts", "last", "room", "chunk", "refusals"):
            is_wanted = False
        elif word == "slot":
            state, _, name = rest.partition(" ")
            row.places.append(Place(state == "ready", unquoted(name[1:-1])))
        elif word in ("breaks", "<", "c", "r"):
            place_line(row.places[-1], word, rest)
        elif word == "go" and is_wanted:
            found.append(row)
    return found


# ---- what a row leaves

def ended(ending):
    """The status, and the last line on standard error."""
    kind, *rest = ending
    if kind == "exited":
        return rest[0], b""
    if kind == "trapped":
        return 67, f"ecpgc: trap {rest[0]} at line {rest[1]}\n".encode()
    if kind == "refused":
        return 65, f"ecpgc: F16 call at line {rest[0]}\n".encode()
    return 68, b"ecpgc: turns spent\n"


def left(row, run):
    """What the program of the rows prints for a row, without the empty line at its end."""
    kind = run.ending[0]
    status, last = ended(run.ending)
    lines = [f"row {row.title}", NAMES.get(kind, kind), f"status {status}", f"out {quoted(run.output)}",
             f"err {quoted(run.errors + last)}", "left 0"]
    for slot, request, reply in run.exchanges:
        lines += [f"@ {'-' if slot is None else slot}", "> " + request_text(*request), *reply_lines(reply)]
    lines += [f"slot {slot.state} {quoted(slot.name)}" for slot in run.slots]
    return "\n".join(lines)


def parted(text):
    """What was printed, row by row."""
    return [part.strip("\n") for part in re.split(r"\n\n(?=row )|\n\n$", section(text)) if part.strip("\n")]
