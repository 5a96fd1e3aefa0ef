#!/usr/bin/env python3
"""Transcripts, from docs/TRANSCRIPT.md alone: compare/transcripts.py FILE

prints what the file is the transcript of, as the rows of ec_transcript_rows do (docs/rows/ROWS.md), or the line at which
it is refused.

A slot is (whether it is ready, name). An exchange is (slot or None, request, reply). A request is its word and what
stands behind it, parameters as one list: ("text", text, [field]). A reply is one of ("connected",), ("notarget",),
("broken",), ("done", state, count, notice), ("refused", state, five bytes, message) and ("rows", state, [(name, code)],
[[field]], notice). A field is bytes, or None.
"""

import re
import sys

sys.set_int_max_str_digits(0)

MOST_SLOTS = 64
COUNTS = range(2 ** 64)
CODES = range(-2 ** 31, 2 ** 31)
PLAIN = set(range(32, 127)) - set(b'"\\')
CLEAN = set(b"0123456789ABCDEFGHIJKLMNOPQRSTUVWXYZ?")

NUMBER = rb"(?:0|[1-9][0-9]*)"
TEXT = rb'"(?:[ !#-\[\]-~]|\\(?:[01][0-9a-f]|22|5c|7f|[89a-f][0-9a-f]))*"'
FIELD = rb"(?:%s|-)" % TEXT
FIELDS = rb"(?: %s)*" % FIELD
PLACE = rb"(?:%s|-)" % NUMBER


def form(start, *parts):
    """The pattern of a line: its words, and the parts behind them, of which each is a group."""
    return re.compile(start + b"".join(b" (%s)" % part for part in parts))


FIRST = form(b"ecpg-transcript", b"[12]")
SLOT = form(b"slot", b"ready|free", TEXT)
AT = form(b"@", PLACE)
REQUESTS = {
    "connect": form(b"> connect", TEXT, FIELD, FIELD), "prepare": form(b"> prepare", TEXT, TEXT),
    "deallocate": form(b"> deallocate", TEXT), "close": form(b"> close"),
    "text": form(b"> text", TEXT, NUMBER + FIELDS), "exec": form(b"> exec", TEXT, NUMBER + FIELDS),
}
PLAIN_REPLIES = ("connected", "notarget", "broken")
DONE = re.compile(rb"< done ([IAF]) (%s)( notice)?" % PLACE)
REFUSED = form(b"< refused", b"[IAF]", rb"[0-9A-Z?]{5}", TEXT)
ROWS = re.compile(rb"< rows ([IAF]) (%s) (%s)( notice)?" % (NUMBER, NUMBER))
COLUMN = form(b"c", TEXT, rb"0|-?[1-9][0-9]*")
ROW = re.compile(rb"r(%s)" % FIELDS)
ESCAPED = re.compile(rb"\\(..)", re.S)


# ---- reading

class Bad(Exception):
    """What is no transcript, with the line at which it is refused."""


def field(word):
    return None if word == b"-" else ESCAPED.sub(lambda found: bytes([int(found[1], 16)]), word[1:-1])


def fields(words):
    return [field(word) for word in re.findall(FIELD, words)]


class Reader:
    """The lines of a text, one after the other."""

    def __init__(self, text):
        *self.lines, self.behind = text.split(b"\n")
        self.number = 0

    def bad(self):
        return Bad(self.number + 1)

    def line(self):
        """The next line, or nothing behind the last one."""
        return self.lines[self.number] if self.number < len(self.lines) else None

    def taken(self, pattern):
        """What the next line has, if it is of this form."""
        line = self.line()
        found = None if line is None else pattern.fullmatch(line)
        if found:
            self.number += 1
        return found

    def wanted(self, pattern):
        found = self.taken(pattern)
        if not found:
            raise self.bad()
        return found

    def refused_before(self):
        """The line that was taken last has a part that no transcript has."""
        self.number -= 1
        raise self.bad()

    # -- the parts of a transcript

    def whole(self):
        self.version = int(self.wanted(FIRST)[1])
        slots, log = [], []
        while found := self.taken(SLOT):
            slots.append((found[1] == b"ready", field(found[2])))
            if len(slots) > MOST_SLOTS:
                self.refused_before()
        while self.line() is not None:
            log.append(self.exchange(len(slots)))
        if self.behind:
            raise self.bad()
        return slots, log

    def exchange(self, slots):
        place = self.wanted(AT)[1]
        if place != b"-" and int(place) >= slots:
            self.refused_before()
        return None if place == b"-" else int(place), self.request(), self.reply()

    def request(self):
        for word, pattern in REQUESTS.items():
            if found := self.taken(pattern):
                if word not in ("text", "exec"):
                    return word, *(field(part) for part in found.groups())
                count, _, words = found[2].partition(b" ")
                parameters = fields(words)
                if int(count) != len(parameters):
                    self.refused_before()
                return word, field(found[1]), parameters
        raise self.bad()

    def reply(self):
        for word in PLAIN_REPLIES:
            if self.taken(re.compile(b"< " + word.encode())):
                return (word,)
        if found := self.taken(DONE):
            count = None if found[2] == b"-" else int(found[2])
            if count is not None and count not in COUNTS:
                self.refused_before()
            return "done", found[1].decode(), count, self.noticed(found[3])
        if found := self.taken(REFUSED):
            return "refused", found[1].decode(), found[2], field(found[3])
        found = self.wanted(ROWS)
        notice = self.noticed(found[4])
        return "rows", found[1].decode(), *self.table(int(found[2]), int(found[3])), notice

    def noticed(self, word):
        if word and self.version == 1:
            self.refused_before()
        return word is not None

    def table(self, width, height):
        columns, rows = [], []
        while len(columns) < width:
            found = self.wanted(COLUMN)
            if int(found[2]) not in CODES:
                self.refused_before()
            columns.append((field(found[1]), int(found[2])))
        while len(rows) < height:
            rows.append(fields(self.wanted(ROW)[1]))
            if len(rows[-1]) != width:
                self.refused_before()
        return columns, rows


def read(text):
    """The slots and the log of a transcript, and its version."""
    reader = Reader(text)
    slots, log = reader.whole()
    return slots, log, reader.version


# ---- writing

def quoted(text):
    return '"' + "".join(chr(byte) if byte in PLAIN else f"\\{byte:02x}" for byte in text) + '"'


def optional(text):
    return "-" if text is None else quoted(text)


def clean(log):
    """The log with `?` for each byte of a state that can't stand in a transcript."""
    def cleaned(reply):
        if reply[0] != "refused":
            return reply
        return (*reply[:2], bytes(byte if byte in CLEAN else ord("?") for byte in reply[2]), reply[3])
    return [(slot, request, cleaned(reply)) for slot, request, reply in log]


def request_line(word, *parts):
    if word in ("text", "exec"):
        text, parameters = parts
        return " ".join(["> " + word, quoted(text), str(len(parameters)), *map(optional, parameters)])
    if word == "connect":
        return " ".join(["> connect", quoted(parts[0]), *map(optional, parts[1:])])
    return " ".join(["> " + word, *map(quoted, parts)])


def reply_lines(word, *parts):
    if word == "done":
        state, count, notice = parts
        return [f"< done {state} {'-' if count is None else count}{' notice' * notice}"]
    if word == "refused":
        state, five, message = parts
        return [f"< refused {state} {five.decode()} {quoted(message)}"]
    if word == "rows":
        state, columns, rows, notice = parts
        lines = [f"< rows {state} {len(columns)} {len(rows)}{' notice' * notice}"]
        lines += [f"c {quoted(name)} {code}" for name, code in columns]
        return lines + [" ".join(["r", *map(optional, row)]) for row in rows]
    return ["< " + word]


def written(slots, log):
    """The transcript of version 2."""
    lines = ["ecpg-transcript 2"]
    lines += [f"slot {'ready' if is_ready else 'free'} {quoted(name)}" for is_ready, name in slots]
    for slot, request, reply in clean(log):
        lines += [f"@ {'-' if slot is None else slot}", request_line(*request), *reply_lines(*reply)]
    return "".join(line + "\n" for line in lines).encode()


# ---- links over a transcript

LIMIT = 2 ** 24


class Replayer:
    """A link over the part of a slot."""

    def __init__(self, log, slot):
        self.part = [(request, reply) for place, request, reply in log if place == slot]
        self.said, self.is_over = [], False

    def ask(self, request):
        number = len(self.said)
        self.is_over = self.is_over or number == len(self.part) or self.part[number][0] != request
        reply = ("broken",) if self.is_over else self.part[number][1]
        self.said.append((request, reply))
        return reply

    def broke(self):
        return sum(reply == ("broken",) for _, reply in self.said)


# ---- the rows of ec_transcript_rows

def escaped(text):
    """A text in a row: the bytes from 33 to 126 but the backslash are themselves."""
    return "".join(chr(byte) if 33 <= byte <= 126 and byte != 92 else f"\\{byte:02x}" for byte in text)


def word_of(text):
    return "-" if text is None else "=" + escaped(text)


def request_row(word, *parts):
    if word in ("text", "exec"):
        parts = parts[0], *parts[1]
    return " ".join([word, *map(word_of, parts)])


def reply_row(word, *parts):
    if word == "done":
        state, count, notice = parts
        return f"done {state} {'-' if count is None else count}{' notice' * notice}"
    if word == "refused":
        state, five, message = parts
        return f"refused {state} {word_of(five)} {word_of(message)}"
    if word == "rows":
        state, columns, rows, notice = parts
        words = [f"rows {state}{' notice' * notice}"]
        words += [f"{code}:{word_of(name)}" for name, code in columns]
        return " ".join(words + [" ".join(["row", *map(word_of, row)]) for row in rows])
    return word


def rows_of(slots, log):
    """The lines that give a log."""
    lines = [f"slot {'ready' if is_ready else 'free'} {word_of(name)}" for is_ready, name in slots]
    for slot, request, reply in log:
        lines += [f"over {'-' if slot is None else slot}", request_row(*request), reply_row(*reply)]
    return lines


def read_answer(text):
    """What `read` answers of a text."""
    try:
        slots, log, version = read(text)
    except Bad as bad:
        return [f" bad {bad.args[0]}"]
    again = written(slots, log)
    same = again == text if version == 2 else again == text.replace(b"transcript 1", b"transcript 2", 1)
    end = "otherwise" if not same else "the same" if version == 2 else "with the first line of version 2"
    return [" " + line for line in rows_of(slots, log)] + [f" written {end}"]


def replay_answer(text):
    """The links of a text, and what `replay` answers of it."""
    if len(text) > LIMIT:
        return [], [" too long"]
    try:
        slots, log, _ = read(text)
    except Bad as bad:
        return [], [f" bad {bad.args[0]}"]
    return [Replayer(log, slot) for slot in range(len(slots))], [" " + line for line in rows_of(slots, [])] + [" replayed"]


def ask_answer(link, request):
    """What `ask` answers."""
    return [" " + reply_row(*link.ask(request))]


def said_answer(link):
    """What `said` answers."""
    lines = [" " + row for request, reply in link.said for row in (request_row(*request), reply_row(*reply))]
    return lines + [f" broke {link.broke()}"]


def replayed(slots, log, asked):
    """The rows that replay a log and ask its links, and what is printed of them."""
    given = ["new", *rows_of(slots, log), "write"]
    links, answer = replay_answer(written(slots, log))
    told = [*given, *write_answer(slots, log), "replay", *answer]
    given.append("replay")
    for slot, request in asked if links else []:
        given.append(" ".join(["ask", str(slot), request_row(*request)]))
        told += [given[-1], *ask_answer(links[slot], request)]
    for number, link in enumerate(links):
        given.append(f"said {number}")
        told += [given[-1], *said_answer(link)]
    return given, told


def write_answer(slots, log):
    """What `write` answers of slots and a log."""
    return [" " + line for line in written(slots, log).decode().split("\n")[:-1]]


def runs_answer(texts, first=0):
    """What `cuts` and the like answer: at which line each of these texts is refused, if at one."""
    runs = []
    for number, text in enumerate(texts, first):
        answer = read_answer(text)[0]
        answer = answer if answer.startswith(" bad") else " read"
        if runs and runs[-1][2] == answer:
            runs[-1][1] = number
        else:
            runs.append([number, number, answer])
    return [f" {first} {last}{answer}" for first, last, answer in runs]


def cuts_answer(text):
    return runs_answer([text[:length] for length in range(len(text) + 1)])


def drops_answer(text):
    return runs_answer([text[:at] + text[at + 1:] for at in range(len(text))])


def lines_answer(text, times):
    """What `skips` and `doubles` answer: each line so many times, numbered from 1."""
    lines = re.findall(rb"[^\n]*\n|[^\n]+", text)
    return runs_answer([b"".join([*lines[:at], *[line] * times, *lines[at + 1:]]) for at, line in enumerate(lines)], 1)


def main(file):
    with open(file, "rb") as source:
        print("\n".join(line[1:] for line in read_answer(source.read())))


if __name__ == "__main__":
    main(*sys.argv[1:])
