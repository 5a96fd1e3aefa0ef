#!/usr/bin/env python3
"""Calls of the library for the second evaluator, from docs/CALLS.md, docs/STORING.md and docs/RUNNING.md alone.

    compare/calls_made.py TURNS FILE

runs a program of written C without a slot. The link of a slot has a script of replies. A reply is a tuple: its kind, and what
docs/rows/ROWS.md says behind it, as bytes and numbers: ("rows", "I", [(name, code)], [[field]], has_notice),
("done", "I", count, has_notice), ("refused", "I", state, message), ("connected",), ("notarget",) and ("broken",). A field and a
parameter are bytes, or None for NULL.
"""

import re
import sys

import evaluator
import library
import storing
from deep import deep
from descriptor_items import Item
from evaluator import SPACE, VOID, Node, Object, Struct, Trap, decayed, is_pointer

FINDINGS = {
    100: ("02000", "no data found"), -201: ("07002", "too many targets"), -202: ("07002", "too few targets"),
    -203: ("21000", "too many rows"), -204: ("42804", "not a number of type int"),
    -205: ("42804", "not a number of an unsigned type"), -211: ("42804", "not a bool"),
    -213: ("22002", "null value without indicator"), -220: ("08003", "no such connection"),
    -230: ("26000", "no such statement"), -240: ("33000", "no such descriptor"), -241: ("07009", "descriptor index out of range"),
    -401: ("08007", "transaction control refused"), -402: ("08001", "could not connect"),
}
BROKEN, OUT_OF_PLACE = (-400, b"08006", b"connection broken"), (-400, b"08P01", b"reply out of place")
SERVER_CODES = {b"23505": -403, b"21000": -404}


# ---- sqlca, which is object 1

def struct(*members):
    made = Struct()
    made.members = list(members)
    return made


def array(of, length):
    return ("array", of, length)


AREA = Object(struct(
    ("sqlcaid", array("char", 8)), ("sqlabc", "long"), ("sqlcode", "long"),
    ("sqlerrm", struct(("sqlerrml", "int"), ("sqlerrmc", array("char", 150)))), ("sqlerrp", array("char", 8)),
    ("sqlerrd", array("long", 6)), ("sqlwarn", array("char", 8)), ("sqlstate", array("char", 5))), True)
AREA.number = 1
SHORTER = {"SQLCODE": "sqlcode", "SQLSTATE": "sqlstate"}
MESSAGE_LENGTH, MESSAGE = (1 << 32) + 24, (1 << 32) + 28


# ---- what a program writes

class Argument:
    """An argument of a call: its tokens, its expression, and what library.py asks of it."""

    def __init__(self, tokens, node):
        while len(tokens) > 2 and tokens[0][1] == "(" and tokens[-1][1] == ")":
            tokens = tokens[1:-1]
        kind, what, _ = tokens[0]
        self.node, self.is_alone, self.literal = node, len(tokens) == 1, None
        self.word = what if self.is_alone and kind == "word" else None
        if self.is_alone and kind == "string":
            self.literal = bytes(what)

    def pair(self):
        """The expression and its type, as library.py has them."""
        if self.literal is not None:
            return ("str", self.literal), None
        if self.is_alone and self.node.kind == "number" and self.word is None:
            return ("int", self.node.parts[0], self.node.type), None
        return ("name", self.word), seen_type(self.node.type)

    def constant(self):
        return self.node.parts[0]


def seen_type(t):
    t = decayed(t)
    if not is_pointer(t):
        return ("number", t)
    return ("pointer", ("number", {"char": "char", "unsigned char": "uchar"}.get(t[1] if isinstance(t[1], str) else "")))


class Member:
    """Ten values of a list."""

    def __init__(self, ten):
        self.symbol, self.at = ten[0].word[6:], ten[1]
        self.length, self.count, self.distance = (a.constant() for a in ten[2:5])
        self.has_indicator = ten[5].word != "ECPGt_NO_INDICATOR"
        self.indicator, self.told_at = ten[5].word[6:], ten[6]
        self.told_count, self.told_distance = (a.constant() for a in ten[8:])

    def host(self):
        """As storing.py has it, with the pointers that were evaluated."""
        told = {"symbol": self.indicator.replace("_", "-"), "at": self.told_at.given, "step": self.told_distance}
        return {"symbol": self.symbol.replace("_", "-"), "at": self.at.given, "size": self.length, "step": self.distance,
                "indicator": told if self.has_indicator else None}


def items(arguments):
    """Pairs of an item and its member, up to the end."""
    found = []
    while arguments[0].word != "ECPGd_EODT":
        found.append((arguments[0].word[6:], Member(arguments[1:11])))
        arguments = arguments[11:]
    return found


def members(arguments, end):
    """The members before this symbol, and the arguments behind it."""
    found = []
    while arguments[0].word != end:
        found.append(Member(arguments[:10]))
        arguments = arguments[10:]
    return found, arguments[1:]


# ---- marks, by the parts of SQL: a word, with what a word E begins; a number; quotes; comments; a mark

PARTS = re.compile(
    rb"(?P<escaped>[Ee]'(?:[^'\\]|\\.|'')*(?:'|\\?\Z))|[A-Za-z_\x80-\xff][A-Za-z0-9_$\x80-\xff]*"
    rb"|(?:[0-9]|\.[0-9])[A-Za-z0-9_.]*|'[^']*(?:'|\Z)|\"[^\"]*(?:\"|\Z)|--[^\n]*(?:\n|\Z)|(?P<comment>/\*)"
    rb"|(?P<mark>\?)|.", re.S)
COMMENT = re.compile(rb"/\*|\*/", re.S)


def comment_end(text, at):
    """Where a comment ends that begins there: comments nest."""
    depth = 0
    while found := COMMENT.search(text, at):
        depth, at = depth + (1 if found[0] == b"/*" else -1), found.end()
        if depth == 0:
            return at
    return len(text)


def marked(text):
    """The text that is prepared: its marks as parameters."""
    found, at, marks = b"", 0, 0
    while at < len(text):
        part = PARTS.match(text, at)
        end = comment_end(text, at) if part["comment"] else part.end()
        if part["mark"]:
            marks += 1
            found += b"$%d" % marks
        else:
            found += text[at:end]
        at = end
    return found


class Call:
    """A call: the text or the name that it sends, and what it is given and gives. ECPGsetcommit has none of these, a call on
    connections has texts alone, and a call on descriptors the name of one. ECPGdo may have those of its last input and of its
    only output."""

    def __init__(self, name, arguments):
        self.name, self.arguments, self.line = name, arguments, arguments[0].constant()
        self.text, self.own, self.head, self.inputs, self.outputs, self.source, self.into = None, None, b"", [], [], None, None
        if name in ON_CONNECTIONS:
            self.texts = arguments[1:]
        elif name in ON_DESCRIPTORS:
            self.on_descriptor(arguments[1], arguments[2:])
        elif name == "ECPGsetcommit":
            self.is_on, self.connection = arguments[1].literal == b"on", arguments[2]
        elif name == "ECPGtrans":
            self.connection, self.text = arguments[1:3]
        elif name == "ECPGprepare":
            self.connection, self.own, self.text = arguments[1], arguments[2].literal, arguments[3]
        elif name == "ECPGdeallocate":
            self.connection, self.own = arguments[1], arguments[2].literal
        else:
            self.connection, self.kind, rest = arguments[1], arguments[2].word, arguments[3:]
            if self.kind == "ECPGst_open":
                self.head, rest = rest[0].literal, rest[1:]
            if self.kind in ("ECPGst_open", "ECPGst_execute"):
                self.own = rest[0].literal
            else:
                self.text = rest[0]
            self.inputs, rest = members(rest[1:], "ECPGt_EOIT")
            self.outputs, _ = members(rest, "ECPGt_EORT")
            if self.inputs and self.inputs[-1].symbol == "descriptor":
                self.source = self.inputs.pop().at
            if self.outputs and self.outputs[0].symbol == "descriptor":
                self.into = self.outputs[0].at

    def on_descriptor(self, descriptor, rest):
        """The name, what is read of the program behind it, and the items, or the host of a count as one."""
        self.descriptor, self.given, self.items = descriptor, [], []
        if self.name.endswith("_header"):
            self.items = [("count", Member(rest))]
        elif rest:
            self.given, self.items = [Member(rest[:10])], items(rest[10:])
        if "set" in self.name:
            self.given += [member for _, member in self.items]


ON_CONNECTIONS = ("ECPGconnect", "ECPGdisconnect", "ECPGsetconn")
ON_DESCRIPTORS = {name for name in library.CALLS if "_desc" in name}


def lines_told(text):
    """The number of each line, from the lines `#line N` on; the first line is at 1."""
    found, number = [0], 1
    for line in text.split("\n"):
        found.append(number)
        told = re.fullmatch(r"[ \t]*#line (\d+)[ \t\r]*", line)
        number = int(told[1]) if told else number + 1
    return found


class WrittenParser(evaluator.Parser):
    """Reads written C, and finds the lines of the calls that aren't taken."""

    def __init__(self, text):
        self.not_taken, self.started = [], 1
        super().__init__(text)

    def leave(self):
        """The names of the scope that was left last are kept: those of the last function, once the text is read."""
        self.left = self.names[-1]
        super().leave()

    def refusal(self):
        """The line of the first call for which the program is refused."""
        return self.not_taken[0] if self.not_taken else None

    def cut(self, text):
        lines = lines_told(text)
        return [(kind, what, lines[line]) for kind, what, line in evaluator.tokens(text)]

    def find(self, tables, name):
        return AREA if name == "sqlca" and tables is self.names else super().find(tables, name)

    def statement(self):
        self.started = self.line
        super().statement()

    def primary(self):
        _, what, _ = self.tokens[self.at]
        if self.text in SHORTER:
            self.take()
            at, t = evaluator.offset(AREA.type, SHORTER[what])
            return Node("member", t, Node("object", AREA.type, AREA), at, False)
        if self.text in library.SYMBOLS:
            self.take()
            return Node("symbol", None)
        return super().primary()

    def call(self, name):
        if name == "sqlprint":
            self.take("(")
            self.take(")")
            return Node("sqlprint", VOID)
        return self.library_call(name) if name in library.CALLS else super().call(name)

    def library_call(self, name):
        started, arguments = self.started, []
        self.take("(")
        while not self.taken(")"):
            arguments.append(self.argument())
            if self.text != ")":
                self.take(",")
        if not library.takes(name, [a.pair() for a in arguments]):
            self.not_taken.append(started)
            return Node("library", VOID, None)
        return Node("library", VOID, Call(name, arguments))

    def argument(self):
        """A literal by itself makes no object here."""
        start = self.at
        node = self.assign()
        found = Argument(self.tokens[start:self.at], node)
        if found.literal is not None:
            self.literals.pop()
        return found


# ---- links

def has_notice(reply):
    return reply[0] in ("rows", "done") and reply[-1]


class Link:
    """A script of replies; behind the last one the link breaks, and so it does at some asks, counted from 0."""

    def __init__(self, replies, breaks=()):
        self.replies, self.breaks, self.asks = list(replies), set(breaks), 0

    def answer(self, request, outputs):
        """The reply to a request, whose rows go into these."""
        self.asks += 1
        if self.asks - 1 in self.breaks or not self.replies:
            return ("broken",)
        return self.replies.pop(0)


class Slot:
    """A link of a target's name: ready, free, taken by a connection, or dropped behind one."""

    def __init__(self, is_ready, name, link):
        self.state, self.name, self.link = "ready" if is_ready else "free", name, link


class Connection:
    """An open connection, over the slot of a number: its transaction as the server told last, and its prepared texts."""

    def __init__(self, name, number, slot, autocommit):
        self.name, self.number, self.slot, self.autocommit = name, number, slot, autocommit
        self.told, self.prepared = "I", {}
        slot.state = "taken"


def connected(slots):
    """The connections that a program begins with: the slot that is ready has autocommit on."""
    return [Connection(slot.name, n, slot, True) for n, slot in enumerate(slots) if slot.state == "ready"]


def given_back(connections):
    """The slots of connections that are open at the end."""
    for c in connections:
        c.slot.state = "free"


# ---- descriptors

def whole(field, bits):
    """A field as a number of a signed type of so many bits."""
    if field is None or not storing.is_number(field) or not -2 ** (bits - 1) <= int(field) < 2 ** (bits - 1):
        raise finding(-204)
    return int(field)


def place(field, least, most):
    """A field as a count or an index."""
    number = whole(field, 64)
    if not least <= number <= most:
        raise finding(-241)
    return number


# ---- runs

class Told(Exception):
    """A code with its state and its message: the call ends."""


def finding(code):
    state, message = FINDINGS[code]
    return Told(code, state.encode(), message.encode())


class CallingMachine(evaluator.Machine):
    """A run over slots: its connections, that which was opened first before the others, and the name of the current one."""

    def __init__(self, program, turns, slots):
        super().__init__(program, turns)
        self.exchanges, self.slots = [], slots
        self.connections, self.current, self.areas = [], None, {}

    def main(self):
        self.connections = connected(self.slots)
        self.current = self.connections[0].name if self.connections else None
        ending = super().main()
        given_back(self.connections)
        return ending

    def opened(self):
        super().opened()
        self.objects[1][:] = list(storing.OPENING)

    def value_sqlprint(self, t):
        """The message is as long as sqlca says, within its array."""
        length = min(max(self.load(MESSAGE_LENGTH, "int"), 0), 149)
        self.errors += b"SQL error: " + bytes(self.read(MESSAGE, length)) + b"\n"

    def value_library(self, t, call):
        for a in call.arguments:
            if a.literal is None and a.node.type is not None and is_pointer(decayed(a.node.type)):
                a.given = self.value(a.node)
        self.turn()
        try:
            self.made_call(call)
        except storing.Trap as trap:
            raise Trap(trap.args[0]) from None

    def made_call(self, call):
        """All that the program gives is read first, so that behind a trap everything is as it was."""
        if call.name in ON_CONNECTIONS:
            texts = [self.text_of(one) for one in call.texts]
            carry = lambda: self.on_connections(call.name, *texts)
        elif call.name in ON_DESCRIPTORS:
            descriptor, given = self.text_of(call.descriptor), [self.parameter(m) for m in call.given]
            carry = lambda: self.on_descriptors(call, descriptor, *given)
        else:
            name = self.text_of(call.connection)
            text = None if call.text is None else self.text_of(call.text)
            parameters = [self.parameter(m) for m in call.inputs]
            descriptors = [None if one is None else self.text_of(one) for one in (call.source, call.into)]
            carry = lambda: self.carry(self.found(name), call, text, parameters, *descriptors)
        storing.reset(self.objects[1])
        try:
            carry()
        except Told as told:
            storing.raise_code(self.objects[1], *told.args, call.line)
        except storing.Code as code:
            storing.raise_code(self.objects[1], *finding(code.args[0]).args, call.line)

    def named(self, name):
        """The connection of this name, or None."""
        return next((c for c in self.connections if c.name == name), None)

    def found(self, name):
        """The connection of this name, or the current one."""
        there = self.named(self.current if name is None else name)
        if there is None:
            raise finding(-220)
        return there

    def on_connections(self, call, *texts):
        if call == "ECPGconnect":
            self.connect(*texts)
        elif call == "ECPGsetconn":
            self.current = self.found(*texts).name
        elif texts[0] == b"ALL":
            while self.connections:
                self.close(self.connections[-1])
        else:
            self.close(self.found(None if texts[0] == b"CURRENT" else texts[0]))

    def connect(self, target, user, password, name):
        """Asks the first link of the target that no connection has or had."""
        own = target if name is None else name
        if self.named(own) is not None:
            raise finding(-402)
        free = [(n, slot) for n, slot in enumerate(self.slots) if slot.state == "free" and slot.name == target]
        number, slot = free[0] if free else (None, None)
        request = "connect", target, user, password
        reply = slot.link.answer(request, []) if free else ("notarget",)
        self.exchanges.append((number, request, reply))
        if not free or reply[0] != "connected":
            raise finding(-402)
        self.connections.append(Connection(own, number, slot, False))
        self.current = own

    def close(self, connection):
        """Whatever the answer. Of those that are left the one that was opened last is current, where this one was."""
        self.asked(connection, ("close",), [])
        connection.slot.state = "dropped"
        self.connections.remove(connection)
        if self.current == connection.name:
            self.current = self.connections[-1].name if self.connections else None

    def area(self, name):
        """The items of a descriptor."""
        if name not in self.areas:
            raise finding(-240)
        return self.areas[name]

    def on_descriptors(self, call, name, *given):
        if call.name == "ECPGallocate_desc":
            self.areas[name] = []
            return
        there = self.area(name)
        if call.name == "ECPGdeallocate_desc":
            del self.areas[name]
        elif call.name == "ECPGget_desc_header":
            self.stored(call.items[0][1], 0, str(len(there)).encode())
        elif call.name == "ECPGset_desc_header":
            count = place(*given, 0, 1000)
            there[count:] = [Item() for _ in range(count - len(there))]
        elif call.name == "ECPGget_desc":
            self.items_got(there[place(*given, 1, len(there)) - 1], call.items)
        else:
            self.items_set(there, place(given[0], 1, 1000), [(kind, field) for (kind, _), field in zip(call.items, given[1:])])

    def items_got(self, item, wanted):
        """A NULL leaves a host without an indicator of its own, where the indicator is asked for too."""
        asked = any(kind == "indicator" for kind, _ in wanted)
        for kind, member in wanted:
            field = item.given(kind)
            if field is not None or member.has_indicator or not asked:
                self.stored(member, 0, field)

    def items_set(self, there, index, values):
        """The count is raised by the first item that can be set."""
        for kind, field in values:
            value = field if kind == "data" else whole(field, 32)
            there += [Item() for _ in range(index - len(there))]
            there[index - 1].set(kind, value)

    def stored(self, member, row, field):
        if storing.from_text(self.objects, member.host(), row, field):
            storing.warn(self.objects[1])

    def carry(self, c, call, text, parameters, source, into):
        """What a call does over a connection."""
        if call.name == "ECPGtrans":
            self.control(c, text)
        elif call.name == "ECPGsetcommit":
            if call.is_on and not c.autocommit and c.told != "I":
                self.control(c, b"commit")
            c.autocommit = call.is_on
        elif call.name == "ECPGprepare":
            self.prepare(c, call.own, marked(text))
        elif call.name == "ECPGdeallocate":
            self.deallocate(c, call.own)
        else:
            kind, what = self.request(c, call, text)
            if source is not None:
                parameters += [item.content for item in self.area(source)]
            if into is not None:
                self.area(into)
            if not c.autocommit and c.told == "I":
                self.control(c, b"begin transaction")
            self.settled(call, self.asked(c, (kind, what, parameters), call.outputs), into)

    def control(self, c, text):
        if self.asked(c, ("text", text, []), [])[0] not in ("rows", "done"):
            raise finding(-401)

    def prepared_text(self, c, name):
        if name not in c.prepared:
            raise finding(-230)
        return c.prepared[name]

    def request(self, c, call, text):
        """What ECPGdo asks: of a prepared statement by its name, of a cursor for one by its text."""
        if call.own is None:
            return "text", text
        prepared = self.prepared_text(c, call.own)
        return ("exec", call.own) if call.kind == "ECPGst_execute" else ("text", call.head + prepared)

    def prepare(self, c, name, text):
        self.taken(self.asked(c, ("prepare", name, text), []))
        c.prepared[name] = text

    def deallocate(self, c, name):
        self.prepared_text(c, name)
        self.taken(self.asked(c, ("deallocate", name), []))
        del c.prepared[name]

    def taken(self, reply):
        """PREPARE and DEALLOCATE count nothing, and rows are as good as done."""
        if reply[0] not in ("rows", "done"):
            self.failed(reply)

    def text_of(self, argument):
        """A text, or None where it isn't given."""
        if argument.literal is not None:
            return argument.literal
        return None if argument.word == "NULL" else storing.text(self.objects, argument.given)

    def parameter(self, member):
        return member.at.literal if member.symbol == "const" else storing.to_text(self.objects, member.host())

    def asked(self, c, request, outputs):
        """The reply to a request over a connection, what it tells of the transaction, and its notice."""
        reply = c.slot.link.answer(request, outputs)
        if reply[0] in ("rows", "done", "refused"):
            c.told = reply[1]
        if request[0] != "close" and has_notice(reply):
            storing.notice(self.objects[1])
        self.exchanges.append((c.number, request, reply))
        return reply

    def settled(self, call, reply, into):
        """What a reply makes of the call, by the table `Answers of ECPGdo`."""
        kind, *rest = reply
        if kind == "rows":
            self.rows_settled(call, rest[1], rest[2], into)
        elif kind == "done":
            self.done_settled(call, rest[1])
        else:
            self.failed(reply)

    def failed(self, reply):
        kind, *rest = reply
        if kind == "refused":
            raise Told(SERVER_CODES.get(rest[1], -400), rest[1], rest[2])
        raise Told(*(BROKEN if kind == "broken" else OUT_OF_PLACE))

    def done_settled(self, call, count):
        storing.rows(self.objects[1], count or 0)
        if count == 0:
            raise finding(100)
        if call.outputs:
            raise finding(-201)

    def rows_settled(self, call, columns, rows, into):
        storing.rows(self.objects[1], len(rows))
        if not rows:
            raise finding(100)
        if not call.outputs:
            return
        if into is not None:
            if len(rows) > 1:
                raise finding(-203)
            self.areas[into] = [Item(field, *column) for column, field in zip(columns, rows[0])]
            return
        if len(columns) != len(call.outputs):
            raise finding(-201 if len(columns) < len(call.outputs) else -202)
        if any(m.count < len(rows) for m in call.outputs):
            raise finding(-203)
        for column, member in enumerate(call.outputs):
            for row, fields in enumerate(rows):
                self.stored(member, row, fields[column])


class Run:
    """What is seen of a run: its outputs, its ending, its exchanges (slot, request, reply), its slots, and each object's cells.

    `used` is the number of turns that it took. A program that is refused has the ending ("refused", LINE), for F16.
    """

    def __init__(self, text, turns, slots):
        program = WrittenParser(text)
        self.machine = CallingMachine(program, turns, slots)
        refused = program.refusal()
        self.ending = ("refused", refused) if refused is not None else self.machine.main()
        self.output, self.errors = bytes(self.machine.output), bytes(self.machine.errors)
        self.exchanges, self.used, self.slots = self.machine.exchanges, turns - self.machine.turns, slots
        self.objects = [self.machine.objects.get(n) for n in range(1, self.machine.made + 1)]


def main(turns, file, kind=Run):
    """Shows a run of that kind without a slot."""
    with open(file, encoding="latin-1", newline="") as source:
        run = deep(kind, source.read(), int(turns), [])
    sys.stdout.buffer.write(run.output)
    sys.stdout.flush()
    sys.stderr.buffer.write(run.errors)
    print(*run.ending, file=sys.stderr)


if __name__ == "__main__":
    sys.dont_write_bytecode = True
    main(*sys.argv[1:])
