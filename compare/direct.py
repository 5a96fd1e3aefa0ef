#!/usr/bin/env python3
"""Runs a source with embedded SQL as it stands: compare/direct.py TURNS FILE

No C is written and no call of the library is made. C is taken by evaluator.py. An embedded statement is a step of its own: its
hosts are places with types, found in the scope where it stands, and its handlers are the last WHENEVER of each condition above it
in the text. It takes sources that the checks accept, with statements of every form.

Without a slot, each statement that is sent is -220. `Run` takes slots and replies as calls_made.py does.
"""

import re
import sys
from functools import lru_cache

import calls_made
import direct_dynamic
import evaluator
import storing
from calls_made import AREA, MESSAGE, MESSAGE_LENGTH, SHORTER
from embedded import embedded
from evaluator import VOID, Node, Trap, converted, decayed, is_array, is_pointer, offset, size
from pieces import START, Piece, first_word, pieces

LETTERS = ("char", "unsigned char")
LEVEL_OF = {op: level for level, ops in enumerate(evaluator.LEVELS) for op in ops}
BYTE_OF_W, CODE, WARNED = ord("W"), (1 << 32) + 16, (1 << 32) + 240
TEXTS = {
    100: (b"02000", b"no data found"), -201: (b"07002", b"too many targets"), -202: (b"07002", b"too few targets"),
    -203: (b"21000", b"too many rows"), -204: (b"42804", b"not a number of type int"),
    -205: (b"42804", b"not a number of an unsigned type"), -211: (b"42804", b"not a bool"),
    -213: (b"22002", b"null value without indicator"), -220: (b"08003", b"no such connection"),
    -230: (b"26000", b"no such statement"), -240: (b"33000", b"no such descriptor"), -241: (b"07009", b"descriptor index out of range"),
    -401: (b"08007", b"transaction control refused"), -402: (b"08001", b"could not connect"),
}
OPENING = ("connect", "set-connection", "disconnect")
OF_DESCRIPTORS = ("allocate", "free", "get-count", "set-count", "get", "set")
SENT = ("text", "open", "immediate", "execute")


# ---- what is read

@lru_cache(10_000)
def read_once(text, line):
    """A statement, which is read again where a source is run twice."""
    return embedded(Piece("statement", text, line))


class Varchar(evaluator.Struct):
    """The struct of a VARCHAR."""

    def __init__(self, capacity):
        self.capacity = capacity
        self.members = [("len", "int"), ("arr", ("array", "char", capacity))]


VARCHAR = object()


def is_struct_of_hosts(t):
    return isinstance(t, evaluator.Struct) and not isinstance(t, Varchar)


class Leaf:
    """One value of a host, or more, each so many bytes behind the one before: the node of the first, and the type of each."""

    def __init__(self, node, type, count, step):
        self.node, self.type, self.count, self.step, self.told = node, type, count, step, None

    @property
    def has_indicator(self):
        return self.told is not None

    @property
    def symbol(self):
        """What it is called where replies are made."""
        t = decayed(self.type)
        if isinstance(t, Varchar):
            return "varchar"
        t = t[1] if is_pointer(t) else t
        return {"unsigned": "unsigned_int"}.get(t, t.replace(" ", "_"))

    @property
    def length(self):
        if isinstance(self.type, Varchar):
            return self.type.capacity
        return self.type[2] if is_array(self.type) else int(self.type in LETTERS)


def member_leaves(node, count, step):
    """The leaves of the members of a struct, those of inner structs in their place."""
    found = []
    for name, _ in node.type.members:
        at, t = offset(node.type, name)
        inner = Node("member", t, node, at, False)
        if is_struct_of_hosts(t):
            found += member_leaves(inner, count, step)
        else:
            found.append(Leaf(inner, t, count, size(t) if step is None else step))
    return found


def leaves(node):
    t = node.type
    if is_struct_of_hosts(t):
        return member_leaves(node, 1, None)
    if not is_array(t) or t[1] in LETTERS:
        return [Leaf(node, t, 1, size(t))]
    if is_struct_of_hosts(t[1]):
        return member_leaves(Node("element", t[1], node, Node("number", "int", 0)), t[2], size(t[1]))
    return [Leaf(node, t[1], t[2], size(t[1]))]


class Into:
    """A descriptor that a row goes into, as replies are made for it."""

    symbol, count, has_indicator, length = "descriptor", 1, True, 0


class Step:
    """A statement that runs: its form, its texts (the connection it is for, or the names of a form that needs none, and a text that
    is known when it runs), its own text, the name of what is prepared, its inputs and its outputs (leaves, or bytes), the names of
    the items of a descriptor, and the descriptors that it is given and that its row goes into."""

    def __init__(self, line, form, texts):
        self.line, self.form, self.texts, self.text, self.name, self.items = line, form, texts, b"", None, []
        self.inputs, self.outputs, self.source, self.into = [], [], None, None

    @property
    def answered(self):
        """What replies are made for."""
        return self.outputs if self.into is None else [Into()]


class SourceParser(evaluator.Parser):
    def __init__(self, text):
        self.statements, self.whenevers, self.cursors = [], [], {}
        self.members_open = 0
        super().__init__(text)

    def cut(self, text):
        """The tokens of the C pieces, and one for each statement. Marks of sections say nothing here."""
        found, last = [], 1
        for piece in pieces(text):
            if piece.kind == "statement":
                found.append(("embedded", len(self.statements), piece.line))
                self.statements.append(read_once(piece.text, piece.line))
            elif piece.kind in ("c", "declaration"):
                start = 0 if piece.kind == "c" else first_word(piece.text, START.match(piece.text).end())[0]
                before = piece.line - 1 + piece.text.count("\n", 0, start)
                found += [(kind, what, line + before) for kind, what, line in evaluator.tokens(piece.text[start:])[:-1]]
            last = piece.line + piece.text.count("\n")
        return [*found, ("end", "", last)]

    def leave(self):
        """The names of the scope that was left last are kept: those of the last function, once the text is read."""
        self.left = self.names[-1]
        super().leave()

    # -- declarations

    def begins_type(self):
        return self.text in ("VARCHAR", "varchar") or super().begins_type()

    def specifier(self):
        start = self.at
        while self.taken("const") or self.taken("static"):
            pass
        if self.taken("VARCHAR") or self.taken("varchar"):
            while self.taken("const"):
                pass
            return VARCHAR
        self.at = start
        return super().specifier()

    def struct(self):
        self.members_open += 1
        found = super().struct()
        self.members_open -= 1
        return found

    def declarator(self, base):
        if base is not VARCHAR:
            return super().declarator(base)
        name = self.take()
        t, lengths = self.dims("char"), []
        while is_array(t):
            lengths.append(t[2])
            t = t[1]
        t = made = Varchar(lengths.pop())
        if not self.members_open:
            self.tags[-1]["varchar_" + name] = made
        for n in reversed(lengths):
            t = ("array", t, n)
        return name, t

    def external(self):
        if not self.taken_embedded():
            super().external()

    # -- expressions

    def binary(self, level):
        """As the evaluator has it, without a call for each level."""
        left = self.cast()
        while (found := LEVEL_OF.get(self.text, -1)) >= level:
            op = self.take()
            left = self.operation(op, left, self.binary(found + 1))
        return left

    def find(self, tables, name):
        return AREA if name == "sqlca" and tables is self.names else super().find(tables, name)

    def primary(self):
        if self.text in SHORTER:
            at, t = offset(AREA.type, SHORTER[self.take()])
            return Node("member", t, Node("object", AREA.type, AREA), at, False)
        return super().primary()

    def call(self, name):
        if name != "sqlprint":
            return super().call(name)
        self.take("(")
        self.take(")")
        return Node("sqlprint", VOID)

    # -- embedded statements

    def statement(self):
        if not self.taken_embedded():
            super().statement()

    def taken_embedded(self):
        kind, number, _ = self.tokens[self.at]
        if kind != "embedded":
            return False
        self.at += 1
        statement = self.statements[number]
        if statement.form == "whenever":
            self.whenevers.append(statement)
        elif statement.form == "declare":
            self.cursors[statement.name.lower()] = statement
        elif statement.form != "include-sqlca":
            self.executed(statement)
        return True

    def executed(self, statement):
        line, form = statement.line, statement.form
        texts = statement.texts if form in OPENING or form in ("allocate", "free") else [statement.area]
        if form not in OPENING + OF_DESCRIPTORS:
            texts = [statement.at, *statement.texts]
        step = Step(line, form, [self.text_argument(text) for text in texts])
        if form in ("get-count", "set-count", "get", "set"):
            self.described(step, statement)
        elif form in SENT:
            self.fill(step, statement)
        elif form in ("prepare", "deallocate"):
            step.name = statement.name
        elif form == "transaction":
            step.text = statement.text
        elif form == "autocommit":
            step.text = statement.name
        self.emit("evaluate", line, Node("step", VOID, step))
        for condition in ("not-found", "warning", "error"):
            self.handler(line, condition)

    def described(self, step, statement):
        """The index, and what is set or what is stored into."""
        if step.form in ("get", "set"):
            step.inputs = self.values([statement.index])
        step.items = [name for name, _ in statement.items]
        hosts = self.values([one for _, one in statement.items])
        if step.form.startswith("get"):
            step.outputs = hosts
        else:
            step.inputs += hosts

    def fill(self, step, statement):
        """What a statement sends and stores: of OPEN the text of its cursor."""
        text = statement
        if statement.form == "open":
            text = self.cursors[statement.name.lower()]
            step.name = text.prepared
        elif statement.form == "execute":
            step.name = statement.name
        self.sent(step, text.parts)
        given, step.source = self.listed(statement.ins)
        step.inputs += given
        step.outputs, step.into = self.listed(None if text is not statement else statement.outs)

    def sent(self, step, parts):
        """The text, in which each value of a host is a number, and these values."""
        for part in parts:
            if isinstance(part, bytes):
                step.text += part
                continue
            found = self.host(part)
            numbers = range(len(step.inputs) + 1, len(step.inputs) + len(found) + 1)
            step.text += b", ".join(b"$%d" % n for n in numbers)
            step.inputs += found

    def listed(self, parts):
        """The values of a list, and the name of a descriptor that stands in its place."""
        if parts is None:
            return [], None
        kind, found = parts
        return ([], self.text_argument(found)) if kind == "area" else (self.values(found), None)

    def values(self, parts):
        return [one for part in parts for one in ([part] if isinstance(part, bytes) else self.host(part))]

    def host(self, part):
        found = leaves(self.reference(part.value))
        if part.indicator is not None:
            for leaf, told in zip(found, leaves(self.reference(part.indicator)), strict=True):
                leaf.told = told
        return found

    def text_argument(self, argument):
        """Bytes, None, or the node of a pointer to the text."""
        if argument is None or isinstance(argument, bytes):
            return argument
        node = self.reference(argument.value)
        if isinstance(node.type, Varchar):
            at, t = offset(node.type, "arr")
            return Node("member", t, node, at, False)
        return node

    def reference(self, tree):
        form = tree[0]
        if form == "name":
            o = self.find(self.names, tree[1])
            return Node("object", o.type, o)
        if form == "int":
            return Node("number", tree[2], tree[1])
        node = self.reference(tree[1])
        if form == "index":
            return Node("element", decayed(node.type)[1], node, self.reference(tree[2]))
        at, t = offset(node.type if form == "member" else decayed(node.type)[1], tree[2])
        return Node("member", t, node, at, form == "arrow")

    # -- handlers

    def handler(self, line, condition):
        """What is done behind a statement where a condition holds, by the text above it."""
        above = [one.action for one in self.whenevers if one.condition == condition]
        action = above[-1] if above else ("continue",)
        if action[0] == "continue":
            return
        test = self.emit("branch_not", line, Node("condition", "int", condition), None)
        if action[0] == "goto":
            self.emit("goto", line, action[1], tuple(self.blocks))
        elif action[0] in ("break", "next"):
            self.skip_jump("break" if action[0] == "break" else "continue", line)
        elif action[0] == "print":
            self.emit("evaluate", line, Node("sqlprint", VOID))
        elif action[0] == "stop":
            self.emit("evaluate", line, Node("known", VOID, "exit", [Node("number", "int", 1)]))
        else:
            self.emit("evaluate", line, self.alone(self.action_call(line, *action[1:])))
        test[3] = self.here()

    def action_call(self, line, name, arguments):
        """The call of an action, read where the statement stands."""
        words = [("mark", "(", line)]
        for n, argument in enumerate(arguments):
            words += [("mark", ",", line)] * (n > 0)
            if argument[0] == "name":
                words.append(("word", argument[1], line))
            elif argument[0] == "member":
                words.append(("word", argument[2].upper(), line))
            else:
                words.append(("number", (argument[1], "int" if argument[0] == "char" else argument[2]), line))
        kept = self.tokens, self.at
        self.tokens, self.at = [*words, ("mark", ")", line), ("end", "", line)], 0
        found = self.call(name)
        self.tokens, self.at = kept
        return found


# ---- runs

class Told(Exception):
    """A code, with its state and its message: the statement ends."""


def code(number):
    return Told(number, *TEXTS[number])


def field_as(t, field):
    """The bytes that a field becomes in a value of a type, and whether it was cut."""
    if isinstance(t, Varchar):
        kept = field[:t.capacity]
        return len(kept).to_bytes(4, "little") + kept.ljust(t.capacity, b"\0"), len(field) > t.capacity
    if is_pointer(t):
        return field + b"\0", False
    if is_array(t) or t in LETTERS:
        n = t[2] if is_array(t) else 1
        return (field + b"\0")[:n], len(field) > n
    if t == "bool":
        if field not in (b"t", b"f"):
            raise code(-211)
        return (b"\1" if field == b"t" else b"\0"), False
    if not re.fullmatch(rb"[+-]?[0-9]+", field) or converted(t, int(field)) != int(field):
        raise code(-204 if evaluator.INTEGERS[t][1] else -205)
    return (int(field) % 2 ** (8 * size(t))).to_bytes(size(t), "little"), False


class Open:
    """A connection that is open: its name, its slot with the number of that, where it stands, and the texts prepared over it."""

    def __init__(self, name, number, slot, begins):
        self.name, self.number, self.slot = name, number, slot
        self.begins, self.is_idle, self.prepared = begins, True, {}


class DirectMachine(evaluator.Machine):
    """A run over slots: the connections in the order in which they were opened, and the current one. That of the slot which is
    ready was the first, and begins no transactions."""

    def __init__(self, program, turns, slots):
        super().__init__(program, turns)
        self.exchanges, self.slots = [], slots
        self.there, self.current = [], None
        self.descriptors = direct_dynamic.Descriptors()

    def main(self):
        for number, slot in enumerate(self.slots):
            if slot.state == "ready":
                self.joined(Open(slot.name, number, slot, False))
        ending = super().main()
        for one in self.there:
            one.slot.state = "free"
        return ending

    def joined(self, one):
        one.slot.state = "taken"
        self.there.append(one)
        self.current = one

    @property
    def area(self):
        return self.objects[1]

    def opened(self):
        super().opened()
        self.area[:] = list(storing.OPENING)

    def value_sqlprint(self, t):
        length = min(max(self.load(MESSAGE_LENGTH, "int"), 0), 149)
        self.errors += b"SQL error: " + bytes(self.read(MESSAGE, length)) + b"\n"

    def value_condition(self, t, condition):
        if condition == "warning":
            return int(self.load(WARNED, "char") == BYTE_OF_W)
        found = self.load(CODE, "long")
        return int(found == 100 if condition == "not-found" else found < 0)

    # -- a step

    def value_step(self, t, step):
        texts = [self.led_to(text) for text in step.texts]
        inputs = [self.placed(leaf) for leaf in step.inputs]
        source = self.led_to(step.source)
        outputs = [self.placed(leaf) for leaf in step.outputs]
        into = self.led_to(step.into)
        self.turn()
        texts = [self.read_text(of, text) for of, text in zip(step.texts, texts)]
        values = [self.parameter(*one) for one in inputs]
        source, into = self.read_text(step.source, source), self.read_text(step.into, into)
        storing.reset(self.area)
        try:
            if step.form in OPENING:
                getattr(self, "step_" + step.form.replace("-", "_"))(*texts)
            elif step.form in OF_DESCRIPTORS:
                self.on_descriptor(step, texts[0], values, outputs)
            else:
                self.over(self.chosen(texts[0]), step, texts[1:], values, outputs, source, into)
        except Told as told:
            storing.raise_code(self.area, *told.args, step.line)
        except direct_dynamic.Refused as refused:
            storing.raise_code(self.area, *code(*refused.args).args, step.line)

    def led_to(self, text):
        return self.value(text) if isinstance(text, Node) else text

    def read_text(self, of, text):
        """The bytes of a text argument, of which a pointer was evaluated."""
        return bytes(self.front(text)) if isinstance(of, Node) else text

    def over(self, one, step, texts, values, outputs, source, into):
        """A step over a connection."""
        if step.form == "transaction":
            self.controlled(one, step.text)
        elif step.form == "autocommit":
            if step.text == b"on" and one.begins and not one.is_idle:
                self.controlled(one, b"commit")
            one.begins = step.text == b"off"
        elif step.form == "prepare":
            text = direct_dynamic.numbered(*texts)
            self.taken(self.answered(one, ("prepare", step.name, text), []))
            one.prepared[step.name] = text
        elif step.form == "deallocate":
            self.prepared_of(one, step.name)
            self.taken(self.answered(one, ("deallocate", step.name), []))
            del one.prepared[step.name]
        else:
            kind, what = self.what_is_sent(one, step, texts)
            if source is not None:
                values = values + self.descriptors.contents(source)
            if into is not None:
                self.descriptors.of(into)
            if one.begins and one.is_idle:
                self.controlled(one, b"begin transaction")
            self.settled(self.answered(one, (kind, what, values), step.answered), outputs, into)

    def prepared_of(self, one, name):
        if name not in one.prepared:
            raise code(-230)
        return one.prepared[name]

    def what_is_sent(self, one, step, texts):
        if step.form == "immediate":
            return "text", texts[0]
        if step.name is None:
            return "text", step.text
        text = self.prepared_of(one, step.name)
        return ("exec", step.name) if step.form == "execute" else ("text", step.text + text)

    def on_descriptor(self, step, name, values, outputs):
        if step.form in ("allocate", "free"):
            getattr(self.descriptors, step.form)(name)
        elif step.form == "set-count":
            self.descriptors.set_count(name, *values)
        elif step.form == "set":
            self.descriptors.set(name, values[0], list(zip(step.items, values[1:])))
        elif step.form == "get-count":
            self.field_stored(*outputs[0], 0, self.descriptors.count(name))
        else:
            for field, output in zip(self.descriptors.given(name, *values, step.items), outputs):
                # what is NULL is left out where the indicator is told
                if field is not None or "INDICATOR" not in step.items:
                    self.field_stored(*output, 0, field)

    def controlled(self, one, text):
        if self.answered(one, ("text", text, []), [])[0] not in ("rows", "done"):
            raise code(-401)

    # -- connections

    def chosen(self, name):
        """The connection of a name, or the current one."""
        for one in self.there:
            if one.name == name or name is None and one is self.current:
                return one
        raise code(-220)

    def step_connect(self, target, user, password, name):
        name = target if name is None else name
        if any(one.name == name for one in self.there):
            raise code(-402)
        request = "connect", target, user, password
        for number, slot in enumerate(self.slots):
            if slot.state == "free" and slot.name == target:
                reply = slot.link.answer(request, [])
                self.exchanges.append((number, request, reply))
                if reply[0] != "connected":
                    raise code(-402)
                self.joined(Open(name, number, slot, True))
                return
        self.exchanges.append((None, request, ("notarget",)))
        raise code(-402)

    def step_set_connection(self, name):
        self.current = self.chosen(name)

    def step_disconnect(self, name):
        if name != b"ALL":
            self.left_by(self.chosen(None if name == b"CURRENT" else name))
        else:
            for one in self.there[::-1]:
                self.left_by(one)

    def left_by(self, one):
        """A connection is closed, and the answer doesn't matter."""
        self.answered(one, ("close",), [])
        one.slot.state = "dropped"
        self.there = [other for other in self.there if other is not one]
        if one is self.current:
            self.current = self.there[-1] if self.there else None

    # -- values and answers

    def placed(self, leaf):
        """A leaf with its place and that of its indicator."""
        if isinstance(leaf, bytes):
            return leaf, None, None
        at = self.place(leaf.node)
        return leaf, at, None if leaf.told is None else self.place(leaf.told.node)

    def parameter(self, leaf, at, told):
        if at is None:
            return leaf
        if told is not None and self.load(told, leaf.told.type) < 0:
            return None
        t = leaf.type
        if isinstance(t, Varchar):
            length = self.load(at, "int")
            if not 0 <= length <= t.capacity:
                raise Trap("BadLen")
            return bytes(self.front(self.move(at, 4), length))
        if is_pointer(t):
            return bytes(self.front(self.load(at, t)))
        if is_array(t) or t in LETTERS:
            return bytes(self.front(at, t[2] if is_array(t) else 1))
        number = self.load(at, t)
        return (b"t" if number else b"f") if t == "bool" else str(number).encode()

    def answered(self, one, request, outputs):
        """The reply over a connection, and what it tells of a transaction."""
        reply = one.slot.link.answer(request, outputs)
        if reply[0] in ("rows", "done", "refused"):
            one.is_idle = reply[1] == "I"
        if reply[0] in ("rows", "done") and reply[-1] and request[0] != "close":
            self.area[240], self.area[242] = BYTE_OF_W, BYTE_OF_W
        self.exchanges.append((one.number, request, reply))
        return reply

    def taken(self, reply):
        """Done is as good as rows, and neither is counted."""
        if reply[0] not in ("rows", "done"):
            self.failed(reply)

    def failed(self, reply):
        kind, *rest = reply
        if kind == "refused":
            raise Told({b"23505": -403, b"21000": -404}.get(rest[1], -400), rest[1], rest[2])
        if kind == "broken":
            raise Told(-400, b"08006", b"connection broken")
        raise Told(-400, b"08P01", b"reply out of place")

    def settled(self, reply, outputs, into):
        kind, *rest = reply
        if kind not in ("rows", "done"):
            self.failed(reply)
        if kind == "done":
            storing.rows(self.area, rest[1] or 0)
            if rest[1] == 0:
                raise code(100)
            if outputs or into is not None:
                raise code(-201)
            return
        _, columns, rows, _ = rest
        storing.rows(self.area, len(rows))
        if not rows:
            raise code(100)
        if into is not None:
            if len(rows) > 1:
                raise code(-203)
            self.descriptors.fill(into, columns, rows[0])
        elif outputs:
            self.rows_stored(len(columns), rows, outputs)

    def rows_stored(self, width, rows, outputs):
        if width != len(outputs):
            raise code(-201 if width < len(outputs) else -202)
        if len(rows) > min(leaf.count for leaf, _, _ in outputs):
            raise code(-203)
        for column, output in enumerate(outputs):
            for row, fields in enumerate(rows):
                self.field_stored(*output, row, fields[column])

    def field_stored(self, leaf, at, told, row, field):
        if field is None and told is None:
            raise code(-213)
        cut = False
        if field is not None:
            data, cut = field_as(leaf.type, field)
            there = self.move(at, row * leaf.step)
            self.write(self.load(there, leaf.type) if is_pointer(leaf.type) else there, list(data))
        if told is not None:
            most = 2 ** (8 * size(leaf.told.type) - 1) - 1
            number = -1 if field is None else min(len(field), most) if cut else 0
            self.store(self.move(told, row * leaf.told.step), leaf.told.type, number)
        if cut:
            storing.warn(self.area)


class Run:
    """What is seen of a run: its outputs, its ending, its exchanges (slot, request, reply), its slots, and each object's cells.

    `used` is the number of turns that it took.
    """

    def __init__(self, text, turns, slots):
        self.machine = DirectMachine(SourceParser(text), turns, slots)
        self.ending = self.machine.main()
        self.output, self.errors = bytes(self.machine.output), bytes(self.machine.errors)
        self.exchanges, self.used, self.slots = self.machine.exchanges, turns - self.machine.turns, slots


if __name__ == "__main__":
    sys.dont_write_bytecode = True
    calls_made.main(*sys.argv[1:], Run)
