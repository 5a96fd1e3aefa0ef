"""The checks of a program with embedded statements, and the faults and places of its hosts.

One walk finds the violations of two phases: those of the checks in `found`, and those of the hosts in `found_hosts`. For
each statement that runs it keeps what is needed to write its call: `bound`, by the statement's number.
"""

from dataclasses import dataclass, field

from checker import FORMATTED, INT, KNOWN, MOST, Checker, Function, Struct, Thing, array, is_array, is_number, is_pointer
from checker import is_struct, number, shape, struct_shape

MOST_MEMBERS = 1000
SYMBOLS = {
    "char": "char", "uchar": "unsigned_char", "short": "short", "ushort": "unsigned_short", "int": "int",
    "uint": "unsigned_int", "long": "long", "ulong": "unsigned_long", "llong": "long_long",
    "ullong": "unsigned_long_long", "bool": "bool",
}
CHARACTERS = (number("char"), number("uchar"))
INDICATORS = ("short", "int", "long", "llong")
TESTS = ("not-found", "warning", "error")


class Varchar(Struct):
    """The struct of a VARCHAR of so many bytes."""

    def __init__(self, tag, length):
        super().__init__(tag)
        self.length, self.begun = length, True
        self.members = {"len": INT, "arr": array(number("char"), length)}


@dataclass
class Leaf:
    """One value of a host: what names it, its symbol, length, count and distance; `plain` where it stands without `&`."""

    value: object
    symbol: str
    length: int
    count: int
    distance: int
    plain: bool
    indicator: object = None


@dataclass
class Bound:
    """What a statement gives to its call: text arguments, inputs and outputs are leaves, constants, or areas."""

    texts: dict = field(default_factory=dict)
    leaves: dict = field(default_factory=dict)  # by the identity of the host
    handlers: dict = field(default_factory=dict)
    cursor: object = None


@dataclass
class Cursor:
    statement: object
    bound: Bound
    things: dict  # what each name in its hosts denotes


def is_varchar(t):
    return is_struct(t) and isinstance(t[1], Varchar)


def is_plain_struct(t):
    return is_struct(t) and not is_varchar(t)


def element(t):
    """Symbol, length and size of one value of a type, or None where it is none."""
    if is_number(t):
        return SYMBOLS[t[1]], int(t in CHARACTERS), shape(t)[0]
    if is_pointer(t):
        return (SYMBOLS[t[1][1]], 0, 8) if t[1] in CHARACTERS else None
    if is_array(t):
        return (SYMBOLS[t[1][1]], t[2], t[2]) if t[1] in CHARACTERS else None
    return ("varchar", t[1].length, shape(t)[0]) if is_varchar(t) else None


def leaf(e, t, count=1, distance=None):
    found = t and element(t)
    if found is None:
        return None
    symbol, length, size = found
    return Leaf(e, symbol, length, count, size if distance is None else distance, is_array(t))


def members(e, struct, make):
    """The leaves of the members of a struct, inner structs too; None for those that can't be hosts."""
    found = []
    for name, t in struct.members.items():
        inner = ("member", e, name)
        found += members(inner, t[1], make) if t and is_plain_struct(t) else [make(inner, t)]
    return found


def is_struct_host(t):
    return is_plain_struct(t) or (is_array(t) and is_plain_struct(t[1]))


def leaves(e, t):
    """The leaves of a host; None stands for what is none."""
    if is_plain_struct(t):
        return members(e, t[1], leaf)
    if element(t) is not None or not is_array(t):
        return [leaf(e, t)]
    of, count = t[1], t[2]
    if is_plain_struct(of):
        size, _ = shape(of) or (0, 0)  # none where a member has a fault, which is found before
        first = ("index", e, ("int", 0, "int"))
        return members(first, of[1], lambda inner, m: leaf(inner, m, count, size))
    found = None if is_pointer(of) else leaf(e, of, count)
    if found is not None:
        found.plain = True
    return [found]


def base_name(e):
    while e[0] != "name":
        e = e[1]
    return e[1]


def index_words(e):
    found = []
    while e[0] != "name":
        if e[0] == "index" and e[2][0] == "name":
            found.append(e[2][1])
        e = e[1]
    return found[::-1]


def names(e):
    return [base_name(e), *index_words(e)]


class Hosts(Checker):
    """Checks a unit with its statements."""

    def __init__(self, unit, embedded):
        super().__init__(unit)
        self.embedded = embedded
        self.found_hosts = []
        self.handlers, self.cursors, self.bound = {}, {}, {}

    def first_host_fault(self):
        return min(self.found_hosts)[1:] if self.found_hosts else None

    def host_fault(self, kind):
        at, line = self.here
        self.found_hosts.append((at, kind, line))

    # ---- VARCHARs

    def base(self, at, base):
        return None if base[0] == "varchar" else super().base(at, base)

    def item_type(self, at, t, base, d, tagged=False):
        if base[0] != "varchar":
            return super().item_type(at, t, base, d, tagged)
        last = self.length(at, d.dims[-1])
        if last is None:
            return None
        # The struct closes where the name stands, before the other lengths.
        struct = Varchar("varchar_" + d.name if tagged else None, last)
        if tagged:
            self.demand(at, "F10", struct.tag not in self.scopes[-1].tags)
            self.scopes[-1].tags[struct.tag] = struct
        if struct_shape(struct)[0] > MOST:
            self.limit(at, "L1")
        return self.declared(("struct", struct), 0, [self.length(at, n) for n in d.dims[:-1]], at)

    # ---- statements

    def body(self, stmt, loop):
        self.refuse_directive(stmt)
        super().body(stmt, loop)

    def do_label(self, at, label, stmt):
        self.refuse_directive(stmt)
        super().do_label(at, label, stmt)

    def refuse_directive(self, stmt):
        if stmt.kind[0] == "embedded" and stmt.kind[2]:
            # The statement's own place is the next one.
            self.fault((self.places + 1, stmt.line), "F29")

    def do_mark(self, at, opens):
        pass

    def other_top(self, top):
        if top.kind == "directive":
            self.one(self.place(top.line), self.embedded[top.number])

    def do_embedded(self, at, n, is_directive):
        self.one(at, self.embedded[n], n)

    def one(self, at, statement, n=None):
        """An embedded statement."""
        self.here = at
        if statement.form == "whenever":
            self.handlers[statement.condition] = statement.action
            return
        bound = Bound()
        self.hosts_of(statement, bound)
        if statement.form == "declare":
            self.declare_cursor(statement, bound)
        if statement.form == "open":
            self.open_cursor(statement, bound)
        if n is not None and statement.form not in ("declare", "include-sqlca"):
            bound.handlers = {test: self.handlers[test] for test in TESTS if test in self.handlers}
            self.check_handlers(bound.handlers)
            self.bound[n] = bound

    def check_handlers(self, handlers):
        before, self.found = self.found, []
        for action in handlers.values():
            if action[0] == "goto":
                self.demand(self.here, "F18", action[1] in self.all_labels)
            elif action[0] in ("break", "next"):
                self.demand(self.here, "F18", self.loop)
            elif action[0] == "call":
                self.of_call(self.here, action[1], action[2])
        wrong, self.found = self.found, before
        if wrong:
            self.fault(self.here, "F30")

    # ---- cursors

    def declare_cursor(self, statement, bound):
        key = statement.name.lower()
        if key in self.cursors:
            self.host_fault(27)
        hosts = [part for part in statement.parts if not isinstance(part, bytes)]
        named = [name for host in hosts for e in (host.value, host.indicator) if e for name in names(e)]
        self.cursors[key] = Cursor(statement, bound, {name: self.denoted(name) for name in named})

    def open_cursor(self, statement, bound):
        cursor = self.cursors.get(statement.name.lower())
        if cursor is None:
            self.host_fault(26)
            return
        bound.cursor = cursor
        if any(self.denoted(name) != thing for name, thing in cursor.things.items()):
            self.host_fault(28)

    def denoted(self, name):
        thing = self.look(name)
        return thing.number if isinstance(thing, (Thing, Function)) else name

    # ---- hosts

    def hosts_of(self, statement, bound):
        for text in [statement.at, *statement.texts]:
            self.text_argument(text, bound)
        if statement.area is not None:
            self.text_argument(statement.area, bound)
            if statement.form in ("get", "set"):
                self.one_value(statement.index, bound, True)
            for name, value in statement.items:
                self.one_value(value, bound, name == "COUNT")
            return
        for part in statement.parts:
            self.host_value(part, bound, True)
        for listed, reads in ((statement.ins, True), (statement.outs, False)):
            if listed is not None and listed[0] == "area":
                self.text_argument(listed[1], bound)
            elif listed is not None:
                for value in listed[1]:
                    self.host_value(value, bound, reads)

    def refer(self, e, wrong=22):
        """The type of a reference, None where it has none. What it names has to be in a section."""
        name = base_name(e)
        thing = self.look(name)
        is_function = isinstance(thing, Function) or (thing is None and (name in KNOWN or name in FORMATTED))
        # The name of a function alone is looked at with the hosts; as a part of a reference it is no value.
        t = None if e[0] == "name" and is_function else self.expression(self.here, e).type
        if isinstance(thing, Function) and thing.section:
            self.host_fault(wrong)
        elif not (isinstance(thing, Thing) and thing.section):
            self.host_fault(21)
        for word in index_words(e):
            index = self.look(word)
            if not isinstance(index, Thing) or (index.type is not None and not is_number(index.type)):
                self.host_fault(22)
        return t

    def text_argument(self, text, bound):
        if text is None or isinstance(text, bytes):
            return
        t = self.refer(text.value)
        if text.indicator is not None:
            self.refer(text.indicator, 23)
            self.host_fault(23)
        if t is None:
            return
        if is_varchar(t):
            bound.texts[id(text)] = ("member", text.value, "arr")
        elif (is_array(t) or is_pointer(t)) and t[1] in CHARACTERS:
            bound.texts[id(text)] = text.value
        else:
            self.host_fault(22)

    def one_value(self, value, bound, may_have_indicator):
        """A host of a statement on descriptors."""
        if isinstance(value, bytes):
            return
        self.referred(value, bound, lambda t: [leaf(value.value, t)])
        if value.indicator is not None and not may_have_indicator:
            self.host_fault(23)

    def limit_members(self, e, t):
        if is_struct_host(t) and len(leaves(e, t)) > MOST_MEMBERS:
            self.limit(self.here, "L5")

    def host_value(self, value, bound, reads):
        """A host of a list, or in a text."""
        if isinstance(value, bytes):
            return
        t = self.referred(value, bound, lambda t: leaves(value.value, t))
        if t is not None and reads and is_array(t) and t[1] not in CHARACTERS:
            self.host_fault(24)

    def referred(self, value, bound, leaves_of):
        """The type of what a host denotes, once its leaves are found and its indicator is beside them."""
        t = self.refer(value.value)
        if t is not None:
            self.limit_members(value.value, t)
            found = leaves_of(t)
            if None in found:
                self.host_fault(22)
            bound.leaves[id(value)] = found
        self.indicator(value, t, bound)
        return t

    def indicator(self, value, t, bound):
        e = value.indicator
        if e is None:
            return
        i = self.refer(e, 23)
        if t is None or i is None:
            return
        found = self.struct_indicators(t, e, i) if is_struct_host(t) else [self.simple_indicator(t, e, i)]
        if found is None or None in found:
            return
        for one, beside in zip(bound.leaves[id(value)], found):
            if one is not None:
                one.indicator = beside

    def simple_indicator(self, t, e, i):
        """The indicator of a host that is no struct."""
        is_many = is_array(t) and t[1] not in CHARACTERS
        if is_many != is_array(i) or (is_many and i[2] < t[2]):
            self.host_fault(23)
            return None
        of = i[1] if is_many else i
        if not self.is_indicator(of):
            self.host_fault(23)
            return None
        return leaves(e, i)[0]

    def is_indicator(self, t):
        return t is not None and is_number(t) and t[1] in INDICATORS

    def struct_indicators(self, t, e, i):
        if not is_struct_host(i) or is_array(t) != is_array(i):
            self.host_fault(23)
            return None
        found = leaves(e, i)
        if len(found) != len(leaves(e, t)) or (is_array(t) and t[2] != i[2]):
            self.host_fault(25)
        types = members(e, (i[1] if is_array(i) else i)[1], lambda _, m: m)
        if not all(self.is_indicator(m) for m in types):
            self.host_fault(23)
        return found
