"""The checks of a program, by docs/LANGUAGE.md: the first fault or limit, and the types of all declarations.

A program is a tree of the classes of `programs.py`. All violations are found, and then the first is taken. Nothing here
knows how the product does it: a scope is a dictionary that is copied, a struct is an object, and a constant an integer of
Python.
"""

from dataclasses import dataclass, field

import library

MOST = 2**24
RANKS = {"bool": 0, "char": 1, "uchar": 1, "short": 2, "ushort": 2, "int": 3, "uint": 3, "long": 4, "ulong": 4, "llong": 5, "ullong": 5}
BITS = {"bool": 1, "char": 8, "uchar": 8, "short": 16, "ushort": 16, "int": 32, "uint": 32, "long": 64, "ulong": 64, "llong": 64, "ullong": 64}
SIGNED = {"char", "short", "int", "long", "llong"}
UNSIGNED_OF = {"int": "uint", "long": "ulong", "llong": "ullong"}
VOID = ("void",)
KNOWN = {
    "puts": ("int", ["char*"]), "putchar": ("int", ["int"]), "strlen": ("ulong", ["char*"]),
    "strcmp": ("int", ["char*", "char*"]), "strncmp": ("int", ["char*", "char*", "ulong"]),
    "memcmp": ("int", ["void*", "void*", "ulong"]), "strcpy": ("char*", ["char*", "char*"]),
    "strncpy": ("char*", ["char*", "char*", "ulong"]), "strcat": ("char*", ["char*", "char*"]),
    "memcpy": ("void*", ["void*", "void*", "ulong"]), "memset": ("void*", ["void*", "int", "ulong"]),
    "exit": ("void", ["int"]), "sqlprint": ("void", []),
}
FORMATTED = {"printf": 0, "fprintf": 1}
WORDS = {"sqlca", "SQLCODE", "SQLSTATE", "NULL", "true", "false", "stdout", "stderr"}


def number(name):
    return ("number", name)


def pointer(to):
    return ("pointer", to)


def array(of, length):
    return ("array", of, length)


def named(text):
    return VOID if text == "void" else pointer(named(text[:-1])) if text.endswith("*") else number(text)


INT = number("int")


class Struct:
    """A struct; `members` is None until they are closed, then a dictionary from names to types, None of a type with a fault."""

    def __init__(self, tag):
        self.tag, self.members, self.begun = tag, None, False


@dataclass
class Found:
    """What is found out about an expression; no type where a part has a fault."""

    type: object = None
    place: bool = False
    target: bool = False
    value: object = None  # an integer, "trap", or None of what is no constant
    world: bool = False  # the name of an object at file level
    fixed: bool = False  # known before the program runs, though no integer constant
    leads: bool = False  # what `*` gives: whether its address is known before the program runs
    text: object = None  # the bytes of a literal


@dataclass
class Function:
    number: int
    defined: bool
    result: object
    params: object
    section: bool = False


@dataclass
class Thing:
    number: int
    world: bool
    type: object
    section: bool = False


@dataclass
class Scope:
    names: dict = field(default_factory=dict)
    tags: dict = field(default_factory=dict)


# ---- types


def is_number(t):
    return t[0] == "number"


def is_pointer(t):
    return t[0] == "pointer"


def is_array(t):
    return t[0] == "array"


def is_struct(t):
    return t[0] == "struct"


def scalar(t):
    return is_number(t) or is_pointer(t)


def same(s, t):
    if s[0] != t[0]:
        return False
    if s[0] == "struct":
        return s[1] is t[1]
    if s[0] == "number":
        return s[1] == t[1]
    if s[0] == "array":
        return s[2] == t[2] and same(s[1], t[1])
    return s == VOID or same(s[1], t[1])


def complete(t):
    if t == VOID:
        return False
    if is_array(t):
        return t[2] > 0 and complete(t[1])
    return not is_struct(t) or t[1].members is not None


def characters(t):
    return is_array(t) and t[1] in (number("char"), number("uchar"))


def decay(t):
    return pointer(t[1]) if is_array(t) else t


def shape(t):
    """Size and alignment, or None where it has none."""
    if is_number(t):
        n = max(BITS[t[1]] // 8, 1)
        return n, n
    if is_pointer(t):
        return 8, 8
    if is_array(t):
        inner = shape(t[1]) if t[2] else None
        return inner and (inner[0] * t[2], inner[1])
    if is_struct(t):
        return struct_shape(t[1])
    return None


def struct_shape(s):
    if not s.members or any(t is None for t in s.members.values()):
        return None
    at, widest = 0, 1
    for t in s.members.values():
        inner = shape(t)
        if inner is None:
            return None
        at = -(-at // inner[1]) * inner[1] + inner[0]
        widest = max(widest, inner[1])
    return -(-at // widest) * widest, widest


def too_large(t):
    """Whether an array type in this one has more bytes than are allowed."""
    while is_array(t):
        size = shape(t)
        if size and size[0] > MOST:
            return True
        t = t[1]
    return False


def by_words(words):
    words = sorted(words)
    count = {w: words.count(w) for w in words}
    signs = count.pop("signed", 0), count.pop("unsigned", 0)
    if sum(signs) > 1:
        return None
    unsigned, signed = signs[1] == 1, signs[0] == 1
    rest = sorted(w for w, n in count.items() for _ in range(n))
    if rest in (["void"], ["bool"]):
        return None if unsigned or signed else (VOID if rest == ["void"] else number("bool"))
    if rest == ["char"]:
        return number("uchar" if unsigned else "char")
    longs = rest.count("long")
    if rest in (["short"], ["int", "short"]):
        name = "short"
    elif rest in (["int"], []) and (rest or unsigned or signed):
        name = "int"
    elif longs in (1, 2) and [w for w in rest if w != "long"] in ([], ["int"]):
        name = "l" * longs + "ong" if longs == 1 else "llong"
    else:
        return None
    return number("u" + name if unsigned else name)


def promoted(name):
    return "int" if RANKS[name] <= 3 and name != "uint" else name


def common(a, b):
    a, b = promoted(a), promoted(b)
    if (a in SIGNED) == (b in SIGNED):
        return a if RANKS[a] >= RANKS[b] else b
    signed, unsigned = (a, b) if a in SIGNED else (b, a)
    if RANKS[unsigned] >= RANKS[signed]:
        return unsigned
    return signed if BITS[signed] > BITS[unsigned] else UNSIGNED_OF[signed]


# ---- constants


def wrapped(name, z):
    if name == "bool":
        return int(z != 0)
    z %= 2 ** BITS[name]
    return z - 2 ** BITS[name] if name in SIGNED and z >= 2 ** (BITS[name] - 1) else z


def fitting(name, z):
    if name not in SIGNED:
        return wrapped(name, z)
    return z if -(2 ** (BITS[name] - 1)) <= z < 2 ** (BITS[name] - 1) else "trap"


def quotient(x, y):
    return abs(x) // abs(y) * (1 if (x < 0) == (y < 0) else -1)


def calculated(op, a, x, b, y):
    if op in ("<<", ">>"):
        name = promoted(a)
        if not 0 <= y < BITS[name]:
            return "trap"
        if op == ">>":
            return x >> y
        return "trap" if x < 0 else fitting(name, x << y)
    name = common(a, b)
    x, y = wrapped(name, x), wrapped(name, y)
    tests = {"==": x == y, "!=": x != y, "<": x < y, ">": x > y, "<=": x <= y, ">=": x >= y}
    if op in tests:
        return int(tests[op])
    if op in ("/", "%"):
        if y == 0 or fitting(name, quotient(x, y)) == "trap":
            return "trap"
        return quotient(x, y) if op == "/" else x - y * quotient(x, y)
    bits = {"&": x & y, "|": x | y, "^": x ^ y}
    if op in bits:
        return wrapped(name, bits[op])
    return fitting(name, {"+": x + y, "-": x - y, "*": x * y}[op])


def constant(op, a, x, b, y):
    if x is None or y is None:
        return None
    if op in ("&&", "||"):
        if x == "trap":
            return "trap"
        if (x != 0) == (op == "||"):
            return int(op == "||")
        return "trap" if y == "trap" else int(y != 0)
    return "trap" if "trap" in (x, y) else calculated(op, a, x, b, y)


def signed_constant(op, a, x):
    if x is None or x == "trap":
        return x
    name = promoted(a)
    return {"+": lambda: x, "-": lambda: fitting(name, -x), "~": lambda: wrapped(name, ~x), "!": lambda: int(x == 0)}[op]()


# ---- formats


def needs(text):
    """What the arguments of a format have to be, or None where it is none."""
    at, wanted = 0, []
    text = text.split(b"\0")[0]
    while at < len(text):
        if text[at:at + 1] != b"%":
            at += 1
            continue
        at += 1
        if text[at:at + 1] == b"%":
            at += 1
            continue
        while text[at:at + 1] in (b"-", b"0"):
            at += 1
        if text[at:at + 1] == b"*":
            wanted.append("int")
            at += 1
        else:
            start = at
            while text[at:at + 1].isdigit():
                at += 1
            if at - start > 3:
                return None
        precise = text[at:at + 1] == b"."
        if precise:
            at += 1
            if text[at:at + 1] == b"*":
                wanted.append("int")
                at += 1
            else:
                start = at
                while text[at:at + 1].isdigit():
                    at += 1
                if at == start:
                    return None
        longs = 0
        while longs < 2 and text[at:at + 1] == b"l":
            longs, at = longs + 1, at + 1
        letter, at = text[at:at + 1], at + 1
        if letter == b"s" and not longs:
            wanted.append("text")
        elif letter == b"c" and not longs and not precise:
            wanted.append("int")
        elif letter and letter in b"diuxXo" and not precise:
            wanted.append("wide" if longs else "narrow")
        else:
            return None
    return wanted


def meets(need, t):
    if need == "text":
        return is_pointer(t) and t[1] in (number("char"), number("uchar"))
    if not is_number(t):
        return False
    name = promoted(t[1])
    return name == "int" if need == "int" else RANKS[name] == 3 if need == "narrow" else RANKS[name] > 3


class Checker:
    """Finds all violations of a program: `found` has (place, rank, what is printed)."""

    def __init__(self, unit, written=False):
        self.written = written  # C that is written, in which the library is known
        self.found, self.places, self.numbers = [], 0, []
        self.scopes = [Scope()]
        inner, self.sqlca = Struct(None), Struct(None)
        inner.members = {"sqlerrml": INT, "sqlerrmc": array(number("char"), 150)}
        self.sqlca.members = {
            "sqlcaid": array(number("char"), 8), "sqlabc": number("long"), "sqlcode": number("long"),
            "sqlerrm": ("struct", inner), "sqlerrp": array(number("char"), 8), "sqlerrd": array(number("long"), 6),
            "sqlwarn": array(number("char"), 8), "sqlstate": array(number("char"), 5),
        }
        self.defined = {top.name for top in unit.tops if top.kind == "function" and top.body is not None}
        self.labels, self.loop, self.result = {}, False, None
        self.mains = False
        self.unit = unit
        self.part, self.parts_at = None, {}  # the top or the item of a function's body that is looked at, and those of all places

    # ---- speaking

    def fault(self, at, kind):
        self.found.append((at[0], int(kind[1:]), f"{kind} {at[1]}"))

    def limit(self, at, kind):
        self.found.append((at[0], 100 + int(kind[1:]), kind))

    def demand(self, at, kind, holds):
        if not holds:
            self.fault(at, kind)

    def bad(self, at, kind):
        self.fault(at, kind)
        return Found()

    def place(self, line):
        self.places += 1
        self.parts_at[self.places] = self.part
        return self.places, line

    def faulty(self):
        """The tops, and the items of the bodies of functions, that have a violation."""
        return {id(self.parts_at[found[0]]) for found in self.found}

    def first(self):
        return min(self.found)[2] if self.found else None

    # ---- scopes

    def look(self, name):
        for scope in reversed(self.scopes):
            if name in scope.names:
                return scope.names[name]
        return None

    def tag(self, tag):
        for scope in reversed(self.scopes):
            if tag in scope.tags:
                return scope.tags[tag]
        return None

    def reserved(self, name):
        return name in WORDS or name in KNOWN or name in FORMATTED or name.startswith(("ECPG", "varchar_"))

    def free_tag(self, at, tag):
        of_varchar = self.written and tag.startswith("varchar_")
        self.demand(at, "F12", of_varchar or (not self.reserved(tag) and tag.upper() != "EXEC"))

    def declare(self, at, name, thing):
        self.demand(at, "F10", name not in self.scopes[-1].names)
        self.demand(at, "F12", not self.reserved(name))
        self.scopes[-1].names[name] = thing

    # ---- types by words, tags and members

    def base(self, at, base):
        kind, what = base[0], base[1]
        if kind == "words":
            t = by_words([w for w in what if w != "const"])
            if t is None:
                self.fault(at, "F14")
            return t
        if kind == "tag":
            struct = self.tag(what)
            if struct is None:
                self.fault(at, "F11")
            return struct and ("struct", struct)
        return self.members(at, what, base[2])

    def begin(self, at, tag):
        here = self.scopes[-1].tags
        if tag is None:
            return Struct(None)
        self.free_tag(at, tag)
        before = here.get(tag)
        if before is not None and (before.begun or before.members is not None):
            self.fault(at, "F10")
            before = None
        here[tag] = before or Struct(tag)
        return here[tag]

    def members(self, at, tag, decls):
        struct = self.begin(at, tag)
        struct.begun = True
        members = {}
        for decl in decls:
            here = self.place(decl.line)
            t = self.base(here, decl.base)
            for d in decl.items:
                full = self.item_type(here, t, decl.base, d)
                self.demand(here, "F14", d.init is None)
                if d.init is not None:
                    self.pass_over(here, d.init)
                full = self.complete_type(here, full)
                self.demand(here, "F10", d.name not in members)
                self.demand(here, "F12", not self.reserved(d.name))
                members[d.name] = full
        struct.members = members
        size = struct_shape(struct)
        if size and size[0] > MOST:
            self.limit(at, "L1")
        return ("struct", struct)

    def pass_over(self, at, init):
        if init[0] == "one":
            self.value(at, init[1])
        else:
            for part in init[1]:
                self.pass_over(at, part)

    def item_type(self, at, t, base, d, tagged=False):
        """The type of a declarator; `tagged` where it is no member of a struct."""
        return self.declared(t, d.stars, [self.length(at, n) for n in d.dims], at)

    def declared(self, t, stars, lengths, at=None):
        """The type of a declarator: a length is 0 where it is left out and None where it has a fault."""
        if t is None:
            return None
        for _ in range(stars):
            t = pointer(t)
        for n in reversed(lengths):
            if not complete(t):
                self.fault(at, "F14")
            if n is None:
                return None
            t = array(t, n)
        if at and too_large(t):
            self.limit(at, "L1")
        return t

    def complete_type(self, at, t):
        if t is not None and not complete(t):
            self.fault(at, "F14")
            return None
        return t

    def length(self, at, e):
        if e is None:
            return 0
        o = self.value(at, e)
        if o.type is None:
            return None
        if isinstance(o.value, int) and o.value >= 1:
            return o.value
        self.fault(at, "F19")
        return None

    # ---- expressions

    def value(self, at, e):
        return self.valued(at, self.expression(at, e))

    def valued(self, at, o):
        if o.type is None:
            return Found()
        if is_struct(o.type) and not complete(o.type):
            return self.bad(at, "F14")
        fixed = o.fixed or (o.world and is_array(o.type))
        return Found(decay(o.type), value=o.value, fixed=fixed, text=o.text)

    def expression(self, at, e):
        return getattr(self, "of_" + e[0])(at, *e[1:])

    def of_int(self, at, n, t):
        return Found(number(t), value=n)

    def of_char(self, at, n):
        return Found(INT, value=n)

    def of_str(self, at, text):
        return Found(array(number("char"), len(text) + 1), place=True, fixed=True, text=text)

    def of_name(self, at, name):
        thing = self.look(name)
        if isinstance(thing, Thing):
            return Found(thing.type, place=True, world=thing.world)
        if isinstance(thing, Function):
            return self.bad(at, "F14")
        if name == "sqlca":
            return Found(("struct", self.sqlca), place=True, world=True)
        if name == "NULL":
            return Found(pointer(VOID), fixed=True)
        if name in ("true", "false"):
            return Found(INT, value=int(name == "true"))
        return self.bad(at, "F14" if name in KNOWN or name in FORMATTED else "F11")

    def of_unary(self, at, op, e):
        if op == "&":
            o = self.expression(at, e)
            if o.type is None:
                return Found()
            if not (o.place or o.target):
                return self.bad(at, "F15")
            return Found(pointer(o.type), fixed=o.world or o.leads)
        o = self.value(at, e)
        if o.type is None:
            return Found()
        if op == "*":
            if not is_pointer(o.type):
                return self.bad(at, "F14")
            return Found(o.type[1], place=o.type[1] != VOID, target=True, leads=o.fixed)
        if not (scalar(o.type) if op == "!" else is_number(o.type)):
            return self.bad(at, "F14")
        if not is_number(o.type):
            return Found(INT)
        name = "int" if op == "!" else promoted(o.type[1])
        return Found(number(name), value=signed_constant(op, o.type[1], o.value))

    def of_binary(self, at, op, a, b):
        x, y = self.value(at, a), self.value(at, b)
        if x.type is None or y.type is None:
            return Found()
        t = self.operation(op, x, y)
        if t is None:
            return self.bad(at, "F14")
        both = is_number(x.type) and is_number(y.type)
        return Found(t, value=constant(op, x.type[1], x.value, y.type[1], y.value) if both else None)

    def operation(self, op, x, y):
        s, t = x.type, y.type
        if not scalar(s) or not scalar(t):
            return None
        if op in ("&&", "||"):
            return INT
        if is_number(s) and is_number(t):
            if op in ("==", "!=", "<", ">", "<=", ">="):
                return INT
            return number(promoted(s[1]) if op in ("<<", ">>") else common(s[1], t[1]))
        if is_pointer(s) and is_pointer(t):
            alike = same(s[1], t[1])
            if op in ("==", "!="):
                return INT if alike or VOID in (s[1], t[1]) else None
            if op in ("<", ">", "<=", ">="):
                return INT if alike else None
            return number("long") if op == "-" and alike and complete(s[1]) else None
        if op in ("==", "!="):
            return INT if (x if is_number(s) else y).value == 0 else None
        if op == "+" or (op == "-" and is_pointer(s)):
            moved = s if is_pointer(s) else t
            return moved if complete(moved[1]) else None
        return None

    def of_index(self, at, a, b):
        x, y = self.value(at, a), self.value(at, b)
        if x.type is None or y.type is None:
            return Found()
        pair = [x.type, y.type] if is_pointer(x.type) else [y.type, x.type]
        if not (is_pointer(pair[0]) and is_number(pair[1]) and complete(pair[0][1])):
            return self.bad(at, "F14")
        return Found(pair[0][1], place=True)

    def assignable(self, to, o):
        t = o.type
        if is_number(to):
            return is_number(t) or (is_pointer(t) and to[1] == "bool")
        if is_pointer(to):
            if is_pointer(t):
                return same(to[1], t[1]) or VOID in (to[1], t[1])
            return is_number(t) and o.value == 0
        return is_struct(to) and is_struct(t) and to[1] is t[1]

    def assigned(self, at, t, allowed):
        if is_array(t):
            return Found()
        return Found(t) if allowed else self.bad(at, "F14")

    def of_assign(self, at, op, a, b):
        x, y = self.expression(at, a), self.value(at, b)
        if x.type is None:
            return Found()
        self.demand(at, "F15", x.place and not is_array(x.type))
        if y.type is None:
            return Found()
        if op is None:
            return self.assigned(at, x.type, self.assignable(x.type, y))
        moves = is_pointer(x.type) and op in ("+", "-") and complete(x.type[1])
        return self.assigned(at, x.type, is_number(y.type) and (is_number(x.type) or moves))

    def of_bump(self, at, before, up, e):
        o = self.expression(at, e)
        if o.type is None:
            return Found()
        self.demand(at, "F15", o.place and not is_array(o.type))
        return self.assigned(at, o.type, is_number(o.type) or (is_pointer(o.type) and complete(o.type[1])))

    def of_member(self, at, e, name):
        o = self.expression(at, e)
        return self.member(at, o.type, name, o.place) if o.type is not None else Found()

    def of_arrow(self, at, e, name):
        o = self.value(at, e)
        if o.type is None:
            return Found()
        return self.member(at, o.type[1], name, True) if is_pointer(o.type) else self.bad(at, "F14")

    def member(self, at, t, name, place):
        if not is_struct(t):
            return self.bad(at, "F14")
        members = t[1].members
        if members is None or name not in members:
            return self.bad(at, "F11")
        return Found(members[name], place=place)

    def of_cast(self, at, base, stars, e):
        to = self.declared(self.base(at, base), stars, [])
        o = self.expression(at, e)
        if to is None:
            return Found()
        if to == VOID:
            return Found(VOID) if o.type is not None else Found()
        o = self.valued(at, o)
        if o.type is None:
            return Found()
        if not (scalar(to) and scalar(o.type)):
            return self.bad(at, "F14")
        known = is_number(to) and is_number(o.type)
        value = o.value if not isinstance(o.value, int) else wrapped(to[1], o.value) if known else None
        return Found(to, value=value if known else None)

    def of_sizetype(self, at, base, stars):
        return self.size(at, self.declared(self.base(at, base), stars, []))

    def of_sizeexpr(self, at, e):
        return self.size(at, self.expression(at, e).type)

    def size(self, at, t):
        if t is None:
            return Found()
        if not complete(t):
            return self.bad(at, "F14")
        known = shape(t)
        if known is None:
            return Found()
        return Found(number("ulong"), value=known[0] if known[0] <= MOST else "trap")

    # ---- calls

    def of_callother(self, at, f, args):
        if f[0] != "name":
            self.expression(at, f)
        for a in args:
            self.value(at, a)
        return self.bad(at, "F16")

    def of_call(self, at, name, args):
        stream = name == "fprintf" and bool(args) and args[0][0] == "name" and args[0][1] in ("stdout", "stderr")
        of_library = self.written and name in library.CALLS
        forms = [(stream and i == 0) or (of_library and library.is_symbol(a)) for i, a in enumerate(args)]
        os = [Found() if form else self.value(at, a) for form, a in zip(forms, args)]
        thing = self.look(name)
        if isinstance(thing, Thing):
            return self.bad(at, "F16")
        if isinstance(thing, Function):
            self.demand(at, "F16", name in self.defined)
            if thing.params is not None:
                self.arguments(at, thing.params, os)
            return Found(thing.result)
        if of_library:
            takes = library.takes(name, [(a, o.type) for a, o in zip(args, os)])
            return Found(VOID) if takes else self.bad(at, "F16")
        if name in KNOWN:
            result, params = KNOWN[name]
            self.arguments(at, [named(p) for p in params], os)
            return Found(named(result))
        return self.formatted(at, name, args, os, stream) if name in FORMATTED else self.bad(at, "F16")

    def arguments(self, at, params, os):
        self.demand(at, "F16", len(os) == len(params))
        self.demand(at, "F14", all(p is None or o.type is None or self.assignable(p, o) for p, o in zip(params, os)))

    def formatted(self, at, name, args, os, stream):
        n = FORMATTED[name]
        if len(os) <= n:
            self.fault(at, "F16")
            return Found(INT)
        if n:
            self.demand(at, "F14", stream or os[0].type is None)
        wanted = needs(args[n][1]) if args[n][0] == "str" else None
        rest = os[n + 1:]
        fits = wanted is not None and len(wanted) == len(rest)
        fits = fits and all(o.type is None or meets(w, o.type) for w, o in zip(wanted, rest))
        self.demand(at, "F17", fits)
        return Found(INT)

    # ---- initializers

    def initializer(self, at, world, t, init):
        """The type of the object, with its length."""
        if init[0] == "one":
            o = self.initial(at, world, init[1])
            if t is None:
                return None
            self.suits(at, o, t)
            if is_array(t) and t[2] == 0:
                return array(t[1], len(o.text) + 1) if characters(t) and o.text is not None else None
            return t
        self.braces(at, t, init[1])
        left = None if t is None else self.parts(t, init[1])
        left = self.fill(at, world, left, init[1])
        if t is None or not (is_array(t) and t[2] == 0):
            return t
        if left is None:
            return None
        if characters(t) and self.text_alone(init[1]):
            return array(t[1], len(init[1][0][1][1]) + 1)
        return array(t[1], left.begun)

    def initial(self, at, world, e):
        o = self.value(at, e)
        if o.type is not None:
            self.demand(at, "F19", not world or isinstance(o.value, int) or o.fixed)
        return o

    def suits(self, at, o, t):
        if o.type is None:
            return
        if is_array(t):
            good = characters(t) and o.text is not None and (t[2] == 0 or len(o.text) <= t[2])
        else:
            good = self.assignable(t, o)
        self.demand(at, "F14", good)

    def text_alone(self, parts):
        return len(parts) == 1 and parts[0][0] == "one" and parts[0][1][0] == "str"

    def braces(self, at, t, parts):
        if t is not None and scalar(t) and parts and parts[0][0] == "many":
            self.fault(at, "F14")

    def parts(self, t, parts):
        if characters(t) and self.text_alone(parts):
            return Left([[t]])
        return Left.of(t)

    def fill(self, at, world, left, parts):
        for part in parts:
            left = self.fill_part(at, world, left, part)
        return left

    def fill_part(self, at, world, left, part):
        if part[0] == "one":
            o = self.initial(at, world, part[1])
            return left and (None if o.type is None else self.go(at, left, o))
        slot, rest = None, left
        if left is not None:
            if left.is_empty():
                self.fault(at, "F14")
            else:
                slot, rest = left.next()
                rest = rest if slot is not None else None
        self.braces(at, slot, part[1])
        self.fill(at, world, None if slot is None else self.parts(slot, part[1]), part[1])
        return rest

    def go(self, at, left, o):
        if left.is_empty():
            self.fault(at, "F14")
            return left
        t, rest = left.next()
        while t is not None:
            if scalar(t) or (o.text is not None and characters(t)) or (is_struct(t) and same(o.type, t)):
                self.suits(at, o, t)
                return rest
            inner = Left.of(t)
            if inner.is_empty():
                return None
            t, rest = inner.next(rest)
        return None

    # ---- declarations

    def count(self, t):
        self.numbers.append(t)

    def specifier(self, at, base, items):
        if base[0] == "tag" and not items:
            tag, here = base[1], self.scopes[-1].tags
            self.free_tag(at, tag)
            here.setdefault(tag, Struct(tag))
            return None
        return self.base(at, base)

    def declaration(self, world, decl):
        at = self.place(decl.line)
        t = self.specifier(at, decl.base, decl.items)
        for d in decl.items:
            full = self.item_type(at, t, decl.base, d, True)
            waits = full is not None and d.init is not None and is_array(full) and full[2] == 0 and complete(full[1])
            full = full if waits else self.complete_type(at, full)
            self.declare(at, d.name, Thing(len(self.numbers), world, full, decl.section))
            after = full if d.init is None else self.initializer(at, world, full, d.init)
            if after is not None and too_large(after):
                self.limit(at, "L1")
            self.scopes[-1].names[d.name] = Thing(len(self.numbers), world, after, decl.section)
            self.count(after)

    # ---- statements

    def condition(self, at, e):
        o = self.value(at, e)
        if o.type is not None:
            self.demand(at, "F14", scalar(o.type))

    def inside(self, work, *args):
        self.scopes.append(Scope())
        work(*args)
        self.scopes.pop()

    def statements(self, stmts):
        for s in stmts:
            self.statement(s)

    def body(self, stmt, loop):
        before, self.loop = self.loop, self.loop or loop
        self.inside(self.statement, stmt)
        self.loop = before

    def statement(self, stmt):
        at = self.place(stmt.line) if stmt.kind[0] != "declare" else None
        getattr(self, "do_" + stmt.kind[0])(at, *stmt.kind[1:])

    def do_empty(self, at):
        pass

    def do_expression(self, at, e):
        self.expression(at, e)

    def do_declare(self, at, decl):
        self.declaration(False, decl)

    def do_block(self, at, stmts):
        self.inside(self.statements, stmts)

    def do_if(self, at, e, then, other):
        self.inside(self.branches, at, e, then, other)

    def branches(self, at, e, then, other):
        self.condition(at, e)
        self.body(then, False)
        if other is not None:
            self.body(other, False)

    def do_while(self, at, e, stmt):
        self.inside(lambda: (self.condition(at, e), self.body(stmt, True)))

    def do_do(self, at, stmt, e):
        self.inside(lambda: (self.body(stmt, True), self.condition(at, e)))

    def do_for(self, at, x, y, z, stmt):
        self.inside(self.for_parts, at, x, y, z, stmt)

    def for_parts(self, at, x, y, z, stmt):
        if x is not None:
            self.expression(at, x)
        if y is not None:
            self.condition(at, y)
        if z is not None:
            self.expression(at, z)
        self.body(stmt, True)

    def do_break(self, at):
        self.demand(at, "F18", self.loop)

    do_continue = do_break

    def do_return(self, at, e):
        t = self.result
        if e is None:
            self.demand(at, "F14", t is None or t == VOID)
            return
        o = self.value(at, e)
        if t is not None and o.type is not None:
            self.demand(at, "F14", t != VOID and self.assignable(t, o))

    def do_goto(self, at, label):
        self.demand(at, "F18", label in self.all_labels)

    def do_label(self, at, label, stmt):
        self.demand(at, "F10", label not in self.labels)
        self.demand(at, "F12", not self.reserved(label))
        self.labels[label] = True
        self.statement(stmt)

    # ---- functions

    def function(self, f):
        at = self.place(f.line)
        t = self.declared(self.base(at, f.base), f.stars, [])
        if t is not None and is_struct(t):
            self.fault(at, "F14")
            t = None
        here, k = self.scopes[-1].names, len(self.numbers)
        before = here.get(f.name)
        self.count(t)
        if isinstance(before, Thing):
            self.fault(at, "F10")
        if not isinstance(before, Function):
            here[f.name] = Function(k, False, t, None, f.section)
        self.demand(at, "F12", not self.reserved(f.name))
        self.scopes.append(Scope())
        params = [self.param(at, p, f.body is not None) for p in f.params]
        if isinstance(before, Function):
            again = self.agrees(before, t, params) and not (before.defined and f.body is not None)
            self.demand(at, "F10", again)
        defined = f.body is not None or (isinstance(before, Function) and before.defined)
        here[f.name] = Function(k, defined, t, params, f.section)
        if f.body is not None:
            if f.name == "main" and t == INT and not params:
                self.mains = True
            self.result, self.labels, self.loop = t, {}, False
            self.all_labels = set(labels_of(f.body))
            for self.part in f.body:
                self.statement(self.part)
        self.scopes.pop()

    def agrees(self, before, t, params):
        if before.params is None or len(before.params) != len(params):
            return False
        pairs = [(before.result, t), *zip(before.params, params)]
        return any(None in pair for pair in pairs) or all(same(*pair) for pair in pairs)

    def param(self, at, p, defines):
        t = self.base(at, p.base)
        lengths = [self.length(at, n) for n in p.dims]
        if lengths:
            t = self.declared(t, p.stars, lengths[1:], at)
            t = self.complete_type(at, t)
            t = t and pointer(t)
        else:
            t = self.declared(t, p.stars, [])
            if t is not None and (t == VOID or is_struct(t)):
                self.fault(at, "F14")
                t = None
        if p.name is not None:
            self.declare(at, p.name, Thing(len(self.numbers), False, t, p.section))
        elif defines:
            self.fault(at, "F14")
        self.count(t)
        return t

    def other_top(self, top):
        pass

    def check(self):
        for top in self.unit.tops:
            self.part = top
            if top.kind == "function":
                self.function(top)
            elif top.kind == "declaration":
                self.declaration(True, top.decl)
            else:
                self.other_top(top)
        self.demand(self.place(self.unit.last), "F20", self.mains)
        return self.first()


def labels_of(stmts):
    for s in stmts:
        kind = s.kind
        if kind[0] == "label":
            yield kind[1]
        for part in kind[1:]:
            if isinstance(part, list):
                yield from labels_of(part)
            elif hasattr(part, "kind"):
                yield from labels_of([part])


class Left:
    """The parts of an object that are left, innermost last. A part is a list of types, or an array without a length."""

    def __init__(self, frames, begun=0):
        self.frames, self.begun = frames, begun

    @staticmethod
    def of(t):
        if is_array(t):
            return Left([("elements", t[1], t[2] or None)])
        if is_struct(t):
            return Left([list((t[1].members or {}).values())])
        return Left([[t]]) if scalar(t) else Left([])

    def is_empty(self):
        return not any(f[0] == "elements" and f[2] != 0 if isinstance(f, tuple) else f for f in self.frames)

    def next(self, outer=None):
        """The next part and what is left behind it, and behind this what is left of `outer`."""
        frames = list(self.frames)
        while not (frames[-1][2] != 0 if isinstance(frames[-1], tuple) else frames[-1]):
            frames.pop()
        last, begun = frames[-1], self.begun
        if isinstance(last, tuple):
            part, frames[-1] = last[1], ("elements", last[1], last[2] and last[2] - 1)
            begun += 1 if last[2] is None and len(frames) == 1 else 0
        else:
            part, frames[-1] = last[0], last[1:]
        if outer is not None:
            return part, Left(outer.frames + frames, outer.begun)
        return part, Left(frames, begun)
