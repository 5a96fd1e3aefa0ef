"""Random programs for the checks: trees, their texts, and one thing changed in a tree.

A tree that is written gets the lines of its parts from where their first tokens stand in the text.
"""

import copy
from dataclasses import dataclass, field

import library


@dataclass
class Declarator:
    stars: int
    name: str
    dims: list
    init: object = None


@dataclass
class Declaration:
    base: tuple
    items: list
    line: int = 0
    kind: str = "declaration"
    section: bool = False

    @property
    def decl(self):
        return self


@dataclass
class Parameter:
    base: tuple
    stars: int
    name: object
    dims: list
    section: bool = False


@dataclass
class Function:
    base: tuple
    stars: int
    name: str
    params: list
    body: object
    line: int = 0
    kind: str = "function"
    section: bool = False


@dataclass
class Statement:
    kind: tuple
    line: int = 0


@dataclass
class Unit:
    tops: list = field(default_factory=list)
    last: int = 1


SUFFIXES = {"int": "", "uint": "U", "long": "L", "ulong": "UL", "llong": "LL", "ullong": "ULL"}
ESCAPES = {0: "\\0", 10: "\\n", 34: '\\"', 92: "\\\\", 39: "\\'"}


def quoted(text):
    return "".join(ESCAPES.get(b, chr(b)) for b in text)


class Writer:
    """Writes a unit as a text, on as many lines as `rng` makes of it, and sets the lines of its parts."""

    def __init__(self, rng):
        self.rng, self.text, self.line = rng, [], 1

    def put(self, *tokens):
        for token in tokens:
            self.text.append(token)

    def gap(self):
        if self.rng.random() < 0.6:
            self.text.append("\n")
            self.line += 1

    def unit(self, unit):
        for top in unit.tops:
            self.gap()
            self.function(top) if top.kind == "function" else self.declaration(top)
        text = " ".join(self.text).replace(" \n", "\n").replace("\n ", "\n") + "\n"
        unit.last = text.count("\n") + 1
        return text

    def base(self, base):
        if base[0] == "words":
            self.put(*base[1])
        elif base[0] == "tag":
            self.put("struct", base[1])
        else:
            self.put("struct", *([base[1]] if base[1] else []), "{")
            for decl in base[2]:
                self.gap()
                self.declaration(decl)
            self.put("}")

    def dims(self, dims):
        for n in dims:
            self.put("[")
            if n is not None:
                self.operand(n) if n[0] == "assign" else self.expression(n)
            self.put("]")

    def declaration(self, decl):
        decl.line = self.line
        self.base(decl.base)
        for i, d in enumerate(decl.items):
            self.put(*([","] if i else []), *["*"] * d.stars, d.name)
            self.dims(d.dims)
            if d.init is not None:
                self.put("=")
                self.init(d.init)
        self.put(";")

    def init(self, init):
        if init[0] == "one":
            return self.expression(init[1])
        self.put("{")
        for i, part in enumerate(init[1]):
            self.put(*([","] if i else []))
            self.init(part)
        self.put("}")

    def function(self, f):
        f.line = self.line
        self.base(f.base)
        self.put(*["*"] * f.stars, f.name, "(")
        for i, p in enumerate(f.params):
            self.put(*([","] if i else []))
            self.base(p.base)
            self.put(*["*"] * p.stars, *([p.name] if p.name else []))
            self.dims(p.dims)
        self.put(*([] if f.params else ["void"]), ")")
        if f.body is None:
            return self.put(";")
        self.put("{")
        self.statements(f.body)
        self.put("}")

    def statements(self, stmts):
        for s in stmts:
            self.gap()
            self.statement(s)

    def statement(self, s):
        s.line = self.line
        kind = s.kind
        getattr(self, "put_" + kind[0])(*kind[1:])

    def put_empty(self):
        self.put(";")

    def put_expression(self, e):
        self.expression(e)
        self.put(";")

    def put_declare(self, decl):
        self.declaration(decl)

    def put_block(self, stmts):
        self.put("{")
        self.statements(stmts)
        self.put("}")

    def bracketed(self, word, e):
        self.put(word, "(")
        self.expression(e)
        self.put(")")

    def put_if(self, e, then, other):
        self.bracketed("if", e)
        self.statement(then)
        if other is not None:
            self.put("else")
            self.gap()
            self.statement(other)

    def put_while(self, e, s):
        self.bracketed("while", e)
        self.gap()
        self.statement(s)

    def put_do(self, s, e):
        self.put("do")
        self.gap()
        self.statement(s)
        self.gap()
        self.bracketed("while", e)
        self.put(";")

    def put_for(self, x, y, z, s):
        self.put("for", "(")
        for part, end in ((x, ";"), (y, ";"), (z, ")")):
            if part is not None:
                self.expression(part)
            self.put(end)
        self.gap()
        self.statement(s)

    def put_break(self):
        self.put("break", ";")

    def put_continue(self):
        self.put("continue", ";")

    def put_return(self, e):
        self.put("return")
        if e is not None:
            self.expression(e)
        self.put(";")

    def put_goto(self, label):
        self.put("goto", label, ";")

    def put_label(self, label, s):
        self.put(label, ":")
        self.gap()
        self.statement(s)

    # ---- expressions: each operand that is no leaf stands in parentheses

    def operand(self, e):
        if e[0] in ("int", "char", "str", "name"):
            return self.expression(e)
        self.put("(")
        self.expression(e)
        self.put(")")

    def expression(self, e):
        getattr(self, "write_" + e[0])(*e[1:])

    def write_int(self, n, t):
        self.put(f"{n}{SUFFIXES[t]}")

    def write_char(self, n):
        self.put(f"'{quoted([n])}'")

    def write_str(self, text):
        self.put(f'"{quoted(text)}"')

    def write_name(self, name):
        self.put(name)

    def write_unary(self, op, e):
        self.put(op)
        self.operand(e)

    def write_binary(self, op, a, b):
        self.operand(a)
        self.put(op)
        self.operand(b)

    def write_assign(self, op, a, b):
        self.operand(a)
        self.put((op or "") + "=")
        self.operand(b)

    def write_bump(self, before, up, e):
        word = "++" if up else "--"
        self.put(*([word] if before else []))
        self.operand(e)
        self.put(*([] if before else [word]))

    def arguments(self, args):
        self.put("(")
        for i, a in enumerate(args):
            self.put(*([","] if i else []))
            self.expression(a)
        self.put(")")

    def write_call(self, name, args):
        self.put(name)
        self.arguments(args)

    def write_callother(self, f, args):
        self.put("(")
        self.expression(f)
        self.put(")")
        self.arguments(args)

    def write_index(self, a, b):
        self.operand(a)
        self.put("[")
        self.expression(b)
        self.put("]")

    def write_member(self, e, name):
        self.operand(e)
        self.put(".", name)

    def write_arrow(self, e, name):
        self.operand(e)
        self.put("->", name)

    def write_cast(self, base, stars, e):
        self.put("(")
        self.base(base)
        self.put(*["*"] * stars, ")")
        self.operand(e)

    def write_sizetype(self, base, stars):
        self.put("sizeof", "(")
        self.base(base)
        self.put(*["*"] * stars, ")")

    def write_sizeexpr(self, e):
        self.put("sizeof")
        self.operand(e)


OBJECTS = ["a", "b", "c", "d", "p", "q", "w", "x", "y", "z"]
FUNCTIONS = ["f", "g", "h"]
TAGS = ["s", "t", "u"]
MEMBERS = ["m", "n", "o"]
LABELS = ["l", "k"]
STRANGE = ["sqlca", "NULL", "printf", "ECPGx", "varchar_a", "stdout", "true", "memcpy", "SQLSTATEX", "EXECX", "ECPGt_int", "zz"]
WORDS = [["int"], ["int"], ["int"], ["char"], ["char"], ["void"], ["bool"], ["unsigned", "char"], ["short"], ["long"],
         ["unsigned", "int"], ["long", "long"], ["unsigned", "long"], ["long", "int", "long", "unsigned"], ["signed", "char"],
         ["unsigned"], ["short", "unsigned"], ["const", "char"], ["long", "const"]]
WRONG_WORDS = [["long", "long", "long"], ["unsigned", "bool"], ["signed", "unsigned"], ["int", "int"], ["short", "long"],
               ["void", "int"], ["char", "long"], ["const", "unsigned", "const", "void"]]
BINARY = ["+", "-", "*", "/", "%", "<<", ">>", "&", "|", "^", "<", ">", "<=", ">=", "==", "!=", "&&", "||"]
FORMATS = [b"%d\n", b"%s", b"%c%%", b"%ld %u", b"%5.*s", b"%-08lx", b"%*d", b"%lli", b"none", b"%.3s%i", b"%d\0%s", b"%q", b"%.s", b"%1234d", b"%lc", b"%.2d"]
NUMBERS = [0, 0, 1, 1, 2, 3, 7, 31, 32, 63, 64, 255, 2147483647]


def named(name):
    return ("name", name)


# Expressions that are right where the known things stand.
TYPED = [
    ("call", "printf", [("str", b"%d %s\n"), named("a"), named("c")]),
    ("call", "printf", [("str", b"%-5lu%c"), named("d"), named("a")]),
    ("call", "printf", [("str", b"%.*s"), named("a"), named("b")]),
    ("call", "fprintf", [named("stderr"), ("str", b"%*x %%"), named("a"), named("a")]),
    ("call", "f", [named("a"), named("c")]),
    ("call", "f", [("char", 97), named("b")]),
    ("call", "g", []),
    ("call", "memcpy", [named("y"), named("p"), ("sizeexpr", named("z"))]),
    ("assign", None, named("a"), ("call", "strlen", [named("c")])),
    ("assign", None, named("p"), ("unary", "&", named("a"))),
    ("assign", None, named("p"), ("index", named("z"), ("int", 1, "int"))),
    ("assign", None, ("arrow", named("q"), "m"), ("index", ("member", named("x"), "o"), named("a"))),
    ("assign", None, named("q"), ("unary", "&", named("x"))),
    ("assign", None, named("x"), ("unary", "*", named("q"))),
    ("assign", None, named("y"), named("p")),
    ("assign", "+", named("p"), named("d")),
    ("assign", "<<", named("d"), ("bump", True, True, named("a"))),
    ("binary", "&&", ("binary", "==", named("p"), ("int", 0, "int")), ("binary", "<", named("q"), ("arrow", named("q"), "n"))),
    ("cast", ("words", ["long"]), 0, ("binary", "-", named("p"), ("index", named("z"), named("a")))),
    ("unary", "!", ("arrow", named("q"), "n")),
]


NULL = ("name", "NULL")
POINTERS = [("unary", "&", named("a")), named("b"), named("c"), named("p"), named("y"), named("z"), named("q"), ("unary", "&", named("c")),
            ("unary", "&", ("member", named("x"), "m"))]


def long(n):
    return ("int", n, "long")


NO_INDICATOR = [named("ECPGt_NO_INDICATOR"), NULL, long(0), long(0), long(0)]
# A symbol, a pointer, a length, and the size of an element.
HOSTS = [
    ("int", ("unary", "&", named("a")), 0, 4), ("int", named("p"), 0, 4), ("char", named("b"), 3, 3), ("char", named("c"), 0, 8),
    ("unsigned_char", named("b"), 1, 1), ("unsigned_long", ("unary", "&", named("d")), 0, 8), ("long", named("y"), 0, 8),
    ("varchar", ("unary", "&", named("x")), 3, 8), ("varchar", named("q"), 1, 8), ("varchar", named("q"), 4, 8), ("bool", named("y"), 0, 1),
    ("short", named("y"), 0, 2), ("unsigned_short", named("y"), 0, 2), ("unsigned_int", named("z"), 0, 4), ("long_long", named("y"), 0, 8),
    ("unsigned_long_long", named("y"), 0, 8), ("varchar", named("y"), 2**24, 2**24 + 4),
]


class Maker:
    """Makes parts of programs at random, many of which the checks refuse."""

    def __init__(self, rng, written=False):
        self.rng, self.written = rng, written

    def name(self, names, strange=0.004):
        return self.rng.choice(STRANGE if self.rng.random() < strange else names)

    def base(self, depth=2):
        r = self.rng.random()
        if r < 0.72 or not depth:
            return ("words", self.rng.choice(WRONG_WORDS if self.rng.random() < 0.01 else WORDS))
        if r < 0.88:
            return ("tag", self.name(TAGS))
        tag = self.name(TAGS) if self.rng.random() < 0.7 else None
        return ("struct", tag, [self.member(depth - 1) for _ in range(self.rng.choice([1, 1, 2, 3]))])

    def member(self, depth):
        return Declaration(self.base(depth), [self.declarator(MEMBERS, 0.01) for _ in range(self.rng.choice([1, 1, 1, 2]))])

    def dims(self, opened):
        dims = [self.length() for _ in range(self.rng.choice([0, 0, 0, 0, 1, 1, 2]))]
        if dims and self.rng.random() < opened:
            dims[0] = None
        return dims

    def length(self):
        r = self.rng.random()
        if r < 0.7:
            return ("int", self.rng.choice([1, 2, 3, 4, 8]), "int")
        if r < 0.72:
            return ("int", self.rng.choice([2**24, 2**23, 2**24 + 1, 2**22]), "int")
        return self.constant(2) if r < 0.97 else self.expression(1)

    def declarator(self, names, init):
        d = Declarator(self.rng.choice([0, 0, 0, 0, 1, 1, 2]), self.name(names), self.dims(0.15))
        if self.rng.random() < init:
            d.init = self.init(2)
        return d

    def init(self, depth):
        r = self.rng.random()
        if not depth or r < 0.6:
            return ("one", self.constant(1) if self.rng.random() < 0.4 else self.expression(1))
        return ("many", [self.init(depth - 1) for _ in range(self.rng.choice([1, 1, 2, 2, 3, 4]))])

    def constant(self, depth):
        r = self.rng.random()
        if not depth or r < 0.35:
            return self.leaf_constant()
        if r < 0.75:
            return ("binary", self.rng.choice(BINARY), self.constant(depth - 1), self.constant(depth - 1))
        if r < 0.85:
            return ("unary", self.rng.choice("+-~!"), self.constant(depth - 1))
        if r < 0.95:
            return ("cast", ("words", self.rng.choice(WORDS)), 0, self.constant(depth - 1))
        return ("sizeexpr", self.constant(depth - 1))

    def leaf_constant(self):
        r = self.rng.random()
        if r < 0.7:
            return ("int", self.rng.choice(NUMBERS), self.rng.choice(["int", "int", "int", *SUFFIXES]))
        if r < 0.8:
            return ("char", self.rng.choice(b"aZ0"))
        if r < 0.9:
            return ("name", self.rng.choice(["true", "false"]))
        return ("sizetype", self.base(0), self.rng.choice([0, 0, 1]))

    def leaf(self):
        r = self.rng.random()
        if r < 0.72:
            return ("name", self.name(OBJECTS, 0.01))
        if r < 0.76:
            return ("str", self.rng.choice([b"", b"a", b"abc", b"abcd"]))
        if r < 0.79:
            return ("name", "NULL")
        return self.leaf_constant()

    def expression(self, depth):
        if not depth or self.rng.random() < 0.12:
            return self.leaf()
        form = self.rng.choices(
            ["unary", "binary", "assign", "bump", "call", "known", "format", "index", "member", "arrow", "cast", "sizetype", "sizeexpr", "callother", "sql"],
            [14, 16, 12, 5, 6, 4, 3, 10, 8, 7, 8, 2, 3, 0.2, 0.5],
        )[0]
        e = lambda: self.expression(depth - 1)
        if form == "unary":
            return ("unary", self.rng.choice(["&", "&", "*", "*", "+", "-", "~", "!"]), e())
        if form == "binary":
            return ("binary", self.rng.choice(BINARY), e(), e())
        if form == "assign":
            return ("assign", self.rng.choice([None, None, None, "+", "-", "*", "<<", "|"]), e(), e())
        if form == "bump":
            return ("bump", self.rng.random() < 0.5, self.rng.random() < 0.5, e())
        if form == "call":
            return ("call", self.name(FUNCTIONS), [e() for _ in range(self.rng.choice([0, 1, 1, 2]))])
        if form == "known":
            name, count = self.rng.choice([("strlen", 1), ("puts", 1), ("putchar", 1), ("strcmp", 2), ("memset", 3), ("memcpy", 3), ("exit", 1), ("sqlprint", 0), ("strncpy", 3)])
            return ("call", name, [e() for _ in range(count)])
        if form == "format":
            args = [("str", self.rng.choice(FORMATS))] + [e() for _ in range(self.rng.choice([0, 1, 1, 1, 2]))]
            if self.rng.random() < 0.3:
                return ("call", "fprintf", [("name", self.rng.choice(["stdout", "stderr", "stderr", "a"]))] + args)
            return ("call", "printf", args)
        if form == "index":
            return ("index", e(), self.leaf_constant() if self.rng.random() < 0.5 else e())
        if form in ("member", "arrow"):
            return (form, e(), self.name(MEMBERS))
        if form == "cast":
            return ("cast", self.base(0 if self.rng.random() < 0.9 else 1), self.rng.choice([0, 0, 1, 1, 2]), e())
        if form == "sizetype":
            return ("sizetype", self.base(1), self.rng.choice([0, 0, 1]))
        if form == "sizeexpr":
            return ("sizeexpr", e())
        if form == "sql":
            return ("member", ("name", "sqlca"), self.rng.choice(["sqlcode", "sqlerrm", "sqlerrd", "sqlstate", "nothing"]))
        return ("callother", self.leaf(), [e() for _ in range(self.rng.choice([0, 1]))])

    def statement(self, depth, item=True):
        form = self.rng.choices(
            ["expression", "declare", "block", "if", "while", "do", "for", "for declaration", "break", "continue", "return", "goto", "label", "empty"],
            [30, 22 if item else 0, *([5, 8, 4, 2, 4, 2] if depth else [0] * 6), 2, 2, 6, 3, 3, 2],
        )[0]
        s = lambda: self.statement(depth - 1, False)
        e = lambda: self.expression(2)
        if form == "expression" and self.written and self.rng.random() < 0.5:
            call = self.library_call()
            return Statement((form, ("cast", ("words", ["void"]), 0, call) if self.rng.random() < 0.03 else call))
        if form == "expression":
            return Statement((form, self.rng.choice(TYPED) if self.rng.random() < 0.4 else self.expression(3)))
        if form == "declare":
            return Statement((form, self.declaration(OBJECTS, 0.4)))
        if form == "block":
            return Statement((form, [self.statement(depth - 1) for _ in range(self.rng.choice([0, 1, 2, 3]))]))
        if form == "if":
            return Statement((form, e(), Statement(("block", [s()])), s() if self.rng.random() < 0.4 else None))
        if form == "while":
            return Statement((form, e(), s()))
        if form == "do":
            return Statement((form, s(), e()))
        if form == "for":
            return Statement((form, *[e() if self.rng.random() < 0.7 else None for _ in range(3)], s()))
        if form == "for declaration":
            loop = Statement(("while", e(), s()))
            return Statement(("block", [Statement(("declare", self.declaration(OBJECTS, 0.6))), loop]))
        if form == "return":
            return Statement((form, e() if self.rng.random() < 0.7 else None))
        if form == "goto":
            return Statement((form, self.name(LABELS)))
        if form == "label":
            return Statement((form, self.name(LABELS), s() if depth else Statement(("empty",))))
        return Statement((form,))

    # ---- calls of the library, which written C has

    def text(self, or_null=False):
        literal = ("str", self.rng.choice([b"", b"t", b"CURRENT", b"on"]))
        return self.rng.choice([literal, literal, named("b"), named("c"), *([NULL] * 2 if or_null else [])])

    def literal(self):
        return ("str", self.rng.choice([b"", b"s", b"SELECT 1", b"off"]))

    def value(self, single=False, constants=False):
        """Ten arguments: a host with its indicator, or a constant."""
        if constants and self.rng.random() < 0.25:
            return [named("ECPGt_const"), self.literal(), long(0), long(1), long(0), *NO_INDICATOR]
        kind, pointer, length, least = self.rng.choice(HOSTS)
        count = 1 if single else self.rng.choice([1, 1, 2, 7, 2**24])
        distance = self.rng.choice([least, least, least + 1, 2**24])
        host = [named("ECPGt_" + kind), pointer, long(length), long(count), long(distance)]
        return host + (NO_INDICATOR if self.rng.random() < 0.5 else self.indicator(count))

    def indicator(self, count):
        kind, size = self.rng.choice([("short", 2), ("int", 4), ("long", 8), ("long_long", 8)])
        more, apart = self.rng.choice([count, count, 2**24]), self.rng.choice([size, size + 1, 2**24])
        return [named("ECPGt_" + kind), self.rng.choice(POINTERS), long(0), long(more), long(apart)]

    def area(self):
        return [named("ECPGt_descriptor"), self.text(), long(1), long(1), long(1), *NO_INDICATOR]

    def running(self):
        head = self.rng.choice(["normal", "normal", "normal", "execute", "exec_immediate", "open"])
        what = [self.text()] if head == "exec_immediate" else [self.literal() for _ in range(2 if head == "open" else 1)]
        ins = sum([self.value(True, True) for _ in range(self.rng.choice([0, 0, 1, 2]))], [])
        ins += self.area() if self.rng.random() < 0.15 else []
        outs = sum([self.value() for _ in range(self.rng.choice([0, 1, 1, 2]))], [])
        outs = self.area() if self.rng.random() < 0.15 else outs
        return [self.text(True), named("ECPGst_" + head), *what, *ins, named("ECPGt_EOIT"), *outs, named("ECPGt_EORT")]

    def describing(self, stores):
        items = sorted(library.ITEMS if stores else library.SET_ITEMS)
        args = [self.text(), *self.value(True, True)]
        for _ in range(self.rng.choice([0, 1, 1, 2])):
            args += [named(self.rng.choice(items)), *self.value(True, not stores)]
        return [*args, named("ECPGd_EODT")]

    def library_call(self):
        """A call that written C may have."""
        name = self.rng.choice(["ECPGdo"] * 8 + ["ECPGget_desc", "ECPGset_desc"] * 2 + sorted(library.CALLS))
        if name == "ECPGdo":
            args = self.running()
        elif name in library.SHAPES:
            args = [self.argument(shape) for shape in library.SHAPES[name]]
        elif name.endswith("header"):
            args = [self.text(), *self.value(True, name.startswith("ECPGset"))]
        else:
            args = self.describing(name.startswith("ECPGget"))
        return ("call", name, [("int", self.rng.choice([1, 7, 2147483647]), "int"), *args])

    def argument(self, shape):
        if shape == "w":
            return ("str", self.rng.choice([b"on", b"off"]))
        return self.literal() if shape == "l" else self.text(shape == "n")

    def declaration(self, names, init):
        count = self.rng.choice([1, 1, 1, 1, 2, 2, 3, 0])
        base = self.base() if count else ("tag" if self.rng.random() < 0.5 else "struct", self.name(TAGS), [self.member(1)])
        if base[0] == "tag":
            base = base[:2]
        return Declaration(base, [self.declarator(names, init) for _ in range(count)])

    def parameter(self, named):
        return Parameter(self.base(1), self.rng.choice([0, 0, 1, 1, 2]), self.name(OBJECTS) if named or self.rng.random() < 0.5 else None, self.dims(0.5))

    def function(self, name=None):
        defines = name is not None or self.rng.random() < 0.65
        params = [] if name else [self.parameter(defines) for _ in range(self.rng.choice([0, 1, 1, 2]))]
        params = [p for p in params if p.base != ("words", ["void"]) or p.stars or p.dims or p.name]
        base = ("words", ["int"]) if name else self.base(1)
        return Function(base, 0 if name else self.rng.choice([0, 0, 0, 1]), name or self.name(FUNCTIONS), params, [] if defines else None)


EXPRESSIONS = {"int", "char", "str", "name", "unary", "binary", "assign", "bump", "call", "callother", "index", "member", "arrow", "cast", "sizetype", "sizeexpr"}


def library_calls(stmts):
    """The statements that are calls of the library, inner ones too."""
    for s in stmts:
        if s.kind[0] == "expression" and s.kind[1][0] == "call" and s.kind[1][1] in library.CALLS:
            yield s
        for part in s.kind[1:]:
            if isinstance(part, (list, Statement)):
                yield from library_calls(part if isinstance(part, list) else [part])


class Changer:
    """Changes one thing in a unit."""

    def __init__(self, rng, written=False):
        self.rng, self.maker = rng, Maker(rng, written)

    def changed(self, unit):
        unit = copy.deepcopy(unit)
        calls = [s for top in unit.tops if top.kind == "function" for s in library_calls(top.body or [])]
        if calls and self.rng.random() < 0.6:
            call = self.rng.choice(calls)
            call.kind = ("expression", self.expression(call.kind[1]))
            return unit
        for _ in range(50):
            places = self.places(unit)
            if not places or self.rng.choice(places)():
                return unit
        return unit

    def places(self, unit):
        """The changes of declarations and functions, or those of the bodies of functions alone."""
        inside, places = [], []
        for top in unit.tops:
            if top.kind == "function" and top.body:
                self.block(top.body, inside)
        if inside and self.rng.random() < 0.6:
            return inside
        self.collect(unit, places)
        return places

    def collect(self, unit, places):
        tops = unit.tops
        for i in range(len(tops)):
            if getattr(tops[i], "name", "") == "main" and self.rng.random() < 0.9:
                self.block(tops[i].body or [], places)
                continue
            places.append(lambda i=i: (tops.pop(i), True)[1])
            places.append(lambda i=i: (tops.insert(self.rng.randrange(len(tops)), copy.deepcopy(tops[i])), True)[1])
            places.append(lambda i=i: (tops.insert(0, tops.pop(i)), True)[1])
            self.of(tops[i], places)

    def of(self, node, places):
        rng, maker = self.rng, self.maker

        def put(name, make):
            def change():
                setattr(node, name, make(getattr(node, name)))
                return True
            places.append(change)

        if isinstance(node, Declaration):
            put("base", self.base)
            for d in node.items:
                self.of(d, places)
        elif isinstance(node, Declarator):
            put("stars", lambda n: n + 1 if not n or rng.random() < 0.5 else n - 1)
            put("name", lambda _: maker.name(OBJECTS + MEMBERS, 0.3))
            put("dims", lambda dims: dims[1:] if dims and rng.random() < 0.5 else dims + [maker.length()])
            put("dims", lambda dims: dims + [("int", rng.choice([2**24, 2**24 + 1, 2**22]), "int")] if rng.random() < 0.3 else dims[1:])
            if node.init is not None:
                put("init", self.init)
                put("init", self.init)
            else:
                put("init", lambda _: maker.init(2))
        elif isinstance(node, Function):
            put("base", self.base)
            put("name", lambda _: maker.name(FUNCTIONS + OBJECTS, 0.2))
            put("stars", lambda n: n + 1)
            put("params", lambda ps: ps[1:] if ps else [maker.parameter(True)])
            for p in node.params:
                self.of(p, places)
            if node.body is not None:
                self.block(node.body, places)
        elif isinstance(node, Parameter):
            put("base", self.base)
            put("stars", lambda n: n + 1 if not n or rng.random() < 0.5 else n - 1)
            put("name", lambda _: maker.name(OBJECTS, 0.3))
            put("dims", lambda dims: dims[1:] if dims else [None])
        elif isinstance(node, Statement):
            self.kind(node, places)

    def block(self, stmts, places):
        rng = self.rng
        for i, s in enumerate(stmts):
            places.append(lambda i=i: (stmts.pop(i), True)[1])
            places.append(lambda i=i: (stmts.insert(rng.randrange(len(stmts) + 1), copy.deepcopy(stmts[i])), True)[1])
            places.append(lambda i=i: (stmts.insert(rng.randrange(len(stmts)), stmts.pop(i)), True)[1])
            self.of(s, places)
        places.append(lambda: (stmts.insert(rng.randrange(len(stmts) + 1), self.maker.statement(1)), True)[1])

    def kind(self, s, places):
        for i, part in enumerate(s.kind):
            def put(new, i=i):
                s.kind = s.kind[:i] + (new,) + s.kind[i + 1:]
                return True
            if isinstance(part, tuple) and part and part[0] in EXPRESSIONS:
                for _ in range(3):
                    places.append(lambda part=part, put=put: put(self.expression(part)))
            elif isinstance(part, list):
                self.block(part, places)
            elif isinstance(part, (Statement, Declaration)):
                self.of(part, places)
            elif isinstance(part, str) and i and s.kind[0] in ("goto", "label"):
                places.append(lambda put=put: put(self.maker.name(LABELS, 0.3)))

    def base(self, base):
        if base[0] == "words":
            words = list(base[1])
            r = self.rng.random()
            if r < 0.4:
                return ("words", self.rng.choice(WORDS + WRONG_WORDS))
            if r < 0.7:
                return ("words", words + [self.rng.choice(["int", "long", "unsigned", "short", "signed", "char", "void"])])
            return self.maker.base(2)
        if base[0] == "struct" and self.rng.random() < 0.7:
            decls = copy.deepcopy(base[2])
            if self.rng.random() < 0.3:
                decls.append(self.maker.member(1))
            elif self.rng.random() < 0.3:
                return ("tag", base[1] or "s")
            else:
                places = []
                for d in decls:
                    self.of(d, places)
                self.rng.choice(places)()
            return ("struct", base[1], decls)
        return self.maker.base(2)

    def init(self, init):
        if init[0] == "one":
            return ("one", self.expression(init[1])) if self.rng.random() < 0.6 else ("many", [init] * self.rng.choice([1, 1, 2]))
        parts = list(init[1])
        r = self.rng.random()
        if r < 0.3 and len(parts) > 1:
            parts.pop(self.rng.randrange(len(parts)))
        elif r < 0.6:
            parts.insert(self.rng.randrange(len(parts) + 1), self.maker.init(1))
        else:
            i = self.rng.randrange(len(parts))
            parts[i] = self.init(parts[i])
        return ("many", parts)

    def number(self, e):
        """Another number, or one of another type."""
        if self.rng.random() < 0.2:
            return ("int", e[1], self.rng.choice(["int", "uint", "long", "llong"]))
        n = self.rng.choice([0, 1, e[1] + 1, max(e[1] - 1, 0), 2**24, 2**24 + 1])
        return ("int", n, "long" if e[2] == "int" and n >= 2**31 else e[2])

    def argument(self, e):
        """Another argument of a call of the library."""
        if self.rng.random() < 0.2:
            return self.expression(e)
        if e[0] == "int" and self.rng.random() < 0.8:
            return self.number(e)
        if library.is_symbol(e) and self.rng.random() < 0.8:
            return ("name", self.rng.choice(sorted(library.SYMBOLS)))
        others = [NULL, ("str", b"t"), ("int", 1, "int"), long(0), ("char", 97), *POINTERS, named("a"), named("d"), named("x"), named("w")]
        return self.rng.choice(others)

    def library_call(self, name, args):
        """A call of the library with one of its arguments, their order or their number changed."""
        args, i, r = list(args), self.rng.randrange(len(args)), self.rng.random()
        if r < 0.6:
            args[i] = self.argument(args[i])
        elif r < 0.7:
            del args[i]
        elif r < 0.8:
            args.insert(i, copy.deepcopy(self.rng.choice(args)))
        elif r < 0.9:
            j = self.rng.randrange(len(args))
            args[i], args[j] = args[j], args[i]
        elif r < 0.95:
            i = 10 * self.rng.randrange(3)
            args[-1 - i:-1 - i] = self.rng.choice([self.maker.area, self.maker.value])()
        else:
            name = self.rng.choice(sorted(library.CALLS))
        return ("call", name, args)

    def expression(self, e):
        """One part of an expression is another one, or has another operator."""
        if e[0] == "call" and e[1] in library.CALLS and e[2]:
            return self.library_call(e[1], e[2])
        inside = [i for i, part in enumerate(e) if isinstance(part, tuple) and part and part[0] in EXPRESSIONS]
        if inside and self.rng.random() < 0.6:
            i = self.rng.choice(inside)
            return e[:i] + (self.expression(e[i]),) + e[i + 1:]
        r = self.rng.random()
        if e[0] == "str":
            return ("str", self.rng.choice(FORMATS))
        if e[0] == "call" and e[2] and r < 0.3:
            i = self.rng.randrange(len(e[2]))
            return ("call", e[1], [self.expression(a) if n == i else a for n, a in enumerate(e[2])])
        if e[0] == "binary" and r < 0.5:
            return ("binary", self.rng.choice(BINARY), e[2], e[3])
        if e[0] == "unary" and r < 0.5:
            return ("unary", self.rng.choice(["&", "*", "-", "!", "~"]), e[2])
        if e[0] in ("member", "arrow") and r < 0.6:
            return (e[0], e[1], self.maker.name(MEMBERS, 0.3)) if r < 0.3 else ({"member": "arrow", "arrow": "member"}[e[0]], *e[1:])
        if e[0] == "call" and r < 0.7:
            args = list(e[2])
            if args and r < 0.2:
                args.pop()
            elif r < 0.4:
                args.append(self.maker.expression(1))
            elif args:
                i = self.rng.randrange(len(args))
                args[i] = self.expression(args[i])
            return ("call", e[1], args)
        if r < 0.75:
            return self.maker.expression(2)
        return (self.rng.choice(["sizeexpr"]), e) if r < 0.8 else ("unary", self.rng.choice(["&", "*", "!", "-"]), e) if r < 0.9 else self.maker.leaf()


def verdict(unit, written=False):
    """What the checks of this folder say of a unit: the first fault with its line, the limit, or None."""
    from checker import Checker

    return Checker(unit, written).check()


def words(*which):
    return ("words", list(which))


def known_things():
    """Declarations of many types, so that expressions have something to speak of."""
    number = lambda n: ("int", n, "int")
    struct = ("struct", "s", [
        Declaration(words("int"), [Declarator(0, "m", [])]),
        Declaration(("tag", "s"), [Declarator(1, "n", [])]),
        Declaration(words("char"), [Declarator(0, "o", [number(3)])]),
    ])
    one = lambda base, stars, name, *dims: Declaration(base, [Declarator(stars, name, list(map(number, dims)))])
    returned = Statement(("return", ("name", "a")))
    return [
        Declaration(struct, []), Declaration(("tag", "t"), []), one(words("int"), 0, "a"), one(words("char"), 0, "b", 3),
        one(words("char"), 1, "c"), one(words("unsigned", "long"), 0, "d"), one(words("int"), 1, "p"), one(("tag", "s"), 0, "x"),
        one(("tag", "s"), 1, "q"), one(words("void"), 1, "y"), one(("tag", "t"), 1, "w"), one(words("int"), 0, "z", 2, 3),
        Function(words("int"), 0, "f", [Parameter(words("int"), 0, "a", []), Parameter(words("char"), 1, "b", [])], [returned]),
        Function(words("void"), 0, "g", [], []),
        Function(words("long"), 0, "h", [Parameter(("tag", "s"), 1, None, [])], None),
    ]


def valid(rng, written=False):
    """A unit that the checks of this folder accept: a random one, without the parts that they refuse."""
    maker = Maker(rng, written)
    main = Function(words("int"), 0, "main", [], [])
    tops = [top for top in known_things() if rng.random() < 0.93] if rng.random() < 0.7 else []
    for _ in range(rng.choice([0, 1, 3, 5])):
        tops.append(maker.function() if rng.random() < 0.35 else maker.declaration(OBJECTS, 0.4))
    unit = Unit(tops + [main])
    for f in unit.tops:
        if f.kind == "function" and f.body is not None:
            f.body += [maker.statement(2) for _ in range(rng.choice([0, 2, 4, 8, 12]))]
    while pruned(unit, main, written):
        pass
    return unit


def pruned(unit, main, written):
    """Takes out what the checks refuse; whether there was such a part."""
    from checker import Checker

    checker = Checker(unit, written)
    if checker.check() is None:
        return False
    faulty = checker.faulty()
    unit.tops = [top for top in unit.tops if id(top) not in faulty or top is main]
    for f in unit.tops:
        if f.kind == "function" and f.body is not None:
            f.body[:] = [s for s in f.body if id(s) not in faulty]
    return True


def program(seed):
    """The unit of a seed, its text, and whether it is written C. Most have one thing changed, some two."""
    import random

    rng = random.Random(seed)
    written = seed % 3 == 2
    unit = valid(rng, written)
    for _ in range(rng.choice([0, 1, 1, 1, 2, 2])):
        unit = Changer(rng, written).changed(unit)
    return unit, Writer(rng).unit(unit), written
