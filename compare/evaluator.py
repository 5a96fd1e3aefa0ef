#!/usr/bin/env python3
"""A second evaluator of the C subset, from its rules in docs/RUNNING.md, docs/MEMORY.md and docs/LANGUAGE.md alone.

    compare/evaluator.py TURNS FILE

It takes a program that the checks accept, without embedded statements. A function becomes a flat list of instructions with
jumps between them, names are objects that the parser has bound, and memory is a dictionary of lists of cells.
"""
import re
import sys

# ---- types: integers by name, ("pointer", t), ("array", t, n), Struct, VOID

VOID = "void"
# name: (rank, signed, width in bits, size in bytes)
INTEGERS = {"bool": (0, False, 1, 1), "char": (1, True, 8, 1), "unsigned char": (1, False, 8, 1), "short": (2, True, 16, 2),
            "unsigned short": (2, False, 16, 2), "int": (3, True, 32, 4), "unsigned": (3, False, 32, 4), "long": (4, True, 64, 8),
            "unsigned long": (4, False, 64, 8), "long long": (5, True, 64, 8), "unsigned long long": (5, False, 64, 8)}
UNSIGNED = {rank: name for name, (rank, signed, _, _) in INTEGERS.items() if not signed}


class Struct:
    def __init__(self):
        self.members = None


class Trap(Exception):
    pass


class Exit(Exception):
    pass


class Spent(Exception):
    """No turn is left."""


def is_integer(t):
    return isinstance(t, str) and t in INTEGERS


def is_pointer(t):
    return isinstance(t, tuple) and t[0] == "pointer"


def is_array(t):
    return isinstance(t, tuple) and t[0] == "array"


def is_scalar(t):
    return is_integer(t) or is_pointer(t)


def decayed(t):
    return ("pointer", t[1]) if is_array(t) else t


def align(t):
    if is_array(t):
        return align(t[1])
    if isinstance(t, Struct):
        return max(align(m) for _, m in t.members)
    return size(t)


def size(t):
    if is_integer(t):
        return INTEGERS[t][3]
    if is_pointer(t):
        return 8
    if is_array(t):
        return t[2] * size(t[1])
    end, widest = 0, align(t)
    for _, m in t.members:
        end = -(-end // align(m)) * align(m) + size(m)
    return -(-end // widest) * widest


def offset(t, name):
    end = 0
    for n, m in t.members:
        start = -(-end // align(m)) * align(m)
        if n == name:
            return start, m
        end = start + size(m)
    raise KeyError(name)


def converted(t, value):
    """A number as a value of a type; pointers are numbers of 64 bits."""
    if is_pointer(t):
        return value % 2 ** 64
    if t == "bool":
        return int(value != 0)
    _, signed, width, _ = INTEGERS[t]
    value %= 2 ** width
    return value - 2 ** width if signed and value >= 2 ** (width - 1) else value


def fitting(t, value):
    """A result of this type: a signed one has to fit."""
    wrapped = converted(t, value)
    if INTEGERS[t][1] and wrapped != value:
        raise Trap("Overflow")
    return wrapped


def promoted(t):
    return "int" if INTEGERS[t][0] < 3 else t


def common(a, b):
    a, b = promoted(a), promoted(b)
    (ra, sa, wa, _), (rb, sb, wb, _) = INTEGERS[a], INTEGERS[b]
    if sa == sb:
        return a if ra >= rb else b
    (unsigned, ru, wu), (signed, rs, ws) = ((b, rb, wb), (a, ra, wa)) if sa else ((a, ra, wa), (b, rb, wb))
    if ru >= rs:
        return unsigned
    return signed if ws > wu else UNSIGNED[rs]


# ---- tokens

TOKEN = re.compile(r"""\s+|[#][^\n]*|/\*.*?\*/|//[^\n]*|(?P<word>[A-Za-z_]\w*)|(?P<number>\d\w*)|(?P<char>'(?:\\.[0-9a-fA-F]*|[^'\\])')
                   |(?P<string>"(?:\\.|[^"\\])*")|(?P<mark>->|\+\+|--|<<=|>>=|<<|>>|<=|>=|==|!=|&&|\|\||[-+*/%&|^]=|[][(){};,.&*+~!/%<>^|=:-])""",
                   re.S | re.X)
ESCAPES = {"n": 10, "t": 9, "r": 13, "a": 7, "b": 8, "f": 12, "v": 11, "\\": 92, "'": 39, '"': 34, "?": 63}


def unescaped(text):
    out = []
    for m in re.finditer(r"\\([0-7]{1,3})|\\x([0-9a-fA-F]{1,2})|\\(.)|(.)", text, re.S):
        if m[1]:
            out.append(int(m[1], 8))
        elif m[2]:
            out.append(int(m[2], 16))
        else:
            out.append(ESCAPES[m[3]] if m[3] else ord(m[4]))
    return out


def number(text):
    digits = text.rstrip("uUlL")
    suffix = text[len(digits):].lower()
    value = int(digits, 16) if digits[:2].lower() == "0x" else (int(digits, 8) if digits[0] == "0" else int(digits))
    names = ["int", "unsigned", "long", "unsigned long", "long long", "unsigned long long"]
    long = suffix.count("l") * 2
    if "u" in suffix:
        names = names[1::2][long // 2:]
    else:
        names = names[long:]
        if digits[0] != "0" or digits == "0":
            names = names[::2]
    for name in names:
        if converted(name, value) == value:
            return value, name
    raise ValueError(text)


def tokens(text):
    out, line = [], 1
    for m in TOKEN.finditer(text):
        if m.lastgroup == "string" and out and out[-1][0] == "string":
            out[-1][1].extend(unescaped(m[0][1:-1]))
        elif m.lastgroup == "string":
            out.append(("string", unescaped(m[0][1:-1]), line))
        elif m.lastgroup == "char":
            out.append(("number", (converted("char", unescaped(m[0][1:-1])[0]), "int"), line))
        elif m.lastgroup == "number":
            out.append(("number", number(m[0]), line))
        elif m.lastgroup:
            out.append((m.lastgroup, m[0], line))
        line += m[0].count("\n")
    return out + [("end", "", line)]


# ---- trees: an expression has its kind, its type and its parts

class Node:
    def __init__(self, kind, type, *parts):
        self.kind, self.type, self.parts = kind, type, parts


class Object:
    """A declared object, which names are bound to."""

    def __init__(self, type, is_global):
        self.type, self.is_global, self.init, self.number = type, is_global, None, None


class Function:
    def __init__(self, result):
        self.result, self.params, self.code, self.objects, self.labels, self.line = result, [], None, [], {}, 0


class Literal:
    def __init__(self, bytes):
        self.bytes, self.is_text, self.number = bytes, False, None


TEXT, SPACE, ULONG = ("pointer", "char"), ("pointer", VOID), "unsigned long"
KNOWN = {"puts": ("int", [TEXT]), "putchar": ("int", ["int"]), "strlen": (ULONG, [TEXT]), "strcmp": ("int", [TEXT, TEXT]),
         "strncmp": ("int", [TEXT, TEXT, ULONG]), "memcmp": ("int", [SPACE, SPACE, ULONG]), "strcpy": (TEXT, [TEXT, TEXT]),
         "strncpy": (TEXT, [TEXT, TEXT, ULONG]), "strcat": (TEXT, [TEXT, TEXT]), "memcpy": (SPACE, [SPACE, SPACE, ULONG]),
         "memset": (SPACE, [SPACE, "int", ULONG]), "exit": (VOID, ["int"]), "printf": ("int", None), "fprintf": ("int", None)}
LEVELS = [["||"], ["&&"], ["|"], ["^"], ["&"], ["==", "!="], ["<", ">", "<=", ">="], ["<<", ">>"], ["+", "-"], ["*", "/", "%"]]
ASSIGNMENTS = ["=", "+=", "-=", "*=", "/=", "%=", "<<=", ">>=", "&=", "^=", "|="]
TYPE_WORDS = {"void", "bool", "char", "short", "int", "long", "signed", "unsigned"}


class Parser:
    """Reads a program, binds its names, and makes a flat list of instructions of each function."""

    def __init__(self, text):
        self.tokens, self.at = self.cut(text), 0
        self.names, self.tags = [{}], [{}]
        self.globals, self.literals, self.functions = [], [], {}
        self.function = None
        while self.tokens[self.at][0] != "end":
            self.external()

    # -- tokens

    def cut(self, text):
        return tokens(text)

    @property
    def text(self):
        return self.tokens[self.at][1] if self.tokens[self.at][0] in ("mark", "word") else None

    @property
    def line(self):
        return self.tokens[self.at][2]

    def take(self, text=None):
        token = self.tokens[self.at]
        if text is not None and self.text != text:
            raise SyntaxError(f"{text} wanted at line {token[2]}, not {token[1]}")
        self.at += 1
        return token[1]

    def taken(self, text):
        if self.text == text:
            self.at += 1
            return True
        return False

    # -- names

    def find(self, tables, name):
        for table in reversed(tables):
            if name in table:
                return table[name]
        return None

    def enter(self):
        self.names.append({})
        self.tags.append({})

    def leave(self):
        self.names.pop()
        self.tags.pop()

    # -- types

    def begins_type(self):
        return self.text in TYPE_WORDS or self.text in ("struct", "const", "static")

    def specifier(self):
        words = []
        while self.taken("const") or self.taken("static"):
            pass
        if self.taken("struct"):
            base = self.struct()
        else:
            while self.text in TYPE_WORDS or self.text == "const":
                word = self.take()
                if word != "const":
                    words.append(word)
            base = self.by_words(words)
        while self.taken("const"):
            pass
        return base

    def by_words(self, words):
        if words == ["void"]:
            return VOID
        if words == ["bool"]:
            return "bool"
        unsigned, kind = "unsigned" in words, None
        if "char" in words:
            return "unsigned char" if unsigned else "char"
        if "short" in words:
            kind = "short"
        elif "long" in words:
            kind = "long long" if words.count("long") == 2 else "long"
        else:
            return "unsigned" if unsigned else "int"
        return ("unsigned " if unsigned else "") + kind

    def struct(self):
        tag = self.take() if self.tokens[self.at][0] == "word" else None
        if self.text == "{":
            t = self.tags[-1].get(tag) if tag else None
            if t is None or t.members is not None:
                t = Struct()
                if tag:
                    self.tags[-1][tag] = t
            self.take("{")
            members = []
            while not self.taken("}"):
                base = self.specifier()
                while True:
                    name, m = self.declarator(base)
                    members.append((name, m))
                    if not self.taken(","):
                        break
                self.take(";")
            t.members = members
            return t
        if self.text == ";":
            return self.tags[-1].setdefault(tag, Struct())
        return self.find(self.tags, tag)

    def stars(self, t):
        while self.taken("*"):
            t = ("pointer", t)
            while self.taken("const"):
                pass
        return t

    def dims(self, t):
        lengths = []
        while self.taken("["):
            lengths.append(None if self.text == "]" else self.constant(self.binary(0)))
            self.take("]")
        for n in reversed(lengths):
            t = ("array", t, n)
        return t

    def declarator(self, base):
        t = self.stars(base)
        name = self.take()
        return name, self.dims(t)

    def type_name(self):
        return self.stars(self.specifier())

    def constant(self, node):
        """The value of an integer constant expression."""
        return Machine(self, 0).value(node)

    # -- declarations

    def external(self):
        if self.tokens[self.at][0] == "mark" and self.taken(";"):
            return
        base = self.specifier()
        if self.taken(";"):
            return
        start = self.at
        t = self.stars(base)
        name = self.take()
        if self.text == "(":
            return self.function_rest(name, t)
        self.at = start
        for o in self.declarators(base, True):
            self.globals.append(o)

    def declarators(self, base, is_global):
        out = []
        while True:
            name, t = self.declarator(base)
            o = Object(t, is_global)
            self.names[-1][name] = o
            if self.taken("="):
                o.init = []
                o.type = self.initializer(t, o.init)
            out.append(o)
            if not self.taken(","):
                break
        self.take(";")
        return out

    def function_rest(self, name, result):
        f = self.functions.get(name) or Function(result)
        self.functions[name] = f
        self.names[-1].pop(name, None)
        self.enter()
        self.take("(")
        params = []
        if self.text == "void" and self.tokens[self.at + 1][1] == ")":
            self.take()
        while not self.taken(")"):
            t = self.stars(self.specifier())
            word = self.take() if self.tokens[self.at][0] == "word" else None
            t = decayed(self.dims(t))
            params.append(Object(t, False))
            if word:
                self.names[-1][word] = params[-1]
            if self.text != ")":
                self.take(",")
        is_definition = self.text == "{"
        if is_definition or f.code is None:
            f.params = params
        if is_definition:
            self.function, f.code = f, []
            self.blocks, self.jumps = [], ([], [])
            f.objects = self.items()
        else:
            self.take(";")
        self.leave()

    # -- initializers: a list of (offset, type, node or bytes)

    def initializer(self, t, out):
        if self.text == "{":
            return self.braced(t, 0, out)
        return self.single(t, 0, self.assign(), out)

    def text_for(self, t, node):
        return node.kind == "literal" and is_array(t) and t[1] in ("char", "unsigned char")

    def single(self, t, at, node, out):
        if self.text_for(t, node):
            node.parts[0].is_text = True
            bytes = node.parts[0].bytes
            n = t[2] if t[2] is not None else len(bytes) + 1
            out.append((at, None, bytes[:n]))
            return ("array", t[1], n)
        out.append((at, t, node))
        return t

    def braced(self, t, at, out):
        """A list in braces, for an object of this type at this offset."""
        self.take("{")
        if is_array(t) and t[1] in ("char", "unsigned char") and self.tokens[self.at][0] == "string":
            t = self.single(t, at, self.assign(), out)
        elif is_array(t):
            n = 0
            while self.text != "}":
                self.part(t[1], at + n * size(t[1]), out)
                n += 1
                if not self.taken(","):
                    break
            t = t if t[2] is not None else ("array", t[1], n)
        elif isinstance(t, Struct):
            for name, m in t.members:
                if self.text == "}":
                    break
                self.part(m, at + offset(t, name)[0], out)
                if not self.taken(","):
                    break
        else:
            self.part(t, at, out)
            self.taken(",")
        self.take("}")
        return t

    def part(self, t, at, out, node=None):
        """The next initializers of a list go to this part; without braces they go into it."""
        if node is None and self.text == "{":
            return self.braced(t, at, out)
        node = node or self.assign()
        if is_scalar(t) or self.text_for(t, node) or node.type is t:
            return self.single(t, at, node, out)
        parts = [(at + i * size(t[1]), t[1]) for i in range(t[2])] if is_array(t) else [(at + offset(t, n)[0], m) for n, m in t.members]
        for k, (place, m) in enumerate(parts):
            if k:
                if self.text != "," or self.tokens[self.at + 1][1] == "}":
                    break
                self.take(",")
                node = None
            self.part(m, place, out, node)

    # -- expressions

    def assign(self):
        left = self.binary(0)
        if self.text not in ASSIGNMENTS:
            return left
        op = self.take()
        right = self.assign()
        return Node("assign", left.type, left, right) if op == "=" else Node("update", left.type, left, op[:-1], right, False)

    def binary(self, level):
        if level == len(LEVELS):
            return self.cast()
        left = self.binary(level + 1)
        while self.text in LEVELS[level]:
            op = self.take()
            left = self.operation(op, left, self.binary(level + 1))
        return left

    def operation(self, op, a, b):
        s, t = decayed(a.type), decayed(b.type)
        if op in ("||", "&&"):
            return Node(op, "int", a, b)
        if op in ("==", "!=", "<", ">", "<=", ">="):
            return Node("compare", "int", op, a, b)
        if is_pointer(s) and is_pointer(t):
            return Node("apart", "long", a, b)
        if is_pointer(s) or is_pointer(t):
            return Node("move", s if is_pointer(s) else t, op, a, b)
        return Node("operate", promoted(s) if op in ("<<", ">>") else common(s, t), op, a, b)

    def cast(self):
        if self.text == "(" and self.tokens[self.at + 1][0] == "word" and self.tokens[self.at + 1][1] in TYPE_WORDS | {"struct", "const"}:
            self.take()
            t = self.type_name()
            self.take(")")
            return Node("cast", t, self.cast())
        return self.unary()

    def unary(self):
        op = self.text
        if op in ("++", "--"):
            self.take()
            e = self.unary()
            return Node("update", e.type, e, op[0], Node("number", "int", 1), False)
        if op in ("&", "*", "+", "-", "~", "!"):
            self.take()
            e = self.cast()
            if op == "&":
                return Node("address", ("pointer", e.type), e)
            if op == "*":
                return Node("target", decayed(e.type)[1], e)
            return Node("sign", "int" if op == "!" else promoted(e.type), op, e)
        if self.taken("sizeof"):
            if self.text == "(" and self.tokens[self.at + 1][0] == "word" and self.tokens[self.at + 1][1] in TYPE_WORDS | {"struct", "const"}:
                self.take()
                t = self.type_name()
                self.take(")")
            else:
                t = self.unary().type
            return Node("number", ULONG, size(t))
        return self.postfix()

    def postfix(self):
        e = self.primary()
        while True:
            if self.taken("["):
                i = self.assign()
                self.take("]")
                s = decayed(e.type)
                e = Node("element", s[1] if is_pointer(s) else decayed(i.type)[1], e, i)
            elif self.taken("."):
                e = self.member(e.type, e, False)
            elif self.taken("->"):
                e = self.member(decayed(e.type)[1], e, True)
            elif self.text in ("++", "--"):
                op = self.take()
                e = Node("update", e.type, e, op[0], Node("number", "int", 1), True)
            else:
                return e

    def member(self, t, e, behind_pointer):
        at, m = offset(t, self.take())
        return Node("member", m, e, at, behind_pointer)

    def primary(self):
        kind, what, line = self.tokens[self.at]
        if kind == "number":
            self.take()
            return Node("number", what[1], what[0])
        if kind == "string":
            self.take()
            literal = Literal(what)
            self.literals.append(literal)
            return Node("literal", ("array", "char", len(what) + 1), literal)
        if self.taken("("):
            e = self.assign()
            self.take(")")
            return e
        name = self.take()
        o = self.find(self.names, name)
        if o is None and self.text == "(":
            return self.call(name)
        if isinstance(o, Object):
            return Node("object", o.type, o)
        return {"NULL": Node("number", SPACE, 0), "true": Node("number", "int", 1), "false": Node("number", "int", 0)}[name]

    def call(self, name):
        self.take("(")
        args = []
        while not self.taken(")"):
            if self.text in ("stdout", "stderr"):
                args.append(self.take())
            else:
                args.append(self.assign())
            if self.text != ")":
                self.take(",")
        if name in self.functions:
            return Node("call", self.functions[name].result, self.functions[name], args, True)
        return Node("known", KNOWN[name][0], name, args)

    # -- statements, as instructions

    def emit(self, *instruction):
        self.function.code.append([*instruction])
        return self.function.code[-1]

    def here(self):
        return len(self.function.code)

    def alone(self, e):
        """An expression whose value isn't wanted: a call's isn't used, under at most one cast to void."""
        call = e.parts[0] if e.kind == "cast" and e.type == VOID else e
        if call.kind == "call":
            call.parts = (*call.parts[:2], False)
        return e

    def items(self):
        """The statements of a block, and the objects that are declared in it."""
        objects = []
        self.take("{")
        while not self.taken("}"):
            objects += self.item()
        return objects

    def item(self):
        if not self.begins_type():
            self.statement()
            return []
        line = self.line
        base = self.specifier()
        if self.taken(";"):
            return []
        # each object is reached at its own declarator, and the name is in scope behind it
        out = []
        while True:
            name, t = self.declarator(base)
            o = Object(t, False)
            self.names[-1][name] = o
            if self.taken("="):
                o.init = []
                o.type = self.initializer(t, o.init)
            self.emit("declare", line, o)
            out.append(o)
            if not self.taken(","):
                break
        self.take(";")
        return out

    def block(self, line, inside):
        """A block whose objects are known behind it."""
        entry = self.emit("enter", line, None)
        self.blocks.append(entry)
        self.enter()
        objects = inside()
        self.leave()
        self.blocks.pop()
        entry[2] = objects
        self.emit("leave", line)

    def loop(self, line, test, behind, body, test_first):
        outer = self.jumps
        self.jumps = mine = ([], [])
        to_test = self.emit("jump", line, None) if test_first else None
        start = self.here()
        self.emit("turn", line)
        body()
        for j in mine[1]:
            j[2] = self.here()
        if behind is not None:
            self.emit("evaluate", line, behind)
        if to_test:
            to_test[2] = self.here()
        tested = test()
        if tested is None:
            self.emit("jump", line, start)
        else:
            self.emit("branch", line, tested, start)
        for j in mine[0]:
            j[2] = self.here()
        self.jumps = outer

    def skip_jump(self, kind, line):
        self.jumps[0 if kind == "break" else 1].append(self.emit("jump_out", line, None))

    def scoped(self, what):
        self.enter()
        what()
        self.leave()

    def statement(self):
        line, word = self.line, self.text
        depth = len(self.blocks)
        if self.tokens[self.at][0] == "word" and self.tokens[self.at + 1][1] == ":" and self.tokens[self.at + 1][0] == "mark":
            self.function.labels[self.take()] = (self.here(), tuple(self.blocks))
            self.take(":")
            self.statement()
        elif self.taken(";"):
            pass
        elif word == "{":
            self.block(line, self.items)
        elif self.taken("if"):
            self.take("(")
            test = self.assign()
            self.take(")")
            j = self.emit("branch_not", line, test, None)
            self.scoped(self.statement)
            if self.taken("else"):
                out = self.emit("jump", line, None)
                j[3] = self.here()
                self.scoped(self.statement)
                out[2] = self.here()
            else:
                j[3] = self.here()
        elif self.taken("while"):
            self.take("(")
            test = self.assign()
            self.take(")")
            self.loop(line, lambda: test, None, lambda: self.scoped(self.statement), True)
        elif self.taken("do"):
            def tested():
                self.take("while")
                self.take("(")
                e = self.assign()
                self.take(")")
                self.take(";")
                return e
            self.loop(line, tested, None, lambda: self.scoped(self.statement), False)
        elif self.taken("for"):
            self.take("(")
            if self.begins_type():
                def whole():
                    objects = self.item()
                    self.for_rest(line)
                    return objects
                self.block(line, whole)
            else:
                if self.text != ";":
                    self.emit("evaluate", line, self.alone(self.assign()))
                self.take(";")
                self.for_rest(line)
        elif word in ("break", "continue"):
            self.take()
            self.take(";")
            self.skip_jump(word, line)
        elif self.taken("return"):
            e = None if self.text == ";" else self.assign()
            self.take(";")
            self.emit("return", line, e)
        elif self.taken("goto"):
            self.emit("goto", line, self.take(), tuple(self.blocks))
            self.take(";")
        else:
            self.emit("evaluate", line, self.alone(self.assign()))
            self.take(";")
        assert depth == len(self.blocks)

    def for_rest(self, line):
        test = None if self.text == ";" else self.assign()
        self.take(";")
        behind = None if self.text == ")" else self.alone(self.assign())
        self.take(")")
        self.loop(line, lambda: test, behind, lambda: self.scoped(self.statement), True)


# ---- memory and runs

class Machine:
    def __init__(self, program, turns):
        self.program, self.turns = program, turns
        self.objects, self.made, self.live = {}, 0, 0
        self.output, self.errors = bytearray(), bytearray()
        self.frame, self.line, self.depth = {}, 1, 0

    # -- objects

    def make(self, cells):
        if self.made + 1 >= 2 ** 32 or self.live + len(cells) > 2 ** 28:
            raise Trap("Spent")
        self.made += 1
        self.live += len(cells)
        self.objects[self.made] = cells
        return self.made << 32

    def end(self, p):
        self.live -= len(self.objects.pop(p >> 32))

    def cells(self, p):
        if p >> 32 == 0:
            raise Trap("Null")
        if p >> 32 not in self.objects:
            raise Trap("Dead")
        return self.objects[p >> 32]

    def reach(self, p, n):
        cells, at = self.cells(p), p % 2 ** 32
        if at + n > len(cells):
            raise Trap("Outside")
        return cells, at

    def read(self, p, n):
        cells, at = self.reach(p, n)
        piece = cells[at:at + n]
        if None in piece:
            raise Trap("Unset")
        return piece

    def write(self, p, piece):
        cells, at = self.reach(p, len(piece))
        cells[at:at + len(piece)] = piece

    def copy(self, to, source, n):
        cells, at = self.reach(source, n)
        self.write(to, cells[at:at + n])

    def move(self, p, by):
        cells, at = self.cells(p), p % 2 ** 32 + by
        if not 0 <= at <= len(cells):
            raise Trap("Outside")
        return (p >> 32 << 32) + at

    def load(self, p, t):
        value = int.from_bytes(bytes(self.read(p, size(t))), "little")
        return converted(t, value)

    def store(self, p, t, value):
        self.write(p, list((value % 2 ** (8 * size(t))).to_bytes(size(t), "little")))

    def front(self, p, most=None):
        """The bytes up to the first zero byte, or so many, one by one."""
        out = []
        while most is None or len(out) < most:
            b = self.read(p + len(out), 1)[0]
            if b == 0:
                break
            out.append(b)
        return out

    # -- expressions

    def place(self, e):
        """The address of a place, of a struct or of an array."""
        kind, parts = e.kind, e.parts
        if kind == "object":
            return parts[0].number << 32 if parts[0].is_global else self.frame[parts[0]]
        if kind == "literal":
            return parts[0].number << 32
        if kind == "target":
            return self.value(parts[0])
        if kind == "member":
            return self.move(self.value(parts[0]) if parts[2] else self.place(parts[0]), parts[1])
        if kind == "element":
            a, b = self.value(parts[0]), self.value(parts[1])
            p, n = (a, b) if is_pointer(decayed(parts[0].type)) else (b, a)
            return self.move(p, n * size(e.type))
        if kind == "assign":
            return self.value(e)
        raise TypeError(kind)

    def as_type(self, t, e):
        return converted(t, self.value(e)) if is_scalar(t) else self.value(e)

    def value(self, e):
        kind, parts, t = e.kind, e.parts, e.type
        if kind in ("object", "literal", "target", "member", "element"):
            p = self.place(e)
            return self.load(p, t) if is_scalar(t) else p
        return getattr(self, "value_" + {"||": "or", "&&": "and"}.get(kind, kind))(t, *parts)

    def value_number(self, t, n):
        return n

    def value_address(self, t, e):
        return self.place(e)

    def value_assign(self, t, a, b):
        p = self.place(a)
        value = self.as_type(t, b)
        if is_scalar(t):
            self.store(p, t, value)
            return value
        self.copy(p, value, size(t))
        return p

    def value_update(self, t, a, op, b, gives_old):
        p = self.place(a)
        old = self.load(p, t)
        right = self.value(b)
        if is_pointer(t):
            new = self.move(old, (right if op == "+" else -right) * size(t[1]))
        else:
            wide = promoted(t) if op in ("<<", ">>") else common(t, b.type)
            new = converted(t, self.calculated(wide, op, converted(wide, old), right if op in ("<<", ">>") else converted(wide, right)))
        self.store(p, t, new)
        return old if gives_old else new

    def calculated(self, t, op, a, b):
        if op in ("<<", ">>"):
            if not 0 <= b < INTEGERS[t][2]:
                raise Trap("Shift")
            if op == ">>":
                return a >> b
            if a < 0:
                raise Trap("Overflow")
            return fitting(t, a << b)
        if op in ("/", "%"):
            if b == 0:
                raise Trap("Zero")
            q = abs(a) // abs(b) * (1 if (a < 0) == (b < 0) else -1)
            fitting(t, q)
            return q if op == "/" else a - q * b
        if op in ("&", "|", "^"):
            return converted(t, {"&": a & b, "|": a | b, "^": a ^ b}[op])
        return fitting(t, {"+": a + b, "-": a - b, "*": a * b}[op])

    def value_operate(self, t, op, a, b):
        x, y = self.value(a), self.value(b)
        return self.calculated(t, op, converted(t, x), y if op in ("<<", ">>") else converted(t, y))

    def value_compare(self, t, op, a, b):
        x, y = self.value(a), self.value(b)
        s, u = decayed(a.type), decayed(b.type)
        if is_integer(s) and is_integer(u):
            x, y = converted(common(s, u), x), converted(common(s, u), y)
        return int({"==": x == y, "!=": x != y, "<": x < y, ">": x > y, "<=": x <= y, ">=": x >= y}[op])

    def value_move(self, t, op, a, b):
        x, y = self.value(a), self.value(b)
        p, n = (x, y) if is_pointer(decayed(a.type)) else (y, x)
        return self.move(p, (n if op == "+" else -n) * size(t[1]))

    def value_apart(self, t, a, b):
        x, y = self.value(a), self.value(b)
        if x >> 32 != y >> 32:
            raise Trap("Outside")
        d, n = x - y, size(decayed(a.type)[1])
        return abs(d) // n * (1 if d >= 0 else -1)

    def value_and(self, t, a, b):
        return int(self.value(a) != 0 and self.value(b) != 0)

    def value_or(self, t, a, b):
        return int(self.value(a) != 0 or self.value(b) != 0)

    def value_sign(self, t, op, e):
        x = self.value(e)
        if op == "!":
            return int(x == 0)
        if op == "-":
            return fitting(t, -x)
        return converted(t, x if op == "+" else -1 - x)

    def value_cast(self, t, e):
        if t == VOID:
            return self.done(e)
        return self.as_type(t, e)

    def done(self, e):
        """An expression whose value isn't wanted: a struct is an access to all of it."""
        if isinstance(e.type, Struct) and e.type.members is not None and e.kind in ("object", "target", "member", "element"):
            self.reach(self.place(e), size(e.type))
        else:
            self.value(e)

    # -- calls

    def value_call(self, t, f, args, used):
        values = [self.as_type(p.type, a) for p, a in zip(f.params, args)]
        self.turn()
        answer = self.called(f, values, f is self.program.functions["main"])
        if answer is None and used and t != VOID:
            raise Trap("NoValue")
        return answer

    def turn(self):
        if self.turns == 0:
            raise Spent
        self.turns -= 1

    def called(self, f, values, is_main):
        outer, line, made = self.frame, self.line, []
        frame = {}
        for p in f.params:
            frame[p] = self.make([None] * size(p.type))
            made.append(frame[p])
        for p, v in zip(f.params, values):
            self.store(frame[p], p.type, v)
        for o in f.objects:
            frame[o] = self.make([None] * size(o.type))
            made.append(frame[o])
        self.frame = frame
        answer = self.run(f)
        if answer is None and is_main:
            answer = 0
        for p in made:
            self.end(p)
        self.frame, self.line = outer, line
        return answer

    def run(self, f):
        """The instructions of a function: its answer, or none."""
        at, inside = 0, []
        while at < len(f.code):
            op, line, *rest = f.code[at]
            at += 1
            if op != "leave":
                self.line = line
            if op == "evaluate":
                self.done(rest[0])
            elif op == "declare":
                self.declare(rest[0])
            elif op == "enter":
                self.enter(f.code[at - 1], inside)
            elif op == "leave":
                self.leave(inside)
            elif op == "jump":
                at = rest[0]
            elif op == "jump_out":
                while len(inside) > self.depth_at(f, rest[0]):
                    self.leave(inside)
                at = rest[0]
            elif op == "branch":
                at = rest[1] if self.value(rest[0]) != 0 else at
            elif op == "branch_not":
                at = rest[1] if self.value(rest[0]) == 0 else at
            elif op == "turn":
                self.turn()
            elif op == "return":
                answer = None if rest[0] is None else self.as_type(f.result, rest[0])
                if self.frame is self.first_frame:
                    raise Exit(answer % 256)
                while inside:
                    self.leave(inside)
                return answer
            elif op == "goto":
                self.turn()
                at, blocks = f.labels[rest[0]]
                keep = 0
                while keep < len(inside) and keep < len(blocks) and inside[keep] is blocks[keep]:
                    keep += 1
                while len(inside) > keep:
                    self.leave(inside)
                for b in blocks[keep:]:
                    self.line = b[1]
                    self.enter(b, inside)
        return None

    def depth_at(self, f, at):
        """In how many blocks this place of a function is."""
        depth = 0
        for instruction in f.code[:at]:
            depth += {"enter": 1, "leave": -1}.get(instruction[0], 0)
        return depth

    def enter(self, block, inside):
        for o in block[2]:
            self.frame[o] = self.make([None] * size(o.type))
        inside.append(block)

    def leave(self, inside):
        for o in inside.pop()[2]:
            self.end(self.frame.pop(o))

    def declare(self, o):
        p = self.frame[o]
        if o.init is None:
            self.write(p, [None] * size(o.type))
        else:
            self.write(p, [0] * size(o.type))
            self.initialize(p, o.init)

    def initialize(self, p, parts):
        for at, t, what in parts:
            if t is None:
                self.write(p + at, what)
            elif is_scalar(t):
                self.store(p + at, t, self.as_type(t, what))
            else:
                self.copy(p + at, self.value(what), size(t))

    # -- known functions

    def value_known(self, t, name, args):
        if name in ("printf", "fprintf"):
            channel = self.errors if args[0] == "stderr" else self.output
            args = args[1:] if name == "fprintf" else args
            return self.printed(channel, args[0].parts[0].bytes, [(self.value(a), decayed(a.type)) for a in args[1:]])
        values = [self.as_type(p, a) for p, a in zip(KNOWN[name][1], args)]
        return getattr(self, name)(*values)

    def puts(self, s):
        self.output += bytes(self.front(s)) + b"\n"
        return 1

    def putchar(self, c):
        self.output.append(c % 256)
        return c % 256

    def strlen(self, s):
        return len(self.front(s))

    def differ(self, p, q, n, is_text):
        k = 0
        while n is None or k < n:
            a, b = self.read(p + k, 1)[0], self.read(q + k, 1)[0]
            if a != b:
                return -1 if a < b else 1
            if is_text and a == 0:
                return 0
            k += 1
        return 0

    def strcmp(self, p, q):
        return self.differ(p, q, None, True)

    def strncmp(self, p, q, n):
        return self.differ(p, q, n, True)

    def memcmp(self, p, q, n):
        return self.differ(p, q, n, False)

    def strcpy(self, to, source):
        self.write(to, self.front(source) + [0])
        return to

    def strncpy(self, to, source, n):
        bytes = self.front(source, n)
        self.reach(to, n)
        self.write(to, bytes + [0] * (n - len(bytes)))
        return to

    def strcat(self, to, source):
        there = self.front(to)
        self.write(to + len(there), self.front(source) + [0])
        return to

    def memcpy(self, to, source, n):
        self.copy(to, source, n)
        return to

    def memset(self, to, c, n):
        self.reach(to, n)
        self.write(to, [c % 256] * n)
        return to

    def exit(self, n):
        raise Exit(n % 256)

    def printed(self, channel, form, values):
        values = iter(values)
        text = bytes(form).split(b"\0")[0].decode("latin-1")
        out = bytearray()
        for m in re.finditer(r"%(?:%|([-0]*)(\*|\d*)(?:\.(\*|\d+))?(l?l?)([diuxXocs]))|[^%]", text, re.S):
            if m[5] is None:
                out.append(ord(m[0][0]))
                continue
            width = next(values)[0] if m[2] == "*" else int(m[2] or 0)
            most = next(values)[0] if m[3] == "*" else (None if m[3] is None else int(m[3]))
            value = next(values)[0]
            left, width = "-" in m[1] or width < 0, abs(width)
            sign, body = b"", b""
            if m[5] == "c":
                body = bytes([value % 256])
            elif m[5] == "s":
                body = bytes(self.front(value, None if most is None or most < 0 else most))
            else:
                bits = 64 if m[4] else 32
                value %= 2 ** bits
                if m[5] in "di" and value >= 2 ** (bits - 1):
                    sign, value = b"-", 2 ** bits - value
                body = {"x": "%x", "X": "%X", "o": "%o"}.get(m[5], "%d").encode() % value
            blanks = width - len(sign) - len(body)
            if left:
                out += sign + body + b" " * blanks
            elif "0" in m[1] and m[5] not in "cs":
                out += sign + b"0" * blanks + body
            else:
                out += b" " * blanks + sign + body
        channel += out
        return min(len(out), 2 ** 31 - 1)

    # -- a run

    def opened(self):
        self.make([0] * 256)  # sqlca, which no program here names
        program = self.program
        for o in program.globals:
            o.number = self.make([0] * size(o.type)) >> 32
        for literal in program.literals:
            if not literal.is_text:
                literal.number = self.make(literal.bytes + [0]) >> 32
        for o in program.globals:
            self.initialize(o.number << 32, o.init or [])

    def main(self):
        """The ending of a run: its kind and what belongs to it."""
        try:
            self.opened()
            main = self.program.functions["main"]
            self.frame = self.first_frame = {}
            self.first(main)
        except Exit as stop:
            return "exited", stop.args[0]
        except Trap as trap:
            return "trapped", trap.args[0], self.line
        except Spent:
            return ("turns_spent",)

    def first(self, main):
        for o in main.objects:
            self.frame[o] = self.make([None] * size(o.type))
        answer = self.run(main)
        raise Exit((answer or 0) % 256)


class Run:
    """What is seen of a run: its two outputs, its ending, and the objects behind sqlca, each with its cells, or None if it has ended."""

    def __init__(self, text, turns):
        machine = Machine(Parser(text), turns)
        self.ending = machine.main()
        self.output, self.errors = bytes(machine.output), bytes(machine.errors)
        self.objects = [machine.objects.get(n) for n in range(2, machine.made + 1)]


def main():
    sys.setrecursionlimit(100000)
    turns, path = int(sys.argv[1]), sys.argv[2]
    with open(path, encoding="latin-1") as file:
        run = Run(file.read(), turns)
    sys.stdout.buffer.write(run.output)
    sys.stdout.flush()
    sys.stderr.buffer.write(run.errors)
    print(*run.ending, file=sys.stderr)


if __name__ == "__main__":
    main()
