"""Random lists of arguments of the calls of the library: lists that are calls, and most of them with one or two things changed.

An argument is its text in C and the pair by which library.py knows it.
"""

import random

from library import CALLS, ELEMENT, ITEMS, MOST, SET_ITEMS, STATEMENTS, SYMBOLS, TEXTS

DECLARED = ("char *p; unsigned char *u; int *ip; short *sp; long *lp; void *vp; char **pp; char a[9]; unsigned char b[9]; int n; long l; "
            "struct { int len; char arr[5]; } v; char *f(void) { return p; } int g(void) { return n; }\n")
POINTER = lambda of: ("pointer", ("number", of))
CHARACTERS = [("p", "char"), ("u", "uchar"), ("a", "char"), ("b", "uchar"), ("f()", "char"), ("(char *)0", "char"), ("a + n", "char"),
              ("&a[1]", "char"), ("(unsigned char *)ip", "uchar"), ("p++", "char"), ("v.arr", "char"), ("(p)", "char")]
OTHERS = [("ip", "int"), ("&n", "int"), ("sp", "short"), ("lp", "long"), ("&l", "long"), ("vp", "void"), ("pp", None), ("&p", None), ("&v", None),
          ("(int *)0", "int"), ("&v.len", "int")]
NUMBERS = [("n", "int"), ("l", "long"), ("g()", "int"), ("a[0]", "char"), ("'c'", "int"), ("1 + 1", "int"), ("sizeof n", "ulong"), ("-1", "int")]
LITERALS = [('"d"', b"d"), ('""', b""), ('"on"', b"on"), ('"off"', b"off"), ('"o" "n"', b"on"), ('"ON"', b"ON"), ('"CURRENT"', b"CURRENT")]
COUNTS = [0, 1, 1, 1, 2, 3, 4, 5, 8, 9, 100, MOST, MOST + 1]


def character(place):
    return place[0], (("name", None), POINTER(place[1]))


def literal(place):
    return place[0], (("str", place[1]), None)


def number(place):
    return place[0], (("name", None), ("number", place[1]))


def symbol(name):
    return name, (("name", name), None)


def constant(value, suffix="L"):
    return f"{value}{suffix}", (("int", value, {"": "int", "L": "long", "U": "uint", "LL": "llong"}[suffix]), None)


NULL = "NULL", (("name", "NULL"), POINTER("void"))
END = symbol("ECPGd_EODT")


class Lists:
    def __init__(self, seed):
        self.rng = random.Random(f"lists {seed}")

    def chance(self, p):
        return self.rng.random() < p

    def pick(self, choices):
        return self.rng.choice(choices)

    # ---- parts of lists

    def text(self, may_lack):
        return self.pick([NULL] * may_lack + [literal(self.pick(LITERALS)), character(self.pick(CHARACTERS))])

    def pointer(self):
        return character(self.pick(CHARACTERS + OTHERS))

    def no_indicator(self):
        return [symbol("ECPGt_NO_INDICATOR"), NULL, *[constant(0)] * 3]

    def indicator(self, count):
        kind = self.pick(["short", "int", "long", "long_long"])
        told = max(count, 1) + self.pick([0, 0, 1, 5])
        return [symbol(f"ECPGt_{kind}"), self.pointer(), constant(0), constant(told), constant(ELEMENT[kind] + self.pick([0, 0, 0, 1, 100]))]

    def host(self, count):
        kind = self.pick([*ELEMENT, *TEXTS, *TEXTS, "varchar", "varchar"])
        length = self.pick([0, 1, 2, 7]) if kind in TEXTS else self.pick([1, 2, 4, 5]) if kind == "varchar" else 0
        size = length or 8 if kind in TEXTS else -(-(4 + length) // 4) * 4 if kind == "varchar" else ELEMENT[kind]
        numbers = [constant(length), constant(count), constant(size + self.pick([0, 0, 0, 1, 40]))]
        return [symbol(f"ECPGt_{kind}"), self.pointer(), *numbers, *(self.indicator(count) if self.chance(0.4) else self.no_indicator())]

    def value(self):
        if self.chance(0.3):
            return [symbol("ECPGt_const"), literal(self.pick(LITERALS)), constant(0), constant(1), constant(0), *self.no_indicator()]
        return self.host(1)

    def area(self):
        return [symbol("ECPGt_descriptor"), self.text(False), *[constant(1)] * 3, *self.no_indicator()]

    # ---- lists

    def call(self, name):
        shapes = {"ECPGconnect": "tnnn", "ECPGdisconnect": "t", "ECPGsetconn": "t", "ECPGprepare": "nlt", "ECPGdeallocate": "nl",
                  "ECPGtrans": "nl", "ECPGallocate_desc": "t", "ECPGdeallocate_desc": "t"}
        if name in shapes:
            return [self.shaped(letter) for letter in shapes[name]]
        if name == "ECPGsetcommit":
            return [literal(self.pick(LITERALS[2:5])), self.text(True)]
        if name == "ECPGdo":
            return self.statement()
        one = (lambda: self.host(1)) if name.startswith("ECPGget") else self.value
        if name.endswith("header"):
            return [self.text(False), *one()]
        items = sorted(ITEMS if name.startswith("ECPGget") else SET_ITEMS)
        listed = [part for _ in range(self.rng.randrange(4)) for part in [symbol(self.pick(items)), *one()]]
        return [self.text(False), *self.value(), *listed, END]

    def shaped(self, letter):
        return literal(self.pick(LITERALS)) if letter == "l" else self.text(letter == "n")

    def statement(self):
        kind = self.pick(sorted(STATEMENTS))
        ins = [part for _ in range(self.pick([0, 0, 1, 2])) for part in self.value()]
        outs = [part for _ in range(self.pick([0, 0, 1, 2])) for part in self.host(self.pick([1, 1, 2, 3]))]
        if self.chance(0.25):
            ins += self.area()
        if self.chance(0.25):
            outs = self.area()
        return [self.text(True), symbol(kind), *map(self.shaped, STATEMENTS[kind]), *ins, symbol("ECPGt_EOIT"), *outs, symbol("ECPGt_EORT")]

    # ---- changes

    def other(self):
        """Any argument."""
        return self.pick([
            lambda: NULL, lambda: literal(self.pick(LITERALS)), lambda: character(self.pick(CHARACTERS)), lambda: character(self.pick(OTHERS)),
            lambda: number(self.pick(NUMBERS)), lambda: symbol(self.pick(sorted(SYMBOLS))), lambda: constant(self.pick(COUNTS)),
            lambda: constant(self.pick(COUNTS)), lambda: constant(self.pick([0, 1, 5]), self.pick(["", "U", "LL"]))])()

    def changed(self, given):
        given, way = list(given), self.rng.randrange(8)
        at = self.rng.randrange(len(given))
        if way == 0:
            del given[at]
        elif way == 1:
            given.insert(at, self.other())
        elif way == 2:
            given.insert(at, given[at])
        elif way == 3:
            to = self.rng.randrange(len(given))
            given[at], given[to] = given[to], given[at]
        elif way == 4 and len(given) > 10:
            first = self.rng.randrange(len(given) - 9)
            to, ten = self.rng.randrange(len(given)), given[first:first + 10]
            given[to:to] = ten
        else:
            given[at] = self.other()
        return given or [NULL]

    def made(self):
        """The name of a call and its arguments, the line first."""
        name = self.pick(sorted(CALLS) + ["ECPGdo"] * 10 + ["ECPGget_desc", "ECPGset_desc"] * 3)
        given = [constant(self.pick([1, 7, 1000]), ""), *self.call(name)]
        for _ in range(self.pick([0, 0, 1, 1, 1, 1, 2])):
            given = self.changed(given)
        return name, given
