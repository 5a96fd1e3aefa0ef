"""Random trees of C that can be written, each from its seed."""

import random

from layout import RANKS

NAMES = ["a", "b", "x1", "_y", "main", "sqlca", "EXEC", "SQL", "NULL", "printf", "ECPGdo", "varchar_v", "Int", "e"]
MEMBERS = NAMES + ["SQLCODE", "SQLSTATE"]
TYPE_WORDS = ["void", "bool", "char", "short", "int", "long", "signed", "unsigned"]
GREATEST = {"int": 2 ** 31 - 1, "unsigned-int": 2 ** 32 - 1, "long": 2 ** 63 - 1, "unsigned-long": 2 ** 64 - 1,
            "long-long": 2 ** 63 - 1, "unsigned-long-long": 2 ** 64 - 1}
ASSIGNMENTS = ["=", "+=", "-=", "*=", "/=", "%=", "<<=", ">>=", "&=", "^=", "|="]
OPERATORS = [operator for rank in RANKS for operator in rank]
INCLUDES = ["#include <stdio.h>", '#include "own.h"', "#include <a b>", "#includex"]


class Trees:
    """Trees of a depth that grows less."""

    def __init__(self, seed):
        self.random = random.Random(seed)
        self.line = 1

    def one_of(self, *choices):
        return self.random.choice(choices)

    def many(self, part, most=3):
        return [part() for _ in range(self.random.randrange(most + 1))]

    def some(self, part, most=3):
        return [part() for _ in range(self.random.randrange(1, most + 1))]

    def maybe(self, part, chance=0.5):
        return part() if self.random.random() < chance else None

    def name(self):
        return self.random.choice(NAMES)

    def some_line(self):
        return self.one_of(1, 2, 7, 42, 1000, 999_999_999, self.random.randrange(1, 10 ** 9))

    # -- expressions

    def integer(self):
        kind = self.random.choice(list(GREATEST))
        return ("integer", self.one_of(0, 1, 7, GREATEST[kind], self.random.randrange(GREATEST[kind] + 1)), kind)

    def string(self):
        return ("string", bytes(self.random.choice([self.random.randrange(256), 97, 34, 39, 92, 48, 10, 37, 63])
                                for _ in range(self.random.randrange(6))))

    def leaf(self):
        return self.one_of(lambda: ("name", self.name()), lambda: ("name", self.name()), self.integer, self.string,
                           lambda: ("character", self.random.randrange(-128, 128)))()

    def expression(self, depth, line):
        if depth <= 0 or self.random.random() < 0.15:
            return self.leaf()
        inner = lambda: self.expression(depth - 1, line)
        choose = self.one_of
        return choose(
            lambda: ("unary", choose(*"&*+-!~"), inner()),
            lambda: ("unary", choose(*"&*+-!~"), inner()),
            lambda: ("binary", choose(*OPERATORS), inner(), inner()),
            lambda: ("binary", choose(*OPERATORS), inner(), inner()),
            lambda: ("binary", choose(*OPERATORS), inner(), inner()),
            lambda: ("assign", choose(*ASSIGNMENTS), inner(), inner()),
            lambda: ("before", choose("++", "--"), inner()),
            lambda: ("behind", choose("++", "--"), inner()),
            lambda: ("call", self.name(), self.many(inner)),
            lambda: ("index", inner(), inner()),
            lambda: ("member", inner(), choose(*MEMBERS)),
            lambda: ("arrow", inner(), choose(*MEMBERS)),
            lambda: ("cast", self.base(depth - 2, line), self.random.randrange(3), inner()),
            lambda: ("size-of-type", self.base(depth - 2, line), self.random.randrange(3)),
            lambda: ("size-of", inner()),
        )()

    # -- declarations; each part of one has its line

    def tag(self):
        return self.one_of("s", "t", "SQL", "varchar_v", "p1")

    def base(self, depth, line):
        if depth > 0 and self.random.random() < 0.3:
            member = lambda: ("declaration", line, self.base(depth - 1, line),
                              self.some(lambda: self.declarator(depth - 1, line), 2))
            return ("struct", self.maybe(self.tag), self.some(member, 2))
        return self.one_of(("words", self.some(lambda: self.random.choice(TYPE_WORDS))), ("words", ["int"]),
                           ("tag", self.tag()))

    def dims(self, depth, line):
        return self.many(lambda: self.maybe(lambda: self.expression(depth, line), 0.8), 2)

    def initializer(self, depth, line):
        if depth > 0 and self.random.random() < 0.3:
            return ("braces", self.some(lambda: self.initializer(depth - 1, line)))
        return self.expression(depth, line)

    def declarator(self, depth, line):
        return (self.name(), self.random.randrange(3), self.dims(depth - 1, line),
                self.maybe(lambda: self.initializer(depth, line), 0.4))

    def declaration(self, depth, line):
        return ("declaration", line, self.base(depth, line), self.many(lambda: self.declarator(depth, line)))

    def parameter(self, depth, line):
        return (self.base(depth, line), self.random.randrange(3), self.maybe(self.name, 0.8), self.dims(depth - 1, line))

    # -- statements. A `do` has its condition on the line behind its body, so its expressions hold no members there.

    def statement(self, depth):
        line = self.some_line()
        plain = lambda: self.expression(3, line)
        inner = lambda: self.statement(depth - 1)
        simple = (lambda: ("empty", line), lambda: ("expression", line, plain()), lambda: ("break", line),
                  lambda: ("continue", line), lambda: ("return", line, self.maybe(plain)),
                  lambda: ("goto", line, self.name()))
        nested = (lambda: ("block", line, self.many(lambda: self.item(depth - 1))), lambda: self.choice(depth, line),
                  lambda: ("while", line, plain(), inner()), lambda: ("do", line, inner(), self.expression(1, line)),
                  lambda: ("for", line, self.maybe(plain), self.maybe(plain), self.maybe(plain), inner()),
                  lambda: ("label", line, self.name(), inner()))
        return self.random.choice(simple if depth <= 0 else nested + simple[:2])()

    def choice(self, depth, line):
        body = self.statement(depth - 1)
        other = None if is_open(body) else self.maybe(lambda: self.statement(depth - 1))
        return ("if", line, self.expression(3, line), body, other)

    def item(self, depth):
        if self.random.random() < 0.3:
            line = self.some_line()
            return ("declare", line, self.declaration(3, line))
        return self.statement(depth)

    def top(self):
        line = self.some_line()
        if self.random.random() < 0.1:
            return ("include", self.random.choice(INCLUDES))
        if self.random.random() < 0.4:
            return self.declaration(4, line)
        body = self.maybe(lambda: self.many(lambda: self.item(3), 4), 0.9)
        parameters = self.many(lambda: self.parameter(2, line))
        if len(parameters) == 1 and parameters[0] == (("words", ["void"]), 0, None, []):
            parameters = []
        return ("function", line, self.base(2, line), self.name(), self.random.randrange(3), parameters, body)


def is_open(tree):
    """Whether a statement ends in an `if` without `else`."""
    form = tree[0]
    if form == "if":
        return tree[4] is None or is_open(tree[4])
    return form in ("while", "for", "label") and is_open(tree[-1])


def program(seed):
    trees = Trees(seed)
    return trees.some(trees.top, 3)
