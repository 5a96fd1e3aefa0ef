"""A source text of a tree, with gaps, comments, line ends and parentheses at random; and the tree with its lines."""

import random

import layout

GAPS = [" "] * 8 + ["\n", "\n\n", "\t", " /* c */ ", "/*\n*/", " // x\n", "\r\n", "\f"]


class Source:
    """Text that grows, token by token, and the line on which it stands."""

    def __init__(self, seed):
        self.random = random.Random(seed)
        self.parts = []
        self.line = 1

    def put(self, text):
        self.parts.append(text)
        self.line += text.count("\n")

    def tokens(self, *texts):
        """Tokens with a gap behind each; the line of the first of them."""
        line = self.line
        for text in texts:
            gap = self.random.choice(GAPS)
            self.put(text + " " * (text == "/" and gap[0] == "/") + gap)
        return line

    # -- expressions

    def expression(self, tree, least=0, direct=False):
        """An expression where one of this level may stand; `direct` where it stands under a unary operator."""
        needed = layout.level(tree) < least or (direct and tree[0] in layout.PREFIXED)
        needed = needed or (least == 99 and tree[0] == "integer")
        if needed or self.random.random() < 0.1:
            self.tokens("(")
            self.expression(tree)
            self.tokens(")")
            return
        self.plain(tree)

    def operand(self, tree):
        """Under a unary operator: a cast has to be in parentheses only where a unary expression is asked for."""
        self.expression(tree, layout.UNARY, True)

    def plain(self, tree):
        form = tree[0]
        if form in ("name", "integer", "character", "string"):
            self.tokens(layout.expression(tree))
        elif form in ("unary", "before"):
            self.tokens(tree[1])
            self.operand(tree[2])
        elif form == "binary":
            rank = layout.RANK_OF[tree[1]]
            self.expression(tree[2], rank)
            self.tokens(tree[1])
            self.expression(tree[3], rank + 1)
        elif form == "assign":
            self.expression(tree[2], layout.LOWEST_BINARY)
            self.tokens(tree[1])
            self.expression(tree[3])
        elif form == "behind":
            self.expression(tree[2], layout.POSTFIX)
            self.tokens(tree[1])
        elif form == "call":
            self.tokens(tree[1], "(")
            self.listed(tree[2], self.expression)
            self.tokens(")")
        elif form == "index":
            self.expression(tree[1], layout.POSTFIX)
            self.tokens("[")
            self.expression(tree[2])
            self.tokens("]")
        elif form in ("member", "arrow"):
            self.expression(tree[1], layout.POSTFIX)
            self.tokens("." if form == "member" else "->", tree[2])
        elif form == "cast":
            self.typename(tree[1], tree[2])
            self.operand(tree[3])
        elif form == "size-of-type":
            self.tokens("sizeof")
            self.typename(tree[1], tree[2])
        else:
            self.tokens("sizeof")
            self.operand(tree[1])

    def listed(self, trees, show):
        for at, tree in enumerate(trees):
            if at:
                self.tokens(",")
            show(tree)

    # -- declarations

    def typename(self, base, stars):
        self.tokens("(")
        self.base(base)
        self.tokens(*"*" * stars, ")")

    def const(self):
        if self.random.random() < 0.1:
            self.tokens("const")

    def base(self, tree):
        self.const()
        if tree[0] == "words":
            self.tokens(*tree[1])
        elif tree[0] == "tag":
            self.tokens("struct", tree[1])
        else:
            self.tokens("struct", *([tree[1]] if tree[1] else []), "{")
            for member in tree[2]:
                self.declaration(member)
            self.tokens("}")
        self.const()

    def lengths(self, trees):
        for tree in trees:
            self.tokens("[")
            if tree:
                self.expression(tree, layout.LOWEST_BINARY)
            self.tokens("]")

    def initializer(self, tree):
        if tree[0] != "braces":
            self.expression(tree)
            return
        self.tokens("{")
        self.listed(tree[1], self.initializer)
        if self.random.random() < 0.2:
            self.tokens(",")
        self.tokens("}")

    def declarator(self, tree):
        name, stars, dims, init = tree
        for _ in range(stars):
            self.tokens("*")
            self.const()
        self.tokens(name)
        self.lengths(dims)
        if init:
            self.tokens("=")
            self.initializer(init)

    def declaration(self, tree):
        line = self.line
        self.base(tree[2])
        self.listed(tree[3], self.declarator)
        self.tokens(";")
        return ("declaration", line, tree[2], tree[3])

    def parameter(self, tree):
        base, stars, name, dims = tree
        self.base(base)
        self.tokens(*"*" * stars, *([name] if name else []))
        self.lengths(dims)

    # -- statements, with their lines

    def statement(self, tree):
        form, line = tree[0], self.line
        if form == "empty":
            self.tokens(";")
        elif form == "expression":
            self.expression(tree[2])
            self.tokens(";")
        elif form == "block":
            self.tokens("{")
            inner = list(map(self.statement, tree[2]))
            self.tokens("}")
            return (form, line, inner)
        elif form == "if":
            self.tokens("if", "(")
            self.expression(tree[2])
            self.tokens(")")
            body, other = self.statement(tree[3]), None
            if tree[4]:
                self.tokens("else")
                other = self.statement(tree[4])
            return (form, line, tree[2], body, other)
        elif form == "while":
            self.tokens("while", "(")
            self.expression(tree[2])
            self.tokens(")")
            return (form, line, tree[2], self.statement(tree[3]))
        elif form == "do":
            self.tokens("do")
            body = self.statement(tree[2])
            self.tokens("while", "(")
            self.expression(tree[3])
            self.tokens(")", ";")
            return (form, line, body, tree[3])
        elif form == "for":
            self.tokens("for", "(")
            for part, end in zip(tree[2:5], ";;)"):
                if part:
                    self.expression(part)
                self.tokens(end)
            return (*tree[:1], line, *tree[2:5], self.statement(tree[5]))
        elif form == "return":
            self.tokens("return")
            if tree[2]:
                self.expression(tree[2])
            self.tokens(";")
        elif form == "goto":
            self.tokens("goto", tree[2], ";")
        elif form == "label":
            self.tokens(tree[2], ":")
            return (form, line, tree[2], self.statement(tree[3]))
        elif form == "declare":
            return (form, line, self.declaration(tree[2]))
        else:
            self.tokens(form, ";")
        return (form, line, *tree[2:])

    def top(self, tree):
        if tree[0] == "include":
            self.put("\n" + tree[1] + "\n")
            return tree
        line = self.line
        if self.random.random() < 0.1:
            self.tokens("static")
        if tree[0] == "declaration":
            return ("declaration", line, *self.declaration(tree)[2:])
        _, _, base, name, stars, parameters, body = tree
        self.base(base)
        self.tokens(*"*" * stars, name, "(")
        self.listed(parameters, self.parameter)
        if not parameters and self.random.random() < 0.5:
            self.tokens("void")
        self.tokens(")")
        if body is None:
            self.tokens(";")
            return ("function", line, base, name, stars, parameters, None)
        self.tokens("{")
        inner = list(map(self.statement, body))
        self.tokens("}")
        return ("function", line, base, name, stars, parameters, inner)


def source(tops, seed):
    """A text of the tree, and the tree with the lines of that text."""
    text = Source(seed)
    lined = list(map(text.top, tops))
    return "".join(text.parts), lined
