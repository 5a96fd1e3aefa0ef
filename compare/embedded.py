"""Trees of embedded statements, from the form in which `statements.py` prints them.

A tree is a list whose first part names its form; texts are bytes. References are expressions as in `programs.py`.
"""

import re

from statements import HEAD, lex, statement

PART = re.compile(r'\(|\)|"[^"]*"|[^\s()"]+')
ESCAPE = re.compile(r"\\([0-9a-f]{2})")


def read(text):
    """What a text in the printed form stands for: lists, bytes and words."""
    stack = [[]]
    for part in PART.findall(text):
        if part == "(":
            stack.append([])
        elif part == ")":
            done = stack.pop()
            stack[-1].append(done)
        elif part[0] == '"':
            stack[-1].append(ESCAPE.sub(lambda found: chr(int(found[1], 16)), part[1:-1]).encode("latin-1"))
        else:
            stack[-1].append(part)
    return stack[0][0]


def expression(tree):
    """A reference, or an argument of an action."""
    if isinstance(tree, bytes):
        return ("name", tree.decode("latin-1"))
    if tree[0] == "integer":
        return ("int", int(tree[1]), tree[2])
    if tree[0] == "character":
        return ("char", int(tree[1]))
    if tree[0] in ("member", "arrow"):
        return (tree[0], expression(tree[1]), tree[2].decode("latin-1"))
    return ("index", expression(tree[1]), expression(tree[2]))


class Host:
    """A reference with its indicator, or None."""

    def __init__(self, tree):
        self.value = expression(tree[1])
        self.indicator = expression(tree[2]) if len(tree) > 2 else None


def part(tree):
    """A host, or what stands in its place: bytes, or None."""
    if tree == "-":
        return None
    return Host(tree) if isinstance(tree, list) else tree


def listed(tree):
    """Inputs or outputs: ("listed", parts), ("area", text argument), or None."""
    if tree == "-":
        return None
    return ("area", part(tree[1])) if tree[0] == "area" else ("listed", [part(one) for one in tree[1:]])


def action(tree):
    if isinstance(tree, str):
        return (tree,)
    name = tree[1].decode("latin-1")
    return (tree[0], name, [expression(argument) for argument in tree[2:]]) if tree[0] == "call" else (tree[0], name)


class Embedded:
    """A statement: its line, the connection it is sent to, its form, and what is in it."""

    def __init__(self, line, tree):
        self.line = line
        self.at = part(tree[2])
        kind = tree[3] if isinstance(tree[3], list) else [tree[3]]
        self.form = kind[0]
        self.area = self.text = self.name = self.prepared = self.ins = self.outs = None
        self.parts, self.items, self.texts = [], [], []
        getattr(self, "read_" + self.form.replace("-", "_"))(*kind[1:])

    def read_connect(self, target, name, user, password):
        self.texts = [part(target), part(user), part(password), part(name)]

    def read_set_connection(self, name):
        self.texts = [part(name)]

    read_disconnect = read_allocate = read_free = read_immediate = read_set_connection

    def read_autocommit(self, word):
        self.name = word.encode()

    def read_transaction(self, text):
        self.text = text

    def read_text(self, parts, outs):
        self.parts, self.outs = [part(one) for one in parts[1:]], listed(outs)

    def read_declare(self, cursor, parts, prepared):
        self.name, self.parts, self.prepared = cursor, [part(one) for one in parts[1:]], part(prepared)

    def read_open(self, cursor, ins):
        self.name, self.ins = cursor, listed(ins)

    def read_prepare(self, name, text):
        self.name, self.texts = name, [part(text)]

    def read_execute(self, name, ins, outs):
        self.name, self.ins, self.outs = name, listed(ins), listed(outs)

    def read_deallocate(self, name):
        self.name = name

    def read_get_count(self, area, host):
        self.area, self.items = part(area), [("COUNT", part(host))]

    read_set_count = read_get_count

    def read_get(self, area, index, *items):
        self.area, self.index = part(area), part(index)
        self.items = [(name, part(one)) for name, one in items]

    read_set = read_get

    def read_whenever(self, condition, what):
        self.condition, self.action = condition, action(what)

    def read_include_sqlca(self):
        pass


def embedded(piece):
    """The statement of a piece; it may stop."""
    text = piece.text.encode("latin-1")
    head = HEAD.match(text)
    tokens, _ = lex(text[head.end():], piece.line + text.count(b"\n", 0, head.end()))
    return Embedded(piece.line, read(statement(tokens, piece.line)))
