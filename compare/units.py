"""The tree of a program, of the classes of `programs.py`, from a derivation of its tokens.

What `programs.py` hasn't: the base `("varchar",)`, the statements `("embedded", number, is directive)` and
`("mark", opens)`, and the tops `Directive`, `Mark` and `Include`.
"""

from dataclasses import dataclass

from programs import Declaration, Declarator, Function, Parameter, Statement, Unit
from trees import Externals, first_token, is_token, rules

NUMBER_NAMES = {"unsigned-int": "uint", "unsigned-long": "ulong", "long-long": "llong", "unsigned-long-long": "ullong"}


@dataclass
class Directive:
    number: int
    line: int
    kind: str = "directive"


@dataclass
class Mark:
    opens: bool
    line: int
    kind: str = "mark"


@dataclass
class Include:
    text: str
    kind: str = "include"


class Units(Externals):
    """Makes trees of the nodes of a derivation."""

    def __init__(self, levels, tokens):
        self.levels = {f"rank-{rank}" if rank else "binary" for rank in range(len(levels))}
        self.sections, opened = {}, False
        for token in tokens:
            if token.kind in ("open", "close"):
                opened = token.kind == "open"
            self.sections[id(token)] = opened

    def section(self, node):
        return self.sections[id(first_token(node))]

    # ---- expressions

    def expression(self, node):
        name, children = node
        if name in self.levels:
            tree = self.expression(children[0])
            for operator, right in zip(children[1::2], children[2::2]):
                tree = ("binary", operator.value, tree, self.expression(right))
            return tree
        return getattr(self, name)(children)

    def assignment(self, children):
        if len(children) == 1:
            return self.expression(children[0])
        left, operator, right = children
        return ("assign", operator.value[:-1] or None, self.expression(left), self.expression(right))

    def cast(self, children):
        if len(children) == 1:
            return self.expression(children[0])
        _, base, stars, _, operand = children
        return ("cast", self.base(base), self.stars(stars), self.expression(operand))

    def unary(self, children):
        if len(children) == 1:
            return self.expression(children[0])
        first = children[0].value
        if len(children) > 2:
            return ("sizetype", self.base(children[2]), self.stars(children[3]))
        operand = self.expression(children[1])
        if first == "sizeof":
            return ("sizeexpr", operand)
        return ("bump", True, first == "++", operand) if first in ("++", "--") else ("unary", first, operand)

    def postfix(self, children):
        primary, parts = children[0][1], children[1:]
        tree = self.primary(primary)
        is_name = len(primary) == 1 and tree[0] == "name"
        while parts:
            part = parts.pop(0).value
            if part in ("++", "--"):
                tree = ("bump", False, part == "++", tree)
            elif part in (".", "->"):
                tree = ("member" if part == "." else "arrow", tree, parts.pop(0).value)
            elif part == "[":
                tree = ("index", tree, self.expression(parts.pop(0)))
                parts.pop(0)
            else:
                end = next(at for at, child in enumerate(parts) if is_token(child, ")"))
                arguments = [self.expression(child) for child in parts[:end] if not is_token(child)]
                tree = ("call", tree[1], arguments) if is_name else ("callother", tree, arguments)
                del parts[: end + 1]
            is_name = False
        return tree

    def primary(self, children):
        if len(children) == 3:
            return self.expression(children[1])
        token = children[0]
        if token.kind == "integer":
            value, kind = token.value
            return ("int", value, NUMBER_NAMES.get(kind, kind))
        if token.kind == "character":
            return ("char", token.value)
        if token.kind == "string":
            return ("str", token.value.encode("latin-1"))
        if token.value in ("SQLCODE", "SQLSTATE"):
            return ("member", ("name", "sqlca"), token.value.lower())
        return ("name", token.value)

    # ---- declarations

    def stars(self, node):
        return sum(is_token(child, "*") for child in node[1])

    def lengths(self, node):
        children = node[1]
        opened = [at for at, child in enumerate(children) if is_token(child, "[")]
        return [None if is_token(children[at + 1]) else self.expression(children[at + 1]) for at in opened]

    def base(self, node):
        children = node[1]
        if found := rules(children, "struct"):
            return self.struct(found[0][1])
        if any(is_token(child, word) for child in children for word in ("VARCHAR", "varchar")):
            return ("varchar",)
        return ("words", [child[1][0].value for child in rules(children, "type-word")])

    def struct(self, children):
        tag = next((child.value for child in children[1:] if is_token(child)), None)
        members = rules(children, "members")
        if not members:
            return ("tag", tag)
        return ("struct", tag, [self.declaration(member) for member in rules(members[0][1], "member")])

    def declaration(self, node):
        items = [self.declarator(child[1]) for child in rules(node[1], "declarator")]
        return self.declared(node, node[1][0], items)

    def declared(self, node, base, items):
        return Declaration(self.base(base), items, first_token(node).line, section=self.section(node))

    def declarator(self, children):
        stars, name, lengths = children[:3]
        value = self.initializer(children[4][1]) if len(children) > 3 else None
        return Declarator(self.stars(stars), name.value, self.lengths(lengths), value)

    def initializer(self, children):
        if not is_token(children[0]):
            return ("one", self.expression(children[0]))
        return ("many", [self.initializer(child[1]) for child in rules(children, "initializer")])

    def parameters(self, node):
        found = [self.parameter(child) for child in rules(node[1], "parameter")]
        alone = found[0] if len(found) == 1 else None
        if alone and (alone.base, alone.stars, alone.name, alone.dims) == (("words", ["void"]), 0, None, []):
            return []
        return found

    def parameter(self, node):
        base, stars, *name, lengths = node[1]
        name = name[0].value if name else None
        return Parameter(self.base(base), self.stars(stars), name, self.lengths(lengths), self.section(node))

    # ---- statements

    def statement(self, node):
        children = node[1]
        first = children[0]
        line = first_token(node).line
        if not is_token(first):
            if first[0] == "block":
                return Statement(("block", self.items(first)), line)
            return Statement(("expression", self.expression(first)), line)
        if first.kind in ("executable", "directive"):
            return Statement(("embedded", first.value, first.kind == "directive"), line)
        if first.value == ";":
            return Statement(("empty",), line)
        if is_token(children[1], ":"):
            return Statement(("label", first.value, self.statement(children[2])), line)
        return Statement(getattr(self, first.value + "_statement")(node), line) if first.value != "for" else self.loop(node)

    def items(self, node):
        return [self.item(child[1][0]) for child in rules(node[1], "block-item")]

    def item(self, child):
        if is_token(child):
            return Statement(("mark", child.kind == "open"), child.line)
        if child[0] == "declaration":
            return Statement(("declare", self.declaration(child)), first_token(child).line)
        return self.statement(child)

    def if_statement(self, node):
        children = node[1]
        otherwise = self.statement(children[6]) if len(children) > 5 else None
        return ("if", self.expression(children[2]), self.statement(children[4]), otherwise)

    def while_statement(self, node):
        return ("while", self.expression(node[1][2]), self.statement(node[1][4]))

    def do_statement(self, node):
        return ("do", self.statement(node[1][1]), self.expression(node[1][4]))

    def break_statement(self, node):
        return ("break",)

    def continue_statement(self, node):
        return ("continue",)

    def return_statement(self, node):
        return ("return", None if is_token(node[1][1]) else self.expression(node[1][1]))

    def goto_statement(self, node):
        return ("goto", node[1][1].value)

    def loop(self, node):
        """A `for`; one with a declaration is a block of this and the loop."""
        children = node[1]
        line = children[0].line
        semicolons = [at for at, child in enumerate(children) if is_token(child, ";")]
        close = next(at for at, child in enumerate(children) if is_token(child, ")"))
        before = [children[end - 1] for end in (*semicolons, close)]
        heads = [None if is_token(one) or one[0] != "assignment" else self.expression(one) for one in before]
        loop = Statement(("for", *heads, self.statement(children[-1])), line)
        if not rules(children, "base"):
            return loop
        declaration = self.declaration(("declaration", children[2 : semicolons[0] + 1]))
        return Statement(("block", [Statement(("declare", declaration), declaration.line), loop]), line)

    # ---- programs

    def function(self, node, base, stars, name, rest):
        blocks = rules(rest, "block")
        body = self.items(blocks[0]) if blocks else None
        parameters = self.parameters(rules(rest, "parameters")[0])
        line = first_token(node).line
        return Function(self.base(base), self.stars(stars), name.value, parameters, body, line, section=self.section(node))

    def top(self, node):
        first = node[1][0]
        if rules(node[1], "external"):
            return self.external(node)
        if first.kind == "include":
            return Include(first.value)
        if first.kind == "directive":
            return Directive(first.value, first.line)
        return Mark(first.kind == "open", first.line)

    def unit(self, node):
        return Unit([self.top(child) for child in rules(node[1], "item")], node[1][-1].line)
