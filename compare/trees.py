"""Trees of derivations, in the printed form, by docs/LANGUAGE.md and docs/rows/SHOWN.md."""

from rules import quoted
from tokens import shown

ABSENT = "-"


def is_token(child, value=None):
    return not isinstance(child, tuple) and (value is None or child.value == value)


def rules(children, name):
    return [child for child in children if isinstance(child, tuple) and child[0] == name]


def first_token(node):
    while isinstance(node, tuple):
        node = next(child for child in node[1] if not isinstance(child, tuple) or child[1])
    return node


def words(children):
    return [child.value for child in children if not isinstance(child, tuple)]


class Externals:
    """Reads declarations and functions outside of functions, for what makes their parts."""

    def external(self, node):
        """A declaration or a function; the node begins at a `static`, if there is one."""
        children = rules(node[1], "external")[0][1]
        base, rest = children[0], children[1:]
        if is_token(rest[0]):
            return self.declared(node, base, [])
        stars, name = rest[:2]
        if rules(rest, "parameters"):
            return self.function(node, base, stars, name, rest)
        first = self.declarator([stars, name, *rest[2:5]] if is_token(rest[3], "=") else [stars, name, rest[2]])
        others = [self.declarator(child[1]) for child in rules(rest, "declarator")]
        return self.declared(node, base, [first, *others])


class Trees(Externals):
    """Prints the tree of a derivation. `section` is whether the last mark before what is read opens a declare section."""

    def __init__(self, levels):
        self.levels = {f"rank-{rank}" if rank else "binary" for rank in range(len(levels))}
        self.section = False
        self.marks = {}

    def note_sections(self, tokens):
        """Finds for each token whether it stands in a declare section."""
        opened = False
        for token in tokens:
            if token.kind in ("open", "close"):
                opened = token.kind == "open"
            self.marks[id(token)] = opened

    def place(self, node):
        token = first_token(node)
        return f"{token.line} {self.where(node)}"

    def where(self, node):
        return "section" if self.marks[id(first_token(node))] else "plain"

    # ---- expressions

    def expression(self, node):
        name, children = node
        if name in self.levels:
            return self.binary(children)
        return getattr(self, name)(children)

    def binary(self, children):
        tree = self.expression(children[0])
        for operator, right in zip(children[1::2], children[2::2]):
            tree = f"(binary {operator.value} {tree} {self.expression(right)})"
        return tree

    def assignment(self, children):
        if len(children) == 1:
            return self.expression(children[0])
        left, operator, right = children
        return f"(assign {operator.value} {self.expression(left)} {self.expression(right)})"

    def cast(self, children):
        if len(children) == 1:
            return self.expression(children[0])
        _, base, stars, _, operand = children
        return f"(cast {self.base(base)} {self.stars(stars)} {self.expression(operand)})"

    def unary(self, children):
        if len(children) == 1:
            return self.expression(children[0])
        first, operand = children[0].value, self.expression(children[-1]) if len(children) == 2 else None
        if first == "sizeof":
            if operand is None:
                return f"(size-of-type {self.base(children[2])} {self.stars(children[3])})"
            return f"(size-of {operand})"
        if first in ("++", "--"):
            return f"(before {first} {operand})"
        return f"(unary {first} {operand})"

    def postfix(self, children):
        primary, parts = children[0], children[1:]
        is_name = len(primary[1]) == 1 and primary[1][0].kind == "word"
        tree = self.primary(primary[1])
        is_name = is_name and tree == primary[1][0].value
        while parts:
            part = parts.pop(0).value
            if part in ("++", "--"):
                tree = f"(behind {part} {tree})"
            elif part in (".", "->"):
                tree = f"({'member' if part == '.' else 'arrow'} {tree} {parts.pop(0).value})"
            elif part == "[":
                tree = f"(index {tree} {self.expression(parts.pop(0))})"
                parts.pop(0)
            else:
                end = next(i for i, child in enumerate(parts) if is_token(child, ")"))
                arguments = "".join(" " + self.expression(child) for child in parts[:end] if isinstance(child, tuple))
                tree = f"({'call' if is_name else 'call-other'} {tree}{arguments})"
                del parts[: end + 1]
            is_name = False
        return tree

    def primary(self, children):
        if len(children) == 3:
            return self.expression(children[1])
        token = children[0]
        if token.kind != "word":
            return shown(token)
        if token.value in ("SQLCODE", "SQLSTATE"):
            return f"(member sqlca {token.value.lower()})"
        return token.value

    # ---- declarations

    def stars(self, node):
        return sum(is_token(child, "*") for child in node[1])

    def lengths(self, node):
        trees, children = [], node[1]
        for at, child in enumerate(children):
            if is_token(child, "["):
                following = children[at + 1]
                trees.append(self.expression(following) if isinstance(following, tuple) else ABSENT)
        return f"({' '.join(trees)})"

    def base(self, node):
        children = node[1]
        if found := rules(children, "struct"):
            return self.struct(found[0][1])
        if any(is_token(child, word) for child in children for word in ("VARCHAR", "varchar")):
            return "varchar"
        return f"(words {' '.join(child[1][0].value for child in rules(children, 'type-word'))})"

    def struct(self, children):
        name = next((child.value for child in children[1:] if is_token(child)), ABSENT)
        members = rules(children, "members")
        if not members:
            return f"(tag {name})"
        inner = [self.declaration(member) for member in rules(members[0][1], "member")]
        return f"(struct {' '.join([name, *inner])})"

    def declaration(self, node):
        """A declaration: of a member, in a block, or what a `for` begins with."""
        declarators = [self.declarator(child[1]) for child in rules(node[1], "declarator")]
        return self.declared(node, node[1][0], declarators)

    def declared(self, node, base, declarators):
        return f"({' '.join(['declaration', self.place(node), self.base(base), *declarators])})"

    def declarator(self, children):
        stars, name, lengths = children[:3]
        value = self.initializer(children[4][1]) if len(children) > 3 else ABSENT
        return f"({name.value} {self.stars(stars)} {self.lengths(lengths)} {value})"

    def initializer(self, children):
        if not is_token(children[0]):
            return self.expression(children[0])
        return f"({' '.join(['braces', *(self.initializer(child[1]) for child in rules(children, 'initializer'))])})"

    def parameters(self, node):
        found = rules(node[1], "parameter")
        if len(found) == 1:
            base, stars, *name, lengths = found[0][1]
            if self.base(base) == "(words void)" and not name and not stars[1] and not lengths[1]:
                found = []
        return f"({' '.join(self.parameter(node) for node in found)})"

    def parameter(self, node):
        base, stars, *name, lengths = node[1]
        name = name[0].value if name else ABSENT
        return f"(parameter {self.where(node)} {self.base(base)} {name} {self.stars(stars)} {self.lengths(lengths)})"

    # ---- statements

    def inner(self, depth, line, form, *parts):
        """A statement on a line of its own."""
        return "\n" + "  " * depth + f"({' '.join([form, str(line), *filter(None, parts)])})".replace(" \n", "\n")

    def statement(self, node, depth):
        children = node[1]
        line = first_token(node).line
        first = children[0]
        if not is_token(first):
            if first[0] == "block":
                return self.block(first, depth)
            return self.inner(depth, line, "expression", self.expression(first))
        if first.kind in ("executable", "directive"):
            return self.inner(depth, line, "embedded", str(first.value))
        if first.value == ";":
            return self.inner(depth, line, "empty")
        form = {"if": self.if_, "while": self.while_, "do": self.do, "for": self.for_}.get(first.value)
        if first.kind == "word" and form and children[1:] and not is_token(children[1], ":"):
            return form(node, depth)
        if first.kind == "word" and is_token(children[1], ":") and first.value not in ("break", "continue"):
            return self.inner(depth, line, "label", first.value, self.statement(children[2], depth + 1))
        if first.value == "goto":
            return self.inner(depth, line, "goto", children[1].value)
        if first.value == "return":
            value = ABSENT if is_token(children[1]) else self.expression(children[1])
            return self.inner(depth, line, "return", value)
        return self.inner(depth, line, first.value)

    def block(self, node, depth):
        items = [self.item(child[1][0], depth + 1) for child in rules(node[1], "block-item")]
        return self.inner(depth, first_token(node).line, "block", *items)

    def item(self, child, depth):
        if is_token(child):
            return self.inner(depth, child.line, "mark", child.kind)
        if child[0] == "declaration":
            return self.inner(depth, first_token(child).line, "declare", self.declaration(child))
        return self.statement(child, depth)

    def if_(self, node, depth):
        children = node[1]
        otherwise = self.statement(children[6], depth + 1) if len(children) > 5 else ABSENT
        return self.inner(
            depth,
            children[0].line,
            "if",
            self.expression(children[2]),
            self.statement(children[4], depth + 1),
            otherwise,
        )

    def while_(self, node, depth):
        children = node[1]
        return self.inner(
            depth, children[0].line, "while", self.expression(children[2]), self.statement(children[4], depth + 1)
        )

    def do(self, node, depth):
        children = node[1]
        return self.inner(
            depth, children[0].line, "do", self.statement(children[1], depth + 1), self.expression(children[4])
        )

    def for_(self, node, depth):
        children = node[1]
        line = children[0].line
        declared = rules(children, "base")
        if declared:
            depth += 1
        semicolons = [i for i, child in enumerate(children) if is_token(child, ";")]
        close = next(i for i, child in enumerate(children) if is_token(child, ")"))
        heads = [
            ABSENT if is_token(children[end - 1]) or children[end - 1][0] != "assignment" else self.expression(children[end - 1])
            for end in (*semicolons, close)
        ]
        loop = self.inner(depth, line, "for", *heads, self.statement(children[-1], depth + 1))
        if not declared:
            return loop
        node = ("declaration", children[2 : semicolons[0] + 1])
        declaration = self.inner(depth, first_token(node).line, "declare", self.declaration(node))
        return self.inner(depth - 1, line, "block", declaration, loop)

    # ---- programs

    def function(self, node, base, stars, name, rest):
        body = ABSENT
        if blocks := rules(rest, "block"):
            items = [self.item(child[1][0], 1) for child in rules(blocks[0][1], "block-item")]
            body = f"(body{''.join(items)})"
        parameters = self.parameters(rules(rest, "parameters")[0])
        return f"(function {self.place(node)} {self.base(base)} {name.value} {self.stars(stars)} {parameters} {body})"

    def top(self, node):
        first = node[1][0]
        if rules(node[1], "external"):
            return self.external(node)
        if first.kind == "include":
            return f"(include {quoted(first.value)})"
        if first.kind == "directive":
            return f"(directive {first.value})"
        return f"(mark {first.line} {first.kind})"

    def unit(self, node):
        lines = [self.top(child) + "\n" for child in rules(node[1], "item")]
        return "".join(lines) + f"(end {node[1][-1].line} 0)\n"


def tree(grammar, tokens, derivation):
    """The printed tree of the derivation of tokens."""
    trees = Trees(grammar.levels)
    trees.note_sections(tokens)
    return trees.unit(derivation)
