"""The first token that passes L3, by "Grammar" of docs/LANGUAGE.md."""

NESTING = 64
STARS_AND_LENGTHS = 64
OPERATORS_AND_PARTS = 4096
OPENING, CLOSING = ("(", "["), (")", "]")


def is_token(child):
    return not isinstance(child, tuple)


def in_brackets(children):
    """For each child whether it lies in brackets or parentheses that stand among the children."""
    inside, found = False, []
    for child in children:
        mark = is_token(child) and child.kind == "mark"
        inside = inside or (mark and child.value in OPENING)
        found.append(int(inside))
        if mark and child.value in CLOSING:
            inside = False
    return found


def levels(name, children):
    """How many levels further in each child of a node lies."""
    count = len(children)
    if name in ("block", "members") or (name == "initializer" and is_token(children[0])):
        return [1] * count
    if name == "assignment":
        return [0, 0, 1][:count]
    if name == "cast" and is_token(children[0]):
        return [1] * count
    if name == "unary" and is_token(children[0]):
        in_type = count > 1 and is_token(children[1])
        return [0] + [2 if in_type else 1] * (count - 1)
    found = in_brackets(children)
    if name == "statement":
        return [1 if not is_token(child) and child[0] == "statement" else level for child, level in zip(children, found)]
    return found


def tokens_of(node):
    for child in node[1]:
        if is_token(child):
            yield child
        else:
            yield from tokens_of(child)


def deep_tokens(node, level):
    for child, further in zip(node[1], levels(*node)):
        if is_token(child):
            if level + further > NESTING:
                yield child
        else:
            yield from deep_tokens(child, level + further)


def stars_and_lengths(node):
    """The stars and the opening brackets of the declarator, function, parameter or type name that a node is."""
    for child in node[1]:
        if not is_token(child) and child[0] in ("stars", "lengths"):
            yield from (one for one in child[1] if is_token(one) and one.value in ("*", "["))


def operators_and_parts(node):
    """The binary operators and the first tokens of postfix parts of an expression."""
    name, children = node
    inside = in_brackets(children)
    for at, child in enumerate(children):
        if not is_token(child):
            yield from operators_and_parts(child)
        elif name == "binary" or name.startswith("rank-"):
            yield child
        elif name == "postfix" and child.kind == "mark" and child.value not in (")", "]", ","):
            if not inside[at] or child.value in OPENING:
                yield child


def is_expression(name):
    return name in ("assignment", "binary", "cast", "unary", "postfix", "primary") or name.startswith("rank-")


def counted_tokens(node, in_expression):
    """The tokens with which something has too many of what is counted."""
    name, children = node
    yield from list(stars_and_lengths(node))[STARS_AND_LENGTHS:]
    if is_expression(name) and not in_expression:
        yield from list(operators_and_parts(node))[OPERATORS_AND_PARTS:]
    for child in children:
        if not is_token(child):
            yield from counted_tokens(child, in_expression or is_expression(name))


def passes_limit(derivation):
    """Whether some token of a derivation, or of a front of one, passes L3."""
    return any(True for _ in deep_tokens(derivation, 0)) or any(True for _ in counted_tokens(derivation, False))
