"""The text of a tree as the precompiler lays out C, from the rules of docs/LANGUAGE.md alone; and its printed form.

A tree is a tuple whose first part names its form, as in docs/rows/SHOWN.md. Statements, declarations and functions have their
line behind the name.
"""

RANKS = [["||"], ["&&"], ["|"], ["^"], ["&"], ["==", "!="], ["<", ">", "<=", ">="], ["<<", ">>"], ["+", "-"],
         ["*", "/", "%"]]
RANK_OF = {operator: rank for rank, operators in enumerate(RANKS, 1) for operator in operators}
ASSIGNMENT, LOWEST_BINARY, CAST, UNARY, POSTFIX = 0, 1, 11, 12, 13
SUFFIXES = {"int": "", "unsigned-int": "U", "long": "L", "unsigned-long": "UL", "long-long": "LL",
            "unsigned-long-long": "ULL"}
PREFIXED = ("unary", "cast", "size-of", "size-of-type", "before")
HEAD = "#include <ecpglib.h>\n#include <sqlca.h>\n"


def level(tree):
    """The level of the grammar at which an expression stands."""
    form = tree[0]
    if form == "assign":
        return ASSIGNMENT
    if form == "binary":
        return RANK_OF[tree[1]]
    if form == "cast":
        return CAST
    return UNARY if form in ("unary", "size-of", "size-of-type", "before") else POSTFIX


def quoted(quote, data):
    """Bytes in quotes: printable ones as they are, all others by three octal digits."""
    plain = lambda byte: 32 <= byte <= 126 and byte not in (ord(quote), ord("\\"))
    return quote + "".join(chr(byte) if plain(byte) else f"\\{byte:03o}" for byte in data) + quote


def at_level(tree, least):
    text = expression(tree)
    return f"({text})" if level(tree) < least else text


def operand(tree):
    """What stands directly under a unary operator, a cast or sizeof."""
    text = expression(tree)
    return f"({text})" if tree[0] in PREFIXED or level(tree) < UNARY else text


def typename(base_tree, stars):
    return f"({base(base_tree)}{' ' + '*' * stars if stars else ''})"


def expression(tree):
    form = tree[0]
    if form == "name":
        return tree[1]
    if form == "integer":
        return str(tree[1]) + SUFFIXES[tree[2]]
    if form == "character":
        return quoted("'", [tree[1] & 255])
    if form == "string":
        return quoted('"', tree[1])
    if form == "unary":
        return tree[1] + operand(tree[2])
    if form == "binary":
        rank = RANK_OF[tree[1]]
        return f"{at_level(tree[2], rank)} {tree[1]} {at_level(tree[3], rank + 1)}"
    if form == "assign":
        return f"{at_level(tree[2], LOWEST_BINARY)} {tree[1]} {expression(tree[3])}"
    if form == "before":
        return tree[1] + operand(tree[2])
    if form == "behind":
        return at_level(tree[2], POSTFIX) + tree[1]
    if form == "call":
        return f"{tree[1]}({', '.join(map(expression, tree[2]))})"
    if form == "index":
        return f"{at_level(tree[1], POSTFIX)}[{expression(tree[2])}]"
    if form == "member":
        text = at_level(tree[1], POSTFIX)
        return f"({text}).{tree[2]}" if tree[1][0] == "integer" else f"{text}.{tree[2]}"
    if form == "arrow":
        return f"{at_level(tree[1], POSTFIX)}->{tree[2]}"
    if form == "cast":
        return typename(tree[1], tree[2]) + operand(tree[3])
    if form == "size-of-type":
        return "sizeof" + typename(tree[1], tree[2])
    if form == "size-of":
        return "sizeof " + operand(tree[1])
    raise AssertionError(form)


def base(tree):
    form = tree[0]
    if form == "words":
        return " ".join(tree[1])
    if form == "tag":
        return f"struct {tree[1]}"
    tag = f" {tree[1]}" if tree[1] else ""
    return f"struct{tag} {{ {' '.join(map(declaration, tree[2]))} }}"


def lengths(trees):
    return "".join(f"[{at_level(tree, LOWEST_BINARY) if tree else ''}]" for tree in trees)


def initializer(tree):
    return "{" + ", ".join(map(initializer, tree[1])) + "}" if tree[0] == "braces" else expression(tree)


def declarator(tree):
    name, stars, dims, init = tree
    return "*" * stars + name + lengths(dims) + (f" = {initializer(init)}" if init else "")


def declaration(tree):
    _, _, base_tree, items = tree
    return base(base_tree) + (" " + ", ".join(map(declarator, items)) if items else "") + ";"


def parameter(tree):
    base_tree, stars, name, dims = tree
    named = "*" * stars + (name or "")
    return base(base_tree) + (f" {named}" if named else "") + lengths(dims)


def statement(tree):
    """A statement with the lines of what is in it."""
    form, line = tree[0], tree[1]
    head = f"#line {line}\n"
    if form == "empty":
        return head + ";\n"
    if form == "expression":
        return head + expression(tree[2]) + ";\n"
    if form == "block":
        return head + "{\n" + "".join(map(statement, tree[2])) + "}\n"
    if form == "if":
        other = "else\n" + statement(tree[4]) if tree[4] else ""
        return head + f"if ({expression(tree[2])})\n" + statement(tree[3]) + other
    if form == "while":
        return head + f"while ({expression(tree[2])})\n" + statement(tree[3])
    if form == "do":
        return head + "do\n" + statement(tree[2]) + f"while ({expression(tree[3])});\n"
    if form == "for":
        first, condition, step = (expression(part) if part else "" for part in tree[2:5])
        return head + f"for ({first}; {condition}; {step})\n" + statement(tree[5])
    if form == "return":
        return head + ("return " + expression(tree[2]) if tree[2] else "return") + ";\n"
    if form == "goto":
        return head + f"goto {tree[2]};\n"
    if form == "label":
        return head + f"{tree[2]}:\n" + statement(tree[3])
    if form == "declare":
        return head + declaration(tree[2]) + "\n"
    return head + f"{form};\n"


def top(tree):
    if tree[0] == "include":
        return tree[1] + "\n"
    if tree[0] == "declaration":
        return f"#line {tree[1]}\n{declaration(tree)}\n"
    _, line, base_tree, name, stars, parameters, body = tree
    listed = ", ".join(map(parameter, parameters)) or "void"
    end = "\n{\n" + "".join(map(statement, body)) + "}\n" if body is not None else ";\n"
    return f"#line {line}\n{base(base_tree)} {'*' * stars}{name}({listed}){end}"


def written(tops):
    """The written C."""
    return HEAD + "".join(map(top, tops))


# ---- the printed form of docs/rows/SHOWN.md, on one line


def bytes_shown(data):
    return '"' + "".join(chr(b) if 32 <= b <= 126 and b not in b'"\\' else f"\\{b:02x}" for b in data) + '"'


def shown(tree):
    """An expression."""
    form = tree[0]
    if form == "name":
        return tree[1]
    if form == "string":
        return f"(string {bytes_shown(tree[1])})"
    if form == "call":
        return f"(call {tree[1]}{''.join(' ' + shown(part) for part in tree[2])})"
    if form in ("cast", "size-of-type"):
        behind = f" {shown(tree[3])}" if form == "cast" else ""
        return f"({form} {base_shown(tree[1])} {tree[2]}{behind})"
    parts = [shown(part) if isinstance(part, tuple) else str(part) for part in tree[1:]]
    return f"({form} {' '.join(parts)})"


def option_shown(tree, show=shown):
    return show(tree) if tree else "-"


def base_shown(tree):
    if tree[0] == "words":
        return f"(words {' '.join(tree[1])})"
    if tree[0] == "tag":
        return f"(tag {tree[1]})"
    return f"(struct {' '.join([tree[1] or '-', *map(declaration_shown, tree[2])])})"


def lengths_shown(trees):
    return f"({' '.join(option_shown(tree) for tree in trees)})"


def initializer_shown(tree):
    return f"(braces {' '.join(map(initializer_shown, tree[1]))})" if tree[0] == "braces" else shown(tree)


def declarator_shown(tree):
    name, stars, dims, init = tree
    return f"({name} {stars} {lengths_shown(dims)} {option_shown(init, initializer_shown)})"


def declaration_shown(tree):
    _, line, base_tree, items = tree
    return f"(declaration {line} plain {' '.join([base_shown(base_tree), *map(declarator_shown, items)])})"


def parameter_shown(tree):
    base_tree, stars, name, dims = tree
    return f"(parameter plain {base_shown(base_tree)} {name or '-'} {stars} {lengths_shown(dims)})"


def statement_shown(tree):
    form, line = tree[0], tree[1]
    parts = [form, str(line)]
    if form == "block":
        parts += map(statement_shown, tree[2])
    elif form in ("expression", "return"):
        parts.append(option_shown(tree[2]))
    elif form == "if":
        parts += [shown(tree[2]), statement_shown(tree[3]), option_shown(tree[4], statement_shown)]
    elif form == "while":
        parts += [shown(tree[2]), statement_shown(tree[3])]
    elif form == "do":
        parts += [statement_shown(tree[2]), shown(tree[3])]
    elif form == "for":
        parts += [*map(option_shown, tree[2:5]), statement_shown(tree[5])]
    elif form == "goto":
        parts.append(tree[2])
    elif form == "label":
        parts += [tree[2], statement_shown(tree[3])]
    elif form == "declare":
        parts.append(declaration_shown(tree[2]))
    return f"({' '.join(parts)})"


def top_shown(tree):
    if tree[0] == "include":
        return f"(include {bytes_shown(tree[1].encode('latin-1'))})"
    if tree[0] == "declaration":
        return declaration_shown(tree)
    _, line, base_tree, name, stars, parameters, body = tree
    listed = " ".join(map(parameter_shown, parameters))
    inner = f"(body{''.join(' ' + statement_shown(part) for part in body)})" if body is not None else "-"
    return f"(function {line} plain {base_shown(base_tree)} {name} {stars} ({listed}) {inner})"


def last_line(text):
    """The line behind a text, by its `#line`s."""
    line = 1
    for part in text.split("\n")[:-1]:
        line = int(part.removeprefix("#line ")) if part.startswith("#line ") else line + 1
    return line


def program_shown(tops):
    end = f"(end {last_line(written(tops))} 0)"
    return " ".join([*map(top_shown, tops), end])
