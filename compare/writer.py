"""The written program of a program, as trees of `layout.py`."""

from calls import Call
from layout import written

NUMBER_NAMES = {"uint": "unsigned-int", "ulong": "unsigned-long", "llong": "long-long", "ullong": "unsigned-long-long"}
SQLCA = ("name", "sqlca")
ZERO = ("integer", 0, "int")
CONDITIONS = {
    "not-found": ("binary", "==", ("member", SQLCA, "sqlcode"), ("integer", 100, "int")),
    "warning": ("binary", "==", ("index", ("member", SQLCA, "sqlwarn"), ZERO), ("character", ord("W"))),
    "error": ("binary", "<", ("member", SQLCA, "sqlcode"), ZERO),
}


def expression(e):
    form = e[0]
    if form == "int":
        return ("integer", e[1], NUMBER_NAMES.get(e[2], e[2]))
    if form in ("char", "str"):
        return ("character" if form == "char" else "string", e[1])
    if form == "name":
        return e
    if form in ("unary", "binary"):
        return (form, e[1], *map(expression, e[2:]))
    if form == "assign":
        return ("assign", (e[1] or "") + "=", expression(e[2]), expression(e[3]))
    if form == "bump":
        return ("before" if e[1] else "behind", "++" if e[2] else "--", expression(e[3]))
    if form == "call":
        return ("call", e[1], [expression(part) for part in e[2]])
    if form == "index":
        return ("index", expression(e[1]), expression(e[2]))
    if form in ("member", "arrow"):
        return (form, expression(e[1]), e[2])
    if form == "cast":
        return ("cast", base(e[1]), e[2], expression(e[3]))
    if form == "sizetype":
        return ("size-of-type", base(e[1]), e[2])
    return ("size-of", expression(e[1]))


def option(e):
    return None if e is None else expression(e)


def base(tree):
    if tree[0] == "struct":
        return ("struct", tree[1], [one for decl in tree[2] for one in declarations(decl, False)])
    return tree


def initializer(init):
    if init[0] == "one":
        return expression(init[1])
    return ("braces", [initializer(part) for part in init[1]])


def declarator(item, dims):
    init = None if item.init is None else initializer(item.init)
    return (item.name, item.stars, [option(e) for e in dims], init)


def varchar(item, tagged):
    length = expression(item.dims[-1])
    member = lambda word, name, dims: ("declaration", 0, ("words", [word]), [(name, 0, dims, None)])
    members = [member("int", "len", []), member("char", "arr", [length])]
    return ("struct", "varchar_" + item.name if tagged else None, members)


def declarations(decl, tagged=True):
    """What a declaration becomes: one, or one for each VARCHAR."""
    if decl.base[0] == "varchar":
        made = [(varchar(item, tagged), [declarator(item, item.dims[:-1])]) for item in decl.items]
    else:
        made = [(base(decl.base), [declarator(item, item.dims) for item in decl.items])]
    return [("declaration", decl.line, base_tree, items) for base_tree, items in made]


def action(what, line):
    """The statement of an action."""
    form = what[0]
    if form == "goto":
        return ("goto", line, what[1])
    if form in ("break", "next"):
        return ("break" if form == "break" else "continue", line)
    call = ("call", "sqlprint", []) if form == "print" else ("call", "exit", [("integer", 1, "int")])
    if form == "call":
        call = ("call", what[1], [expression(argument) for argument in what[2]])
    return ("expression", line, call)


class Writer:
    """Writes a unit that the checks accept; `hosts` has what its statements were bound to."""

    def __init__(self, hosts):
        self.hosts = hosts

    def embedded(self, n):
        statement, bound = self.hosts.embedded[n], self.hosts.bound[n]
        line = statement.line
        stmts = [("expression", line, Call(statement, bound, expression).call())]
        for test, condition in CONDITIONS.items():
            what = bound.handlers.get(test, ("continue",))
            if what != ("continue",):
                stmts.append(("if", line, condition, action(what, line), None))
        return ("block", line, stmts)

    def statements(self, stmts):
        return [one for stmt in stmts for one in self.statement(stmt)]

    def one(self, stmt):
        """A statement that is a body."""
        return self.statement(stmt)[0]

    def statement(self, stmt):
        """What a statement becomes: nothing, one, or one for each VARCHAR."""
        line, (form, *parts) = stmt.line, stmt.kind
        if form == "mark":
            return []
        if form == "embedded":
            return [] if parts[1] else [self.embedded(parts[0])]
        if form == "declare":
            return [("declare", line, one) for one in declarations(parts[0])]
        if form in ("empty", "break", "continue"):
            return [(form, line)]
        if form in ("expression", "return"):
            return [(form, line, option(parts[0]))]
        if form == "goto":
            return [(form, line, parts[0])]
        if form == "block":
            return [(form, line, self.statements(parts[0]))]
        if form == "if":
            other = None if parts[2] is None else self.one(parts[2])
            return [(form, line, expression(parts[0]), self.one(parts[1]), other)]
        if form == "while":
            return [(form, line, expression(parts[0]), self.one(parts[1]))]
        if form == "do":
            return [(form, line, self.one(parts[0]), expression(parts[1]))]
        if form == "label":
            return [(form, line, parts[0], self.one(parts[1]))]
        return [(form, line, *map(option, parts[:3]), self.one(parts[3]))]

    def top(self, top):
        """What a part of the program becomes."""
        if top.kind == "include":
            return [("include", top.text)]
        if top.kind == "declaration":
            return declarations(top)
        if top.kind != "function":
            return []
        parameters = [(base(p.base), p.stars, p.name, [option(e) for e in p.dims]) for p in top.params]
        body = None if top.body is None else self.statements(top.body)
        return [("function", top.line, base(top.base), top.name, top.stars, parameters, body)]

    def program(self, unit):
        return written([one for top in unit.tops for one in self.top(top)])
