"""Faults of declare sections and of VARCHARs: F9 and F13. All are found, each with the place of its declaration or statement."""

from checker import INT, constant, number, promoted, common, signed_constant

COMPARING = ("==", "!=", "<", ">", "<=", ">=", "&&", "||")
SHIFTS = ("<<", ">>")


def length(e):
    """The type and the value of a VARCHAR's length; None where it is no constant of the kind that it has to be."""
    if e is None:
        return None
    if e[0] == "int":
        return e[2], e[1]
    if e[0] == "char":
        return INT[1], e[1]
    if e[0] == "unary" and e[1] in ("+", "-", "~", "!"):
        found = length(e[2])
        if found is None:
            return None
        return "int" if e[1] == "!" else promoted(found[0]), signed_constant(e[1], *found)
    if e[0] == "binary":
        left, right = length(e[2]), length(e[3])
        if left is None or right is None:
            return None
        value = constant(e[1], *left, *right)
        if e[1] in COMPARING:
            return "int", value
        return promoted(left[0]) if e[1] in SHIFTS else common(left[0], right[0]), value
    return None


def is_length(e):
    found = length(e)
    return found is not None and isinstance(found[1], int) and found[1] >= 1


class Sections:
    """`found` has (place, number of the fault, line)."""

    def __init__(self, unit):
        self.found, self.places = [], 0
        self.open = []  # the places of the marks that wait for their partners
        self.inside = False
        for top in unit.tops:
            getattr(self, "top_" + top.kind)(top)
        self.found += [(*place, 9) for place in self.open]
        self.found = [(at, kind, line) for at, line, kind in self.found]

    def first(self):
        """The first fault as its number and its line, or None."""
        return min(self.found)[1:] if self.found else None

    def place(self, line):
        self.places += 1
        return self.places, line

    def fault(self, at, kind):
        self.found.append((*at, kind))

    # ---- marks

    def mark(self, opens, line):
        at = self.place(line)
        if opens:
            if self.open:
                self.fault(at, 9)
            self.open.append(at)
        elif self.open:
            self.open.pop()
        else:
            self.fault(at, 9)
        self.inside = opens

    # ---- VARCHARs

    def base(self, at, base):
        if base[0] == "struct":
            for member in base[2]:
                self.declaration(member)

    def type_name(self, at, base, stars):
        """A type without a declarator: of a cast, of sizeof, or of a result."""
        self.base(at, base)
        if base[0] == "varchar":
            self.fault(at, 13 if self.inside and not stars else 9)

    def declaration(self, decl):
        at = self.place(decl.line)
        self.base(at, decl.base)
        is_varchar = decl.base[0] == "varchar"
        if is_varchar and not decl.section:
            self.fault(at, 9)
        for item in decl.items:
            if is_varchar and item.stars:
                self.fault(at, 9)
            if is_varchar and not (item.dims and is_length(item.dims[-1])):
                self.fault(at, 13)
            for e in item.dims:
                self.expression(at, e)
            if item.init is not None:
                self.initializer(at, item.init)

    def initializer(self, at, init):
        if init[0] == "one":
            self.expression(at, init[1])
        else:
            for part in init[1]:
                self.initializer(at, part)

    def expression(self, at, e):
        if isinstance(e, list):
            for part in e:
                self.expression(at, part)
        elif isinstance(e, tuple):
            if e[0] in ("cast", "sizetype"):
                self.type_name(at, e[1], e[2])
            for part in e[3:] if e[0] == "cast" else e:
                self.expression(at, part)

    # ---- programs

    def top_include(self, top):
        pass

    top_directive = top_include

    def top_mark(self, top):
        self.mark(top.opens, top.line)

    def top_declaration(self, top):
        self.declaration(top)

    def top_function(self, top):
        at = self.place(top.line)
        self.inside = top.section
        self.type_name(at, top.base, top.stars)
        for param in top.params:
            self.base(at, param.base)
            if param.base[0] == "varchar":
                self.fault(at, 9)
            for e in param.dims:
                self.expression(at, e)
        self.statements(top.body or [])

    def statements(self, stmts):
        for stmt in stmts:
            self.statement(stmt)

    def statement(self, stmt):
        kind, *parts = stmt.kind
        if kind == "mark":
            self.mark(parts[0], stmt.line)
        elif kind == "declare":
            self.declaration(parts[0])
        else:
            at = self.place(stmt.line)
            for part in parts:
                self.part(at, part)

    def part(self, at, part):
        """A part of a statement: another statement, statements, or an expression."""
        if isinstance(part, list):
            self.statements(part)
        elif isinstance(part, tuple):
            self.expression(at, part)
        elif hasattr(part, "kind"):
            self.statement(part)
