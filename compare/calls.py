"""The calls of the library that stand for embedded statements, as trees of `layout.py`."""

NULL = ("name", "NULL")
ITEMS = {"DATA": "data", "INDICATOR": "indicator", "NAME": "name", "TYPE": "type", "RETURNED_OCTET_LENGTH": "ret_octet"}
NO_INDICATOR = [("name", "ECPGt_NO_INDICATOR"), NULL]


def long(n):
    return ("integer", n, "long")


def symbol(name):
    return ("name", f"ECPGt_{name}")


def literal(text):
    return ("string", text)


def pointer(leaf, tree):
    return tree(leaf.value) if leaf.plain else ("unary", "&", tree(leaf.value))


def ten(leaf, tree):
    """The ten values of a leaf."""
    first = [symbol(leaf.symbol), pointer(leaf, tree), long(leaf.length), long(leaf.count), long(leaf.distance)]
    beside = leaf.indicator
    if beside is None:
        return first + NO_INDICATOR + [long(0), long(0), long(0)]
    return first + [symbol(beside.symbol), pointer(beside, tree), long(0), long(beside.count), long(beside.distance)]


def ten_of(name, value, *numbers):
    return [symbol(name), value, *map(long, numbers), *NO_INDICATOR, long(0), long(0), long(0)]


class Call:
    """The call of one statement; `tree` makes the tree of an expression."""

    def __init__(self, statement, bound, tree):
        self.statement, self.bound, self.tree = statement, bound, tree

    def text(self, argument):
        """A text argument."""
        if argument is None:
            return NULL
        return literal(argument) if isinstance(argument, bytes) else self.tree(self.bound.texts[id(argument)])

    def values(self, part, bound=None):
        """The lists of ten values of a host or a constant."""
        if isinstance(part, bytes):
            return ten_of("const", literal(part), 0, 1, 0)
        return [value for leaf in (bound or self.bound).leaves[id(part)] for value in ten(leaf, self.tree)]

    def listed(self, listed):
        if listed is None:
            return []
        if listed[0] == "area":
            return ten_of("descriptor", self.text(listed[1]), 1, 1, 1)
        return [value for part in listed[1] for value in self.values(part)]

    def sent(self, parts, bound):
        """The text that is sent, and the values of its hosts."""
        text, values, count = b"", [], 0
        for part in parts:
            if isinstance(part, bytes):
                text += part
                continue
            found = bound.leaves[id(part)]
            text += b", ".join(b"$%d" % (count + n + 1) for n in range(len(found)))
            count += len(found)
            values += self.values(part, bound)
        return text, values

    def do(self, how, ins, outs):
        return [self.text(self.statement.at), *how, *ins, symbol("EOIT"), *outs, symbol("EORT")]

    # ---- the forms

    def of_connect(self):
        return "ECPGconnect", [self.text(text) for text in self.statement.texts]

    def of_set_connection(self):
        return "ECPGsetconn", [self.text(self.statement.texts[0])]

    def of_disconnect(self):
        return "ECPGdisconnect", [self.text(self.statement.texts[0])]

    def of_autocommit(self):
        return "ECPGsetcommit", [literal(self.statement.name), self.text(self.statement.at)]

    def of_transaction(self):
        return "ECPGtrans", [self.text(self.statement.at), literal(self.statement.text)]

    def of_text(self):
        text, ins = self.sent(self.statement.parts, self.bound)
        how = [("name", "ECPGst_normal"), literal(text)]
        return "ECPGdo", self.do(how, ins, self.listed(self.statement.outs))

    def of_open(self):
        cursor = self.bound.cursor
        text, ins = self.sent(cursor.statement.parts, cursor.bound)
        how = [("name", "ECPGst_normal"), literal(text)]
        if cursor.statement.prepared is not None:
            how = [("name", "ECPGst_open"), literal(text), literal(cursor.statement.prepared)]
        return "ECPGdo", self.do(how, ins + self.listed(self.statement.ins), [])

    def of_immediate(self):
        how = [("name", "ECPGst_exec_immediate"), self.text(self.statement.texts[0])]
        return "ECPGdo", self.do(how, [], [])

    def of_execute(self):
        how = [("name", "ECPGst_execute"), literal(self.statement.name)]
        return "ECPGdo", self.do(how, self.listed(self.statement.ins), self.listed(self.statement.outs))

    def of_prepare(self):
        name = literal(self.statement.name)
        return "ECPGprepare", [self.text(self.statement.at), name, self.text(self.statement.texts[0])]

    def of_deallocate(self):
        return "ECPGdeallocate", [self.text(self.statement.at), literal(self.statement.name)]

    def of_allocate(self):
        return "ECPGallocate_desc", [self.text(self.statement.texts[0])]

    def of_free(self):
        return "ECPGdeallocate_desc", [self.text(self.statement.texts[0])]

    def header(self, name):
        return name, [self.text(self.statement.area), *self.values(self.statement.items[0][1])]

    def of_get_count(self):
        return self.header("ECPGget_desc_header")

    def of_set_count(self):
        return self.header("ECPGset_desc_header")

    def area(self, name):
        arguments = [self.text(self.statement.area), *self.values(self.statement.index)]
        for item, value in self.statement.items:
            arguments += [("name", f"ECPGd_{ITEMS[item]}"), *self.values(value)]
        return name, [*arguments, ("name", "ECPGd_EODT")]

    def of_get(self):
        return self.area("ECPGget_desc")

    def of_set(self):
        return self.area("ECPGset_desc")

    def call(self):
        name, arguments = getattr(self, "of_" + self.statement.form.replace("-", "_"))()
        return ("call", name, [("integer", self.statement.line, "int"), *arguments])
