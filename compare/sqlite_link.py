"""What SQLite answers by Python's module sqlite3, as docs/SQLITE.md says of the link to it."""

import re
import sqlite3

SKIPPED = re.compile(r"('[^']*'|\"[^\"]*\"|/\*.*?\*/|--[^\n]*)|\$(\d)")
FIRST_WORD = re.compile(r"(?is)(\s|/\*.*?\*/|--[^\n]*\n?)*(\w*)")
COUNTED = ("INSERT", "UPDATE", "DELETE", "REPLACE")
OF_CURSORS = ("DECLARE", "FETCH", "CLOSE")
GAPS = re.compile(r"(\s|/\*.*?\*/|--[^\n]*|;\s*$)+")
WORK, CHAIN = r"( (?:WORK|TRANSACTION))?", r"( AND(?: NO)? CHAIN)?"
MODE = (r"(?:ISOLATION LEVEL (?:SERIALIZABLE|REPEATABLE READ|READ COMMITTED|READ UNCOMMITTED)|READ (?:ONLY|WRITE)"
        r"|(?:NOT )?DEFERRABLE)")
MODES = rf"( {MODE}(?: ?,? {MODE})*)?"
NAME = r' ("[^"]*"|[A-Z_][A-Z_0-9]*)'
# The forms of transaction control, each with what is said to SQLite. What is said of a savepoint needs a transaction.
CONTROLS = [(re.compile(form + "$", re.I), said) for form, said in (
    ("BEGIN" + WORK + MODES, "BEGIN"), ("START TRANSACTION" + MODES, "BEGIN"),
    ("(?:COMMIT|END)" + WORK + CHAIN, "COMMIT"), ("(?:ROLLBACK|ABORT)" + WORK + CHAIN, "ROLLBACK"),
    ("SAVEPOINT" + NAME, "SAVEPOINT {}"), ("ROLLBACK" + WORK + " TO(?: SAVEPOINT)?" + NAME, "ROLLBACK TO {}"),
    ("RELEASE(?: SAVEPOINT)?" + NAME, "RELEASE {}"))]
DECLARE = re.compile(r"(?is)\s*DECLARE (\w+) .*?\bCURSOR\b(.*?)\bFOR (.*)$")
FETCH = re.compile(r"(?is)\s*FETCH (?:(NEXT|ALL|\d+) )?(?:FROM |IN )?(\w+)\s*$")
CLOSE = re.compile(r"(?is)\s*CLOSE (\w+)\s*$")


def new_connection():
    return sqlite3.connect(":memory:", isolation_level=None)


def with_marks(text):
    """The text with ?n for each $n that stands in no quote and no comment."""
    return SKIPPED.sub(lambda match: match.group(1) or "?" + match.group(2), text)


def first_word(text):
    return FIRST_WORD.match(text).group(2).upper()


def code(values):
    """The code of a column: 4 where it has whole numbers and NULLs alone, else 12."""
    return 4 if {type(value) for value in values if value is not None} == {int} else 12


def state(connection):
    return "A" if connection.in_transaction else "I"


def controls(connection, text):
    """What is said to SQLite for transaction control, or none where the text asks for something else."""
    words = GAPS.sub(" ", text).strip()
    for form, said in CONTROLS:
        found = form.match(words)
        if found and connection.in_transaction == (said != "BEGIN"):
            is_chained = (found.groups()[-1] or "").upper() == " AND CHAIN"
            return [said.format(found.groups()[-1])] + ["BEGIN"] * is_chained
        if found and "{" not in said and (found.groups()[-1] or "").upper() != " AND CHAIN":
            return []
        if found:
            return ["not in a transaction"]
    return None


def has_float(rows):
    return any(isinstance(value, float) for row in rows for value in row)


def fetched(connection, text, params):
    """The cursor of a statement and its rows. Where they have a float, what the statement changed is undone."""
    changes = first_word(text) in COUNTED
    if changes:
        connection.execute("SAVEPOINT shown")
    try:
        cursor = connection.execute(with_marks(text), params)
        rows = cursor.fetchall()
        if changes and has_float(rows):
            connection.execute("ROLLBACK TO shown")
    finally:
        if changes:
            connection.execute("RELEASE shown")
    return cursor, rows


class Refused(Exception):
    """A state of a refusal."""


class SqliteLink:
    """A link as calls_made.py has them. Its refusals have no message."""

    def __init__(self):
        self.there, self.prepared, self.cursors = new_connection(), {}, {}

    def answer(self, request, outputs):
        kind, *rest = request
        if kind in ("connect", "close"):
            return ("connected",) if kind == "connect" else self.done()
        try:
            return getattr(self, kind)(*rest)
        except Refused as refused:
            return ("refused", state(self.there), refused.args[0], b"")

    def done(self, count=None):
        return ("done", state(self.there), count, False)

    def prepare(self, name, text):
        """SQLite looks at what is its own."""
        words = text.decode()
        if first_word(words) not in OF_CURSORS and controls(self.there, words) is None:
            self.is_query(words)
        self.prepared[name] = text
        return self.done()

    def deallocate(self, name):
        del self.prepared[name]
        return self.done()

    def exec(self, name, params):
        return self.text(self.prepared[name], params)

    def text(self, text, params):
        """Of a cursor the whole answer is kept."""
        words = text.decode()
        if found := DECLARE.match(words):
            return self.declared(found[1].lower(), "WITH HOLD" in found[2].upper(), found[3], params)
        if found := FETCH.match(words):
            return self.fetch(found[2].lower(), found[1] or "1")
        if found := CLOSE.match(words):
            self.cursor(found[1].lower())
            del self.cursors[found[1].lower()]
            return self.done()
        return self.asked(words, params)

    def declared(self, name, is_held, query, params):
        """A cursor ends with the transaction in which it is declared, where it isn't held. What is no query isn't run."""
        if name in self.cursors or not self.is_query(query):
            raise Refused(b"XX000")
        self.cursors[name] = self.there.in_transaction and not is_held, self.asked(query, params)
        return self.done()

    def cursor(self, name):
        if name not in self.cursors:
            raise Refused(b"XX000")
        return self.cursors[name][1]

    def fetch(self, name, how_many):
        _, _, columns, rows, _ = self.cursor(name)
        most = len(rows) if how_many.upper() == "ALL" else 1 if how_many.upper() == "NEXT" else int(how_many)
        taken, rows[:most] = rows[:most], []
        return ("rows", state(self.there), columns, taken, False)

    def is_query(self, text):
        """Whether a statement answers with rows. SQLite looks at it, and doesn't run it."""
        count = max((int(number) for _, number in SKIPPED.findall(text) if number), default=0)
        try:
            steps = self.there.execute("EXPLAIN " + with_marks(text), [None] * count).fetchall()
        except (sqlite3.Error, sqlite3.Warning):
            raise Refused(b"XX000") from None
        return any(step[1] == "ResultRow" for step in steps)

    def asked(self, text, params):
        """Rows of texts, or how many there are of what was changed."""
        try:
            said = controls(self.there, text)
            if said is not None and not params:
                for statement in said:
                    self.there.execute(statement)
                if not self.there.in_transaction:
                    self.cursors = {name: (ends, found) for name, (ends, found) in self.cursors.items() if not ends}
                return self.done()
            found, rows = fetched(self.there, text, [None if one is None else one.decode() for one in params])
        except sqlite3.IntegrityError as error:
            raise Refused(b"23505" if "UNIQUE" in str(error) else b"XX000") from None
        except (sqlite3.Error, sqlite3.Warning):
            raise Refused(b"XX000") from None
        if found.description is None:
            return self.done(found.rowcount if first_word(text) in COUNTED else None)
        if has_float(rows):
            raise Refused(b"XX000")
        columns = [(column[0].encode(), code([row[at] for row in rows])) for at, column in enumerate(found.description)]
        return ("rows", state(self.there), columns, [[field(value) for value in row] for row in rows], False)


def field(value):
    """A value as a field."""
    return None if value is None else str(value).encode()
