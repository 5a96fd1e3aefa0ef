#!/usr/bin/env python3
"""Compares the rows `sqlite` of crates/ec_base_rows with what SQLite itself answers, by Python's module sqlite3.

Where the library refuses a statement its state is compared and not its message. A prepared statement that is executed is
compared by its text. Transaction control is written as SQLite has it, by PostgreSQL's rules; compare/run_controls asks
PostgreSQL itself. Rows about cursors, files and places that are no file are answered by the link and not by SQLite: they
are passed over, and so are statements that the crate refuses for a mismatch of types, where SQLite converts a value. It
prints the rows that differ, and ends with 1 where one does.
"""
import re
import sqlite3
import sys
from pathlib import Path

from sqlite_link import COUNTED, code, controls, fetched, first_word, has_float, new_connection, state

ROWS = Path(__file__).resolve().parent.parent / "crates" / "ec_base_rows"
LINK_ONLY = re.compile(r"(?i)^(prepare|deallocate|connect|close)\b|^text (declare|fetch|close)\b")


def field(value):
    if value is None:
        return "NULL"
    return value.decode() if isinstance(value, bytes) else str(value)


def printed_rows(connection, names, rows):
    columns = "".join(f" {name}:{code([row[at] for row in rows])}" for at, name in enumerate(names))
    lines = "".join("\n |" + "".join(f" {field(value)} |" for value in row) for row in rows)
    return f" rows {state(connection)}{columns}{lines}"


def answer(connection, text, params):
    """What SQLite answers, as the rows have it. Of a refusal that is its state, without a message."""
    try:
        said = controls(connection, text)
        if said is not None and not params:
            for statement in said:
                connection.execute(statement)
            return f" done {state(connection)}"
        cursor, rows = fetched(connection, text, params)
    except sqlite3.IntegrityError as error:
        return f" refused {state(connection)} {'23505' if 'UNIQUE' in str(error) else 'XX000'}"
    except (sqlite3.Error, sqlite3.Warning):
        return f" refused {state(connection)} XX000"
    if cursor.description is None:
        is_counted = first_word(text) in COUNTED
        return f" done {state(connection)}" + (f" {cursor.rowcount}" if is_counted else "")
    if has_float(rows):
        return f" refused {state(connection)} XX000"
    return printed_rows(connection, [column[0] for column in cursor.description], rows)


def section(name):
    """The section of the rows in a file."""
    parts = re.split(r"^section (.*)\n", (ROWS / name).read_text(), flags=re.M)[1:]
    return dict(zip(parts[::2], parts[1::2]))["sqlite"]


def stored():
    """The lines of the input, each with what stands below it in the output."""
    output, given = (section(name).splitlines() for name in ("stdout", "stdin"))
    at = 0
    for line in given:
        assert output[at] == line, (output[at], line)
        end = at + 1
        while end < len(output) and output[end].startswith(" "):
            end += 1
        yield line, "\n".join(output[at + 1 : end])
        at = end


class Compared:
    """The links in memory by their names, with what is prepared over the one that is compared, `m`."""

    def __init__(self):
        self.links, self.prepared = {}, {}
        self.compared, self.passed, self.differ = 0, 0, 0

    def is_unknown(self, rest):
        """Whether it executes a name that isn't prepared, which the link refuses by itself."""
        return rest.startswith("exec ") and rest.partition(" <- ")[0][5:] not in self.prepared

    def pass_over(self, name, rest, got):
        self.passed += 1
        words = rest.split(" ", 2)
        if name != "m":
            return
        if words[0] == "prepare" and got.startswith(" done"):
            self.prepared[words[1]] = words[2]
        elif words[0] == "deallocate":
            self.prepared.pop(words[1], None)
        elif words[0] in ("connect", "close"):
            self.prepared.clear()
            if words[0] == "close":
                self.links[name] = new_connection()
            elif self.links[name].in_transaction:
                self.links[name].execute("ROLLBACK")

    def compare(self, line, name, rest, got):
        self.compared += 1
        text, _, given = rest.partition(" <- ")
        kind, _, text = text.partition(" ")
        if kind == "exec":
            text = self.prepared[text]
        params = [None if param == "NULL" else param for param in given.split(" | ")] if given else []
        want = answer(self.links[name], text, params)
        if not (got.startswith(want) if want.startswith(" refused") else got == want):
            self.differ += 1
            print(f"{line}\n  stored: {got!r}\n  SQLite: {want!r}")

    def take(self, line, got):
        name, _, rest = line.partition(" ")
        if rest == "= memory":
            self.links[name] = new_connection()
        elif name != "m" or LINK_ONLY.match(rest) or self.is_unknown(rest) or got.endswith(" datatype mismatch"):
            self.pass_over(name, rest, got)
        else:
            self.compare(line, name, rest, got)


def main():
    compared = Compared()
    for line, got in stored():
        if line and not line.startswith("#"):
            compared.take(line, got)
    print(f"{compared.compared} rows compared, {compared.passed} left to the link, {compared.differ} differ")
    return 1 if compared.differ else 0


if __name__ == "__main__":
    sys.exit(main())
