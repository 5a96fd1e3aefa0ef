#!/usr/bin/env python3
"""Translates a source into C, written from the rules alone: compare/translator.py FILE

It prints the C, or on standard error why the source is refused, and ends as the precompiler does. The phases are those of
this folder: `pieces.py`, `tokens.py`, `grammar.py` with `limits.py`, `embedded.py`, `sections.py`, and `hosts.py` for both
the checks and the hosts; `writer.py` writes.
"""

import sys

from embedded import embedded
from grammar import Grammar
from hosts import Hosts
from limits import passes_limit
from pieces import pieces
from rules import Stop
from sections import Sections
from statements import Stop as StatementStop
from tokens import tokens
from units import Units
from writer import Writer

MOST_BYTES, MOST_TOKENS = 2**24, 2**22
NAMES = {
    1: "unclosed comment", 2: "unclosed quote", 3: "unclosed statement", 4: "bad byte", 5: "bad number", 6: "bad escape",
    7: "syntax", 8: "statement form", 9: "left-out form", 10: "redeclared", 11: "undeclared", 12: "reserved name",
    13: "VARCHAR length", 14: "types", 15: "no place", 16: "call", 17: "format", 18: "jump", 19: "constant", 20: "no main",
    21: "no host", 22: "host type", 23: "indicator", 24: "array input", 25: "struct shapes", 26: "unknown cursor",
    27: "cursor twice", 28: "cursor host", 29: "directive place", 30: "handler",
}
GRAMMAR = Grammar()


class Refused(Exception):
    """Why a source isn't translated: `F7 3` or `L3`."""


def syntax(found):
    derivation, dead = GRAMMAR.derive(found)
    if passes_limit(derivation):
        raise Refused("L3")
    if dead is not None:
        raise Refused(f"F7 {found[dead].line}")
    return Units(GRAMMAR.levels, found).unit(derivation)


def as_told(stop):
    """A refusal from the line that is printed of it."""
    words = str(stop).split()
    return words[1] if words[0] == "limit" else f"{words[0]} {words[-1]}"


def translated(text):
    """The C of a text whose characters stand for bytes."""
    if len(text) > MOST_BYTES:
        raise Refused("L6")
    try:
        cut = pieces(text)
        found = tokens(cut, False)
        if len(found) - 1 > MOST_TOKENS:
            raise Refused("L2")
        unit = syntax(found)
        statements = [embedded(piece) for piece in cut if piece.kind == "statement"]
    except (Stop, StatementStop) as stop:
        raise Refused(as_told(stop)) from None
    if (wrong := Sections(unit).first()) is not None:
        raise Refused(f"F{wrong[0]} {wrong[1]}")
    hosts = Hosts(unit, statements)
    if (wrong := hosts.check()) is not None:
        raise Refused(wrong)
    if (wrong := hosts.first_host_fault()) is not None:
        raise Refused(f"F{wrong[0]} {wrong[1]}")
    return Writer(hosts).program(unit)


def answer(text):
    """The C, or the refusal as the precompiler prints it."""
    sys.setrecursionlimit(200_000)
    try:
        return translated(text)
    except Refused as refused:
        kind, *line = refused.args[0].split()
        return f"ecpgc: {kind} {NAMES[int(kind[1:])]} at line {line[0]}\n" if line else f"ecpgc: limit {kind}\n"


def main(file):
    with open(file, encoding="latin-1", newline="") as source:
        found = answer(source.read())
    if not found.startswith("ecpgc: "):
        sys.stdout.write(found)
        return 0
    sys.stderr.write(found)
    return 71 if found.startswith("ecpgc: limit") else 65


if __name__ == "__main__":
    sys.dont_write_bytecode = True
    sys.exit(main(*sys.argv[1:]))
