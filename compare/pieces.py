"""Pieces of a source, by "Pieces" of docs/LANGUAGE.md. Texts are strings whose characters stand for bytes."""

import re
from dataclasses import dataclass

from rules import fault

BLANK = r"[ \t\r\n\f\v]"
START = re.compile(rf"(?i:EXEC){BLANK}+(?i:SQL)(?![A-Za-z0-9_])")
WORD = re.compile(r"[A-Za-z_][A-Za-z0-9_]*")
NUMBER = re.compile(r"[0-9][A-Za-z0-9_.]*")
QUOTE = {q: re.compile(rf"{q}(?:\\[^\n]|[^{q}\\\n])*{q}") for q in "'\""}
LINE_COMMENT = re.compile(r"//[^\n]*")
REST_OF_LINE = re.compile(r"[^\n]*")
TYPE_WORDS = set("char short int long signed unsigned bool struct const VARCHAR varchar".split())


@dataclass
class Piece:
    kind: str
    text: str
    line: int


@dataclass
class Unclosed(Exception):
    """Something that begins at a place has no end: a comment, or a quote that isn't closed on its line."""

    number: int
    at: int


def c_unit(text, at):
    """Where a word, number, comment, quote or other byte of C text ends."""
    if text.startswith("/*", at):
        end = text.find("*/", at + 2)
        if end < 0:
            raise Unclosed(1, at)
        return end + 2
    for pattern in (LINE_COMMENT, WORD, NUMBER):
        if found := pattern.match(text, at):
            return found.end()
    if text[at] in "'\"":
        if found := QUOTE[text[at]].match(text, at):
            return found.end()
        raise Unclosed(2, at)
    return at + 1


SQL_WORD = re.compile(r"[A-Za-z_\x80-\xff][A-Za-z0-9_$\x80-\xff]*")
SQL_NUMBER = re.compile(r"(?:[0-9]|\.[0-9])[A-Za-z0-9_.]*")
SQL_LINE_COMMENT = re.compile(r"--[^\n]*")
SQL_QUOTE = {q: re.compile(rf"{q}(?:[^{q}]|{q}{q})*{q}(?!{q})", re.S) for q in "'\""}
ESCAPED_QUOTE = re.compile(r"'(?:\\.|''|[^'\\])*'(?!')", re.S)
BLANKS = re.compile(rf"{BLANK}+")


def nested_comment(text, at):
    depth, place = 0, at
    for found in re.compile(r"/\*|\*/").finditer(text, at):
        if found.start() < place:
            continue
        depth += 1 if found.group() == "/*" else -1
        place = found.end()
        if depth == 0:
            return place
    raise Unclosed(1, at)


def sql_unit(text, at):
    """What a unit of SQL text is, and where it ends. The quote behind `E` is one unit with it."""
    if found := BLANKS.match(text, at) or SQL_LINE_COMMENT.match(text, at):
        return "gap", found.end()
    if text.startswith("/*", at):
        return "gap", nested_comment(text, at)
    if found := SQL_WORD.match(text, at):
        if found.group() in ("E", "e") and text.startswith("'", found.end()):
            ended = ESCAPED_QUOTE.match(text, found.end())
            if not ended:
                raise Unclosed(2, at)
            return "escaped", ended.end()
        return "word", found.end()
    if found := SQL_NUMBER.match(text, at):
        return "number", found.end()
    if text[at] in "'\"":
        found = SQL_QUOTE[text[at]].match(text, at)
        if not found:
            raise Unclosed(2, at)
        return "quoted", found.end()
    for mark in ("::", "->"):
        if text.startswith(mark, at):
            return "mark", at + 2
    return "mark", at + 1


def sql_units(text, at):
    """The units up to the free `;`, each with its place, and the place of the `;`."""
    units = []
    while True:
        if at == len(text):
            raise Unclosed(3, at)
        if text[at] == ";":
            return units, at
        kind, end = sql_unit(text, at)
        units.append((kind, at, end))
        at = end


def first_word(text, at):
    """The place and the word that stands first behind gaps, if it is a word."""
    try:
        while at < len(text):
            kind, end = sql_unit(text, at)
            if kind != "gap":
                return (at, text[at:end]) if kind == "word" else (at, "")
            at = end
    except Unclosed:
        pass
    return at, ""


def declaration_end(text, at):
    """Where a declaration ends, behind the first `;` outside braces, and the place of its first bad quote."""
    depth, bad = 0, None
    while at < len(text):
        byte = text[at]
        if byte == ";" and depth == 0:
            return at + 1, bad
        if byte == "{":
            depth += 1
        elif byte == "}":
            depth = max(0, depth - 1)
        try:
            at = c_unit(text, at)
        except Unclosed as unclosed:
            if unclosed.number == 1:
                raise
            bad = at if bad is None else bad
            at = REST_OF_LINE.match(text, at).end()
    raise Unclosed(3, at)


def kind_of(text, units):
    words = [text[a:b].upper() for kind, a, b in units if kind != "gap"]
    plain = all(kind in ("gap", "word") for kind, _, _ in units)
    if plain and words == ["BEGIN", "DECLARE", "SECTION"]:
        return "open"
    if plain and words == ["END", "DECLARE", "SECTION"]:
        return "close"
    return "statement"


def embedded(text, at, line_of):
    """The kind and the end of the piece that begins at a place."""
    behind = START.match(text, at).end()
    try:
        place, word = first_word(text, behind)
        if word in TYPE_WORDS:
            end, bad = declaration_end(text, place)
            if bad is not None:
                raise fault(2, line_of(bad))
            return "declaration", end
        units, semicolon = sql_units(text, behind)
        return kind_of(text, units), semicolon + 1
    except Unclosed:
        raise fault(3, line_of(at)) from None


def pieces(text):
    """The pieces of a text, or the stop."""

    def line_of(at):
        return text.count("\n", 0, at) + 1

    found, start, at = [], 0, 0

    def c_text(end):
        if start < end:
            found.append(Piece("c", text[start:end], line_of(start)))

    while at < len(text):
        if START.match(text, at):
            c_text(at)
            kind, end = embedded(text, at, line_of)
            found.append(Piece(kind, text[at:end], line_of(at)))
            start = at = end
            continue
        if blanks := BLANKS.match(text, at):
            at = blanks.end()
            continue
        try:
            at = c_unit(text, at)
        except Unclosed as unclosed:
            raise fault(unclosed.number, line_of(unclosed.at)) from None
    c_text(at)
    return found
