"""Tokens of C text and of embedded statements, by "Tokens" of docs/LANGUAGE.md."""

import re
from dataclasses import dataclass

from pieces import BLANKS, START, first_word, sql_units, c_unit
from rules import fault, quoted

MARKS = """-> ++ -- <<= >>= << >> <= >= == != && || += -= *= /= %= &= |= ^= ( ) [ ] { } ; , . & * + - ~ ! / % < > ^ | = :
? ...""".split()
MARKS.sort(key=len, reverse=True)
LEFT_OUT = set(
    "float double typedef union extern register volatile inline auto restrict switch case default enum ? ...".split()
)
NUMBER_FORM = re.compile(r"(0[xX][0-9a-fA-F]+|0[0-7]*|[1-9][0-9]*)([uUlL]*)")
SUFFIXES = {"": "", "U": "U", "L": "L", "LL": "LL", "UL": "UL", "LU": "UL", "ULL": "ULL", "LLU": "ULL"}
LIMITS = {
    "int": 2**31 - 1,
    "unsigned-int": 2**32 - 1,
    "long": 2**63 - 1,
    "unsigned-long": 2**64 - 1,
    "long-long": 2**63 - 1,
    "unsigned-long-long": 2**64 - 1,
}
# For each suffix the types of a decimal number, and those of another one.
TYPES = {
    "": (["int", "long"], ["int", "unsigned-int", "long", "unsigned-long"]),
    "U": (["unsigned-int", "unsigned-long"],) * 2,
    "L": (["long"], ["long", "unsigned-long"]),
    "UL": (["unsigned-long"],) * 2,
    "LL": (["long-long"], ["long-long", "unsigned-long-long"]),
    "ULL": (["unsigned-long-long"],) * 2,
}
ESCAPES = dict(zip("ntrabfv\\'\"?", "\n\t\r\a\b\f\v\\'\"?"))
ESCAPE = re.compile(r"\\(?:([0-7]{1,3})|x([0-9a-fA-F]{1,2})|(.))", re.S)
LINE_DIRECTIVE = re.compile(r"#line ([1-9][0-9]{0,8})(?=\n|\Z)")
HEAD = ["#include <ecpglib.h>", "#include <sqlca.h>"]


@dataclass
class Token:
    """`kind` is as printed; `value` what follows it: a text, a number, or a number with its type."""

    kind: str
    value: object
    line: int
    statement: list = None


def number(text, line):
    form = NUMBER_FORM.fullmatch(text)
    if not form:
        raise fault(5, line)
    digits, suffix = form.groups()
    if "lL" in suffix or "Ll" in suffix or suffix.upper() not in SUFFIXES:
        raise fault(5, line)
    is_decimal = digits[0] != "0"
    value = int(digits, 10 if is_decimal else 16 if digits[1:2] in ("x", "X") else 8)
    for ty in TYPES[SUFFIXES[suffix.upper()]][0 if is_decimal else 1]:
        if value <= LIMITS[ty]:
            return value, ty
    raise fault(5, line)


def escaped(text, line):
    """What stands between quotes, with its escapes replaced."""
    out, at = "", 0
    while at < len(text):
        if text[at] != "\\":
            out += text[at]
            at += 1
            continue
        found = ESCAPE.match(text, at)
        octal, hexadecimal, letter = found.groups()
        if octal:
            code = int(octal, 8)
            if code > 255:
                raise fault(6, line)
            out += chr(code)
        elif hexadecimal:
            out += chr(int(hexadecimal, 16))
        elif letter in ESCAPES:
            out += ESCAPES[letter]
        else:
            raise fault(6, line)
        at = found.end()
    return out


class Lexer:
    """Reads pieces one after the other. `joins`: a string would be joined with the last token."""

    def __init__(self, written):
        self.written = written
        self.tokens = []
        self.line = 1
        self.fresh = True
        self.joins = False
        self.statements = 0

    def put(self, kind, value):
        self.tokens.append(Token(kind, value, self.line))
        self.joins = False

    def pass_over(self, text):
        self.line += text.count("\n")

    def string(self, text):
        contents = escaped(text[1:-1], self.line)
        if self.joins:
            self.tokens[-1].value += contents
        else:
            self.put("string", contents)
            self.joins = True

    def character(self, text):
        contents = escaped(text[1:-1], self.line)
        if len(contents) != 1:
            raise fault(6, self.line)
        code = ord(contents)
        self.put("character", code - 256 if code > 127 else code)

    def hash(self, text, at):
        """A `#` that is first on its line: the end of what it begins."""
        if text.startswith("#include", at):
            end = at
            while end < len(text) and text[end] != "\n" and not text.startswith(("/*", "//"), end):
                end = c_unit(text, end) if text[end] in "'\"" else end + 1
            self.put("include", text[at:end])
            return end
        if self.written and (found := LINE_DIRECTIVE.match(text, at)):
            if found.end() < len(text):
                self.line = int(found.group(1))
                self.fresh = True
                return found.end() + 1
            return found.end()
        raise fault(9, self.line)

    def mark(self, text, at):
        mark = next((mark for mark in MARKS if text.startswith(mark, at)), None)
        if mark is None or mark in LEFT_OUT:
            raise fault(9 if mark else 4, self.line)
        self.put("mark", mark)
        return at + len(mark)

    def item(self, text, at):
        """Takes what stands at a place of C text, and gives where it ends."""
        if found := BLANKS.match(text, at):
            self.pass_over(found.group())
            if "\n" in found.group():
                self.fresh = True
            return found.end()
        byte = text[at]
        if byte == "#":
            if not self.fresh:
                raise fault(4, self.line)
            self.fresh = False
            return self.hash(text, at)
        self.fresh = False
        end = c_unit(text, at)
        found = text[at:end]
        if found.startswith(("/*", "//")):
            self.pass_over(found)
            return end
        if byte == '"':
            self.string(found)
        elif byte == "'":
            self.character(found)
        elif "0" <= byte <= "9":
            self.put("integer", number(found, self.line))
        elif byte == "_" or (byte.isascii() and byte.isalpha()):
            if found in LEFT_OUT:
                raise fault(9, self.line)
            self.put("word", found)
        else:
            return self.mark(text, at)
        return end

    def c_text(self, text):
        at = 0
        while at < len(text):
            at = self.item(text, at)

    def statement(self, text):
        units, _ = sql_units(text, START.match(text).end())
        found, gap, line, last = [], False, self.line, 0
        for kind, a, b in units:
            line += text.count("\n", last, a)
            last = a
            if kind == "gap":
                gap = True
                continue
            cuts = [("word", a, a + 1), ("quoted", a + 1, b)] if kind == "escaped" else [(kind, a, b)]
            for cut, c, d in cuts:
                if text[c:d] in ("$", "\0"):
                    raise fault(4, line)
                found.append((line, gap, cut, text[c:d]))
                gap = False
        word = found[0][3].upper() if found and found[0][2] == "word" else ""
        kind = "directive" if word in ("WHENEVER", "INCLUDE", "DECLARE") else "executable"
        self.put(kind, self.statements)
        self.tokens[-1].statement = found
        self.statements += 1
        self.pass_over(text)

    def piece(self, piece):
        if piece.kind == "c":
            self.c_text(piece.text)
            return
        if self.written:
            raise fault(9, self.line)
        self.fresh = False
        if piece.kind == "statement":
            self.statement(piece.text)
        elif piece.kind == "declaration":
            self.put("open", None)
            place, _ = first_word(piece.text, START.match(piece.text).end())
            self.pass_over(piece.text[:place])
            self.c_text(piece.text[place:])
            self.put("close", None)
        else:
            self.put(piece.kind, None)
            self.pass_over(piece.text)
        self.joins = False


def tokens(pieces, written):
    """The tokens of pieces, or the stop."""
    lexer = Lexer(written)
    for piece in pieces:
        lexer.piece(piece)
    lexer.put("end", None)
    found = lexer.tokens
    if written and [t.value for t in found[:2]] == HEAD and all(t.kind == "include" for t in found[:2]):
        found = found[2:]
    return found


def shown(token):
    """What is printed of a token behind its line and its place."""
    if token.kind == "integer":
        return f"(integer {token.value[0]} {token.value[1]})"
    if token.kind == "character":
        return f"(character {token.value})"
    if token.kind == "string":
        return f"(string {quoted(token.value)})"
    if token.kind == "include":
        return f"include {quoted(token.value)}"
    if token.value is None:
        return token.kind
    return f"{token.kind} {token.value}"
