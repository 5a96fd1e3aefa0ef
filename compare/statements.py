"""Embedded statements, read from the rules alone: the tree of a statement, or its fault, as printed.

A form is a recognizer that tries every way to go on. The token with which no form goes on is the farthest at which any
way stopped, since each way can be completed. Trees are those of the first way that reaches the end.
"""

import re
import sys

sys.setrecursionlimit(1_000_000)

BLANKS = b" \t\r\n\x0c\x0b"
LETTER = set(b"abcdefghijklmnopqrstuvwxyzABCDEFGHIJKLMNOPQRSTUVWXYZ")
DIGIT = set(b"0123456789")
WORD_START = LETTER | {ord("_")} | set(range(128, 256))
WORD_MORE = WORD_START | DIGIT | {ord("$")}
NUMBER_MORE = DIGIT | LETTER | {ord("."), ord("_")}

TYPE_WORDS = {b"char", b"short", b"int", b"long", b"signed", b"unsigned", b"bool", b"struct", b"const", b"VARCHAR",
              b"varchar"}
TRANSACTION = {"BEGIN", "START", "COMMIT", "END", "ROLLBACK", "ABORT", "SAVEPOINT", "RELEASE"}
LEFT_OUT_FIRST = {"TYPE", "VAR", "DESCRIBE", "DEFINE", "UNDEF", "IFDEF", "IFNDEF", "ELSE", "ENDIF"}
MOST_INPUTS = 1000
MOST_SUFFIXES = 64


class Stop(Exception):
    """A fault or a limit, as it is printed."""


class NoIndex(Exception):
    """A number of 2^63 or more that stands as an index: no form goes on with it."""

    def __init__(self, place):
        super().__init__(place)
        self.place = place


def fault(name, text, line):
    return Stop(f"{name} {text} at line {line}")


class Token:
    """A token of embedded SQL: its sort, bytes, line, and whether a gap stands before it."""

    def __init__(self, sort, text, line, gap):
        self.sort, self.text, self.line, self.gap = sort, text, line, gap
        self.upper = text.decode("latin-1").upper() if sort == "word" else None

    def is_word(self, *words):
        return self.sort == "word" and self.upper in words

    def is_mark(self, mark):
        return self.sort == "mark" and self.text == mark

    def is_text(self):
        """A quote in single quotes."""
        return self.sort == "quote" and self.text[:1] == b"'"


def skip_gap(text, at):
    """Behind blanks and comments; None where a comment has no end."""
    while at < len(text):
        if text[at] in BLANKS:
            at += 1
        elif text.startswith(b"--", at):
            end = text.find(b"\n", at)
            if end < 0:
                return None
            at = end
        elif text.startswith(b"/*", at):
            depth, at = 1, at + 2
            while depth:
                if at >= len(text):
                    return None
                if text.startswith(b"/*", at):
                    depth, at = depth + 1, at + 2
                elif text.startswith(b"*/", at):
                    depth, at = depth - 1, at + 2
                else:
                    at += 1
        else:
            return at
    return at


def quote_end(text, at, escapes):
    """Behind the quote that begins at `at`; None where it has no end."""
    quote = text[at]
    at += 1
    while at < len(text):
        if escapes and text[at] == ord("\\"):
            at += 2
        elif text[at] == quote:
            if text[at + 1:at + 2] == bytes([quote]):
                at += 2
            else:
                return at + 1
        else:
            at += 1
    return None


def lex(text, line):
    """The tokens of what stands behind EXEC SQL, up to the first free semicolon, which is the last of them.

    The second value is the line of the first byte that begins no token, or None. Without tokens it is None where the
    statement has no end, and else where it ends before the text.
    """
    tokens, bad, at = [], None, 0
    while True:
        begin = skip_gap(text, at)
        if begin is None or begin >= len(text):
            return None, None
        gap = begin > at
        here = line + text.count(b"\n", 0, begin)
        byte = text[begin]
        if byte in WORD_START:
            end = begin + 1
            while end < len(text) and text[end] in WORD_MORE:
                end += 1
            sort = "word"
        elif byte in DIGIT or (byte == ord(".") and begin + 1 < len(text) and text[begin + 1] in DIGIT):
            end = begin + 1
            while end < len(text) and text[end] in NUMBER_MORE:
                end += 1
            sort = "number"
        elif byte in b"'\"":
            before = tokens[-1] if tokens else None
            escapes = (byte == ord("'") and not gap and before is not None and before.sort == "word"
                       and before.upper == "E")
            end = quote_end(text, begin, escapes)
            if end is None:
                return None, None
            sort = "quote"
        else:
            end = begin + (2 if text[begin:begin + 2] in (b"::", b"->") else 1)
            sort = "mark"
            if byte in b"\0$" and bad is None:
                bad = here
        tokens.append(Token(sort, text[begin:end], here, gap))
        if sort == "mark" and byte == ord(";"):
            return (tokens, bad) if end == len(text) else (None, end)
        at = end


def printed_bytes(text):
    out = "".join(chr(b) if 32 <= b <= 126 and b not in b'"\\' else f"\\{b:02x}" for b in text)
    return f'"{out}"'


def content(token):
    """What a quote in single quotes stands for."""
    return token.text[1:-1].replace(b"''", b"'")


def decimal_type(value):
    return "int" if value < 2 ** 31 else "long"


def integer(token):
    """A decimal constant, printed; None for what is none or has no type."""
    if token.sort != "number" or not re.fullmatch(rb"[0-9]+", token.text):
        return None
    value = int(token.text)
    return None if value >= 2 ** 63 else f"(integer {value} {decimal_type(value)})"


ESCAPES = {ord("n"): 10, ord("t"): 9, ord("r"): 13, ord("a"): 7, ord("b"): 8, ord("f"): 12, ord("v"): 11,
           ord("\\"): 92, ord("'"): 39, ord('"'): 34, ord("?"): 63}


def character(token):
    """A character constant of C, printed; None for what is none."""
    if not token.is_text():
        return None
    body = token.text[1:-1]
    if len(body) == 1:
        value = None if body in (b"\\", b"'", b"\n") else body[0]
    elif body[:1] == b"\\":
        if len(body) == 2 and body[1] in ESCAPES:
            value = ESCAPES[body[1]]
        elif re.fullmatch(rb"\\[0-7]{1,3}", body):
            value = int(body[1:], 8)
        elif re.fullmatch(rb"\\x[0-9a-fA-F]{1,2}", body):
            value = int(body[2:], 16)
        else:
            value = None
        value = None if value is not None and value > 255 else value
    else:
        value = None
    if value is None:
        return None
    return f"(character {value - 256 if value > 127 else value})"


class Form:
    """The recognizers of one statement. Each yields (place behind, tree); `farthest` is where the last way stopped.

    What is counted against the limits is noted as ("input", place) and ("suffix", place) with the tree. `begun` has the
    places at which an input or a suffix too many begins, whether it is one to its end or not: a count passes with the
    first token.
    """

    def __init__(self, tokens):
        self.tokens, self.farthest, self.begun = tokens, 0, set()

    def look(self, at, test):
        """Whether the token at a place passes a test; a place that is asked for is one that was reached."""
        self.farthest = max(self.farthest, at)
        return at < len(self.tokens) and test(self.tokens[at])

    def word_is(self, at, *words):
        return self.look(at, lambda t: t.is_word(*words))

    def mark_is(self, at, mark, tight=False):
        return self.look(at, lambda t: t.is_mark(mark) and not (tight and t.gap))

    # -- references

    def is_host_at(self, at):
        """A colon directly before a word."""
        tokens = self.tokens
        return (at + 1 < len(tokens) and tokens[at].is_mark(b":") and tokens[at + 1].sort == "word"
                and not tokens[at + 1].gap)

    def reference(self, at):
        """Every front of a reference that is one, the longest first."""
        if not self.mark_is(at, b":") or not self.look(at + 1, lambda t: t.sort == "word" and not t.gap):
            return
        tree, at = printed_bytes(self.tokens[at + 1].text), at + 2
        limits = []
        suffixes = 0
        while True:
            if suffixes == MOST_SUFFIXES and self.look(at, lambda t: not t.gap and t.text in (b".", b"->", b"[")):
                self.begun.add(("suffix", at))
            if self.mark_is(at, b".", True) or self.mark_is(at, b"->", True):
                form = "member" if self.tokens[at].text == b"." else "arrow"
                if not self.look(at + 1, lambda t: t.sort == "word" and not t.gap):
                    return
                tree = f"({form} {tree} {printed_bytes(self.tokens[at + 1].text)})"
                end = at + 2
            elif self.mark_is(at, b"[", True):
                if not self.look(at + 1, lambda t: not t.gap and (t.sort == "word" or integer(t) is not None)):
                    return
                index = self.tokens[at + 1]
                index = printed_bytes(index.text) if index.sort == "word" else integer(index)
                if not self.mark_is(at + 2, b"]", True):
                    return
                tree = f"(index {tree} {index})"
                end = at + 3
            else:
                break
            suffixes += 1
            if suffixes == MOST_SUFFIXES + 1:
                limits.append(("suffix", at))
            at = end
        yield at, tree, limits

    def host(self, at, only_by_word=False):
        """A reference with an optional indicator."""
        for end, value, limits in self.reference(at):
            if self.mark_is(end, b":") and not only_by_word:
                start = end
            elif self.word_is(end, "INDICATOR"):
                start = end + 1
            else:
                yield end, f"(host {value})", limits
                continue
            for last, indicator, more in self.reference(start):
                yield last, f"(host {value} {indicator})", limits + more

    # -- parts of forms

    def word(self, at):
        if self.look(at, lambda t: t.sort == "word"):
            yield at + 1, printed_bytes(self.tokens[at].text), []

    def text_argument(self, at, upper=(), only_by_word=False):
        """`x`: a word, a quote or a host."""
        if self.look(at, lambda t: t.sort == "word"):
            token = self.tokens[at]
            text = token.upper.encode("latin-1") if token.is_word(*upper) else token.text
            yield at + 1, printed_bytes(text), []
        if self.look(at, Token.is_text):
            yield at + 1, printed_bytes(content(self.tokens[at])), []
        yield from self.host(at, only_by_word)

    def command_text(self, at):
        """A host or a quote."""
        if self.look(at, Token.is_text):
            yield at + 1, printed_bytes(content(self.tokens[at])), []
        yield from self.host(at)

    def value(self, at, only_by_word=False):
        """`v`: a host, a number with an optional sign, or a quote. It counts as an input."""
        is_number = lambda t: t.sort == "number" and re.fullmatch(rb"[0-9]+", t.text)
        if self.look(at, lambda t: t.is_text() or is_number(t) or t.is_mark(b"-") or t.is_mark(b":")):
            self.begun.add(("input", at))
        if self.look(at, Token.is_text):
            yield at + 1, printed_bytes(content(self.tokens[at])), [("input", at)]
        if self.look(at, is_number):
            yield at + 1, printed_bytes(self.tokens[at].text), [("input", at)]
        if self.mark_is(at, b"-") and self.look(at + 1, is_number):
            yield at + 2, printed_bytes(b"-" + self.tokens[at + 1].text), [("input", at)]
        for end, tree, limits in self.host(at, only_by_word):
            yield end, tree, [("input", at)] + limits

    def words(self, at, *words):
        """Words one after the other."""
        for word in words:
            if not self.word_is(at, word):
                return
            at += 1
        yield at

    def listed(self, at, part):
        """One or more parts with commas between."""
        for end, tree, limits in part(at):
            if self.mark_is(end, b","):
                for last, trees, more in self.listed(end + 1, part):
                    yield last, [tree] + trees, limits + more
            yield end, [tree], limits

    def area(self, at):
        for start in self.words(at, "SQL", "DESCRIPTOR"):
            for end, text, limits in self.text_argument(start):
                yield end, f"(area {text})", limits

    def inputs(self, at):
        yield from self.area(at)
        for end, values, limits in self.listed(at, self.value):
            yield end, f"(ins {' '.join(values)})", limits

    def outputs(self, at):
        yield from self.area(at)
        for end, hosts, limits in self.listed(at, self.host):
            yield end, f"(outs {' '.join(hosts)})", limits

    def end(self, at):
        """The semicolon."""
        return self.mark_is(at, b";")

    # -- statements

    def target(self, at):
        tokens = self.tokens
        if self.is_host_at(at):
            yield from self.host(at)
            return
        if self.look(at, Token.is_text):
            yield at + 1, printed_bytes(content(tokens[at])), []
            return
        end = at
        while self.look(end, lambda t: not t.is_word("AS", "USER") and not t.is_mark(b";")):
            end += 1
        if end > at:
            text = b"".join(t.text for t in tokens[at:end])
            if end == at + 1 and tokens[at].is_word("DEFAULT"):
                text = b"DEFAULT"
            yield end, printed_bytes(text), []

    def connect(self, at):
        for start in self.words(at, "CONNECT", "TO"):
            for end, target, limits in self.target(start):
                for last, name, more in self.optional(end, "AS", lambda a: self.text_argument(a, ("DEFAULT",))):
                    for behind, user, others in self.user(last):
                        yield behind, f"(connect {target} {name} {user})", limits + more + others

    def optional(self, at, word, part):
        if self.word_is(at, word):
            for end, tree, limits in part(at + 1):
                yield end, tree, limits
        yield at, "-", []

    def user(self, at):
        if self.word_is(at, "USER"):
            for end, user, limits in self.text_argument(at + 1):
                starts = [end + 2] if self.word_is(end, "IDENTIFIED") and self.word_is(end + 1, "BY") else []
                starts += [end + 1] if self.word_is(end, "USING") or self.mark_is(end, b"/") else []
                for start in starts:
                    for last, password, more in self.text_argument(start):
                        yield last, f"{user} {password}", limits + more
                yield end, f"{user} -", limits
        yield at, "- -", []

    def set_connection(self, at):
        for start in self.words(at, "SET", "CONNECTION"):
            starts = [start + 1] if self.word_is(start, "TO") or self.mark_is(start, b"=") else []
            for begin in starts + [start]:
                for end, name, limits in self.text_argument(begin, ("DEFAULT",)):
                    yield end, f"(set-connection {name})", limits

    def autocommit(self, at):
        for start in self.words(at, "SET", "AUTOCOMMIT"):
            if self.word_is(start, "TO") or self.mark_is(start, b"="):
                for word in ("ON", "OFF"):
                    if self.word_is(start + 1, word):
                        yield start + 2, f"(autocommit {word.lower()})", []

    def disconnect(self, at):
        for start in self.words(at, "DISCONNECT"):
            for end, name, limits in self.text_argument(start, ("CURRENT", "ALL", "DEFAULT")):
                yield end, f"(disconnect {name})", limits
            yield start, '(disconnect "CURRENT")', []

    def open(self, at):
        for start in self.words(at, "OPEN"):
            for end, cursor, _ in self.word(start):
                for last, ins, limits in self.optional(end, "USING", self.inputs):
                    yield last, f"(open {cursor} {'(ins)' if ins == '-' else ins})", limits

    def execute(self, at):
        for start in self.words(at, "EXECUTE"):
            if self.word_is(start, "IMMEDIATE"):
                for end, text, limits in self.command_text(start + 1):
                    yield end, f"(immediate {text})", limits
            for end, name, _ in self.word(start):
                tree = lambda ins, outs: f"(execute {name} {'(ins)' if ins == '-' else ins} {outs})"
                if self.word_is(end, "INTO"):
                    for middle, outs, limits in self.outputs(end + 1):
                        for last, ins, more in self.optional(middle, "USING", self.inputs):
                            yield last, tree(ins, outs), limits + more
                if self.word_is(end, "USING"):
                    for middle, ins, limits in self.inputs(end + 1):
                        for last, outs, more in self.optional(middle, "INTO", self.outputs):
                            yield last, tree(ins, outs), limits + more
                yield end, tree("-", "-"), []

    def prepare(self, at):
        for start in self.words(at, "PREPARE"):
            for end, name, _ in self.word(start):
                for begin in self.words(end, "FROM"):
                    for last, text, limits in self.command_text(begin):
                        yield last, f"(prepare {name} {text})", limits

    def deallocate(self, at, alone):
        for start in self.words(at, "DEALLOCATE"):
            if alone and self.word_is(start, "DESCRIPTOR"):
                for end, area, limits in self.text_argument(start + 1):
                    yield end, f"(free {area})", limits
            if self.word_is(start, "PREPARE"):
                for end, name, _ in self.word(start + 1):
                    yield end, f"(deallocate {name})", []
            for end, name, _ in self.word(start):
                yield end, f"(deallocate {name})", []

    def allocate(self, at):
        for start in self.words(at, "ALLOCATE", "DESCRIPTOR"):
            for end, area, limits in self.text_argument(start):
                yield end, f"(allocate {area})", limits

    def item(self, at, *names):
        for name in names:
            if self.word_is(at, name):
                yield at + 1, name

    def get(self, at):
        for start in self.words(at, "GET", "DESCRIPTOR"):
            for end, area, limits in self.text_argument(start, only_by_word=True):
                for last, host, more in self.host(end):
                    if self.mark_is(last, b"=") and self.word_is(last + 1, "COUNT"):
                        yield last + 2, f"(get-count {area} {host})", limits + more
                for begin in self.words(end, "VALUE"):
                    for last, index, more in self.value(begin, only_by_word=True):
                        for behind, items, others in self.listed(last, self.get_item):
                            yield behind, f"(get {area} {index} {' '.join(items)})", limits + more + others

    def get_item(self, at):
        for end, host, limits in self.host(at):
            if self.mark_is(end, b"="):
                for last, name in self.item(end + 1, "DATA", "INDICATOR", "NAME", "TYPE", "RETURNED_OCTET_LENGTH"):
                    yield last, f"({name} {host})", limits

    def set(self, at):
        for start in self.words(at, "SET", "DESCRIPTOR"):
            for end, area, limits in self.text_argument(start):
                if self.word_is(end, "COUNT") and self.mark_is(end + 1, b"="):
                    for last, value, more in self.value(end + 2):
                        yield last, f"(set-count {area} {value})", limits + more
                for begin in self.words(end, "VALUE"):
                    for last, index, more in self.index_of_set(begin):
                        for behind, items, others in self.listed(last, self.set_item):
                            yield behind, f"(set {area} {index} {' '.join(items)})", limits + more + others

    def index_of_set(self, at):
        """The index of SET: INDICATOR behind it may also be the item, which `=` follows."""
        yield from self.value(at)
        for end, value, limits in self.reference(at):
            if self.word_is(end, "INDICATOR"):
                yield end, f"(host {value})", [("input", at)] + limits

    def set_item(self, at):
        for end, name in self.item(at, "DATA", "INDICATOR", "TYPE"):
            if self.mark_is(end, b"="):
                for last, value, limits in self.value(end + 1):
                    yield last, f"({name} {value})", limits

    def whenever(self, at):
        for start in self.words(at, "WHENEVER"):
            conditions = [(start + 1, "error")] if self.word_is(start, "SQLERROR") else []
            conditions += [(start + 1, "warning")] if self.word_is(start, "SQLWARNING") else []
            conditions += [(end, "not-found") for end in self.words(start, "NOT", "FOUND")]
            for end, condition in conditions:
                for last, action in self.action(end):
                    yield last, f"(whenever {condition} {action})", []

    def action(self, at):
        for word, action in (("CONTINUE", "continue"), ("SQLPRINT", "print"), ("STOP", "stop")):
            if self.word_is(at, word):
                yield at + 1, action
        jumps = [at + 1] if self.word_is(at, "GOTO") else []
        for start in jumps + list(self.words(at, "GO", "TO")):
            for end, label, _ in self.word(start):
                yield end, f"(goto {label})"
        if self.word_is(at, "DO"):
            for word, action in (("BREAK", "break"), ("CONTINUE", "next")):
                if self.word_is(at + 1, word):
                    yield at + 2, action
        if self.word_is(at, "DO", "CALL"):
            for end, name, _ in self.word(at + 1):
                if self.mark_is(end, b"("):
                    if self.mark_is(end + 1, b")"):
                        yield end + 2, f"(call {name})"
                    for last, arguments, _ in self.listed(end + 1, self.argument):
                        if self.mark_is(last, b")"):
                            yield last + 1, f"(call {name} {' '.join(arguments)})"

    def argument(self, at):
        members = {b"SQLCODE": "sqlcode", b"SQLSTATE": "sqlstate"}
        if self.look(at, lambda t: t.sort == "word"):
            text = self.tokens[at].text
            member = members.get(text)
            yield at + 1, f'(member "sqlca" "{member}")' if member else printed_bytes(text), []
        for of in (integer, character):
            if self.look(at, lambda t: of(t) is not None):
                yield at + 1, of(self.tokens[at]), []

    def include(self, at):
        for start in self.words(at, "INCLUDE", "SQLCA"):
            yield start, "include-sqlca", []


class Texts(Form):
    """Statements that pass to the server: hosts and the INTO list cut out of any tokens."""

    suffixes = ()  # where a reference that was read had a suffix too many, when one stops at its index

    def longest_reference(self, at):
        """A reference is as long as it can be: its end and tree, and where it has a suffix too many."""
        tokens = self.tokens
        if not self.is_host_at(at):
            return None
        tree, at, limits, suffixes = printed_bytes(tokens[at + 1].text), at + 2, [], 0
        while True:
            tight = lambda place: place < len(tokens) and not tokens[place].gap
            if not tight(at):
                break
            if (tokens[at].is_mark(b".") or tokens[at].is_mark(b"->")) and tight(at + 1) \
                    and tokens[at + 1].sort == "word":
                form = "member" if tokens[at].text == b"." else "arrow"
                new, end = f"({form} {tree} {printed_bytes(tokens[at + 1].text)})", at + 2
            elif tokens[at].is_mark(b"[") and tight(at + 1) and tight(at + 2) and tokens[at + 2].is_mark(b"]"):
                index = tokens[at + 1]
                if index.sort == "number" and index.text.isdigit() and integer(index) is None:
                    if suffixes >= MOST_SUFFIXES:
                        self.suffixes += (("suffix", at),)
                    raise NoIndex(at + 1)
                index = printed_bytes(index.text) if index.sort == "word" else integer(index)
                if index is None:
                    break
                new, end = f"(index {tree} {index})", at + 3
            else:
                break
            suffixes += 1
            if suffixes == MOST_SUFFIXES + 1:
                limits.append(("suffix", at))
                self.suffixes += (("suffix", at),)
            tree, at = new, end
        return at, tree, limits

    def host_here(self, at):
        found = self.longest_reference(at)
        if found is None:
            return None
        end, value, limits = found
        start = end + 1 if end < len(self.tokens) and self.tokens[end].is_word("INDICATOR") else end
        indicator = self.longest_reference(start)
        if indicator is None:
            return end, f"(host {value})", limits
        last, tree, more = indicator
        return last, f"(host {value} {tree})", limits + more

    def is_into(self, at):
        """INTO before a host or SQL DESCRIPTOR; whether it stands outside parentheses is asked elsewhere."""
        tokens = self.tokens
        if not tokens[at].is_word("INTO"):
            return False
        return self.is_host_at(at + 1) or (
            at + 2 < len(tokens) and tokens[at + 1].is_word("SQL") and tokens[at + 2].is_word("DESCRIPTOR"))

    def cut_list(self, at):
        """The INTO list whose first token behind INTO is at `at`."""
        if self.tokens[at].is_word("SQL"):
            found = self.host_here(at + 2)
            if found is not None:
                end, text, limits = found
                return end, f"(area {text})", limits
            for end, text, limits in self.text_argument(at + 2):
                return end, f"(area {text})", limits
            raise fault("F8", "statement form", self.tokens[self.farthest].line)
        end, tree, limits = self.host_here(at)
        trees = [tree]
        while self.tokens[end].is_mark(b",") and self.is_host_at(end + 1):
            end, tree, more = self.host_here(end + 1)
            trees.append(tree)
            limits = limits + more
        return end, f"(outs {' '.join(trees)})", limits

    def parts(self, at, into_allowed):
        """The parts from a token up to the semicolon, the outputs, the limits, and the place of a fault."""
        tokens, parts, text, outs, limits, depth, cut = self.tokens, [], b"", "-", [], 0, False
        first = True
        while not tokens[at].is_mark(b";"):
            if depth == 0 and self.is_into(at):
                if not into_allowed or outs != "-":
                    return None, at, limits, outs
                self.farthest = at
                try:
                    at, outs, more = self.cut_list(at + 1)
                except Stop:
                    return None, self.farthest, limits, outs
                except NoIndex as stop:
                    return None, stop.place, [*limits, *self.suffixes], outs
                limits += more
                cut = True
                continue
            blank = b" " if not first and (tokens[at].gap or cut) else b""
            cut = first = False
            try:
                host = self.host_here(at)
            except NoIndex as stop:
                return None, stop.place, [*limits, ("input", at), *self.suffixes], outs
            text += blank
            if host is not None:
                if text:
                    parts.append(printed_bytes(text))
                text = b""
                limits.append(("input", at))
                at, tree, more = host
                limits += more
                parts.append(tree)
                continue
            if tokens[at].is_mark(b"("):
                depth += 1
            elif tokens[at].is_mark(b")"):
                depth = max(depth - 1, 0)
            text += tokens[at].text
            at += 1
        if text:
            parts.append(printed_bytes(text))
        return parts, at, limits, outs


def passes_limit(limits, before):
    """Whether a count passes its limit at a token before a place."""
    inputs = sorted(at for what, at in limits if what == "input")
    places = inputs[MOST_INPUTS:MOST_INPUTS + 1] + [at for what, at in limits if what == "suffix"]
    return any(place < before for place in places)


def is_left_out(tokens):
    """Whether the statement, without its AT, is one that is left out."""
    first = tokens[0]
    word = lambda at, *words: at < len(tokens) and tokens[at].is_word(*words)
    if first.is_word(*LEFT_OUT_FIRST):
        return True
    if first.is_word("INCLUDE"):
        second = tokens[1]
        if second.is_word("SQLCA") and tokens[2].is_mark(b";"):
            return False
        return second.sort in ("word", "quote") or (second.sort == "mark" and second.text in (b"<", b".", b"/"))
    if first.is_word("PREPARE") and tokens[1].sort == "word" and word(2, "AS"):
        return True
    if first.is_word("DECLARE") and tokens[1].sort == "word" and word(2, "STATEMENT", "BINARY"):
        return True
    if first.is_word("DEALLOCATE") and word(1, "ALL"):
        return True
    depth = 0
    for at, token in enumerate(tokens):
        if token.is_mark(b"("):
            depth += 1
        elif token.is_mark(b")"):
            depth = max(depth - 1, 0)
        elif token.is_word("DESCRIPTOR") and at > 0:
            if tokens[at - 1].is_word("INTO") and depth == 0 and not (
                    at > 1 and tokens[at - 2].is_word("INSERT", "MERGE")):
                return True
            if tokens[at - 1].is_word("USING") and first.is_word("OPEN", "EXECUTE"):
                return True
    return False


def whole(form, ways):
    """The tree of the first way that ends at the semicolon; else the fault at the farthest place, or L4 before it."""
    for end, tree, limits in ways:
        if form.end(end):
            if passes_limit(limits, len(form.tokens)):
                raise Stop("limit L4")
            return tree
    place = form.farthest
    if passes_limit(form.begun, place):
        raise Stop("limit L4")
    raise fault("F8", "statement form", form.tokens[place].line)


def whole_text(form, into_allowed):
    """The parts and the outputs of a text for the server; else its fault, or L4 before it."""
    parts, place, limits, outs = form.parts(0, into_allowed)
    if passes_limit(limits, place):
        raise Stop("limit L4")
    if parts is None:
        raise fault("F8", "statement form", form.tokens[place].line)
    return parts, outs


def declare(tokens):
    form = Texts(tokens)
    ends = []
    for start in form.words(0, "DECLARE"):
        for end, cursor, _ in form.word(start):
            starts = [end + 1] if form.word_is(end, "INSENSITIVE", "ASENSITIVE", "SCROLL") else []
            starts += list(form.words(end, "NO", "SCROLL")) + [end]
            for begin in starts:
                for last in form.words(begin, "CURSOR"):
                    behind = [last + 2] if form.word_is(last, "WITH", "WITHOUT") and form.word_is(last + 1, "HOLD") \
                        else []
                    for place in behind + [last]:
                        for inner in form.words(place, "FOR"):
                            ends.append((inner, cursor))
    if not ends:
        raise fault("F8", "statement form", tokens[form.farthest].line)
    inner, cursor = ends[0]
    if form.end(inner):
        raise fault("F8", "statement form", tokens[inner].line)
    if tokens[inner].sort == "word" and tokens[inner + 1].is_mark(b";"):
        head = Texts(tokens[:inner] + tokens[-1:])
        parts, _, _, _ = head.parts(0, False)
        text = parts[0][:-1] + ' "'
        return f"(declare {cursor} (parts {text}) {printed_bytes(tokens[inner].text)})"
    parts, _ = whole_text(form, False)
    return f"(declare {cursor} (parts {' '.join(parts)}) -)"


def server(tokens):
    parts, outs = whole_text(Texts(tokens), True)
    return f"(text (parts{''.join(' ' + part for part in parts)}) {outs})"


def transaction(tokens):
    form, text = Texts(tokens), b""
    for at, token in enumerate(tokens[:-1]):
        if form.is_host_at(at):
            raise fault("F8", "statement form", token.line)
        text += (b" " if at and token.gap else b"") + token.text
    return f"(transaction {printed_bytes(text)})"


def kind(tokens, alone):
    """The kind of a statement without its AT; `alone` where there was none."""
    first, second = tokens[0], tokens[min(1, len(tokens) - 1)]
    refuse = lambda token: fault("F8", "statement form", token.line)
    if first.is_mark(b";"):
        raise refuse(first)
    if is_left_out(tokens):
        raise fault("F9", "left-out form", next(token for token in tokens if token.sort == "word").line)
    form = Form(tokens)
    simple = {"CONNECT": form.connect, "DISCONNECT": form.disconnect, "ALLOCATE": form.allocate, "GET": form.get,
              "WHENEVER": form.whenever, "INCLUDE": form.include}
    if first.is_word(*simple):
        if not alone:
            raise refuse(first)
        return whole(form, simple[first.upper](0))
    if first.is_word("SET"):
        if second.is_word("AUTOCOMMIT"):
            return whole(form, form.autocommit(0))
        if second.is_word("CONNECTION", "DESCRIPTOR"):
            if not alone:
                raise refuse(second)
            return whole(form, form.set_connection(0) if second.is_word("CONNECTION") else form.set(0))
    if first.is_word("OPEN"):
        return whole(form, form.open(0))
    if first.is_word("EXECUTE"):
        return whole(form, form.execute(0))
    if first.is_word("PREPARE"):
        return whole(form, form.prepare(0))
    if first.is_word("DEALLOCATE"):
        return whole(form, form.deallocate(0, alone))
    if first.is_word("DECLARE"):
        if not alone:
            raise refuse(first)
        return declare(tokens)
    if first.is_word(*TRANSACTION):
        return transaction(tokens)
    return server(tokens)


def statement(tokens, line):
    """The printed tree of the statement whose tokens these are, or a stop."""
    if not tokens[0].is_word("AT"):
        return f"(statement {line} - {kind(tokens, True)})"
    form = Form(tokens)
    for end, name, limits in form.text_argument(1, ("DEFAULT",)):
        if passes_limit(limits, len(tokens)):
            raise Stop("limit L4")
        return f"(statement {line} {name} {kind(tokens[end:], False)})"
    if passes_limit(form.begun, form.farthest):
        raise Stop("limit L4")
    raise fault("F8", "statement form", tokens[form.farthest].line)


HEAD = re.compile(rb"[Ee][Xx][Ee][Cc][ \t\r\n\x0c\x0b]+[Ss][Qq][Ll](?![A-Za-z0-9_])")


def printed(text):
    """What is printed of a source that is one embedded statement; None where it is something else."""
    head = HEAD.match(text)
    if head is None:
        return None
    line = 1 + text.count(b"\n", 0, head.end())
    tokens, bad = lex(text[head.end():], line)
    if tokens is None:
        return None if bad is not None else "F3 unclosed statement at line 1"
    if tokens[0].sort == "word" and tokens[0].text in TYPE_WORDS:
        return None
    if len(tokens) == 4 and tokens[0].is_word("BEGIN", "END") and tokens[1].is_word("DECLARE") \
            and tokens[2].is_word("SECTION"):
        return None
    if bad is not None:
        return f"F4 bad byte at line {bad}"
    try:
        return statement(tokens, 1)
    except Stop as stop:
        return str(stop)
