"""Prepared statements and SQL descriptors of the direct evaluator: marks, and what a descriptor holds. By the rules alone."""

from calls import ITEMS
from descriptor_items import Item

LETTERS = frozenset(b"abcdefghijklmnopqrstuvwxyzABCDEFGHIJKLMNOPQRSTUVWXYZ_") | frozenset(range(128, 256))
DIGITS = frozenset(b"0123456789")
MOST_ITEMS = 1000


class Refused(Exception):
    """A code that a descriptor gives."""


# ---- marks

def end_of_quote(text, at, escapes):
    """Where a quote ends that begins there. A doubled quote is one of two quotes in a row."""
    close, at = text[at], at + 1
    while at < len(text):
        if escapes and text[at] == ord("\\"):
            at += 1
        elif text[at] == close:
            if text[at + 1:at + 2] != text[at:at + 1]:
                return at + 1
            at += 1
        at += 1
    return len(text)


def end_of_comment(text, at):
    """Where a comment ends that begins there, or at whose begin none stands."""
    if text.startswith(b"--", at):
        found = text.find(b"\n", at)
        return len(text) if found < 0 else found + 1
    if not text.startswith(b"/*", at):
        return at
    inner = at + 2
    while inner < len(text) and not text.startswith(b"*/", inner):
        inner = end_of_comment(text, inner) if text.startswith(b"/*", inner) else inner + 1
    return min(inner + 2, len(text))


def end_of_word(text, at, more):
    while at < len(text) and (text[at] in LETTERS or text[at] in DIGITS or text[at] in more):
        at += 1
    return at


def end_of_token(text, at):
    """Where the quote, the comment, the word, the number or the single byte ends that begins there."""
    byte = text[at]
    if byte in b"'\"":
        return end_of_quote(text, at, False)
    if byte in LETTERS:
        end = end_of_word(text, at, b"$")
        is_escaping = text[at:end] in (b"E", b"e") and text[end:end + 1] == b"'"
        return end_of_quote(text, end, True) if is_escaping else end
    if byte in DIGITS or byte == ord(".") and text[at + 1:at + 2].isdigit():
        return end_of_number(text, at)
    return max(end_of_comment(text, at), at + 1)


def end_of_number(text, at):
    while at < len(text) and (text[at] in DIGITS or text[at] < 128 and text[at] in LETTERS or text[at] == ord(".")):
        at += 1
    return at


def numbered(text):
    """A text to prepare: its first free mark is $1, the next one $2."""
    found, at, marks = bytearray(), 0, 0
    while at < len(text):
        end = end_of_token(text, at)
        if text[at] == ord("?"):
            marks += 1
            found += f"${marks}".encode()
        else:
            found += text[at:end]
        at = end
    return bytes(found)


# ---- descriptors

def number_in(text, least, most):
    """A text as a number between these, or None. NULL is no number."""
    if text is None:
        return None
    digits = text[1:] if text[:1] in (b"-", b"+") else text
    if not digits or set(digits) - DIGITS:
        return None
    number = int(text)
    return number if least <= number <= most else None


def long_in(text, least, most):
    """A text as an index or a count."""
    number = number_in(text, -2 ** 63, 2 ** 63 - 1)
    if number is None:
        raise Refused(-204)
    if not least <= number <= most:
        raise Refused(-241)
    return number


class Descriptors:
    """The descriptors that are there, by their names."""

    def __init__(self):
        self.entries = {}

    def of(self, name):
        if name not in self.entries:
            raise Refused(-240)
        return self.entries[name]

    def allocate(self, name):
        self.entries[name] = []

    def free(self, name):
        self.of(name)
        del self.entries[name]

    def fill(self, name, columns, row):
        self.entries[name] = [Item(field, *column) for field, column in zip(row, columns)]

    def contents(self, name):
        return [entry.content for entry in self.of(name)]

    def count(self, name):
        return str(len(self.of(name))).encode()

    def given(self, name, index, items):
        """The fields that an item gives."""
        there = self.of(name)
        item = there[long_in(index, 1, len(there)) - 1]
        return [item.given(ITEMS[one]) for one in items]

    def set_count(self, name, text):
        there = self.of(name)
        self.resize(there, long_in(text, 0, MOST_ITEMS))

    def resize(self, there, count):
        del there[count:]
        while len(there) < count:
            there.append(Item())

    def set(self, name, index, items):
        """Item after item: the first code ends it, and what was set stays."""
        there = self.of(name)
        index = long_in(index, 1, MOST_ITEMS)
        for item, text in items:
            value = text
            if item != "DATA":
                value = number_in(text, -2 ** 31, 2 ** 31 - 1)
                if value is None:
                    raise Refused(-204)
            self.resize(there, max(len(there), index))
            there[index - 1].set(ITEMS[item], value)
