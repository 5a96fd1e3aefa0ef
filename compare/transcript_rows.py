#!/usr/bin/env python3
"""What rows of ec_transcript_rows (docs/rows/ROWS.md) are to print, by transcripts.py: compare/transcript_rows.py < ROWS"""

import re
import sys

sys.dont_write_bytecode = True

from transcripts import (ask_answer, cuts_answer, drops_answer, lines_answer, read_answer, replay_answer, said_answer,
                         write_answer, written)

PIECE = 4096
ESCAPED = re.compile(rb"\\(..)", re.S)


def unescaped(text):
    return ESCAPED.sub(lambda found: bytes([int(found[1], 16)]), text.encode())


def field(word):
    return None if word == "-" else unescaped(word.removeprefix("="))


def request(line):
    word, *parts = line.split()
    parts = list(map(field, parts))
    return (word, parts[0], parts[1:]) if word in ("text", "exec") else (word, *parts)


def column(word):
    code, _, name = word.partition(":")
    return field(name), int(code)


def reply(line):
    word, *parts = line.split()
    if word == "done":
        return word, parts[0], None if parts[1] == "-" else int(parts[1]), parts[2:] == ["notice"]
    if word == "refused":
        return word, parts[0], *map(field, parts[1:])
    if word == "rows":
        notice, columns, rows = "notice" in parts[1:2], [], []
        for part in parts[2 if notice else 1:]:
            if part == "row":
                rows.append([])
            elif rows:
                rows[-1].append(field(part))
            else:
                columns.append(column(part))
        return word, parts[0], columns, rows, notice
    return (word,)


class Made:
    """What the rows so far have made."""

    def __init__(self):
        self.text, self.slots, self.log, self.over, self.request, self.links = b"", [], [], None, None, []

    def new(self, _):
        self.__init__()

    def line(self, rest):
        self.text += rest.encode() + b"\n"

    def more(self, rest):
        self.text += unescaped(rest)

    def times(self, rest):
        count, _, line = rest.partition(" ")
        self.text += (line.encode() + b"\n") * int(count)

    def read(self, _):
        return read_answer(self.text)

    def longer(self, rest):
        return read_answer(self.text + rest.encode() + b"\n")

    def cuts(self, _):
        return cuts_answer(self.text)

    def drops(self, _):
        return drops_answer(self.text)

    def skips(self, _):
        return lines_answer(self.text, 0)

    def doubles(self, _):
        return lines_answer(self.text, 2)

    def slot(self, rest):
        mark, name = rest.split()
        self.slots.append((mark == "ready", field(name)))

    def place(self, rest):
        self.over = None if rest == "-" else int(rest)

    def write(self, _):
        self.text = written(self.slots, self.log)
        return write_answer(self.slots, self.log)

    def replay(self, rest):
        if rest and int(rest) <= -(-len(self.text) // PIECE):  # the last read finds the end
            self.links = []
            return [" read fault"]
        self.links, answer = replay_answer(self.text)
        return answer

    def ask(self, rest):
        number, _, line = rest.partition(" ")
        return ask_answer(self.links[int(number)], request(line)) if int(number) < len(self.links) else [" no row"]

    def said(self, rest):
        return said_answer(self.links[int(rest)]) if int(rest) < len(self.links) else [" no row"]

    def say(self, line):
        if self.request is None:
            self.request = request(line)
        else:
            self.log.append((self.over, self.request, reply(line)))
            self.request = None


TASKS = {"new": Made.new, "|": Made.line, "+": Made.more, "times": Made.times, "read": Made.read, "with": Made.longer,
         "cuts": Made.cuts, "drops": Made.drops, "skips": Made.skips, "doubles": Made.doubles, "slot": Made.slot,
         "over": Made.place, "write": Made.write, "replay": Made.replay, "ask": Made.ask, "said": Made.said}


def main():
    made = Made()
    for line in sys.stdin.buffer.read().decode().split("\n")[:-1]:
        print(line)
        if line and not line.startswith(("#", "section ")):
            word, _, rest = line.partition(" ")
            answer = TASKS[word](made, rest) if word in TASKS else made.say(line)
            print(*(answer or []), sep="\n", end="\n" if answer else "")


if __name__ == "__main__":
    main()
