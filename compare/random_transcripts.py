"""Random slots and logs, random texts near to transcripts (most are the transcript of a log, and of each third one or more
lines, words or bytes were put in, left out, doubled, moved or changed), and random requests to links over a log."""

import random

from transcripts import written

TEXTS = [b"", b"db", b"a", b"SELECT a FROM t", b"-", b'"', b"\\", b'"-"', b"\\41", b"\n", b"\r\n", b"\0", b" ", b"\x7f",
         b"\x80\xff", "ä".encode(), b"r", b"@ 0", b"slot ready", b"notice", b"~", b"#", b"[", b"]", b"0", b"18446744073709551616"]
COUNTS = [0, 1, 2, 9, 10, 99, 100, 2 ** 31, 2 ** 32, 2 ** 63, 2 ** 64 - 1]
CODES = [0, 1, 4, 12, -1, -10, 2 ** 31 - 1, -2 ** 31]
NUMBERS = [b"0", b"1", b"2", b"3", b"00", b"01", b"-1", b"+1", b"", b"-", b"-0", b"63", b"64", b"65", b"1x", b" 1", b"10",
           b"2147483647", b"2147483648", b"-2147483648", b"-2147483649", b"4294967296", b"18446744073709551615",
           b"18446744073709551616", b"99999999999999999999999999"]
LINES = [b"", b"ecpg-transcript 1", b"ecpg-transcript 2", b"ecpg-transcript 3", b"ecpg-transcript 2 ", b'slot ready "a"',
         b'slot free ""', b"slot free -", b'slot taken "a"', b"@ 0", b"@ -", b"@ 1", b"@ 64", b"@", b"@ 00", b"> close",
         b"> close ", b'> deallocate "a"', b"> deallocate -", b'> text "" 0', b'> text "" 1', b'> text "" 1 -', b'> text ""',
         b'> text "" 01 -', b'> text "" 2 - ""', b'> text - 0', b'> exec "a" 0', b'> prepare "a" "b"', b'> prepare "a" -',
         b'> connect "a" - -', b'> connect "a" -', b"> connect - - -", b"< connected", b"< notarget", b"< broken", b"< Broken",
         b"< done I -", b"< done A 0", b"< done F 01", b"< done X 1", b"< done I 18446744073709551615 notice",
         b"< done I 18446744073709551616", b"< done I - notice", b"< done I -  notice", b"< done I", b"< rows I 0 0",
         b"< rows I 0 0 notice", b"< rows A 0 2", b"< rows A 2 0", b"< rows F 1 1", b"< rows I 99999999999999999999 1",
         b"< rows I 0 99999999999999999999", b"< rows I 1 01", b"< rows I 1", b"< rows I -1 0", b"< rows I 1 1 1",
         b'< refused I 42P01 "no"', b'< refused F ????? ""', b'< refused F 42p01 ""', b'< refused F 42P0 ""', b'< refused F 42P011 ""',
         b'< refused F 42P01 -', b'c "a" 4', b'c "a" -0', b'c "a" -2147483648', b'c "a" 2147483648', b'c - 4', b'c "a"', b'r',
         b'r -', b'r ""', b'r - -', b'r "\\00"', b"r ", b"r  -", b"R -", b"# a"]
PIECES = [b" ", b"  ", b'"', b"\\", b"-", b"0", b"1", b"9", b"a", b"A", b"F", b"\\41", b"\\0a", b"\\0A", b"\\5c", b"\\22", b"\\7f",
          b"\\7e", b"\\20", b"\\1f", b"\\ff", b"\\g0", b"\\", b'""', b' ""', b" -", b" notice", b"notice", b"\n", b"\r", b"\t", b"\0",
          b"\x80", b"\xff", b"@ 0\n", b"> close\n", b"< broken\n", b"r\n"]


class Transcripts:
    def __init__(self, seed):
        self.random = random.Random(seed)
        self.chance = self.random.random

    def one_of(self, things):
        return self.random.choice(things)

    def few(self, most):
        """A number that is seldom large."""
        return min(self.random.randrange(most + 1), self.random.randrange(most + 1))

    # -- logs

    def text_part(self):
        if self.chance() < 0.5:
            return self.one_of(TEXTS)
        return bytes(self.random.randrange(256) for _ in range(self.few(12)))

    def field(self):
        return None if self.chance() < 0.25 else self.text_part()

    def fields(self, count):
        return [self.field() for _ in range(count)]

    def request(self):
        word = self.one_of(["connect", "text", "text", "prepare", "exec", "deallocate", "close"])
        if word in ("text", "exec"):
            return word, self.text_part(), self.fields(self.one_of([0, 0, 1, 2, 3, 11]))
        if word == "connect":
            return word, self.text_part(), self.field(), self.field()
        return (word, *[self.text_part() for _ in range({"prepare": 2, "deallocate": 1, "close": 0}[word])])

    def state(self):
        if self.chance() < 0.7:
            return bytes(self.one_of(b"0123456789ABCDEFGHIJKLMNOPQRSTUVWXYZ?") for _ in range(5))
        return bytes(self.random.randrange(256) if self.chance() < 0.5 else self.one_of(b"0Zaz?@[/: ") for _ in range(5))

    def reply(self):
        word = self.one_of(["connected", "notarget", "broken", "done", "done", "refused", "rows", "rows", "rows"])
        tx, notice = self.one_of("IAF"), self.chance() < 0.2
        if word == "done":
            counts = [None, self.one_of(COUNTS), self.random.randrange(2 ** self.random.randrange(1, 65))]
            return word, tx, self.one_of(counts), notice
        if word == "refused":
            return word, tx, self.state(), self.text_part()
        if word == "rows":
            width, height = self.one_of([0, 1, 1, 2, 3, 12]), self.one_of([0, 1, 1, 2, 3, 12])
            columns = [(self.text_part(), self.code()) for _ in range(width)]
            return word, tx, columns, [self.fields(width) for _ in range(height)], notice
        return (word,)

    def code(self):
        return self.one_of(CODES) if self.chance() < 0.5 else self.random.randrange(-2 ** 31, 2 ** 31)

    def log(self):
        """Slots and a log, which seldom name a slot too many."""
        count = self.one_of([0, 1, 1, 2, 3, 64]) if self.chance() < 0.97 else self.one_of([64, 65, 66])
        slots = [(self.chance() < 0.3, self.text_part()) for _ in range(count)]
        top = count if self.chance() < 0.97 else count + 2
        places = [None, *range(top)]
        return slots, [(self.one_of(places), self.request(), self.reply()) for _ in range(self.few(6))]

    # -- requests to links

    def changed(self, request):
        """A request near to another one."""
        word, *parts = request
        if not parts or self.chance() < 0.3:
            return self.request()
        at = self.random.randrange(len(parts))
        if isinstance(parts[at], list):
            parts[at] = self.one_of([[*parts[at], None], parts[at][1:], [b"" if it is None else None for it in parts[at]],
                                     parts[at][::-1]])
        else:
            parts[at] = self.text_part() if parts[at] is None or self.chance() < 0.5 else parts[at] + b" "
        return (word, *parts)

    def asked(self, slots, log):
        """Requests, each to one of the slots: mostly the next one that is recorded."""
        parts = [[request for place, request, _ in log if place == slot] for slot in range(len(slots))]
        used = [slot for slot, part in enumerate(parts) if part] or list(range(len(slots)))
        for _ in range(self.few(10) if used else 0):
            slot = self.one_of(used)
            recorded = parts[slot].pop(0) if parts[slot] else self.request()
            yield slot, recorded if self.chance() < 0.85 else self.changed(recorded)

    # -- texts

    def damaged_line(self, line):
        """A line with a word, a number or some bytes changed."""
        way = self.random.randrange(6)
        if way == 0:
            words = line.split(b" ")
            at = self.random.randrange(len(words))
            words[at:at + 1] = self.one_of([[], [words[at]] * 2, [self.one_of(NUMBERS)], [b""], [words[at], b"-"], [words[at], b'""']])
            return b" ".join(words)
        at = self.random.randrange(len(line) + 1)
        if way == 1:
            return line[:at] + self.one_of(PIECES) + line[at:]
        if way == 2:
            return line[:at] + line[at + 1:]
        if way == 3:
            return line[:at] + self.one_of(PIECES) + line[at + 1:]
        if way == 4:
            return line[:at] + line[at:at + 1].swapcase() + line[at + 1:]
        return line[:at]

    def damaged(self, lines):
        """Lines, the last of which is what stands behind the last newline, with one of them changed."""
        lines, at = list(lines), self.random.randrange(len(lines))
        way = self.random.randrange(8)
        if way == 0:
            lines.insert(at, self.one_of(LINES))
        elif way == 1:
            del lines[at]
        elif way == 2:
            lines.insert(self.random.randrange(len(lines)), lines[at])
        elif way == 3:
            lines.insert(self.random.randrange(len(lines)), lines.pop(at))
        elif way == 4:
            lines = lines[:at + 1]
        elif way == 5:
            lines[at] = self.one_of(LINES)
        else:
            lines[at] = self.damaged_line(lines[at])
        return lines or [b""]

    def text(self):
        slots, log = self.log()
        text = written(slots, log)
        if self.chance() < 0.35:
            text = text.replace(b"transcript 2", b"transcript 1", 1)
            if self.chance() < 0.7:
                text = text.replace(b" notice\n", b"\n")
        lines = text.split(b"\n")
        while self.chance() < 0.35:
            lines = self.damaged(lines)
        return b"\n".join(lines)
