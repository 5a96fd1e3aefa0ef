"""Random lists of words: most are those of a command, with a few words put in, left out, doubled or changed."""

import random

COMMANDS = ["run", "exec", "record", "gen", "translate"]
OTHERS = ["", "Run", "runs", "ru", "--help", "-h", "--", "help", "--version", "-", "gen=memory"]
NAMES = ["a", "db", "gen", "x y", "ä", "+a", "-a", "a-b", "--turns", "memory", "file:", "0", "\t", "\u20ac+", "a.b"]
PATHS = ["t", "a=b", "-x", "+x", "--", "file:t", "ä", " ", "../t", "=", "memory"]
NUMBERS = ["0", "1", "5", "0007", "10000", "10001", "999999999", "1000000000", "1000000001", "4294967295", "4294967296",
           "00000000000000000004", "18446744073709551615", "18446744073709551616", "99999999999999999999999"]
NO_NUMBERS = ["", "-1", "+1", "5x", "0x5", " 5", "5 ", "1e3", "١", "--", "-", "a=memory"]
ODD = ["", "-", "--", "---", "-x", "-turns", "--turn", "--turns5", "--Turns=5", "--replays=a", "--=5", "--turns==5", "=", "==",
       "=memory", "+=memory", "a=", "a=memory ", "a=Memory", "a=file", "a=file:", "a=memory=b", "+", "++", "x", "ä", "\u0301", "-ä", "--ä=1",
       "-5", "5", "memory", "--help", "-h", "-V", "--version", "--turns=5=", "-=memory", "--a=memory"]


class Words:
    def __init__(self, seed):
        self.random = random.Random(seed)
        self.chance = self.random.random

    def one_of(self, texts):
        return self.random.choice(texts)

    def number(self):
        return self.one_of(NUMBERS) if self.chance() < 0.9 else self.one_of(NO_NUMBERS)

    def link(self):
        mark = "+" if self.chance() < 0.3 else ""
        place = "memory" if self.chance() < 0.6 else "file:" + self.one_of(PATHS)
        return mark + self.one_of(NAMES) + "=" + place

    def option(self, name, value):
        return [name + "=" + value] if self.chance() < 0.5 else [name, value]

    def item(self):
        kind = self.chance()
        if kind < 0.3:
            return self.option("--turns", self.number())
        if kind < 0.45:
            return self.option("--replay", self.one_of(PATHS))
        return [self.link()]

    def behind(self, command):
        """The words behind a command."""
        if command == "translate":
            return ["--"] if self.chance() < 0.4 else []
        if command == "gen":
            items = [[self.number()]] + [[self.link()] for _ in range(self.random.randrange(4))]
        else:
            items = [self.item() for _ in range(self.random.randrange(5))]
        if self.chance() < 0.25:
            items.insert(self.random.randrange(len(items) + 1), ["--"])
        return [word for item in items for word in item]

    def changed(self, words):
        """The words with one of them put in, left out, doubled, moved or cut."""
        words, at = list(words), self.random.randrange(len(words) + 1)
        way = self.random.randrange(6)
        if way == 0 or at == len(words):
            words.insert(at, self.one_of(ODD))
        elif way == 1:
            del words[at]
        elif way == 2:
            words.insert(self.random.randrange(len(words) + 1), words[at])
        elif way == 3:
            words.insert(self.random.randrange(len(words)), words.pop(at))
        elif way == 4:
            words[at] = words[at][: self.random.randrange(len(words[at]) + 1)]
        else:
            cut = self.random.randrange(len(words[at]) + 1)
            words[at] = words[at][:cut] + self.one_of(["-", "=", "+", ":", "0", "a", "ä", " "]) + words[at][cut:]
        return words

    def words(self):
        command = self.one_of(COMMANDS) if self.chance() < 0.97 else self.one_of(OTHERS)
        words = [command] + self.behind(command)
        while self.chance() < 0.3:
            words = self.changed(words)
        return [word.encode() for word in words]
