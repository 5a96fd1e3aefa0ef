"""Random texts, each from its seed."""

import random
from pathlib import Path

TOP = Path(__file__).resolve().parent.parent
ORDINARY = [
    path.read_text(encoding="latin-1").replace("@", "1")
    for folder in ("bench/ordinary", "examples")
    for path in sorted((TOP / folder).glob("*.pgc"))
]
# What texts of the lexer's kind are made of.
FRAGMENTS = (
    [" "] * 12
    + ["\n"] * 8
    + ["\t", "\r", "\f", "\v", "\r\n", "\0", "$", "@", "`", "\\", "\x80", "\xff", "\xe9"]
    + ["EXEC", "SQL", "exec sql ", "EXEC SQL ", "EXEC SQL ", "eXeC\nsQl", "EXEC SQLx", ";", ";", ";"]
    + ["EXEC SQL int ", "EXEC SQL VARCHAR ", "EXEC SQL BEGIN DECLARE SECTION;", "exec sql end declare section ;"]
    + ["BEGIN", "DECLARE", "SECTION", "END", "WHENEVER", "include", "declare", "COMMIT", "SELECT"]
    + ["'", "'", '"', '"', "E'", "e'", "''", '""', "\\'", '\\"', "\\\\", "'a'", '"a"', '"b" ', "'\\n'", "'ab'"]
    + ["/*", "*/", "/* c */", "//", "--", "-- c\n", "/", "*", "/* /* */ */"]
    + ["\\x4", "\\x414", "\\377", "\\400", "\\8", "\\q", "\\?", '"\\x41" "\\1"', "'\\0'", '"\\n\\12"']
    + ["0", "08", "0x", "0xfF", "0777", "1", "12UL", "3lL", "4294967295", "2147483648", "9223372036854775808"]
    + ["0x8000000000000000", "18446744073709551615u", "18446744073709551616", "1.5", ".5", "1e", "1LLU", "0ull"]
    + ["a", "x1", "_", "int", "char", "struct", "float", "switch", "while", "E", "e", "a$b", "VARCHAR", "const"]
    + ["#", "#include", "#include <a.h>", '#include "a\'b"', "# include", "#line 7\n", "\n#line 12\n", "\n#line 0\n"]
    + ["\n#include <ecpglib.h>\n#include <sqlca.h>\n", "#include <ecpglib.h>", "\n#include <b.h> // c\n", "#define"]
    + "-> ++ -- <<= >>= << >> <= >= == != && || += -= *= /= %= &= |= ^= ( ) [ ] { } , . & + - ~ ! % < > ^ | = : :: ?".split()
    + ["...", "..", "{", "}", "{ ; }", "} ;"]
)
WORDS = {
    "name": ["a", "b", "f", "x1", "SQLCODE", "SQLSTATE", "sqlca"],
    "number": ["0", "1", "2u", "077", "0xffL"],
    "character": ["'a'", "'\\n'"],
    "string": ['"s"', '"s" "t"', '""'],
    "include-line": ["\n#include <a.h>\n"],
    "executable": ["EXEC SQL COMMIT;", "EXEC SQL SELECT 'a;' INTO :x;"],
    "directive": ["EXEC SQL WHENEVER NOT FOUND STOP;", "exec sql include sqlca;"],
    "opening-mark": ["EXEC SQL BEGIN DECLARE SECTION;"],
    "closing-mark": ["EXEC SQL END DECLARE SECTION;"],
    "end-of-text": [""],
}
# What one more level is made of, with the hole between.
NESTS = {
    "expression": [("(", ")"), ("!", ""), ("~", ""), ("- ", ""), ("++ ", ""), ("sizeof ", ""), ("f(", ")"), ("b[", "]"), ("b = ", "")]
    + [("(int)", ""), ("f(1, ", ", 2)"), ("(1 + ", ")"), ("b.c[", "]++"), ("f(1)(", ")"), ("(*", ")"), ("a += - ", "")],
    "statement": [("{", "}"), ("if (a) ", ""), ("while (a) ", ""), ("for (;;) ", ""), ("l: ", ""), ("do ", "while (a);")]
    + [("if (a) ; else ", ""), ("{ ; ", "b; }"), ("for (int i;;) ", ""), ("if (a) { ", "} else ;")],
    "initializer": [("{", "}"), ("{1, ", ", 2,}")],
    "members": [("struct {", "} b;"), ("struct c {int d; ", "} b, e;")],
    "type": [("*", ""), ("* const ", "")],
    "lengths": [("[1]", ""), ("[]", ""), ("[a + b]", "")],
}
SEPARATORS = [" "] * 6 + ["\n"] * 2 + ["\t", " /* c */ ", " // d\n", "\n\n"]


def fragments(random_):
    """Pieces of texts put together at random."""
    return "".join(random_.choices(FRAGMENTS, k=random_.randint(1, random_.choice([4, 10, 30]))))


def changed(random_):
    """A part of a real program with a few bytes changed."""
    text = random_.choice(ORDINARY)
    start = random_.randrange(len(text))
    text = list(text[start : start + random_.randint(1, 600)])
    for _ in range(random_.choice([0, 1, 2, 4])):
        at = random_.randrange(len(text) + 1)
        text[at : at + random_.choice([0, 0, 1, 1, 8])] = random_.choice(FRAGMENTS)
    return "".join(text)


def joined(random_, words):
    return "".join(word + random_.choice(SEPARATORS) for word in words)


def mutated(random_, words, all_words):
    """Words with one to three changed, doubled, left out or moved, or cut off."""
    words = list(words)
    for _ in range(random_.randint(1, 3)):
        at = random_.randrange(len(words)) if words else 0
        match random_.randrange(5):
            case 0:
                del words[at : at + random_.choice([1, 1, 1, 3])]
            case 1:
                words[at:at] = words[at : at + random_.randint(1, 4)]
            case 2:
                words[at : at + 1] = [random_.choice(all_words)]
            case 3:
                words.insert(at, random_.choice(all_words))
            case 4:
                if random_.random() < 0.3:
                    del words[at:]
    return words


class Programs:
    """Random derivations of a grammar, written as texts."""

    def __init__(self, grammar):
        self.grammar = grammar
        terminals = {symbol for moves in grammar.moves.values() for symbol in moves} - grammar.rules
        self.all_words = sorted({terminal.strip('"') for terminal in terminals if terminal[0] == '"'})
        self.all_words += [word for words in WORDS.values() for word in words] + ["EXEC SQL int a;"]
        self.find_costs()

    def find_costs(self):
        """How few tokens lead from each state to the end of its rule."""
        grammar = self.grammar
        self.cost = {key: 0 if grammar.final[key] else float("inf") for key in grammar.moves}
        grew = True
        while grew:
            grew = False
            for key, moves in grammar.moves.items():
                for symbol, other in moves.items():
                    cost = self.symbol_cost(symbol) + self.cost[key[0], other]
                    if cost < self.cost[key]:
                        self.cost[key] = cost
                        grew = True

    def symbol_cost(self, symbol):
        return self.cost[symbol, self.grammar.first[symbol]] if symbol in self.grammar.rules else 1

    def derivation(self, random_, name, words, room):
        """Puts the words of a random derivation of a rule behind others; past the room it goes the shortest way."""
        states = self.grammar.first[name]
        while True:
            key = name, states
            moves = sorted(self.grammar.moves[key].items(), key=lambda move: move[0])
            if self.grammar.final[key] and (not moves or len(words) > room or random_.random() < 0.4):
                return
            if len(words) > room:
                moves = [min(moves, key=lambda move: self.symbol_cost(move[0]) + self.cost[name, move[1]])]
            symbol, states = random_.choice(moves)
            if symbol in self.grammar.rules:
                self.derivation(random_, symbol, words, room)
            else:
                words.append(symbol.strip('"') if symbol[0] == '"' else random_.choice(WORDS[symbol]))

    def program(self, random_):
        words = []
        while len(words) < 2:
            words = []
            self.derivation(random_, "unit", words, random_.choice([5, 20, 60]))
        if random_.random() < 0.6:
            words = mutated(random_, words, self.all_words)
        return joined(random_, words)

    def words(self, random_):
        """Words in no order."""
        front = random_.choice(["", "int f() {", "int a = ", "int f() { return "])
        return front + joined(random_, random_.choices(self.all_words, k=random_.randint(1, 12)))

    def deep(self, random_):
        """A program that nests about as deep as it may."""
        kind = random_.choice(["statement", "expression", "initializer", "members", "type", "lengths"])
        nests = random_.choices(NESTS[kind], k=random_.randint(58, 66) if random_.random() < 0.8 else random_.randint(1, 58))
        if kind == "statement" and random_.random() < 0.5:
            nests = nests[: random_.randint(1, 60)]
            nests += random_.choices(NESTS["expression"], k=max(0, random_.randint(58, 66) - len(nests)))
        if random_.random() < 0.3:
            nests = [nest for nest in nests for _ in range(random_.choice([1, 1, 2]))][: random_.randint(60, 66)]
        before = {"statement": "int f() {", "members": "", "type": "int ", "lengths": "int *a"}.get(kind, "int a = ")
        inside = {"statement": "b", "members": "int a;", "type": "a", "lengths": ""}.get(kind, "b")
        behind = {"statement": "; }", "members": "", "lengths": random_.choice([";", ", **c[2];"])}.get(kind, ";")
        words = [before, *(nest[0] for nest in nests), inside, *(nest[1] for nest in reversed(nests)), behind]
        if random_.random() < 0.4:
            words = mutated(random_, words, self.all_words)
        return joined(random_, words)

    def text(self, seed):
        random_ = random.Random(seed)
        kind = random_.choice([fragments, changed, self.program, self.program, self.words, self.deep])
        return kind(random_)
