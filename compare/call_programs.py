"""Random programs of written C that call the library, with what the server answers, as rows (call_rows.py).

A program is run by the second evaluator before it is done: each reply is made when it is asked for, so that it mostly fits the
outputs of its call, and behind that run it is known which cells are set, so that the program can print them all at its end.
"""

import random
import re
from dataclasses import dataclass

import evaluator
import translator
from call_rows import ROOM, Row
from call_rows import Place as SlotOf
from calls_made import Link, Run, Slot, array, struct
from source_texts import Maker

# symbol: the words of C, the bits, whether it is signed
INTEGERS = {
    "short": ("short", 16, True), "unsigned_short": ("unsigned short", 16, False), "int": ("int", 32, True),
    "unsigned_int": ("unsigned int", 32, False), "long": ("long", 64, True), "unsigned_long": ("unsigned long", 64, False),
    "long_long": ("long long", 64, True), "unsigned_long_long": ("unsigned long long", 64, False),
}
INDICATORS = ["short", "int", "long", "long_long"]
OF_EVALUATOR = {"unsigned int": "unsigned"}
WORDS = ["", "a", "xy", "abc", "pqrs", "hello", "it's", "007", "-5", "t"]
ODD_NUMBERS = ["", "+", "-", " 1", "1 ", "+5", "-0", "+0", "007", "-007", "1x", "0x10", "1.5", "t", "--1", "+-1", "1 2", "0" * 30 + "9"]
STATEMENTS = [
    '"SELECT a FROM t"', '"INSERT INTO t VALUES ($1, $2)"', '"FETCH c"', '"DELETE FROM t"', '""', '"  x  y "',
    '"select a,b from \\042T x\\042 where c=$1::int and s=\'a  b\'"', '"SELECT \\"q\\"" " AND 2"', '"a\\\\b\\n\\tc"',
    '"\\303\\251 \\x41\\377?"', '"UPDATE t SET a=$1 -- no\\n"', '"E\'\\\\\'\'"', '"z\\000behind"',
]
MARKED = ['"a ? b ?"', '"\'?\' ? \\"?\\" ?"', '"E\'\\\\\'?\' ? -- ?\\n?"', '"/* ? /* */ ? */ ? x?1?"', '"e\'\'?\'?\'"', '"insert into t values (?, ?)"']
BYTES_OF_SQL = ["?", "?", "'", "'", '\\"', "\\\\", "-", "-", "/", "*", "E", "e", "x", "1", ".", "$", " ", "\\n", "\\377", "_"]
NAMES = ['"s"', '"s"', '"s"', '"p q"', '"S"', '"\\163"', '""', '"p" " q"', '"a name of more than 22 bytes"']
HEADS = ['"declare c cursor for "', '"DECLARE \\"c\\" CURSOR FOR "', '""', '"?"']
CONTROLS = ['"COMMIT"', '"ROLLBACK"', '"BEGIN WORK"', '"SAVEPOINT " "s"', '""']
CONNECTIONS = ['"db"', '"db"', '"one"', '"one"', '"two"', '"x y"', '"o\\156e"', '"t" "wo"', '"DB"', '""', '"CURRENT"', '"ALL"',
               '"a name of more than 22 bytes"', "connection", "(unsigned char *)connection"]
SERVERS = ['"db"', '"db"', '"one"', '"one"', '"two"', '"x y"', '"d\\142"', '"on" "e"', '"no"', '""', "connection"]
TARGETS = [b"db", b"db", b"db", b"one", b"one", b"one", b"two", b"two", b"x y", b"DEFAULT", b"no", b""]
SWITCHES = ['"off"', '"off"', '"off"', '"on"', '"o\\156"']
DESCRIPTORS = ['"d"'] * 9 + ['"e"', '"e"', '"D"', '"\\144"', '""', "connection", "(unsigned char *)connection"]
INDEXES = ['"1"'] * 9 + ['"2"', '"2"', '"2"', '"3"', '"+1"', '"007"', '"0"', '"-1"', '"1000"', '"1001"', '"x"', '"9223372036854775808"']
MOST_PRINTED = 48  # cells of a variable
# What calls itself without an end spends these: 1,000,000 calls of a program in one another take Python some 4.5 GB.
MOST_TURNS = 20_000
STATES = ["23505", "21000", "42P01", "XX000", "00000", "02000", "08006", "2350x"]
LITERALS = ['"12"', '""', '"it\'s"', '"a\\042b"', '"-5"', '"\\377\\001"', '"x" "y"', '"n\\000ul"']


@dataclass
class Kind:
    """What a host is: its symbol and its length, and how it is declared."""

    symbol: str
    length: int
    words: str
    suffix: str
    type: object

    @property
    def size(self):
        return evaluator.size(self.type)


@dataclass
class Host:
    """An element of a variable, or of a member of its structs: where more elements follow, and how far apart they lie."""

    kind: Kind
    value: str
    pointer: str
    count: int
    distance: int


def edges(bits, signed):
    """The numbers at the ends of a type."""
    least = -2 ** (bits - 1) if signed else 0
    return [least, least + 2 ** bits - 1]


def constant(n):
    """A number as an expression of C."""
    if n < 0:
        return f"-{constant(-n)}" if n > -2 ** 63 else "-9223372036854775807L - 1"
    return f"{n}" if n < 2 ** 31 else f"{n}L" if n < 2 ** 63 else f"{n}UL"


class Answers(Link):
    """A link that makes each reply when it is asked for, and keeps it."""

    def __init__(self, rng, breaks):
        super().__init__([], breaks)
        self.rng, self.made = rng, []

    def answer(self, request, outputs):
        self.asks += 1
        if self.asks - 1 in self.breaks:
            return ("broken",)
        self.made.append(self.opening() if request[0] == "connect" else self.reply(outputs))
        return self.made[-1]

    def opening(self):
        """The reply to a request to connect: mostly it is open."""
        return ("connected",) if self.rng.random() < 0.85 else self.reply([])

    def reply(self, outputs):
        tx = self.rng.choice("IIIAF")
        pick = self.rng.random()
        if pick < 0.05:
            return self.rng.choice([("broken",), ("connected",), ("notarget",)])
        if pick < 0.18:
            return ("refused", tx, self.rng.choice(STATES).encode(), self.message())
        has_notice = self.rng.random() < 0.15
        if pick < (0.25 if outputs else 0.7):
            count = self.rng.choice([None, None, 0, 0, 1, 1, 2, 7, 2 ** 31, 2 ** 63 - 1, 2 ** 63, 2 ** 64 - 1])
            return ("done", tx, count, has_notice)
        return ("rows", tx, *self.table(outputs), has_notice)

    def message(self):
        length = self.rng.choice([0, 1, 5, 20, 20, 20, 130, 137, 138, 139, 140, 148, 149, 150, 200])
        return bytes(self.rng.choice([97, 98, 32, 99] * 6 + [34, 92, 200, 0 if length < 99 else 100]) for _ in range(length))

    def table(self, outputs):
        width = len(outputs) + (self.rng.choice([-1, 1, 1, 2]) if self.rng.random() < 0.08 else 0)
        if not outputs or outputs[0].symbol == "descriptor":
            width = self.rng.choice([0, 1, 2])
        width = max(width, 0)
        most = min((m.count for m in outputs), default=2)
        height = self.rng.choice([1] * 4 + [most] * 5 + [max(most - 1, 1)] * 2 + [0, most + 1])
        columns = [(self.rng.choice([b"a", b"b c", b'"q"', b""]), self.rng.choice([4, 25, 1043, 0, 2 ** 31 - 1])) for _ in range(width)]
        return columns, [[self.field(outputs[n] if n < len(outputs) else None) for n in range(width)] for _ in range(min(height, 5))]

    def field(self, member):
        if self.rng.random() < (0.2 if member is not None and member.has_indicator else 0.04):
            return None
        if member is None or member.symbol == "descriptor" or self.rng.random() < 0.04:
            return self.rng.choice(WORDS + ODD_NUMBERS).encode()
        if member.symbol in INTEGERS:
            return self.number(*INTEGERS[member.symbol][1:])
        if member.symbol == "bool":
            return self.rng.choice([b"t", b"f"] * 8 + [b"T", b"true", b"", b"1"])
        return self.text(member.length or self.rng.choice([2, 2, 3, 11]))

    def number(self, bits, signed):
        pick = self.rng.random()
        if pick < 0.18:
            return self.rng.choice(ODD_NUMBERS).encode()
        if pick < 0.45:
            n = self.rng.choice(edges(bits, signed)) + self.rng.choice([0, 0, 0, 0, 1, -1])
        else:
            n = self.rng.choice([0, 1, 2, 7, 42, 100, -1 if signed else 3, 12345])
        sign = "+" if n >= 0 and self.rng.random() < 0.1 else "-" if n < 0 else ""
        return f"{sign}{'0' * self.rng.choice([0] * 9 + [1, 3])}{abs(n)}".encode()

    def text(self, length):
        n = max(self.rng.choice([0, 1, length - 1, length - 1, length, length + 1, length * 2, self.rng.randrange(length + 1)]), 0)
        return bytes(self.rng.choice([97, 98, 99, 100, 32, 34, 92, 0, 200] if self.rng.random() < 0.2 else [97, 98, 99]) for _ in range(n))


class Programs:
    def __init__(self, rng):
        self.rng, self.count = rng, 0
        self.lines, self.hosts, self.indicators, self.texts, self.prepared = [], [], [], [], []
        self.unset = []  # members of structs that have no value yet
        self.is_lined, self.number = self.chance(0.6), 1
        self.name_held = self.pick(["db", "db", "one", "no"])
        # whether connections are opened and closed
        self.is_linked = self.chance(0.5)
        # whether there are descriptors
        self.is_described = self.chance(0.8)
        # how often something in a list leads nowhere, or is an odd one
        self.wild = self.pick([0, 0, 0, 0.02, 0.05, 0.12])
        # how often a pointer is what a function gives
        self.calling = self.pick([0, 0, 0.05, 0.2])

    def chance(self, p):
        return self.rng.random() < p

    def pick(self, choices):
        return self.rng.choice(choices)

    def name(self, letter):
        self.count += 1
        return f"{letter}{self.count}"

    def say(self, text):
        """A statement or a declaration, with its line."""
        if self.is_lined:
            self.number += self.pick([0, 1, 1, 2, 5])
            self.lines.append(f"#line {self.number}")
        self.lines.append(text)

    # -- kinds

    def kind(self):
        return self.pick([self.integer, self.integer, self.integer, self.text, self.text, self.varchar, self.varchar, self.flag,
                          self.character, self.pointer])()

    def integer(self, symbols=tuple(INTEGERS)):
        symbol = self.pick(symbols)
        words = INTEGERS[symbol][0]
        return Kind(symbol, 0, words, "", OF_EVALUATOR.get(words, words))

    def flag(self):
        return Kind("bool", 0, "bool", "", "bool")

    def letters(self):
        return self.pick([("char", "char"), ("char", "char"), ("unsigned_char", "unsigned char")])

    def character(self):
        symbol, words = self.letters()
        return Kind(symbol, 1, words, "", words)

    def text(self):
        symbol, words = self.letters()
        n = self.pick([1, 2, 3, 4, 5, 9])
        return Kind(symbol, n, words, f"[{n}]", array(words, n))

    def pointer(self):
        return Kind("char", 0, "char *", "", ("pointer", "char"))

    def varchar(self):
        n = self.pick([1, 2, 4, 5, 9])
        words = f"struct varchar_{self.name('v')} {{ int len; char arr[{n}]; }}"
        return Kind("varchar", n, words, "", struct(("len", "int"), ("arr", array("char", n))))

    # -- declarations

    def value_of(self, kind):
        """An initializer."""
        word = self.pick([w for w in WORDS if len(w) < max(kind.length, 1)] or [""])
        if kind.symbol == "varchar":
            return f'{{{self.pick([len(word), len(word), 0, kind.length])}, "{word}"}}'
        if kind.suffix:
            return f'"{word}"'
        if kind.words == "char *":
            return self.pick((["NULL"] if self.chance(self.wild) else []) + ['"literal"', '"much room"', "room", "room"] + self.texts)
        return self.integer_value(kind)

    def integer_value(self, kind):
        if kind.symbol == "bool":
            return self.pick(["0", "1", "true", "5"])
        if kind.symbol not in INTEGERS:
            return self.pick(["'x'", "0", "65", "'\\377'"])
        return constant(self.pick([0, 1, 5, 42, 100, 7, *edges(*INTEGERS[kind.symbol][1:]), -1]))

    def declared(self, kind, is_global, into=None):
        """A variable of a kind, or an array of it."""
        name, n = self.name("g" if is_global else "l"), self.pick([None, None, 2, 3, 4])
        line = f"{kind.words}{'' if kind.words.endswith('*') else ' '}{name}{'' if n is None else f'[{n}]'}{kind.suffix}"
        if self.chance(0.7) if is_global and kind.words != "char *" else not self.chance(self.wild):
            values = [self.value_of(kind) for _ in range(n or 1)]
            least = 1 if kind.words != "char *" or self.chance(self.wild) else n
            line += " = " + (values[0] if n is None else "{" + ", ".join(values[:self.rng.randrange(least, n + 1)]) + "}")
        self.say(line + ";")
        for at in range(n or 1):
            value = name if n is None else f"{name}[{at}]"
            pointer = self.pointer_to(kind, value)
            if at == 0 and n is not None:
                pointer = self.pick([pointer, name])
            elif n is not None and self.chance(0.3):
                pointer = f"{name} + {at}"
            (self.hosts if into is None else into).append(Host(kind, value, pointer, (n or 1) - at, kind.size))
        if kind.suffix and n is None and kind.words == "char" and is_global:
            self.texts.append(name)
        return name

    def pointer_to(self, kind, value):
        return value if kind.suffix else f"&{value}"

    def structs(self, is_global, kinds, into):
        """A struct of these kinds, or an array of it."""
        name, tag, n = self.name("s"), self.name("t"), self.pick([None, 2, 3])
        members = [(self.name("m"), kind) for kind in kinds]
        inside = "".join(f"{k.words}{'' if k.words.endswith('*') else ' '}{m}{k.suffix}; " for m, k in members)
        size = evaluator.size(struct(*((m, k.type) for m, k in members)))
        is_zeroed = self.chance(0.5) and not kinds[0].suffix and kinds[0].symbol in INTEGERS
        self.say(f"struct {tag} {{ {inside}}} {name}{'' if n is None else f'[{n}]'}{' = {0}' * is_zeroed};")
        for at in range(n or 1):
            for m, kind in members:
                value = f"{name}.{m}" if n is None else f"{name}[{at}].{m}"
                into.append(Host(kind, value, self.pointer_to(kind, value), (n or 1) - at, size))
        self.unset += into[-(n or 1) * len(members):]

    def declare(self, is_global):
        if self.chance(0.25):
            self.structs(is_global, [self.kind() for _ in range(self.rng.randrange(1, 5))], self.hosts)
        else:
            self.declared(self.kind(), is_global)

    def declare_indicator(self, is_global):
        if self.chance(0.3):
            self.structs(is_global, [self.integer(INDICATORS) for _ in range(self.rng.randrange(1, 4))], self.indicators)
        else:
            self.declared(self.integer(INDICATORS), is_global, self.indicators)

    # -- values

    def settle(self):
        """Gives what was declared its first values: mostly all of it."""
        for host in self.unset:
            if not self.chance(self.wild):
                for line in self.first_values(host):
                    self.say(line)
        self.unset = []

    def first_values(self, host):
        """All bytes of a text, so that none is unset."""
        v, kind = host.value, host.kind
        if kind.symbol == "varchar":
            return [f"{v}.len = 0;", f"memset({v}.arr, 'z', {kind.length});"]
        return [f"memset({v}, 'z', {kind.length});"] if kind.suffix else self.setting(host)

    def setting(self, host):
        """Statements that give a host a value."""
        kind, v = host.kind, host.value
        if kind.symbol == "varchar":
            n = self.pick([0, 1, kind.length, kind.length - 1, self.rng.randrange(kind.length + 1)])
            if self.chance(3 * self.wild):
                n = self.pick([-1, kind.length + 1, -2147483647, 99])
            return [f"{v}.len = {n};", self.filling(f"{v}.arr", kind.length, False)]
        if kind.suffix:
            return [self.filling(v, kind.length, kind.words != "char")]
        if kind.words == "char *":
            return [f"{v} = {self.text_pointer()};"]
        return [f"{v} = {self.integer_value(kind)};"]

    def filling(self, v, length, is_cast):
        word = self.pick([w for w in WORDS if len(w) < length] or [""])
        if self.chance(self.wild):
            word = self.pick(WORDS)
        place = f"(char *){v}" if is_cast else v
        return self.pick([f'strcpy({place}, "{word}");', f'strncpy({place}, "{word}", {length});',
                          f"memset({v}, {self.pick(['0', chr(39) + 'y' + chr(39), '200'])}, {length});",
                          f"{v}[{self.rng.randrange(length)}] = {self.pick(['0', '65', '34'])};"])

    def text_pointer(self):
        if self.chance(self.wild):
            return self.pick(["NULL", "(char *)ip", "(char *)4294967296000L", "room + 12"])
        return self.pick(['"wordy"', "room", "room + 3"] + self.texts)

    # -- lists

    def long(self, n):
        return self.pick([f"{n}L"] * 9 + [f"{n}l", hex(n) + "L"])

    def odd_pointer(self):
        return self.pick(["(int *)0", "(char *)NULL", "ip", "ip", "(long *)7L", "(int *)8589934593L", "(char *)4294967296000L", "room + 9",
                          "(short *)(room + 11)", "&room[12]", "room + 13", "(char *)&gp + 4", "gp++", "(gp = room)", "&room[n++]",
                          "&\"made\"[1]", "(int *)(room + (n = 2))"])

    def in_area(self):
        """A host in sqlca."""
        symbol, length, pointer, size = self.pick([
            ("long", 0, "&sqlca.sqlcode", 8), ("long", 0, "&SQLCODE", 8), ("char", 5, "sqlca.sqlstate", 5), ("char", 5, "SQLSTATE", 5),
            ("char", 150, "sqlca.sqlerrm.sqlerrmc", 150), ("int", 0, "&sqlca.sqlerrm.sqlerrml", 4), ("long", 0, "&sqlca.sqlerrd[2]", 8),
            ("char", 8, "sqlca.sqlwarn", 8), ("char", 1, "sqlca.sqlwarn + 1", 1), ("long", 0, "sqlca.sqlerrd", 8)])
        return Host(Kind(symbol, length, "", "", None), "", pointer, 1, size)

    def with_elements(self, hosts, count):
        """One of these that has so many elements, if a few tries find one."""
        for _ in range(5):
            host = self.pick(hosts)
            if host.count >= count:
                break
        return host

    def any_host(self, count, symbols=None):
        """A host for a list: mostly one that fits its variable."""
        if symbols is None and self.chance(0.05):
            return self.in_area()
        host = self.with_elements(self.hosts if symbols is None else self.indicators, count)
        kind = host.kind
        if self.chance(self.wild):
            kind = self.integer(symbols) if symbols else self.kind()
        pointer = self.odd_pointer() if self.chance(self.wild) else host.pointer
        return Host(kind, host.value, pointer, host.count, max(host.distance, kind.size))

    def given(self, pointer, function="counted"):
        """A pointer, now and then as what a function gives."""
        return f"{function}({pointer})" if self.chance(self.calling) else pointer

    def indicator(self, count):
        """An indicator for so many elements, or none."""
        if self.chance(0.5) or not self.indicators:
            return "ECPGt_NO_INDICATOR, NULL, 0L, 0L, 0L"
        host = self.any_host(count, INDICATORS)
        told = max(host.count, count) + self.pick([0, 0, 0, 1])
        distance = host.distance if host.count > 1 and count > 1 else host.distance + self.pick([0, 0, 1, 8])
        return f"ECPGt_{host.kind.symbol}, {self.given(host.pointer)}, 0L, {self.long(told)}, {self.long(distance)}"

    def member(self, is_input, most):
        host = self.any_host(most)
        kind = host.kind
        count = 1 if is_input else min(host.count, most)
        if not is_input and self.chance(self.wild):
            count += self.pick([1, 2, 100])
        distance = host.distance + (self.pick([0, 0, 0, 1, 4, 100]) if count == 1 or self.chance(self.wild) else 0)
        size = kind.length if kind.symbol not in INTEGERS and kind.symbol != "bool" else 0
        numbers = ", ".join(map(self.long, [size, count, distance]))
        if is_input and self.chance(0.05):
            return f"ECPGt_{kind.symbol}, {self.pick(['ip', '(int *)0', host.pointer])}, {numbers}, ECPGt_short, &null, 0L, 1L, 2L"
        return f"ECPGt_{kind.symbol}, {self.given(host.pointer)}, {numbers}, {self.indicator(count)}"

    def constant(self):
        return f"ECPGt_const, {self.pick(LITERALS)}, 0L, 1L, 0L, ECPGt_NO_INDICATOR, NULL, 0L, 0L, 0L"

    def connection(self):
        if self.is_linked and self.chance(0.25):
            return self.pick(CONNECTIONS)
        return self.pick(["NULL"] * 22 + ['"db"', '"d" "b"', '"d\\142"', '"no"', '""', "connection", "(unsigned char *)connection", self.given("connection", "named")])

    def text_given(self):
        """A text that is known when it runs."""
        return self.pick(STATEMENTS + ["room", "connection", self.text_pointer()] + self.texts)

    def text_sent(self):
        """The symbol of a statement, and its text or its name."""
        if self.chance(0.5 if self.prepared else 0.15):
            name = self.pick(self.prepared if self.prepared and self.chance(0.9) else NAMES)
            return self.pick([["ECPGst_execute", name], ["ECPGst_execute", name], ["ECPGst_open", self.pick(HEADS), name]])
        if self.chance(0.85):
            return ["ECPGst_normal", self.pick(STATEMENTS)]
        return ["ECPGst_exec_immediate", self.text_given()]

    def text_with_marks(self):
        """A text with marks, in and outside of quotes and comments."""
        text = "".join(self.pick(BYTES_OF_SQL) for _ in range(self.rng.randrange(15)))
        return '"' + text.replace("??", "? ?").replace("??", "? ?") + '"'

    def preparing(self):
        """The text of ECPGprepare, or of ECPGdeallocate."""
        if self.prepared and self.chance(0.2):
            return f"ECPGdeallocate({self.line_told()}, {self.connection()}, {self.pick(self.prepared + NAMES)})"
        name = self.pick(NAMES)
        self.prepared.append(name)
        front = f"{self.line_told()}, {self.connection()}, {name}"
        text = self.text_given() if self.chance(0.3) else self.pick(MARKED) if self.chance(0.3) else self.text_with_marks()
        return f"ECPGprepare({front}, {text})"

    def on_connections(self):
        """A call that opens a connection, closes one, or makes one the current one."""
        line, name = self.line_told(), self.pick(CONNECTIONS + [self.given("connection", "named")])
        if self.chance(0.5):
            target = self.text_pointer() if self.chance(self.wild) else self.pick(SERVERS)
            user, password = self.who(), self.who()
            return f"ECPGconnect({line}, {target}, {user}, {password}, {self.pick(['NULL', name])})"
        if self.chance(0.45):
            return f"ECPGsetconn({line}, {name})"
        name = self.pick([name] * 5 + ['"CURRENT"', '"CURRENT"', '"CUR" "RENT"', '"ALL"', '"A\\114L"', '"all"', '"current"'])
        return f"ECPGdisconnect({line}, {name})"

    def who(self):
        """A user or a password."""
        return self.pick(["NULL"] * 6 + ['"me"', '"it\'s"', '""', '"a\\000b"', "connection", "room", self.text_pointer()])

    def described(self):
        """A descriptor as a member of a list."""
        return f"ECPGt_descriptor, {self.pick(DESCRIPTORS)}, 1L, 1L, 1L, ECPGt_NO_INDICATOR, NULL, 0L, 0L, 0L"

    def number_given(self):
        """An index or a count."""
        if self.chance(0.25):
            return self.member(True, 1)
        return f"ECPGt_const, {self.pick(INDEXES)}, 0L, 1L, 0L, ECPGt_NO_INDICATOR, NULL, 0L, 0L, 0L"

    def item_set(self):
        kind = self.pick(["data", "data", "indicator", "type"])
        if kind == "data":
            value = self.constant() if self.chance(0.5) else self.member(True, 1)
        else:
            value = self.number_given()
        return f"ECPGd_{kind}, {value}"

    def item_got(self):
        kind = self.pick(["data", "data", "data", "indicator", "name", "type", "ret_octet"])
        return f"ECPGd_{kind}, {self.member(False, 1)}"

    def on_descriptors(self):
        """A call on a descriptor."""
        name = self.pick(DESCRIPTORS)
        # a function of the program takes no unsigned characters
        if name[0] != "(" and self.chance(0.1):
            name = self.given(name, "named")
        front = f"{self.line_told()}, {name}"
        name = self.pick(["allocate_desc"] * 3 + ["deallocate_desc"] + ["get_desc_header", "set_desc_header"] * 2 + ["get_desc", "set_desc"] * 4)
        if name.endswith("allocate_desc"):
            return f"ECPG{name}({front})"
        if name.endswith("header"):
            return f"ECPG{name}({front}, {self.number_given() if name[0] == 's' else self.member(False, 1)})"
        one = self.item_set if name[0] == "s" else self.item_got
        items = [one() for _ in range(self.pick([0, 1, 1, 1, 2, 2, 3, 5]))]
        return f"ECPG{name}({', '.join([front, self.number_given(), *items, 'ECPGd_EODT'])})"

    def line_told(self):
        return self.number if self.is_lined and self.chance(0.8) else self.pick([1, 7, 42, 1000, 2147483647, "0x1f", 0])

    def call(self):
        """The text of a call."""
        if self.is_linked and self.chance(0.3):
            return self.on_connections()
        if self.is_described and self.chance(0.5):
            return self.on_descriptors()
        if self.chance(0.15):
            return f"ECPGtrans({self.line_told()}, {self.connection()}, {self.pick(CONTROLS)})"
        if self.chance(0.18):
            return f"ECPGsetcommit({self.line_told()}, {self.pick(SWITCHES)}, {self.connection()})"
        if self.chance(0.25):
            return self.preparing()
        inputs = [self.constant() if self.chance(0.12) else self.member(True, 1) for _ in range(self.pick([0, 0, 0, 1, 1, 2, 3, 6]))]
        most = self.pick([1, 1, 2, 3, 4])
        outputs = [self.member(False, most) for _ in range(self.pick([0, 1, 1, 1, 2, 2, 3, 4, 6]))]
        if self.is_described and self.chance(0.3):
            inputs.append(self.described())
        if self.is_described and self.chance(0.4):
            outputs = [self.described()]
        parts = [str(self.line_told()), self.connection(), *self.text_sent(), *inputs, "ECPGt_EOIT", *outputs, "ECPGt_EORT"]
        gap = ",\n" if self.chance(0.1) else ", "
        return f"ECPGdo({gap.join(parts)})"

    def call_statement(self):
        """A call where a statement may stand, and now and then as an expression whose value isn't wanted."""
        call = self.call()
        if self.chance(0.9):
            return f"{call};"
        return self.pick([f"{self.name('k')}: {call};", f"(void){call};", f"for ({call}; n < 0; n++) ;", f"({call});",
                          f"do {call}; while (n < 0);"])

    # -- statements

    def area_shown(self):
        self.say('printf("%ld %.5s %d %ld %d%d%d;%.149s\\n", sqlca.sqlcode, sqlca.sqlstate, sqlca.sqlerrm.sqlerrml, sqlca.sqlerrd[2], '
                 "sqlca.sqlwarn[0], sqlca.sqlwarn[1], sqlca.sqlwarn[2], sqlca.sqlerrm.sqlerrmc);")

    def handlers(self, in_loop):
        actions = ["sqlprint();", "goto done;", "failed();", "failed();", "sqlprint();"] + ["break;", "continue;"] * (2 * in_loop)
        for test in ["sqlca.sqlcode == 100", "sqlca.sqlwarn[0] == 'W'", "sqlca.sqlcode < 0"]:
            if self.chance(0.3):
                self.say(f"if ({test})")
                self.say("exit(1);" if self.chance(0.05) else self.pick(actions))

    def called(self, in_loop=False):
        """A call, in a block with its handlers as it is written of a statement, or alone."""
        for host in self.rng.sample(self.hosts + self.indicators, min(len(self.hosts + self.indicators), self.rng.randrange(4))):
            for line in self.setting(host):
                self.say(line)
        is_block = self.chance(0.7)
        if is_block:
            self.say("{")
        self.say(self.call_statement())
        if is_block:
            self.handlers(in_loop)
            self.lines.append("}")
        if self.chance(0.6):
            self.area_shown()

    def dying(self):
        """A pointer to an object that is gone."""
        self.say("{")
        self.say("int gone = 5;")
        self.say("ip = &gone;")
        if self.chance(0.5):
            self.say(f"ECPGdo({self.number}, NULL, ECPGst_normal, {self.pick(STATEMENTS)}, ECPGt_int, ip, 0L, 1L, 4L, ECPGt_NO_INDICATOR, NULL, 0L, 0L, 0L, "
                     "ECPGt_EOIT, ECPGt_EORT);")
        self.lines.append("}")

    def inner(self):
        """A block with variables of its own."""
        kept = list(self.hosts), list(self.indicators)
        self.say("{")
        for _ in range(self.rng.randrange(1, 3)):
            self.declare(False)
        self.settle()
        self.called()
        self.lines.append("}")
        self.hosts, self.indicators = kept

    def looped(self):
        kept = list(self.hosts), list(self.indicators)
        i = self.name("i")
        self.say(f"int {i};")
        self.say(f"for ({i} = 0; {i} < {self.pick([1, 2, 3])}; {i}++)")
        self.say("{")
        self.called(True)
        self.lines.append("}")
        self.hosts, self.indicators = kept

    def chosen(self):
        self.say(f"if ({self.pick(['n', '!n', 'sqlca.sqlcode', 'SQLCODE == 0', 'gp != NULL'])})")
        self.say(self.call_statement())
        if self.chance(0.5):
            self.lines.append("else")
            self.say(self.call_statement())

    def touched(self):
        """sqlca is the program's too."""
        self.say(self.pick(["sqlca.sqlerrm.sqlerrml = 3;", "sqlca.sqlerrm.sqlerrml = 500;", "sqlca.sqlerrm.sqlerrml = -1;", "sqlprint();",
                            "memset(&sqlca, 7, sizeof sqlca);", "SQLCODE = 5;", "strcpy(sqlca.sqlerrm.sqlerrmc, \"mine\");",
                            "sqlca.sqlcaid[0] = 'q';", "area = sqlca.sqlerrd;", "sqlca.sqlwarn[2] = 'W';", "n = n + 1;"]))
        if self.chance(0.4):
            self.say("sqlprint();")

    def statement(self):
        self.rng.choices([self.called, self.inner, self.looped, self.chosen, self.dying, self.touched, lambda: self.say("n = asks(n);")],
                         [9, 2, 2, 2, 1, 2, 2])[0]()

    # -- programs

    def whole(self):
        """The lines of a program up to the end of `main`'s statements."""
        if self.chance(0.7):
            self.lines += ["#include <ecpglib.h>", "#include <sqlca.h>"]
        self.say('char room[12] = "room";')
        self.say(f'char connection[4] = "{self.name_held}";')
        for line in ["char *gp = room;", "int *ip;", "int n;", "long *area;", "short null = -1;"]:
            self.say(line)
        for _ in range(self.rng.randrange(2, 6)):
            self.declare(True)
        for _ in range(self.rng.randrange(0, 3)):
            self.declare_indicator(True)
        self.function("void failed(void)", lambda: self.say('printf("failed ");'), "")
        self.function("void *counted(void *p)", lambda: self.say('printf("%d ", ++n);'), "return p;")
        self.function("char *named(char *p)", self.asking, "return p;")
        self.function("int asks(int a)", self.asking, "return a + 1;")
        self.lines += ["int main(void)", "{"]
        self.say("unsigned char *q;")
        for _ in range(self.rng.randrange(0, 3)):
            self.declare(False)
        for _ in range(self.rng.randrange(0, 2)):
            self.declare_indicator(False)
        self.settle()
        for _ in range(self.pick([0, 1, 2, 3]) * self.is_linked):
            self.say(self.on_connections() + ";")
        for _ in range(self.pick([0, 0, 1, 2])):
            self.say(self.preparing() + ";")
        for name in self.rng.sample(['"d"', '"e"', "connection"], self.pick([1, 1, 2, 3])) * self.is_described:
            self.say(f"ECPGallocate_desc({self.line_told()}, {name});")
        for _ in range(self.pick([0, 1, 2, 3]) * self.is_described):
            self.say(self.on_descriptors() + ";")
        for _ in range(self.rng.randrange(2, 7)):
            self.statement()
        self.say("done: ;")

    def function(self, head, body, end):
        kept = list(self.hosts), list(self.indicators), self.unset
        self.unset = []
        self.lines += [head, "{"]
        body()
        if end:
            self.say(end)
        self.lines.append("}")
        self.hosts, self.indicators, self.unset = kept

    def asking(self):
        self.declare(False)
        self.settle()
        self.say(self.call_statement())
        self.area_shown()


# ---- what is printed at the end

def cells_printed(pointer, cells, is_bytes=False):
    """Lines that print the cells which are set, by a pointer to bytes or another one."""
    there = [n for n, cell in enumerate(cells) if cell is not None]
    lines, bytes_at = ([], pointer) if is_bytes else ([f"q = (unsigned char *){pointer};"], "q")
    for start in range(0, len(there), 16):
        part = there[start:start + 16]
        form = " ".join(["%x"] * len(part))
        lines.append(f'printf("{form}\\n", {", ".join(f"{bytes_at}[{n}]" for n in part)});')
    return lines if there else []


def printed(run):
    """Lines that print sqlca, the globals, and what is set of the variables of main, by a run that didn't print them."""
    machine, program = run.machine, run.machine.program
    own = program.left
    found = {name: o.number for name, o in program.names[0].items() if isinstance(o, evaluator.Object) and name not in own}
    found |= {name: machine.first_frame[o] >> 32 for name, o in own.items() if o in machine.first_frame and name != "q"}
    lines = []
    for name, number in {"sqlca": 1, **found}.items():
        cells = machine.objects.get(number, [])
        cells = cells if name in ("sqlca", "room") else cells[:MOST_PRINTED]
        lines += cells_printed(f"&{name}", cells) if "q" in own else cells_printed(f"((unsigned char *)&{name})", cells, True)
    return lines + (pointed("gp", machine, machine.objects[found["gp"]]) if "q" in own else [])


def pointed(name, machine, cells):
    """What a pointer leads to."""
    if None in cells:
        return []
    p = int.from_bytes(bytes(cells), "little")
    there = machine.objects.get(p >> 32, [])
    return cells_printed(name, there[p % 2 ** 32:])


# ---- what the precompiler writes

class ServerMaker(Maker):
    """Writes a source whose statements pass to the server as they stand, with connections that are opened and closed."""

    names = ["one", "one", "two", "db", "Default", "all", "current"]

    def __init__(self, rng):
        super().__init__(rng)
        self.is_linked = self.chance(0.5)

    def executable(self):
        return self.spelled(self.pick([self.server] * 9 + [self.fetch] + self.linking())())

    def linking(self):
        """What makes the forms of connections and of transactions."""
        if not self.is_linked:
            return []
        return [self.connect, self.connect, self.connect, self.disconnect, self.set_connection, self.transaction, self.autocommit]

    def named(self):
        """A name of a connection, in a variable at times."""
        return self.text_argument(self.names) if self.chance(0.3) else self.pick(self.names + ["'x y'"])

    def connect(self):
        target = self.pick(["db", "db", "one", "one", "one", "two", "two", "'x y'", "'o''e'", "t @ w", "tcp:postgresql://host/db", "default"])
        if self.chance(0.3):
            target = self.text_argument(["db", "one"])
        return self.connected_to(target, self.names)

    def disconnect(self):
        return "DISCONNECT" + self.pick(["", " CURRENT", " ALL", " 'ALL'", " all", *[f" {self.named()}"] * 5])

    def set_connection(self):
        return "SET CONNECTION " + self.pick(["", "TO ", "= ", "to "]) + self.named()

    def into(self):
        hosts = self.outputs()
        return f"INTO {hosts}" if hosts else ""

    def at(self):
        if self.is_linked and self.chance(0.15):
            return f"AT {self.named()} "
        return f"AT {self.pick(['db', 'db', 'other'])} " if self.chance(0.1) else ""


def translated(rng):
    """The C of a random source, without its last statement, and that."""
    while (text := translator.answer(ServerMaker(rng).source())).startswith("ecpgc: "):
        pass
    at = re.search(r"(#line \d+\nreturn [^\n]*\n)?\}\n$", text).start()
    return text[:at], text[at:]


# ---- rows

def slots(rng, text):
    """Whether each slot is ready, and its name: one that is ready, for the most part, and free ones for a program that connects."""
    connects = re.search(r"ECPGconnect|CONNECT\s+TO", text, re.I) is not None
    found = [(False, rng.choice(TARGETS)) for _ in range(rng.choice([0, 3, 6, 9, 12, 12] if connects else [0, 0, 0, 1, 2]))]
    if rng.random() < 0.85:
        found.insert(rng.randrange(len(found) + 1), (True, rng.choice([b"db"] * 9 + [b"one"])))
    return found


def linked(rng, there, answers):
    """These slots, each with a link that makes its answers and mostly doesn't break."""
    return [Slot(r, n, answers(rng, sorted(rng.sample(range(6), rng.choice([0] * 12 + [1, 1, 2]))))) for r, n in there]


def places(rng, there, made):
    """These slots for a row: the answers that were made of them, now and then with one more or without the last."""
    found = []
    for (r, n), slot in zip(there, made):
        replies, breaks = slot.link.made, sorted(slot.link.breaks)
        replies = replies[:-1] if rng.random() < 0.05 else replies + [("done", "I", 1, False)] * (rng.random() < 0.1)
        found.append(SlotOf(r, n, replies, breaks))
    return found


def tampered(rng, text):
    """Now and then a call that isn't taken, or one more."""
    calls = [found.start() for found in re.finditer(r"ECPGdo\(", text)]
    if not calls or rng.random() > 0.07:
        return text
    at = rng.choice(calls)
    change = rng.choice([
        ("ECPGst_normal", "ECPGst_execute"), (" 0L, ", " "), ("1L", "0L"), ("1L", "1"),
        ("NULL, ECPGst", '"a", ECPGst'), ("ECPGt_EOIT", "ECPGt_EORT"), (", ECPGt_EORT", ""), ("ECPGt_int", "ECPGt_long"),
        ("ECPGt_short", "ECPGt_unsigned_short"), ("2L", "16777217L"), ("NULL, 0L, 0L, 0L", "NULL, 0L, 1L, 0L"), ("NULL", "0"),
        ("ECPGt_EOIT", "ECPGt_descriptor, \"d\", 1L, 1L, 1L, ECPGt_NO_INDICATOR, NULL, 0L, 0L, 0L, ECPGt_EOIT"),
        ("ECPGt_EOIT", "ECPGt_char, strcpy(sqlca.sqlerrm.sqlerrmc, \"x\"), 5L, 1L, 5L, ECPGt_NO_INDICATOR, NULL, 0L, 0L, 0L, ECPGt_EOIT"),
        ("ECPGdo(", "ECPGallocate_desc(1, \"d\");\nECPGdo("), ("ECPGdo(", "ECPGdeallocate_desc(1, connection);\nECPGdo("),
        ("ECPGdo(", "ECPGsetconn(1, NULL);\nECPGdo("), ("ECPGdo(", "ECPGdisconnect(1, 0);\nECPGdo("),
        ("ECPGdo(", "ECPGconnect(1, NULL, NULL, NULL, NULL);\nECPGdo("), ("ECPGdo(", "ECPGconnect(1, \"db\", NULL, NULL);\nECPGdo("),
    ])
    return text[:at] + text[at:].replace(*change, 1)


def made_by_hand(rng):
    """A program without its end, and that."""
    made = Programs(rng)
    made.whole()
    end = f"return {rng.choice([0, 3, 'n', '(int)sqlca.sqlcode'])};\n}}\n"
    return "\n".join(made.lines) + "\n", end


def row_tried(rng, title, is_translated):
    """A row, and its run."""
    front, end = (translated if is_translated else made_by_hand)(rng)
    front = tampered(rng, front)
    few = [10, 5, 3, 2, 1, 0]
    turns = rng.choice([30, 60, 60, 100, 100] * 4 + few if is_translated else [None] * 18 + few)
    there = slots(rng, front)
    made = linked(rng, there, Answers)
    first = Run(front + end, MOST_TURNS if turns is None else turns, made)
    if turns is None and first.ending[0] == "turns_spent":
        turns = MOST_TURNS
    if rng.random() < 0.25:
        turns = max(first.used - rng.choice([0, 0, 1]), 0)
    more = printed(first) if first.ending[0] == "exited" else []
    found = Row(title, front + "".join(line + "\n" for line in more) + end, turns, places(rng, there, made))
    return found, found.run()


def row(seed):
    """The row of a seed, and its run. Each fifth program is one that the precompiler writes."""
    rng = random.Random(f"calls {seed}")
    while True:
        try:
            found, run = row_tried(rng, f"calls {seed}", seed % 5 == 4)
        except (SyntaxError, KeyError):
            # what was put before a call stands where no statement may
            continue
        # the outputs of a row hold no more
        if len(run.output) <= ROOM and len(run.errors) < 3900:
            return found, run
