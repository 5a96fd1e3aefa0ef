"""Random sources of what both this precompiler and PostgreSQL's own `ecpg` take: docs/LANGUAGE.md tells what lies outside."""

import random

from checker import is_array, is_number, is_pointer, is_struct, number, pointer
from hosts import CHARACTERS, is_varchar
from source_texts import Maker

WORDS = {
    "char": ["char", "char", "signed char", "const char"],
    "uchar": ["unsigned char"],
    "short": ["short", "short int"],
    "ushort": ["unsigned short", "unsigned short int"],
    "int": ["int", "int", "const int"],
    "uint": ["unsigned int", "unsigned"],
    "long": ["long", "long int"],
    "ulong": ["unsigned long", "unsigned long int"],
    "llong": ["long long", "long long int"],
    "ullong": ["unsigned long long", "unsigned long long int"],
    "bool": ["bool"],
}
NOISE = ["a", "b + 1", "count(*)", "'x  y'", "\"T x\"", "E'a\\'b'", "c::int", "4.5e3", ".5", "a[1:2]", "x -> 'k'", "now()", "'it''s'",
         "a  /* gap */ b", "(a)", "coalesce(a, 0)"]


class SharedMaker(Maker):
    """Writes a source that is meant to be accepted by both."""

    spellings, lengths, noise, sqlca, stars = WORDS, ["{}"], NOISE, ["INCLUDE sqlca", "include sqlca"], ["*"]

    def text_argument(self, words):
        """A name, or a host."""
        plain = [word for word in words if word.lower() not in ("all", "current", "default")] or ["x"]
        return self.chance(0.4) and self.text_host() or self.pick(plain)

    def text_host(self):
        texts = [v.name for v in self.variables() if v.section and self.is_plain_text(v.type)]
        return ":" + self.pick(texts) if texts else None

    def member_types(self, depth=0):
        """No structs in structs: for `ecpg` the indicators of these are structs again."""
        return super().member_types(2)

    def reference(self, variable):
        """A variable, an element of it, or a member of a struct that is no VARCHAR."""
        text, t = variable.name, variable.type
        if is_array(t) and t[1] not in CHARACTERS and not is_array(t[1]) and self.chance(0.4):
            text, t = f"{text}[{self.index(t[2])}]", t[1]
        if is_struct(t) and not is_varchar(t) and self.chance(0.6):
            plain = [name for name, member in t[1].members.items() if not is_struct(member) or is_varchar(member)]
            if plain:
                name = self.pick(plain)
                text, t = f"{text}.{name}", t[1].members[name]
        return text, t

    def is_plain_text(self, t):
        """Whether `ecpg` takes names and commands from it: an array of one character is no text there."""
        if is_varchar(t):
            return t[1].length > 1
        return t == pointer(number("char")) or (is_array(t) and t[1] == number("char") and t[2] > 1)

    def is_integer(self, t):
        return is_number(t) and t[1] not in ("bool", "char", "uchar")

    def immediate(self):
        return self.at() + f"EXECUTE IMMEDIATE {text}" if (text := self.text_host()) else self.transaction()

    def prepare(self):
        if not (text := self.text_host()):
            return self.transaction()
        self.prepared.append("p")
        return self.at() + f"PREPARE p FROM {text}"

    def value(self, suits, only_by_word=False, may_have_indicator=True):
        if self.chance(0.15):
            return self.pick(["0", "1", "42"])
        return self.host(suits, may_have_indicator, only_by_word) or "1"

    def indicator_for(self, t):
        """One value beside one value, and structs beside structs."""
        return super().indicator_for(t) if not is_array(t) or t[1] in CHARACTERS else None

    def is_simple(self, t):
        return self.is_single(t) and not is_varchar(t) and not is_pointer(t)

    def initializer(self, t):
        found = super().initializer(t)
        return found and found.replace(",}", "}").replace('""', '"x"')

    def where(self):
        return self.pick(["", f" WHERE a = {self.value(self.is_input)}", f" where b IN ({self.inputs()})"])

    def server(self):
        noise = lambda: ", ".join(self.pick(self.noise) for _ in range(self.rng.randint(1, 3)))
        host = lambda: self.host(self.is_input) or "0"
        return self.at() + self.pick([
            lambda: f"{self.cased('SELECT')} {noise()} {self.into()} FROM t{self.where()}",
            lambda: f"INSERT INTO t VALUES ({self.inputs()})",
            lambda: f"INSERT INTO t (a, b) VALUES ({host()}, {host()})",
            lambda: f"insert into t select {noise()} from u{self.where()}",
            lambda: f"UPDATE t SET a = {host()}, b = {host()}{self.where()}",
            lambda: f"DELETE FROM t{self.where()}",
            lambda: f"UPDATE t SET a = {host()} RETURNING a {self.into()}",
            lambda: f"CREATE TABLE t (a int, b char({self.rng.randint(1, 9)}))",
            lambda: self.pick(["DROP TABLE t", "SET x TO 5", "set x = on", "LOCK t", "VACUUM", "CALL p(1)", "VALUES (1)"]),
        ])()

    def connect(self):
        target = self.pick([lambda: self.text_argument(self.connections), lambda: "tcp:postgresql://localhost:5432/db",
                            lambda: "db@host", lambda: "DEFAULT"])()
        if target == "DEFAULT":
            return "CONNECT TO DEFAULT"
        return self.connected_to(target, ["con1", "con2"])

    def fetch(self):
        return super().fetch() if self.cursors else self.transaction()

    def get(self):
        host = lambda: self.host(self.is_simple, False)
        items = [(host(), self.pick(["DATA", "INDICATOR", "NAME", "TYPE", "RETURNED_OCTET_LENGTH", "data"])) for _ in range(3)]
        items = [f"{h} = {item}" for h, item in items if h][: self.rng.randint(1, 3)]
        if not items:
            return self.allocate()
        return f"GET DESCRIPTOR d VALUE {self.index_in_area()} " + self.pick([", ", ","]).join(items)

    def set(self):
        values = [(self.pick(["DATA", "INDICATOR", "TYPE", "data"]), self.host(self.is_simple, False) or "1") for _ in range(self.rng.randint(1, 3))]
        return f"SET DESCRIPTOR d VALUE {self.index_in_area()} " + ", ".join(f"{item} = {value}" for item, value in values)

    def header(self):
        host = self.host(self.is_integer, False)
        if self.chance(0.5):
            return f"GET DESCRIPTOR d {host} = COUNT" if host else self.allocate()
        return f"SET DESCRIPTOR d COUNT = {host or 1}"

    def index_in_area(self):
        return self.host(self.is_integer, False) or self.pick(["1", "2"])


def shared(seed):
    """The source of a seed."""
    return SharedMaker(random.Random(f"shared {seed}")).source()
