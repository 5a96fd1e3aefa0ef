"""Random sources for the translator: every embedded form, type of host and handler, mixed with C; and damaged ones.

What is made is meant to be accepted, for the most part. Types are those of `checker.py`.
"""

import random
import re

from checker import INT, Struct, array, is_array, is_number, is_pointer, is_struct, number, pointer
from hosts import CHARACTERS, INDICATORS, Varchar, is_struct_host, is_varchar, leaf, leaves

SPELLINGS = {
    "char": ["char", "char", "signed char", "const char", "char signed"],
    "uchar": ["unsigned char", "char unsigned"],
    "short": ["short", "short int", "signed short", "int short"],
    "ushort": ["unsigned short", "short unsigned int"],
    "int": ["int", "int", "int", "signed", "signed int", "const int", "int const"],
    "uint": ["unsigned", "unsigned int"],
    "long": ["long", "long int", "signed long"],
    "ulong": ["unsigned long", "long unsigned int"],
    "llong": ["long long", "long long int", "signed long long"],
    "ullong": ["unsigned long long", "long long unsigned"],
    "bool": ["bool"],
}
INTEGERS = [name for name in SPELLINGS if name not in ("char", "uchar")]
LENGTHS = ["{}", "{}", "{}", "{}", "{} + 0", "({})", "{} * 1", "'\\0' + {}", "{}U", "{} | 0", "-(-{})", "{}L", "{} << 0", "0x{:x}"]
KEYWORDS_OF_C = {"a", "b"}
SQL_NOISE = ["a", "b + 1", "count(*)", "'x  y'", "\"T x\"", "E'a\\'b'", "c::int", "4.5e3", ".5", "a[1:2]", "x -> 'k'", "now()",
             "'it''s'", "a  /* gap */ b", "a -- rest\n", "(a)", "$".replace("$", "%"), "coalesce(a, 0)", "\u00e4", "a$1"]


class Variable:
    def __init__(self, name, type, section):
        self.name, self.type, self.section = name, type, section


class Maker:
    """Writes one source from a random generator. `rate` says how often something else is taken than what is meant."""

    spellings, lengths, noise = SPELLINGS, LENGTHS, SQL_NOISE
    sqlca, stars = ["INCLUDE sqlca", "include SQLCA"], ["*", "* ", "*const "]

    def __init__(self, rng, rate=0):
        self.rng, self.out, self.count, self.rate = rng, [], 0, rate
        self.scopes = [[]]  # variables, innermost last
        self.structs = []  # tagged ones, with their sections
        self.functions = []  # names that may be called, with the types of their parameters
        self.cursors, self.prepared, self.areas, self.connections = [], [], ["d"], ["db"]
        self.words_of = {}  # the words in the texts of the cursors
        self.handlers = {}
        self.labels, self.in_loop, self.depth = set(), False, 0

    # ---- choices

    def chance(self, p):
        return self.rng.random() < p

    def pick(self, parts):
        return self.rng.choice(list(parts))

    def errs(self):
        return self.rate > 0 and self.rng.random() < self.rate

    def name(self, prefix):
        if self.errs() and self.chance(0.04):
            return self.pick(v.name for v in self.variables() or [Variable("main", INT, False)])
        self.count += 1
        return f"{prefix}{self.count}"

    def variables(self):
        seen, found = set(), []
        for scope in reversed(self.scopes):
            for variable in reversed(scope):
                if variable.name not in seen:
                    seen.add(variable.name)
                    found.append(variable)
        return found

    # ---- references

    def reference(self, variable):
        """A random reference that begins with a variable, and its type."""
        text, t = variable.name, variable.type
        while True:
            if is_array(t) and t[1] not in CHARACTERS and self.chance(0.45) or is_array(t) and self.chance(0.08):
                text, t = f"{text}[{self.index(t[2])}]", t[1]
            elif is_pointer(t) and is_struct(t[1]):
                if self.chance(0.25):
                    text, t = f"{text}[{self.index(2)}]", t[1]
                else:
                    name = self.pick(t[1][1].members)
                    text, t = f"{text}->{name}", t[1][1].members[name]
            elif is_pointer(t) and (t[1] not in CHARACTERS or self.chance(0.15)):
                text, t = f"{text}[{self.index(2)}]", t[1]
            elif is_struct(t) and (self.chance(0.12) if is_varchar(t) else self.chance(0.6)):
                name = self.pick(t[1].members)
                text, t = f"{text}.{name}", t[1].members[name]
            else:
                return text, t

    def index(self, length):
        integers = [v for v in self.variables() if is_number(v.type)]
        if integers and self.chance(0.3):
            return self.pick(integers).name
        return self.pick([str(self.rng.randrange(max(length, 1))), "0", "007"])

    def find(self, suits, tries=12):
        """A reference of a type that suits, or None."""
        if self.errs() and self.variables():
            text, t = self.reference(self.pick(self.variables()))
            return (text + self.pick([""] * 30 + [".m1", "->m1", "[0]", ".len", "[s1]"]), t)
        candidates = [v for v in self.variables() if v.section]
        large = [v for v in candidates if is_struct(v.type) or (is_array(v.type) and v.type[1] not in CHARACTERS)]
        for _ in range(tries if candidates else 0):
            text, t = self.reference(self.pick(large if large and self.chance(0.4) else candidates))
            if suits(t):
                return text, t
        return None

    def is_output(self, t):
        return None not in leaves(("name", "x"), t)

    def is_input(self, t):
        return self.is_output(t) and not (is_array(t) and t[1] not in CHARACTERS)

    def is_text(self, t):
        return is_varchar(t) or ((is_array(t) or is_pointer(t)) and t[1] in CHARACTERS)

    def indicator_for(self, t):
        integer = lambda m: is_number(m) and m[1] in INDICATORS
        if self.errs() and is_struct_host(t) and self.chance(0.7):
            return self.find(lambda i: is_struct_host(i) and self.plain(i[1] if is_array(i) else i), 40)
        if self.errs():
            return self.find(lambda i: is_struct_host(i) == is_struct_host(t) or self.chance(0.2))
        if is_struct_host(t):
            many = is_array(t)
            count = len(leaves(("name", "x"), t))

            def suits(i):
                struct = i[1] if is_array(i) else i
                if not is_struct_host(i) or is_array(i) != many or is_varchar(struct) or (many and i[2] != t[2]):
                    return False
                found = leaves(("name", "x"), i)
                return len(found) == count and all(l and l.length == 0 and l.symbol in ("short", "int", "long", "long_long")
                                                   and self.plain(struct) for l in found)

            return self.find(suits, 40)
        if is_array(t) and t[1] not in CHARACTERS:
            return self.find(lambda i: is_array(i) and integer(i[1]) and i[2] >= t[2], 40)
        return self.find(integer)

    def plain(self, struct):
        return all(is_number(t) or (is_struct(t) and self.plain(t)) for t in struct[1].members.values())

    def host(self, suits, may_have_indicator=True, only_by_word=False):
        found = self.find(suits)
        if found is None:
            return None
        text, t = found
        text = ":" + text
        if (may_have_indicator or self.errs()) and self.chance(0.4):
            indicator = self.indicator_for(t)
            if indicator is not None:
                forms = [" INDICATOR :", " indicator  :", "/* i */INDICATOR/**/:"]
                text += self.pick(forms if only_by_word else [" :", ":", "\n:", *forms]) + indicator[0]
        return text

    def text_argument(self, words):
        """`x`: a word, a quote, or a host."""
        choice = self.rng.random()
        if choice < 0.35:
            return self.pick(words)
        if choice < 0.55:
            return self.pick(["'{}'", "'{}'", "'{} '''", "'{}\\n'"]).format(self.pick(words))
        return self.host(self.is_text, False) or self.pick(words)

    def number_text(self):
        return self.pick(["0", "1", "42", "-7", "- 3", "007", "99999999999999999999"])

    def value(self, suits, only_by_word=False, may_have_indicator=True):
        choice = self.rng.random()
        if choice < 0.12:
            return self.number_text()
        if choice < 0.22:
            return self.pick(["'c'", "'a''b'", "'%d'", "''", "'a\"b'", "'\u00e9\t'"])
        return self.host(suits, may_have_indicator, only_by_word) or "1"

    def listed(self, make, most=4):
        return self.pick([",", ", ", " ,"]).join(make() for _ in range(self.rng.randint(1, most)))

    def outputs(self):
        hosts = [self.host(self.is_output) for _ in range(self.rng.randint(1, 3))]
        hosts = [host for host in hosts if host]
        return self.pick([", ", ",", " , "]).join(hosts) if hosts else None

    def inputs(self):
        return self.listed(lambda: self.value(self.is_input))

    # ---- embedded statements

    def spelled(self, text):
        """A statement with its blanks and the case of its words changed here and there; quotes and hosts stay."""
        parts = re.split(r"(E'(?:\\.|[^'])*'|'[^']*'|\"[^\"]*\"|:[A-Za-z_][\w.\[\]>-]*|/\*.*?\*/|--[^\n]*\n)", text, flags=re.S)
        for at in range(0, len(parts), 2):
            if self.chance(0.3):
                words = re.split(r"( )", parts[at])
                parts[at] = "".join(self.blank() if w == " " else w for w in words)
        return "".join(parts)

    def blank(self):
        return self.pick([" ", " ", "  ", "\n", "\t", " /* c */ ", "/**/", " -- c\n"]) if self.chance(0.3) else " "

    def cased(self, text):
        """Keywords in another case."""
        change = self.pick([str.upper, str.lower, str.title, str, str])
        return re.sub(r"\b[A-Z]{2,}\b", lambda found: change(found[0]), text)

    def emit(self, text, line=True):
        head = self.pick(["EXEC SQL", "EXEC SQL", "EXEC SQL", "exec sql", "EXEC  SQL", "Exec\nSQL"])
        self.out.append(f"{head} {text};" + (self.pick(["\n", "\n", " ", "\n\n", " /* c */\n", " // c\n"]) if line else " "))

    def at(self):
        return f"AT {self.text_argument(self.connections + ['DEFAULT', 'default'])} " if self.chance(0.2) else ""

    def executable(self):
        """The text of a statement that runs."""
        make = self.pick([self.server] * 9 + [self.transaction, self.connect, self.disconnect, self.set_connection, self.autocommit,
                         self.open, self.open, self.immediate, self.prepare, self.execute, self.execute, self.deallocate,
                         self.allocate, self.get, self.get, self.set, self.set, self.header, self.fetch])
        return self.spelled(make())

    def where(self):
        return self.pick(["", f" WHERE a = {self.value(self.is_input)}", f" where b IN ({self.inputs()})",
                          f" WHERE x={self.host(self.is_input, False) or 5}::int and s='a  b'", " ORDER BY 1 LIMIT 5"])

    def into(self):
        if self.chance(0.1):
            return f"INTO SQL DESCRIPTOR {self.area()}"
        hosts = self.outputs()
        return f"INTO {hosts}" if hosts else ""

    def server(self):
        noise = lambda: ", ".join(self.pick(self.noise) for _ in range(self.rng.randint(1, 3)))
        host = lambda: self.host(self.is_input) or "0"
        return self.at() + self.pick([
            lambda: f"{self.cased('SELECT')} {noise()} {self.into()} FROM t{self.where()}",
            lambda: f"SELECT {noise()} FROM t{self.where()} {self.into()}",
            lambda: f"INSERT INTO t VALUES ({self.inputs()})",
            lambda: f"INSERT INTO t (a, b) VALUES ({host()}, {noise()})",
            lambda: f"insert into t select {noise()} from u{self.where()}",
            lambda: f"UPDATE t SET a = {host()}, b = {host()}{self.where()}",
            lambda: f"DELETE FROM t{self.where()}",
            lambda: f"UPDATE t SET a = {host()} RETURNING a {self.into()}",
            lambda: f"CREATE TABLE t (a int, b char({self.rng.randint(1, 9)}))",
            lambda: f"SELECT (SELECT x INTO {host()} FROM y), {noise()} {self.into()}",
            lambda: f"{self.pick(['DROP TABLE t', 'SET x TO 5', 'set x = on', 'LOCK t', 'VACUUM', 'CALL p(1)', 'VALUES (1)'])}",
        ])()

    def fetch(self):
        cursor = self.pick(self.cursors or ["c"])
        form = self.pick([f"FETCH NEXT FROM {cursor} {self.into()}", f"FETCH {cursor} {self.into()}", f"CLOSE {cursor}",
                          f"FETCH {self.host(self.is_input, False) or 5} FROM {cursor} {self.into()}", f"MOVE 5 IN {cursor}"])
        return self.at() + self.cased(form)

    def transaction(self):
        return self.at() + self.pick(["COMMIT", "commit work", "ROLLBACK", "Rollback To Savepoint s", "SAVEPOINT s", "BEGIN",
                                      "START  TRANSACTION ISOLATION LEVEL SERIALIZABLE", "END", "ABORT", "RELEASE /* x */ s",
                                      "COMMIT PREPARED 'x'"])

    def connect(self):
        target = self.pick([lambda: self.text_argument(self.connections), lambda: "tcp:postgresql://localhost:5432/db",
                            lambda: "db @ host", lambda: "DEFAULT", lambda: "default", lambda: "'DEFAULT'"])()
        return self.connected_to(target, ["con1", "con2", "Default"])

    def connected_to(self, target, names):
        """CONNECT to a target, at times by one of these names, and with a user."""
        text = f"CONNECT TO {target}"
        if self.chance(0.4):
            text += f" AS {self.text_argument(names)}"
        if self.chance(0.4):
            text += f" USER {self.text_argument(['me', 'you'])}"
            if self.chance(0.6):
                text += self.pick([" IDENTIFIED BY ", " USING ", " / ", "/"]) + self.text_argument(["pass", "word"])
        return text

    def disconnect(self):
        names = ["con1", "CURRENT", "all", "Default", "con2"]
        return "DISCONNECT" + (" " + self.text_argument(names) if self.chance(0.85) else "")

    def set_connection(self):
        return "SET CONNECTION " + self.pick(["", "TO ", "= ", "to "]) + self.text_argument(["con1", "DEFAULT", "current"])

    def autocommit(self):
        return self.at() + "SET AUTOCOMMIT " + self.pick(["TO ", "= ", "=", "to "]) + self.pick(["ON", "OFF", "on", "Off"])

    def using(self):
        if self.chance(0.2):
            return f"SQL DESCRIPTOR {self.area()}"
        return self.inputs()

    def open(self):
        if not self.cursors and not self.errs():
            return self.fetch()
        cursor = self.pick(self.cursors or ["nowhere"])
        cursor = self.pick([cursor, cursor, cursor.upper(), cursor.title()])
        return self.at() + f"OPEN {cursor}" + (f" USING {self.using()}" if self.chance(0.3) else "")

    def command_text(self):
        if self.chance(0.4):
            return self.pick(["'DELETE FROM t'", "'INSERT INTO t VALUES (?, ''x'')'", "''", "'a\nb'"])
        return self.host(self.is_text, False) or "'x'"

    def area(self):
        """The name of a descriptor."""
        return self.text_argument(self.areas)

    def immediate(self):
        return self.at() + f"EXECUTE IMMEDIATE {self.command_text()}"

    def prepare(self):
        name = self.pick(["p", "P", "q", "all_of"])
        self.prepared.append(name)
        return self.at() + f"PREPARE {name} FROM {self.command_text()}"

    def execute(self):
        name = self.pick(self.prepared or ["p"])
        using = f" USING {self.using()}" if self.chance(0.6) else ""
        into = " " + self.into() if self.chance(0.5) else ""
        return self.at() + f"EXECUTE {name}" + (using + into if self.chance(0.5) else into + using)

    def deallocate(self):
        if self.chance(0.3):
            return f"DEALLOCATE DESCRIPTOR {self.area()}"
        return self.at() + self.pick(["DEALLOCATE PREPARE ", "deallocate prepare "]) + self.pick(self.prepared or ["p"])

    def allocate(self):
        return f"ALLOCATE DESCRIPTOR {self.area()}"

    def is_single(self, t):
        return leaf(("name", "x"), t) is not None

    def get(self):
        host = lambda: self.host(self.is_single, False)
        items = [(host(), self.pick(["DATA", "INDICATOR", "NAME", "TYPE", "RETURNED_OCTET_LENGTH", "data"])) for _ in range(3)]
        items = [f"{h} = {item}" for h, item in items if h][: self.rng.randint(1, 3)]
        if not items:
            return self.allocate()
        return (f"GET DESCRIPTOR {self.area()} VALUE {self.value(self.is_single, True)} "
                + self.pick([", ", ","]).join(items))

    def set(self):
        values = [(self.pick(["DATA", "INDICATOR", "TYPE", "data"]), self.value(self.is_single, may_have_indicator=False)) for _ in range(self.rng.randint(1, 3))]
        items = [f"{item} = {value}" for item, value in values]
        return f"SET DESCRIPTOR {self.area()} VALUE {self.value(self.is_single)} {', '.join(items)}"

    def header(self):
        area = self.area()
        if self.chance(0.5):
            host = self.host(self.is_single)
            return f"GET DESCRIPTOR {area} {host} = COUNT" if host else self.allocate()
        return f"SET DESCRIPTOR {area} COUNT = {self.value(self.is_single)}"

    def declare_cursor(self):
        name = self.pick(self.cursors) if self.cursors and self.errs() else self.name("cur")
        option = self.pick(["", "", "INSENSITIVE ", "NO SCROLL ", "scroll ", "ASENSITIVE "])
        hold = self.pick(["", "", " WITH HOLD", " without hold"])
        head = f"DECLARE {name} {option}CURSOR{hold} FOR "
        if self.chance(0.3):
            body = self.pick(self.prepared or ["p"])
        else:
            body = f"SELECT {self.pick(self.noise)} FROM t{self.where()}"
        self.emit(self.spelled(head + body))
        self.cursors.append(name)
        self.words_of[name] = set(re.findall(r"\w+", body))

    def whenever(self, in_function=True):
        condition = self.pick(["SQLERROR", "SQLWARNING", "NOT FOUND", "not found", "SqlError"])
        actions = ["CONTINUE", "SQLPRINT", "STOP", "sqlprint", "GOTO", "CALL", "CALL"]
        if (in_function and self.in_loop) or self.errs():
            actions += ["BREAK", "NEXT"]
        what = self.pick(actions)
        label = None
        if what == "GOTO":
            label = self.pick(["done", "failed", "out"])
            text = self.pick([f"GOTO {label}", f"GO TO {label}", f"goto {label}"])
        elif what == "CALL":
            callable = [(name, params) for name, params in self.functions if all(is_number(p) for p in params)]
            name, params = self.pick(callable + [("sqlprint", []), ("exit", [INT]), ("putchar", [INT])])
            text = self.pick(["DO", "CALL", "do"]) + f" {name}({', '.join(self.argument() for _ in params + [INT] * self.errs())})"
        else:
            text = {"BREAK": "DO BREAK", "NEXT": "DO CONTINUE"}.get(what, what)
        self.emit(self.spelled(f"WHENEVER {condition} {text}"))
        self.handlers[condition.upper()] = (what, label)

    def argument(self):
        integers = [v.name for scope in self.scopes[:1] for v in scope if is_number(v.type) or self.errs()]
        return self.pick(["0", "17", "3000000000", "'x'", "'\\n'", "'\\101'", "SQLCODE", *integers])

    # ---- declarations

    def scalar(self):
        return number(self.pick(["int", "int", "long", "short", "char", "bool", *SPELLINGS]))

    def characters(self, n=None):
        return array(number(self.pick(["char", "char", "char", "uchar"])), n or self.pick([1, 2, 5, 10, 180]))

    def indicator_type(self):
        return number(self.pick(INDICATORS))

    def base_of(self, t):
        """The innermost type, the stars, and the lengths of a type."""
        dims, stars = [], 0
        while is_array(t):
            dims.append(t[2])
            t = t[1]
        while is_pointer(t):
            stars, t = stars + 1, t[1]
        return t, stars, dims

    def length_text(self, n):
        form = self.pick(self.lengths)
        return form.format(n)

    def declared(self, name, t):
        """The base and the declarator of a name of a type, as texts."""
        inner, stars, dims = self.base_of(t)
        if is_struct(inner):
            base = self.pick(["VARCHAR", "VARCHAR", "varchar"]) if is_varchar(inner) else f"struct {inner[1].tag}"
            dims = dims + [inner[1].length] if is_varchar(inner) else dims
        else:
            base = self.pick(self.spellings[inner[1]])
        return base, self.pick(self.stars if self.chance(0.1) else ["*"]) * stars + name + "".join(
            f"[{self.length_text(n)}]" for n in dims)

    def member_types(self, depth=0):
        """Members of a struct: names, types and their text."""
        members, text = {}, []
        for _ in range(self.rng.randint(1, 4)):
            name = self.name("m")
            choice = self.rng.random()
            if choice < 0.45:
                t = self.scalar()
            elif choice < 0.65:
                t = self.characters()
            elif choice < 0.75:
                t = pointer(number(self.pick(["char", "uchar"])))
            elif choice < 0.85:
                t = ("struct", Varchar(None, self.pick([1, 3, 7, 10])))
            elif depth < 2:
                inner, body = self.member_types(depth + 1)
                struct = Struct(self.name("in") if self.chance(0.3) else None)
                struct.members = inner
                t = ("struct", struct)
                text.append(f"struct {struct.tag or ''} {{ {body} }} {name};")
                members[name] = t
                continue
            else:
                t = self.scalar()
            base, declarator = self.declared(name, t)
            text.append(f"{base} {declarator};")
            members[name] = t
        return members, self.pick([" ", "\n"]).join(text)

    def struct(self):
        """A struct with a tag and, often, one for its indicators."""
        tag = self.name("st")
        struct = Struct(tag)
        struct.members, body = self.member_types()
        self.out.append(f"struct {tag} {{ {body} }};\n")
        self.structs.append(("struct", struct))
        if self.chance(0.8):
            beside = Struct(self.name("ind"))
            count = len([None for l in leaves(("name", "x"), ("struct", struct))])
            names = [self.name("i") for _ in range(count)]
            beside.members = {name: self.indicator_type() for name in names}
            body = " ".join(f"{self.pick(self.spellings[t[1]])} {name};" for name, t in beside.members.items())
            self.out.append(f"struct {beside.tag} {{ {body} }};\n")
            self.structs.append(("struct", beside))

    def host_type(self):
        if self.structs and self.chance(0.22):
            struct = self.pick(self.structs)
            return self.pick([struct, struct, array(struct, self.rng.randint(1, 3)), array(struct, 3), pointer(struct)])
        varchar = ("struct", Varchar("varchar", self.pick([1, 5, 8, 40])))
        return self.pick([
            self.scalar, self.scalar, self.scalar, self.scalar, self.characters, self.characters, self.indicator_type, self.indicator_type,
            lambda: pointer(number(self.pick(["char", "char", "uchar"]))), lambda: varchar,
            lambda: array(varchar, self.rng.randint(1, 4)), lambda: array(self.scalar(), self.rng.randint(1, 5)),
            lambda: array(self.scalar(), 3), lambda: array(self.characters(), self.rng.randint(1, 4)),
            lambda: pointer(self.scalar()), lambda: array(self.indicator_type(), self.rng.randint(2, 6)),
        ])()

    def initializer(self, t):
        if is_number(t):
            return self.pick(["0", "1", "7", "'a'", "sizeof(int)", "-1", "1 + 2 * 3", "(char)200"])
        if is_array(t) and t[1] in CHARACTERS:
            return self.pick(['"x"', '""', "{'a'}", '{"b"}'])
        if is_pointer(t):
            return self.pick(["NULL", "0", '"text"']) if t[1] == number("char") else "NULL"
        if is_varchar(t):
            return self.pick(["{0}", '{1, "x"}', "{0, {'a'}}"])
        if is_array(t) and is_number(t[1]):
            return "{" + ", ".join(self.pick(["0", "1", "2"]) for _ in range(self.rng.randint(1, t[2]))) + self.pick(["", ","]) + "}"
        return None

    def declare(self, section, in_place=False, local=False):
        """One declaration, at times of several names."""
        shared = self.host_type()
        names, bases = [], None
        variables = []
        for _ in range(self.pick([1, 1, 1, 2, 3]) if not is_pointer(shared) else 1):
            t = shared
            if is_varchar(self.base_of(t)[0]) and not section and not self.errs():
                t = shared = self.scalar()
            here = [v.name for v in self.scopes[-1] + variables]
            outer = [v.name for scope in self.scopes[:-1] for v in scope if v.name not in here]
            if self.errs():
                used = set().union(*(self.words_of[cursor] for cursor in self.cursors))
                outer = [name for name in outer if name in used] * 10 or outer
            hides = local and outer and (self.chance(0.04) or self.errs())
            name = self.pick(outer) if hides else self.name(self.pick("abhknsvx"))
            if is_varchar(t):
                t = ("struct", Varchar("varchar_" + name, t[1].length))
            elif is_array(t) and is_varchar(t[1]):
                t = array(("struct", Varchar("varchar_" + name, t[1][1].length)), t[2])
            base, declarator = self.declared(name, t)
            bases = bases or base
            value = self.initializer(t) if self.chance(0.15) else None
            names.append(declarator + (f" = {value}" if value else ""))
            variables.append(Variable(name, t, section))
        text = f"{bases} " + self.pick([", ", ",", " , "]).join(names)
        self.scopes[-1] += variables
        if in_place:
            self.emit(text)
        else:
            static = "static " if not local and self.chance(0.05) else ""
            self.out.append(f"{static}{text};" + self.pick(["\n", "\n", " ", " // c\n"]))

    def declare_beside(self):
        """A declaration of an indicator for the variable that was declared last, where that is many values."""
        t = self.scopes[-1][-1].type if self.scopes[-1] else INT
        if is_struct_host(t):
            count = len(leaves(("name", "x"), t))
            fitting = [s for s in self.structs if len(leaves(("name", "x"), s)) == count and self.plain(s)]
            if not fitting:
                return
            beside = self.pick(fitting)
            beside = array(beside, t[2]) if is_array(t) else beside
        elif is_array(t) and t[1] not in CHARACTERS:
            beside = array(self.indicator_type(), t[2] + self.rng.randrange(2))
        else:
            return
        name = self.name("j")
        base, declarator = self.declared(name, beside)
        self.out.append(f"{base} {declarator};\n")
        self.scopes[-1].append(Variable(name, beside, True))

    def section(self, local=False):
        self.emit("BEGIN DECLARE SECTION")
        for _ in range(self.rng.randint(1, 5)):
            if self.chance(0.3) and not local:
                self.struct()
            self.declare(not self.errs(), local=local)
            if self.chance(0.6):
                self.declare_beside()
        self.emit(self.pick(["END DECLARE SECTION", "end declare  section"]))

    # ---- C

    def integer(self):
        """A reference to an integer that may be assigned to, or None."""
        found = [v for v in self.variables() if is_number(v.type)]
        return self.pick(found).name if found else None

    def expression(self, depth=0):
        if depth > 2 or self.chance(0.4):
            return self.pick([self.integer() or "1", str(self.rng.randrange(100)), "'c'", "sqlca.sqlcode", "SQLCODE", "sqlca.sqlerrd[2]",
                              "0x1fUL", "(int)3L", "sizeof(long)", "sizeof (1)", "strlen(SQLSTATE)"])
        a, b = self.expression(depth + 1), self.expression(depth + 1)
        form = self.pick(["{} + {}", "{} * {}", "({} - {})", "{} == {}", "{} < {}", "{} && {}", "{} || {}", "({} | {}) & 3", "!({} > {})",
                          "-({} + {})", "~({} ^ {})", "{} << ({} & 3)"])
        return form.format(a, b)

    def simple(self):
        name = self.integer()
        forms = ["printf(\"%d\\n\", (int)({e}));", ";", "puts(\"x\");", "sqlprint();", "{e};"]
        if name:
            forms += ["{n} = {e};", "{n}++;", "--{n};", "{n} += {e};", "{n} = {n} * 2;"]
        texts = [v.name for v in self.variables() if is_array(v.type) and v.type[1] == number("char") and v.type[2] > 1]
        varchars = [v.name for v in self.variables() if is_varchar(v.type)]
        if texts:
            forms += [f"strcpy({self.pick(texts)}, \"a\");", f"printf(\"%s|\", {self.pick(texts)});"]
        if varchars:
            v = self.pick(varchars)
            forms += [f"{v}.len = strlen({v}.arr);", f"{v}.arr[0] = 0;"]
        return self.pick(forms).format(n=name, e=self.expression())

    def run_statement(self, line=True):
        """An executable statement, with the labels that its handlers need."""
        for what, label in self.handlers.values():
            if what == "GOTO" and not self.errs():
                self.labels.add(label)
        self.emit(self.executable(), line)

    def statement(self):
        self.depth += 1
        choice = self.rng.random()
        if self.depth > 4:
            choice *= 0.7
        if choice < 0.5:
            self.run_statement()
        elif choice < 0.6:
            self.out.append(self.simple() + "\n")
        elif choice < 0.66:
            self.whenever()
        elif choice < 0.7:
            self.declare_cursor()
        elif choice < 0.73:
            self.declare(self.chance(0.6), self.chance(0.5), True) if self.chance(0.5) else self.section(True)
        elif choice < 0.8:
            self.out.append(f"if ({self.expression()})" + self.pick([" ", "\n"]))
            self.body()
            if self.chance(0.5):
                self.out.append("else ")
                self.body()
        elif choice < 0.9:
            self.loop()
        elif choice < 0.95:
            self.block()
        else:
            self.out.append(f"{self.name('l')}: ")
            self.run_statement() if self.chance(0.6) else self.out.append(self.simple() + "\n")
        self.depth -= 1

    def body(self):
        if self.errs():
            return self.pick([self.whenever, self.declare_cursor])()
        if self.chance(0.5):
            return self.block()
        self.run_statement() if self.chance(0.6) else self.out.append(self.simple() + "\n")

    def loop(self):
        before, self.in_loop = self.in_loop, True
        name = self.integer() or "sqlca.sqlcode"
        form = self.pick(["while", "for", "for", "do", "declared"])
        if form == "while":
            self.out.append(f"while ({self.expression()}) ")
            self.loop_body()
        elif form == "for":
            self.out.append(f"for ({self.pick([name + ' = 0', ''])}; {self.pick([self.expression(), ''])}; {self.pick([name + '++', ''])})\n")
            self.loop_body()
        elif form == "declared":
            i = self.name("i")
            self.scopes.append([Variable(i, INT, False)])
            self.out.append(f"for (int {i} = 0, *p{i} = &{i}; {i} < 3; {i}++) ")
            self.loop_body()
            self.close()
        else:
            self.out.append("do ")
            self.loop_body()
            self.out.append(f"while ({self.expression()});\n")
        self.in_loop = before

    def loop_body(self):
        """A body, behind which no handler leaves a loop."""
        if self.chance(0.3):
            return self.body()
        self.out.append("{\n")
        self.scopes.append([])
        for _ in range(self.rng.randint(1, 3)):
            self.statement()
        if self.chance(0.2):
            self.out.append(self.pick(["break;", "continue;"]))
        for condition, (what, _) in list(self.handlers.items()):
            if what in ("BREAK", "NEXT"):
                self.emit(f"WHENEVER {condition} CONTINUE")
                self.handlers[condition] = ("CONTINUE", None)
        self.close()
        self.out.append("}\n")

    def close(self):
        """Ends a scope. Cursors whose hosts it declared aren't opened behind it."""
        gone = {variable.name for variable in self.scopes.pop()}
        if not self.errs():
            self.cursors = [cursor for cursor in self.cursors if not gone & self.words_of[cursor]]

    def block(self):
        self.out.append("{\n")
        self.scopes.append([])
        for _ in range(self.rng.randint(0, 3)):
            self.statement()
        self.close()
        self.out.append("}\n")

    def function(self, head, params, returns):
        self.labels = set()
        self.scopes.append([Variable(name, t, False) for name, t in params])
        self.out.append(head + self.pick([" {\n", "\n{\n"]))
        for _ in range(self.rng.randint(0, 2)):
            self.declare(True, True, True) if self.chance(0.5) else self.section(True)
        for _ in range(self.rng.randint(1, 7)):
            self.statement()
        for label in sorted(self.labels):
            self.out.append(f"{label}: {self.pick([';', self.simple()])}\n")
        if returns and self.chance(0.9):
            self.out.append(f"return {self.expression()};\n")
        self.close()
        self.out.append("}\n")

    def helper(self):
        """A function that a handler may call, before any handler is set."""
        params = [INT] * self.rng.randint(0, 2)
        name = self.name("f")
        listed = ", ".join(f"int p{at}" for at in range(len(params))) or "void"
        body = self.pick(["return;", "printf(\"%ld\\n\", sqlca.sqlcode);", ";"])
        self.out.append(f"void {name}({listed}) {{ {body} }}\n")
        self.functions.append((name, params))

    def source(self):
        for _ in range(self.pick([0, 0, 1])):
            self.out.append(self.pick(["#include <stdio.h>\n", "#include <sqlca.h>\n", "#include \"my.h\" // mine\n"]))
        if self.chance(0.5):
            self.emit(self.pick(self.sqlca))
        for _ in range(self.pick([0, 1, 2])):
            self.helper()
        for _ in range(self.rng.randint(1, 3)):
            self.pick([self.section, self.section, lambda: self.declare(True, True), lambda: self.declare(False)])()
        if self.chance(0.4):
            self.whenever(False)
        if self.chance(0.4):
            self.declare_cursor()
        if self.chance(0.3):
            t = self.scalar()
            self.function(f"static int {self.name('g')}({self.pick(self.spellings[t[1]])} arg)", [("arg", t)], True)
        if self.chance(0.3):
            self.pick([lambda: self.section(), lambda: self.whenever(False)])()
        self.function(self.pick(["int main(void)", "int main()", "int\nmain ( void )"]), [], True)
        return "".join(self.out)


# ---- damage

TOKEN = re.compile(r"[A-Za-z_]\w*|\d\w*|'(?:[^'\\\n]|\\.)*'|\"(?:[^\"\\\n]|\\.)*\"|/\*.*?\*/|//[^\n]*|\s+|->|::|.", re.S)
STRANGE = ["int", "short", "char", "VARCHAR", "struct", "*", ":", ";", ",", "(", ")", "[", "]", "{", "}", "=", "0", "1", "const", "bool",
           "INTO", "USING", "SQL", "DESCRIPTOR", "INDICATOR", "VALUE", "COUNT", "DATA", "AT", "FROM", "FOR", "CURSOR", "zz", "sqlca",
           "NULL", "main", "unsigned", "AS", "USER", "TO", "DO", "BREAK", "CONTINUE", "GOTO", "OPEN", "EXECUTE", "DECLARE", "SECTION",
           "->", ".", "'q'", "\"q\"", "5", "done", "printf", "true", "if", "while", "void"]


def is_name(token):
    return bool(re.fullmatch(r"[a-z]\w*\d+", token))


def damage_once(rng, text):
    """One thing changed in a text."""
    kind = rng.choice(["names"] * 8 + ["drop", "double", "strange", "swap", "line", "line", "mark", "mark", "type", "type", "type", "number", "number", "lines"])
    if kind in ("line", "lines"):
        lines = text.split("\n")
        at = rng.randrange(len(lines))
        line = lines.pop(at)
        if kind == "lines" and rng.random() < 0.5:
            return "\n".join(lines)
        lines.insert(rng.randrange(len(lines) + 1), line)
        if rng.random() < 0.3:
            lines.insert(rng.randrange(len(lines) + 1), line)
        return "\n".join(lines)
    if kind == "mark":
        found = [m for m in re.finditer(r"(?i)exec\s+sql\s+(begin|end)\s+declare\s+section\s*;|exec\s+sql(?=\s+(?:int|char|short|long|VARCHAR))", text)]
        if found:
            one = rng.choice(found)
            return text[: one.start()] + text[one.end():]
    tokens = TOKEN.findall(text)
    places = [at for at, token in enumerate(tokens) if not token.isspace()]
    if not places:
        return text
    at = rng.choice(places)
    if kind == "names":
        named = [place for place in places if is_name(tokens[place])]
        if len(named) > 1:
            at = rng.choice(named)
            tokens[at] = tokens[rng.choice(named)] if rng.random() < 0.95 else "none"
    elif kind == "type":
        words = [place for place in places if tokens[place] in ("int", "short", "char", "long", "VARCHAR", "bool", "unsigned")]
        if words:
            tokens[rng.choice(words)] = rng.choice(["int", "short", "char", "long", "VARCHAR", "bool", "unsigned", "void", "const"])
    elif kind == "number":
        numbers = [place for place in places if tokens[place].isdigit()]
        if numbers:
            tokens[rng.choice(numbers)] = rng.choice(["0", "1", "2", "3", "5", "17000000", "-1", "x", "", "sizeof(int)", "(int)2"])
    elif kind == "drop":
        tokens[at] = ""
    elif kind == "double":
        tokens[at] += rng.choice(["", " "]) + tokens[at]
    elif kind == "swap":
        other = rng.choice(places)
        tokens[at], tokens[other] = tokens[other], tokens[at]
    else:
        tokens[at] = rng.choice(STRANGE)
    return "".join(tokens)


def valid(seed):
    """The source of a seed."""
    return Maker(random.Random(f"valid {seed}")).source()


def damaged(seed):
    """The source of a seed with faults: of other hosts, types and names than are meant, or with one to three things changed."""
    rng = random.Random(f"damaged {seed}")
    if rng.random() < 0.5:
        return Maker(rng, rng.choice([0.05, 0.1, 0.2])).source()
    text = Maker(rng).source()
    for _ in range(rng.choice([1, 1, 1, 2, 3])):
        text = damage_once(rng, text)
    return text
