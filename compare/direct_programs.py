"""Random sources with embedded SQL that are run (direct.py), with what the server answers.

A source is run before it is done: each reply is made when it is asked for, so that it mostly fits the outputs of its statement,
and behind that run it is known which cells are set, so that the source can print them at its end.
"""

import random
import re
from dataclasses import dataclass

import evaluator
from call_programs import MOST_PRINTED, WORDS, Answers, ServerMaker, constant, linked, places, slots
from call_rows import ROOM, Place
from checker import BITS, INT, SIGNED, array, is_array, is_number, is_pointer, is_struct, number, pointer
from direct import Run
from direct_small import SHOWN, SMALL
from hosts import CHARACTERS, Varchar, is_varchar
from source_texts import SPELLINGS, Variable

MARK = "/* the end */\n"
SPELLED = {name: words[0] for name, words in SPELLINGS.items()}
GIVEN = """char room[40] = "room"; unsigned char rooms[24] = "rooms"; long numbers[6]; char space[700];
EXEC SQL BEGIN DECLARE SECTION; char conn[4] = "db"; char *connp = "db"; VARCHAR connv[6] = {2, "db"}; int n; long *lp; short null = -1; short kind;
EXEC SQL END DECLARE SECTION;
"""
GIVEN_COUNT = 4
AREA_SHOWN = ('printf("%ld %.5s %d %ld %d%d%d;%.149s\\n", sqlca.sqlcode, sqlca.sqlstate, sqlca.sqlerrm.sqlerrml, sqlca.sqlerrd[2], '
              "sqlca.sqlwarn[0], sqlca.sqlwarn[1], sqlca.sqlwarn[2], sqlca.sqlerrm.sqlerrmc);\n")
ODD = ["{ char gone[3] = \"x\"; connp = gone; }", "{ long gone = 5; lp = &gone; }", "connp = (char *)&connp;", "connp = NULL;", "lp = NULL;",
       "lp = (long *)(room + 33);", "connp = room + 37;", "memset(room, 'r', sizeof room);", "connp = (char *)&sqlca;",
       "lp = &sqlca.sqlcode;", "lp = sqlca.sqlerrd;", "lp = numbers + 5;", "memset(&n, 255, sizeof n);"]
TOUCHES = ["sqlca.sqlerrm.sqlerrml = 3;", "sqlca.sqlerrm.sqlerrml = 500;", "sqlca.sqlerrm.sqlerrml = -1;", "sqlprint();",
           "memset(&sqlca, 7, sizeof sqlca);", "SQLCODE = 5;", 'strcpy(sqlca.sqlerrm.sqlerrmc, "mine");', "sqlca.sqlcaid[0] = 'q';",
           "sqlca.sqlwarn[2] = 'W';", "n = n + 1;", "n = 0;", "null = 0;", "null = -1;", "sqlca.sqlcode = 100;", "connv.len = 9;",
           "connv.len = 2;", "connp = conn;", "conn[1] = 'x';", 'strcpy(conn, "db");']
HELPED = ["return;", 'printf("called %ld %d\\n", SQLCODE, n);', ";", "sqlca.sqlcode = -5;", "sqlca.sqlcode = 100;", "SQLCODE = 0;",
          "sqlca.sqlwarn[0] = 'W';", "memset(&sqlca, 0, sizeof sqlca);", "n++;", "{ int k = 3; connp = room + k; connp = conn; }",
          "exit(n + 4);", "EXEC SQL INSERT INTO log VALUES (:n :null);", "EXEC SQL SELECT c INTO :n FROM t;", "sqlprint();",
          "if (n) EXEC SQL AT :conn DELETE FROM t; else sqlprint();", "EXEC SQL GET DESCRIPTOR d :n = COUNT;",
          "EXEC SQL EXECUTE p USING :n, :null;"]
# What a text to prepare is put together of, as it stands between quotes.
PARTS = ["?", "?", "?", "''", "''", '"', "/*", "*/", "--", "\n", "E", "e", "\\", "x", "1", ".", "$", "_", " ", "ä", "E''", "?''?''"]
AREAS = ["d"] * 9 + ["e", "e", "D"]
INDEXES = ["1"] * 9 + ["2"] * 4 + ["3", "0", "-1", "- 1", "1000", "1001", "007", "99999999999999999999", "'x'", "'+1'", "''", "'2'"]
COUNTS = ["0", "1", "1", "2", "2", "3", "1000", "1001", "-1", "'x'", "' 1'", "'9223372036854775808'"]
NUMBERS = ["0", "1", "-1", "-1", "12", "2147483647", "2147483648", "-2147483648", "'x'", "'1x'", "'+7'", "'-0'", "''"]


class Replies(Answers):
    """Answers with more texts that are cut, a few of them longer than a short can tell, and more than one thing wrong at once."""

    def text(self, length):
        pick = self.rng.random()
        if pick < 0.012:
            return b"a" * self.rng.choice([32767, 32768, 40000])
        return b"b" * (length + self.rng.choice([1, 2])) if pick < 0.25 else super().text(length)

    def table(self, outputs):
        columns, rows = super().table(outputs)
        if outputs and rows and self.rng.random() < 0.03:
            more = min(m.count for m in outputs) + 1
            rows = [[*rows[0], b"1"]] * min(more, 5) if self.rng.random() < 0.5 else [rows[0][:-1]] * min(more, 5)
            columns = [(b"x", 4)] * len(rows[0])
        return columns, rows


class Programs(ServerMaker):
    """Writes a source whose variables have values and whose loops end, for the most part."""

    def __init__(self, rng):
        super().__init__(rng)
        self.wild = self.pick([0, 0, 0.01, 0.02, 0.06, 0.15])
        # what hosts and handlers are mostly of: arrays, or texts that are cut
        self.focus = self.pick(["", "", "many", "cut"])
        self.most = self.pick([2, 3, 4])
        self.world, self.callable, self.in_section = [], [], False
        self.early, self.placed = [], set()
        # whether there are prepared statements and descriptors
        self.is_prepared, self.is_described = self.chance(0.5), self.chance(0.8)

    # ---- values

    def value_of(self, t):
        if t[1] == "bool":
            return self.pick(["0", "1", "true", "5"])
        if t in CHARACTERS:
            return self.pick(["'x'", "0", "65", "'\\377'"])
        ends = [-2 ** (BITS[t[1]] - 1), 2 ** (BITS[t[1]] - 1) - 1] if t[1] in SIGNED else [2 ** BITS[t[1]] - 1]
        return constant(self.pick([0, 0, 0, 1, 1, 2, 5, 42, -1, *ends]))

    def filled(self, place, length):
        word = self.pick([w for w in WORDS if len(w) < length] or [""])
        if self.chance(self.wild):
            word = self.pick(WORDS)
        return self.pick([f'strcpy({place}, "{word}");', f'strncpy({place}, "{word}", {length});',
                          f"memset({place}, {self.pick(['0', chr(39) + 'y' + chr(39), '200'])}, {length});"])

    def text_pointer(self, t):
        if self.chance(self.wild):
            found = self.pick(["NULL", "(char *)lp", "(char *)4294967296000L", "room + 39"])
        else:
            texts = [v.name for v in self.scopes[0] if is_array(v.type) and v.type[1] == number("char")]
            found = self.pick(['"wordy"', '"much more room"', "room", "room", "room + 3", "(char *)rooms", "space + 600", *texts]
                              + ["sqlca.sqlerrm.sqlerrmc", "sqlca.sqlstate", "connv.arr"] * self.chance(0.2))
        return f"(unsigned char *)({found})" if t[1] == number("uchar") else found

    def pointer_value(self, t):
        of = t[1]
        if self.chance(self.wild):
            return self.pick(["NULL", "0"])
        if is_struct(of):
            same = [v.name for v in self.variables() if v.type == of]
            arrays = [v.name for v in self.variables() if is_array(v.type) and v.type[1] == of]
            return self.pick([f"(struct {of[1].tag} *)space", *[f"&{name}" for name in same], *arrays])
        same = [f"&{v.name}" for v in self.variables() if v.type == of]
        same += ["&sqlca.sqlcode", "&SQLCODE", "sqlca.sqlerrd"] * (of == number("long") and self.chance(0.3))
        return self.pick([f"({SPELLED[of[1]]} *)numbers", *same])

    def settled(self, text, t):
        """Statements that give a value of a type its first value; pointers have one, for the most part."""
        if is_number(t):
            return [f"{text} = {self.value_of(t)};"] if self.chance(0.5) else []
        if is_varchar(t):
            n = t[1].length
            length = self.pick([0, 1, n, n, max(n - 1, 0), self.rng.randrange(n + 1)])
            if self.chance(4 * self.wild):
                length = self.pick([-1, n + 1, -2147483647, 9999])
            return [f"{text}.len = {length};", self.filled(f"{text}.arr", n)] if self.chance(0.8) else []
        if is_array(t) and t[1] in CHARACTERS:
            return [self.filled(text if t[1] == number("char") else f"(char *){text}", t[2])] if self.chance(0.7) else []
        if is_array(t):
            return [one for at in range(t[2]) for one in self.settled(f"{text}[{at}]", t[1])]
        if is_struct(t):
            return [one for name, of in t[1].members.items() for one in self.settled(f"{text}.{name}", of)]
        if t[1] in CHARACTERS:
            return [f"{text} = {self.text_pointer(t)};"]
        found = [f"{text} = {self.pointer_value(t)};"]
        if is_struct(t[1]):
            found += [f"{text}->{name} = {self.text_pointer(of)};" for name, of in t[1][1].members.items()
                      if is_pointer(of) and of[1] in CHARACTERS]
        return found

    def settle(self, variables, is_local):
        for v in variables:
            if is_local and not self.chance(self.wild):
                self.out.append(f"memset(&{v.name}, 0, sizeof {v.name});\n")
            self.out += [f"{line}\n" for line in self.settled(v.name, v.type)]

    # ---- declarations

    def declare(self, section, in_place=False, local=False):
        """What each source has is hidden by nothing."""
        in_place = in_place or (section and not self.in_section)
        given, self.scopes[0] = self.scopes[0][:GIVEN_COUNT], self.scopes[0][GIVEN_COUNT:]
        before = len(self.scopes[-1])
        super().declare(section, in_place, local)
        self.made_since(before, local)
        self.scopes[0] = given + self.scopes[0]

    def section(self, local=False):
        self.in_section = True
        super().section(local)
        self.in_section = False

    def declare_beside(self):
        before = len(self.scopes[-1])
        super().declare_beside()
        self.made_since(before, len(self.scopes) > 1)

    def made_since(self, before, local):
        made = self.scopes[-1][before:]
        if local:
            self.settle(made, True)
        else:
            self.world += made

    # ---- statements

    def characters(self, n=None):
        return super().characters(n or self.pick([1, 2, 3, 4, 5, 10, 40]))

    def asked(self):
        """A statement that mostly has outputs."""
        noise = self.pick(self.noise)
        cursor = self.pick(self.cursors or ["c"])
        return self.at() + self.pick([
            lambda: f"{self.cased('SELECT')} {noise} {self.into()} FROM t{self.where()}",
            lambda: f"SELECT {noise} FROM t{self.where()} {self.into()}",
            lambda: f"FETCH {cursor} {self.into()}", lambda: f"UPDATE t SET a = 1 RETURNING {noise} {self.into()}"])()

    def executable(self):
        make = self.pick([self.server] * 5 + [self.asked] * 5 + [self.fetch] + [self.open] * (2 * bool(self.cursors))
                         + self.linking() + self.preparing() + self.describing())
        return self.spelled(make())

    def preparing(self):
        """What makes the forms of statements whose texts are known when they run."""
        return [self.prepare, self.prepare, *[self.execute] * 4, self.immediate, self.deallocate] * self.is_prepared

    def describing(self):
        """What makes the forms of descriptors."""
        return [self.allocate, self.free, *[self.get] * 4, *[self.set] * 3, self.header, self.header] * self.is_described

    def command_text(self):
        if self.chance(0.6):
            return "'" + "".join(self.pick(PARTS) for _ in range(self.rng.randrange(12))) + "'"
        return super().command_text()

    def prepare(self):
        name = self.pick(["p", "p", "p", "q", "P"])
        self.prepared.append(name)
        return self.at() + f"PREPARE {name} FROM {self.command_text()}"

    def deallocate(self):
        return self.at() + self.pick(["DEALLOCATE PREPARE ", "deallocate ", "DEALLOCATE "]) + self.pick(self.prepared or ["p"])

    def area(self):
        return self.pick(AREAS) if self.chance(0.8) else self.text_argument(AREAS)

    def free(self):
        return f"DEALLOCATE DESCRIPTOR {self.area()}"

    def number_given(self, numbers, only_by_word=False, may_have_indicator=True):
        """An index, a count or a value that is a number."""
        if self.chance(0.75):
            return self.pick(numbers)
        return self.value(self.is_single, only_by_word, may_have_indicator)

    def get(self):
        items = [(self.host(self.is_single, False), self.pick(["DATA", "DATA", "INDICATOR", "NAME", "TYPE", "RETURNED_OCTET_LENGTH", "data"]))
                 for _ in range(self.pick([1, 1, 2, 3]))]
        listed = self.pick([", ", ","]).join(f"{host} = {item}" for host, item in items if host)
        if not listed:
            return self.allocate()
        return f"GET DESCRIPTOR {self.area()} VALUE {self.number_given(INDEXES, True)} {listed}"

    def set(self):
        items = [self.item_set() for _ in range(self.pick([1, 1, 2, 3]))]
        return f"SET DESCRIPTOR {self.area()} VALUE {self.number_given(INDEXES)} {self.pick([', ', ',']).join(items)}"

    def item_set(self):
        item = self.pick(["DATA", "DATA", "INDICATOR", "TYPE", "data"])
        is_number = item in ("INDICATOR", "TYPE")
        value = self.number_given(NUMBERS, False, False) if is_number else self.value(self.is_single, may_have_indicator=False)
        return f"{item} = {value}"

    def header(self):
        if self.chance(0.5):
            host = self.host(self.is_single)
            return f"GET DESCRIPTOR {self.area()} {host} = COUNT" if host else self.allocate()
        return f"SET DESCRIPTOR {self.area()} COUNT = {self.number_given(COUNTS)}"

    def into(self):
        if self.is_described and self.chance(0.3):
            return f"INTO SQL DESCRIPTOR {self.area()}"
        return super().into()

    def at(self):
        if self.chance(2 * self.wild):
            return f"AT {self.pick([':connp', ':connv', self.host(self.is_text, False) or 'db'])} "
        if self.is_linked and self.chance(0.2):
            return f"AT {self.named()} "
        if self.chance(0.87):
            return ""
        return "AT " + self.pick(["db", "db", "'db'", ":conn", ":connp", ":connv", ":conn", ":connp", ":connv", "other", "DEFAULT", "'d'",
                                  self.host(self.is_text, False) or "db"]) + " "

    def using(self):
        return f"SQL DESCRIPTOR {self.area()}" if self.is_described and self.chance(0.4) else self.inputs()

    def index(self, length):
        """Mostly one of an element that is there."""
        if self.chance(self.wild):
            return super().index(length)
        counters = [v.name for v in self.variables() if re.fullmatch(r"i\d+", v.name) and v.type == INT and not v.section]
        if counters and length > 1 and self.chance(0.4):
            return self.pick(counters)
        return self.pick([str(self.rng.randrange(max(length, 1))), "0", "kind" if length > 1 else "00"])

    def declare_cursor(self):
        name = self.name("cur")
        option = self.pick(["", "", "INSENSITIVE ", "NO SCROLL ", "scroll ", "ASENSITIVE "])
        hold = self.pick(["", "", " WITH HOLD", " without hold"])
        is_named = self.is_prepared and self.chance(0.4)
        body = self.pick(self.prepared or ["p"]) if is_named else f"SELECT {self.pick(self.noise)} FROM t{self.where()}"
        self.emit(self.spelled(f"DECLARE {name} {option}CURSOR{hold} FOR {body}"))
        self.cursors.append(name)
        self.words_of[name] = set(re.findall(r"\w+", body))

    def whenever(self, in_function=True):
        condition = self.pick(["SQLERROR", "SQLWARNING", "NOT FOUND", "not found", "SqlError", "sqlwarning"])
        actions = ["CONTINUE", "SQLPRINT", "GOTO", "GOTO", "CALL", "CALL", "CALL"] + ["STOP"] * self.chance(0.4)
        actions += ["BREAK", "NEXT"] * (4 * (in_function and self.in_loop))
        what, label = self.pick(actions), None
        if what == "GOTO":
            label = self.pick(["done", "failed", "out"])
            text = self.pick([f"GOTO {label}", f"GO TO {label}", f"goto {label}"])
        elif what == "CALL":
            callable = [(name, params) for name, params in self.functions if all(is_number(p) for p in params)]
            name, params = self.pick(callable * 4 + [("sqlprint", []), ("exit", [INT]), ("putchar", [INT]), ("puts", ["text"])])
            arguments = [self.pick(["SQLSTATE", "conn", "room"]) if p == "text" else self.argument() for p in params]
            text = self.pick(["DO", "CALL", "do"]) + f" {name}({', '.join(arguments)})"
        else:
            text = {"BREAK": "DO BREAK", "NEXT": "DO CONTINUE"}.get(what, what)
        self.emit(self.spelled(f"WHENEVER {condition} {text}"))
        self.handlers[condition.upper()] = (what, label)

    def loop_body(self):
        """Handlers that leave a loop, or go on with it, are mostly set at its begin."""
        if self.chance(0.3):
            return super().loop_body()
        self.out.append("{\n")
        self.scopes.append([])
        self.whenever()
        for _ in range(self.rng.randint(1, 3)):
            self.statement()
        for condition, (what, _) in list(self.handlers.items()):
            if what in ("BREAK", "NEXT"):
                self.emit(f"WHENEVER {condition} CONTINUE")
                self.handlers[condition] = ("CONTINUE", None)
        self.close()
        self.out.append("}\n")

    def expression(self, depth=0):
        if depth > 1 or self.chance(0.5):
            return self.pick([self.integer() or "1", str(self.rng.randrange(3)), "'c'", "sqlca.sqlcode", "SQLCODE", "sqlca.sqlerrd[2]", "n",
                              "null", "kind", "sqlca.sqlwarn[0]"])
        a, b = self.expression(depth + 1), self.expression(depth + 1)
        form = self.pick(["{} == {}", "{} < {}", "{} && {}", "{} || {}", "!({} > {})", "({} | {}) & 3", "{} != {}"])
        return form.format(a, b)

    def simple(self):
        forms = [AREA_SHOWN.strip(), AREA_SHOWN.strip(), self.pick(TOUCHES), self.pick(TOUCHES)]
        forms.append(f'printf("%d\\n", (int)({self.expression()}));')
        found = [v for v in self.variables() if v.name != "kind"]
        if found:
            v = self.pick(found)
            forms += [f"{{ {' '.join(self.settled(v.name, v.type))} }}"] * 3
            integer = self.integer()
            if integer:
                forms += [f"{integer} = {self.expression()};", f'printf("%d|", (int){integer});']
        flags = [v.name for v in self.variables() if v.type == number("bool")]
        forms += [f"memset(&{name}, 5, 1);" for name in flags[:1]]
        forms += [self.pick(ODD)] * self.chance(5 * self.wild)
        if self.callable:
            name = self.pick(self.callable)
            forms += [f"n = {name}({self.pick(['0', '1', 'n'])});", f"{name}(2);", f"(void){name}(1);"]
        return self.pick(forms)

    def host_type(self):
        if self.chance(0.06):
            return array(array(self.pick([self.scalar, self.characters, self.indicator_type])(), self.rng.randint(1, 3)), self.rng.randint(1, 3))
        if self.focus == "many" and self.chance(0.6):
            of = [self.scalar(), self.characters(), self.indicator_type(), ("struct", Varchar("varchar", self.pick([1, 3, 8])))]
            return array(self.pick(of + self.structs * 2), self.most)
        if self.focus == "cut" and self.chance(0.4):
            return self.pick([self.characters(), ("struct", Varchar("varchar", self.pick([1, 3, 8])))])
        return super().host_type()

    def outputs(self):
        is_text = lambda t: is_varchar(t) or (is_array(t) and t[1] in CHARACTERS) or (self.is_output(t) and self.chance(0.4))
        suits = {"many": lambda t: is_array(t) and t[1] not in CHARACTERS and self.is_output(t), "cut": is_text}.get(self.focus, self.is_output)
        hosts = [self.host(suits) for _ in range(self.rng.randint(1, 4))]
        hosts = [host for host in hosts if host]
        return self.pick([", ", ",", " , "]).join(hosts) if hosts else super().outputs()

    def statement(self):
        before = len(self.out)
        if self.early and self.chance(0.07):
            # a handler may lead into this block
            label = self.early.pop()
            self.placed.add(label)
            self.out.append(f"{label}: {self.pick([';', 'n++;'])}\n")
        if self.chance(0.25):
            self.run_statement()
        else:
            super().statement()
        if self.chance(0.45) and any("SQL" in part.upper() for part in self.out[before:]):
            self.out.append(AREA_SHOWN)

    def loop(self):
        before, self.in_loop = self.in_loop, True
        form, i, most = self.pick(["while", "for", "do", "declared", "declared", "ever"]), self.name("i"), self.rng.randint(1, 3)
        self.scopes.append([Variable(i, INT, False)])
        if form == "declared":
            self.out.append(f"for (int {i} = 0, *p{i} = &{i}; {i} < {most}; {i}++) ")
            self.loop_body()
        elif form == "ever":
            self.out.append(f"for (int {i} = 0;; {i}++) {{ if ({i} > {most}) break;\n")
            self.loop_body()
            self.out.append("}\n")
        else:
            self.out.append(f"int {i} = 0;\n")
            if form == "while":
                self.out.append(f"while ({i}++ < {most}) ")
                self.loop_body()
            elif form == "for":
                self.out.append(f"for ({i} = 0; {i} < {most}; {i}++)\n")
                self.loop_body()
            else:
                self.out.append("do ")
                self.loop_body()
                self.out.append(f"while ({i}++ < {most});\n")
        self.close()
        self.in_loop = before

    # ---- programs

    def helper(self):
        """A function that a handler may call, before any handler is set."""
        params = [INT] * self.rng.randint(0, 2)
        name = self.name("f")
        listed = ", ".join(f"int p{at}" for at in range(len(params))) or "void"
        body = " ".join(self.pick(HELPED) for _ in range(self.rng.randint(1, 2)))
        self.out.append(f"{self.pick(['void', 'void', 'void', 'int']) if 'return;' not in body else 'void'} {name}({listed}) {{ {body} }}\n")
        self.functions.append((name, params))

    def function(self, head, params, returns):
        is_main = re.search(r"\bmain\b", head)
        self.labels, self.placed = set(), set()
        self.early = [label for label in ("done", "failed", "out") if self.chance(0.3)]
        self.scopes.append([Variable(name, t, self.in_section) for name, t in params])
        self.out.append(head + self.pick([" {\n", "\n{\n"]))
        if self.in_section:
            self.emit("END DECLARE SECTION")
            self.in_section = False
        if is_main:
            self.out.append("unsigned char *q; unsigned long *w;\n")
            self.settle(self.world, False)
        for _ in range(self.rng.randint(0, 2)):
            self.declare(True, True, True) if self.chance(0.5) else self.section(True)
        start = len(self.out)
        for _ in range(self.pick([0, 1, 2, 3]) if is_main and self.is_linked else 0):
            self.emit(self.spelled(self.connect()))
        for make in self.first_forms() if is_main else []:
            self.emit(self.spelled(make()))
        for _ in range(self.rng.randint(2, 8)):
            self.statement()
        front = [label for label in sorted(self.labels - self.placed) if self.chance(0.06)]
        self.out[start:start] = [f"{label}: ;\n" for label in front]
        for label in sorted(self.labels - self.placed):
            if label not in front:
                self.out.append(f"{label}: {self.pick([';', self.simple()])}\n")
        if is_main:
            self.out.append(MARK)
        if returns and self.chance(0.9):
            self.out.append(f"return {self.expression()};\n")
        self.close()
        self.out.append("}\n")

    def first_forms(self):
        """What `main` begins with, so that most names are there."""
        found = [self.prepare] * self.pick([0, 1, 1, 2]) * self.is_prepared
        if self.is_described:
            found += [lambda: "ALLOCATE DESCRIPTOR d"] * self.chance(0.9) + [self.allocate] * self.pick([0, 1])
            found += [self.set] * self.pick([0, 1, 2])
        return found

    def asking(self):
        """A function with statements in it, which others may call."""
        name, t = self.name("g"), self.pick([INT, number("long"), number("short")])
        if self.chance(0.3):
            self.functions.append((name, [t]))
        if self.chance(0.4):
            # what is declared behind the mark may be a host, parameters too
            self.emit("BEGIN DECLARE SECTION")
            self.in_section = True
        self.function(f"{self.pick(['static ', ''])}int {name}({SPELLED[t[1]]} arg)", [("arg", t)], True)
        self.callable.append(name)

    def source(self):
        for _ in range(self.pick([0, 0, 1])):
            self.out.append(self.pick(["#include <stdio.h>\n", "#include <sqlca.h>\n", "#include \"my.h\" // mine\n"]))
        if self.chance(0.5):
            self.emit(self.pick(self.sqlca))
        self.out.append(GIVEN)
        for name, t in (("n", INT), ("lp", pointer(number("long"))), ("null", number("short")), ("kind", number("short"))):
            self.scopes[0].append(Variable(name, t, True))
        self.world.append(Variable("lp", pointer(number("long")), True))
        for _ in range(self.rng.randint(1, 3)):
            self.pick([self.section, self.section, lambda: self.declare(True, True), lambda: self.declare(False)])()
        for _ in range(self.pick([0, 1, 2, 3])):
            self.helper()
        for _ in range(self.pick([0, 1, 2, 3]) + 3 * (self.focus == "cut")):
            self.whenever(False)
        if self.chance(0.5):
            self.declare_cursor()
        for _ in range(self.pick([0, 0, 1, 1, 2])):
            self.asking()
        if self.chance(0.3):
            self.pick([lambda: self.section(), lambda: self.whenever(False)])()
        self.function(self.pick(["int main(void)", "int main()", "int\nmain ( void )"]), [], True)
        return "".join(self.out)


# ---- what is printed at the end

def cells_printed(pointer, cells):
    """Lines that print the cells which are set, eight of them as one number."""
    values, at = [], 0
    while at < len(cells):
        if at % 8 == 0 and at + 8 <= len(cells) and None not in cells[at:at + 8]:
            values.append(("%lx", f"w[{at // 8}]"))
            at += 8
            continue
        if cells[at] is not None:
            values.append(("%x", f"q[{at}]"))
        at += 1
    lines = [f"q = (unsigned char *){pointer}; w = (unsigned long *)q;"] if values else []
    for start in range(0, len(values), 16):
        part = values[start:start + 16]
        lines.append(f'printf("{" ".join(form for form, _ in part)}\\n", {", ".join(value for _, value in part)});')
    return lines


def pointed(name, machine, cells):
    """Lines that print what a pointer leads to."""
    if None in cells or len(cells) != 8:
        return []
    p = int.from_bytes(bytes(cells), "little")
    return cells_printed(name, machine.objects.get(p >> 32, [])[p % 2 ** 32:][:MOST_PRINTED])


def printed(run):
    """Lines that print sqlca, the globals, and what is set of the variables of main, by a run that didn't print them."""
    machine, program = run.machine, run.machine.program
    own = {name: o for name, o in program.left.items() if name not in ("q", "w")}
    there = {name: o for name, o in program.names[0].items() if isinstance(o, evaluator.Object)} | own
    lines = cells_printed("&sqlca", machine.objects[1])
    for name, o in there.items():
        if o.is_global or o in machine.first_frame:
            at = o.number if o.is_global else machine.first_frame[o] >> 32
            cells = machine.objects.get(at, [])
            lines += cells_printed(f"&{name}", cells[:MOST_PRINTED])
            if o.type in (("pointer", "char"), ("pointer", "unsigned char")):
                lines += pointed(name, machine, cells)
    return lines


@dataclass
class Made:
    """A source with its turns, its slots, and its run, which is None where it can't be read."""

    title: str
    source: str
    turns: int
    places: list
    run: Run


def run_if_read(source, turns, there):
    """A run, or None where a name means something else where a cursor is opened, or a handler leads to no label: then the source
    has to be refused."""
    try:
        return Run(source, turns, there)
    except (AttributeError, KeyError, TypeError, ValueError, SyntaxError, IndexError, RecursionError):
        return None


def tried(rng, title):
    source = Programs(rng).source().encode().decode("latin-1")
    turns = given = rng.choice([20, 40, 60, 60, 100, 100, 200] * 3 + [10, 5, 3, 2, 1, 0])
    there = slots(rng, source)
    made = linked(rng, there, Replies)
    first = run_if_read(source, turns, made)
    if first is None:
        return Made(title, source, turns, [], None)
    if rng.random() < 0.25:
        turns = max(first.used - rng.choice([0, 0, 1]), 0)
    more = printed(first) if first.ending[0] == "exited" else []
    if more:
        source = source.replace(MARK, "".join(line + "\n" for line in more))
    found = places(rng, there, made)
    is_done = not more and turns == given and all(len(p.replies) >= len(slot.link.made) for p, slot in zip(found, made))
    return Made(title, source, turns, found, first if is_done else run_if_read(source, turns, [p.slot() for p in found]))


def made(seed):
    """The source of a seed."""
    rng = random.Random(f"direct {seed}")
    while True:
        found = tried(rng, f"direct {seed}")
        # the outputs of a row hold no more
        if found.run is None or len(found.run.output) <= ROOM and len(found.run.errors) < 3900:
            return found


def small():
    """The small sources."""
    found = []
    for title, turns, replies, source in SMALL:
        places, source = [Place(True, b"db", replies)], source.replace("SHOWN", SHOWN)
        found.append(Made(title, source, turns, places, Run(source, turns, [p.slot() for p in places])))
    return found
