"""Random sources with prepared statements, cursors and descriptors that are run over SQLite (sqlite_link.py).

Each has the tables `t (a integer, b text)` and `u (k text UNIQUE)`, hosts of many types, and shows the code behind its statements
and now and then all its hosts. It never shows a message, since those of SQLite are another library's here.
"""

import random

HEAD = r"""EXEC SQL BEGIN DECLARE SECTION;
int n = 1; long l = 2; short i; int j; unsigned char u; bool f; long long at = 1;
char s[6] = "abc"; char w[3]; VARCHAR v[8] = {1, "5"}; char *p; unsigned char c[4] = "12";
int many[3]; char texts[2][4]; struct row { int a; char b[5]; } one; struct row two[2]; short told[3]; char name[3] = "d"; int step;
EXEC SQL END DECLARE SECTION;
char room[40] = "room";
void code(void) { printf("%ld %.5s %ld %d%d\n", sqlca.sqlcode, sqlca.sqlstate, sqlca.sqlerrd[2], sqlca.sqlwarn[0], sqlca.sqlwarn[1]); }
void hosts(void) {
    int k;
    printf("%d %ld %d %d %d %d %lld %.6s %.3s %d:%.8s %.40s %.4s", n, l, i, j, u, f, at, s, w, v.len, v.arr, room, (char *)c);
    for (k = 0; k < 3; k++) printf(" %d/%d", many[k], told[k]);
    for (k = 0; k < 2; k++) printf(" %.4s %d %.5s", texts[k], two[k].a, two[k].b);
    printf(" %d %.5s\n", one.a, one.b);
}
"""
NUMBERS, WORDS = ["n", "l", "at", "j", "i"], ["s", "w", "v", "p", "c"]
CELLS = ["NULL", "0", "1", "2", "7", "-3", "40000", "'x'", "'it''s'", "'long text'", "''", "'12'"]
QUERIES = ["SELECT a, b FROM t ORDER BY 1, 2", "SELECT a, b FROM t WHERE a = {} ORDER BY 2", "SELECT b FROM t WHERE a > {} AND a < 50 ORDER BY b",
           "SELECT count(*) FROM t", "SELECT count(*) AS many, max(a), min(b) FROM t", "SELECT a FROM t WHERE b = {} ORDER BY a",
           "SELECT k FROM u ORDER BY k", "SELECT {}, {}", "SELECT a + 1, b || {} FROM t ORDER BY 1, 2 LIMIT 1", "SELECT NULL, 'x', 5",
           "SELECT a FROM missing", "SELECT 1.5"]
CHANGES = ["INSERT INTO t VALUES ({}, {})", "INSERT INTO u VALUES ({})", "UPDATE t SET b = {} WHERE a = {}", "DELETE FROM t WHERE a = {}",
           "UPDATE t SET a = a + 1", "INSERT INTO t SELECT a, {} FROM t WHERE a < 3", "DELETE FROM u", "INSERT INTO missing VALUES ({})"]
CONTROLS = ["COMMIT", "ROLLBACK", "BEGIN WORK", "SAVEPOINT s", "ROLLBACK TO s", "RELEASE s", "START TRANSACTION", "COMMIT AND CHAIN", "END"]
AREAS = ["d"] * 7 + ["e", "e", "'D'", ":name"]
INDEXES = ["1"] * 6 + ["2", "2", "3", ":n", ":at", ":i", "0", "4", "1000", "1001", "'x'", "-1"]


class Source:
    def __init__(self, rng):
        self.rng, self.lines, self.cursors, self.is_prepared = rng, [], [], False

    def chance(self, p):
        return self.rng.random() < p

    def pick(self, choices):
        return self.rng.choice(choices)

    def say(self, text, is_shown=True):
        self.lines.append(f"EXEC SQL {text};" + " code();" * is_shown + " hosts();" * self.chance(0.15))

    def given(self):
        """An input."""
        host = ":" + self.pick(NUMBERS + WORDS)
        return host + self.pick([""] * 6 + [" :told[0]", " INDICATOR :i"])

    def filled(self, text, value):
        while "{}" in text:
            text = text.replace("{}", value(), 1)
        return text

    def outputs(self, text):
        """Hosts for the columns of a query, mostly."""
        wide = text.split(" FROM ")[0].count(",") + 1 + self.pick([0] * 12 + [1, -1])
        if self.chance(0.12):
            return ":one" if wide == 2 else ":two"
        if self.chance(0.15):
            return ", ".join(self.pick([":many :told", ":texts", ":texts :told", ":many"]) for _ in range(max(wide, 1)))
        return ", ".join(":" + self.pick(NUMBERS + WORDS + ["u", "f"]) + self.pick(["", "", " :i", ":j", " :told[1]"]) for _ in range(max(wide, 1)))

    def into(self, text):
        return f"INTO SQL DESCRIPTOR {self.pick(AREAS)}" if self.chance(0.45) else f"INTO {self.outputs(text)}"

    def using(self, text):
        if self.chance(0.4):
            return f" USING SQL DESCRIPTOR {self.pick(AREAS)}"
        count = text.count("{}") + self.pick([0] * 12 + [1, -1])
        return " USING " + ", ".join(self.constant() if self.chance(0.2) else self.given() for _ in range(count)) if count > 0 else ""

    def constant(self):
        return self.pick(["5", "-3", "'x'", "'it''s'", "''"])

    # ---- statements

    def query(self):
        text = self.pick(QUERIES)
        self.say(f"{self.filled(text, self.given)} {self.into(text)}")

    def change(self):
        self.say(self.filled(self.pick(CHANGES), self.given))

    def control(self):
        self.say(self.pick(CONTROLS) if self.chance(0.7) else f"SET AUTOCOMMIT TO {self.pick(['ON', 'OFF', 'OFF'])}")

    def prepared(self):
        text, is_query = (self.pick(QUERIES), True) if self.chance(0.6) else (self.pick(CHANGES), False)
        marked = self.filled(text, lambda: "?").replace("'", "''")
        name = self.pick(["q", "q", "r"])
        self.say(f"PREPARE {name} FROM '{marked}'")
        for _ in range(self.pick([1, 1, 2])):
            self.say(f"EXECUTE {name} " + (self.into(text) if is_query or self.chance(0.05) else "") + self.using(text))
        if self.chance(0.2):
            self.say(f"DEALLOCATE PREPARE {name}")

    def immediate(self):
        text = self.filled(self.pick(CHANGES), lambda: self.pick(CELLS))
        self.say("EXECUTE IMMEDIATE '" + text.replace("'", "''") + "'")

    def cursor(self):
        """A cursor that is opened, read and mostly closed."""
        name, text = f"c{len(self.cursors)}", self.pick(QUERIES)
        self.cursors.append(name)
        hold = self.pick(["", "", " WITH HOLD"])
        if self.chance(0.4):
            self.say("PREPARE q FROM '" + self.filled(text, lambda: "?").replace("'", "''") + "'")
            self.say(f"DECLARE {name} CURSOR{hold} FOR q", False)
            self.say(f"OPEN {name}" + self.using(text))
        else:
            self.say(f"DECLARE {name} CURSOR{hold} FOR {self.filled(text, self.given)}", False)
            self.say(f"OPEN {name}")
        self.fetches(name, text)
        if self.chance(0.8):
            self.say(f"CLOSE {name}")

    def fetches(self, name, text):
        if self.chance(0.4):
            self.lines.append(f"EXEC SQL WHENEVER NOT FOUND {self.pick(['DO BREAK', 'CONTINUE'])};")
            self.lines.append("for (step = 0; step < 4; step++) {")
            self.say(f"FETCH {self.pick(['', 'NEXT FROM '])}{name} {self.into(text)}")
            self.lines.append("}\nEXEC SQL WHENEVER NOT FOUND CONTINUE;")
        for _ in range(self.pick([0, 1, 2])):
            amount = self.pick(["", "NEXT FROM ", "2 FROM ", "ALL FROM "])
            self.say(f"FETCH {amount}{name} {self.into(text)}")

    def gets(self):
        area = self.pick(AREAS)
        if self.chance(0.4):
            self.lines.append(f"EXEC SQL GET DESCRIPTOR {area} :j = COUNT; code(); for (step = 1; step <= j + 1 && step < 6; step++) {{")
            self.got(area, ":step")
            self.lines.append("}")
        elif self.chance(0.3):
            self.say(f"GET DESCRIPTOR {area} :{self.pick(NUMBERS + WORDS)} = COUNT")
        else:
            self.got(area, self.pick(INDEXES))

    def got(self, area, index):
        items = [f":{self.pick(NUMBERS[:1] + ['l', 'i'])} = {item}" for item in ("TYPE", "RETURNED_OCTET_LENGTH", "INDICATOR") if self.chance(0.5)]
        items += [f":{self.pick(WORDS)} = NAME"] * self.chance(0.4) + [f":{self.pick(WORDS + NUMBERS + ['u', 'f'])} = DATA"] * self.chance(0.8)
        self.rng.shuffle(items)
        self.say(f"GET DESCRIPTOR {area} VALUE {index} {', '.join(items or [':n = TYPE'])}")
        self.lines.append("hosts();")

    def sets(self):
        area = self.pick(AREAS)
        if self.chance(0.3):
            self.say(f"SET DESCRIPTOR {area} COUNT = {self.pick(['0', '1', '2', '2', '3', ':n', '1000', '1001', '-1'])}")
            return
        items = [f"DATA = {self.pick([self.constant(), ':' + self.pick(NUMBERS + WORDS)])}"] * self.chance(0.8)
        items += [f"INDICATOR = {self.pick(['-1', '0', ':i', ':told[0]'])}"] * self.chance(0.3) + [f"TYPE = {self.pick(['4', '25', ':n', ':s'])}"] * self.chance(0.3)
        self.rng.shuffle(items)
        self.say(f"SET DESCRIPTOR {area} VALUE {self.pick(INDEXES)} {', '.join(items or ['DATA = :s'])}")

    def area(self):
        self.say(f"{self.pick(['ALLOCATE', 'ALLOCATE', 'DEALLOCATE'])} DESCRIPTOR {self.pick(AREAS)}")

    def assigned(self):
        self.lines.append(self.pick([
            "n = 7;", "n = 1;", "at = 2;", "i = -1;", "i = 0;", "told[0] = -1;", "told[0] = 0;", 'strcpy(s, "12");', 'strcpy(s, "x");', "v.len = 0;",
            'v.len = 2; memcpy(v.arr, "xy", 2);', "p = room;", "p = (char *)c;", "memset(w, 'q', 3);", "l = n + 40;", 'strcpy(name, "e");', "f = !f;"]))

    def text(self):
        self.lines = [HEAD + "int main(void) {", "p = room;"]
        if self.chance(0.4):
            self.say("CONNECT TO other AS o")
            if self.chance(0.3):
                self.say("SET CONNECTION TO db")
        self.say("CREATE TABLE t (a integer, b text)")
        self.say("CREATE TABLE u (k text UNIQUE)")
        for _ in range(self.pick([0, 1, 2, 3])):
            self.say(f"INSERT INTO t VALUES ({self.pick(CELLS)}, {self.pick(CELLS)})")
        self.say("ALLOCATE DESCRIPTOR d")
        for _ in range(self.rng.randint(4, 12)):
            self.pick([self.query, self.query, self.change, self.control, self.prepared, self.prepared, self.immediate, self.cursor, self.gets, self.gets,
                       self.sets, self.sets, self.area, self.assigned, self.assigned])()
        self.lines.append(f"hosts();\nreturn {self.pick(['0', 'j & 63'])};\n}}\n")
        return "\n".join(self.lines)


def source(seed):
    """The source of a seed, and its turns."""
    rng = random.Random(f"sqlite {seed}")
    return Source(rng).text(), rng.choice([100_000] * 27 + [30, 10, 5])
