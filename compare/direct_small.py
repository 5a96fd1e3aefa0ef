"""Small sources with embedded SQL, each about one matter of order: what is evaluated, tested or told first.

Each is a title, a number of turns, the replies, and the source, in which SHOWN stands for a statement that prints `sqlca`.
"""

SHOWN = ('printf("%ld %.5s %ld;%.149s\\n", sqlca.sqlcode, sqlca.sqlstate, sqlca.sqlerrd[2], '
         "sqlca.sqlerrm.sqlerrmc);")


def rows(*found, width=1):
    """Rows, all as wide as the first."""
    return ("rows", "I", [(b"a", 4)] * (len(found[0]) if found else width), [list(row) for row in found], False)


def done(count=None):
    return ("done", "I", count, False)


def refused(state, message):
    return ("refused", "I", state, message)


SMALL = [
    ("AT then input", 5, [], """\
int main(void) {
EXEC SQL char q[2] = "db";
EXEC SQL VARCHAR v[2]; v.len = 9;
EXEC SQL AT :q SELECT :v;
}
"""),
    ("AT place then input place", 5, [], """\
int main(void) {
EXEC SQL char *q;
EXEC SQL int *p = NULL;
EXEC SQL AT :q SELECT :p[1];
}
"""),
    ("input place then output place", 5, [], """\
EXEC SQL struct s { int a; int b; } *p;
EXEC SQL int k[2];
EXEC SQL long i = 5;
int main(void) {
EXEC SQL SELECT :k[i] INTO :p->b;
}
"""),
    ("value then indicator place", 5, [], """\
EXEC SQL struct s { int a; int b; } *p;
EXEC SQL short k[2];
EXEC SQL long i = 5;
int main(void) {
EXEC SQL SELECT 1 INTO :p->b:k[i];
}
"""),
    ("indicator then value read", 5, [], """\
EXEC SQL int *p = NULL;
EXEC SQL int x;
int main(void) {
EXEC SQL short k;
EXEC SQL VARCHAR v[2]; v.len = 9;
EXEC SQL SELECT :v:k;
}
"""),
    ("code before place", 5, [rows([b"x"]), rows([None])], """\
EXEC SQL char *q;
EXEC SQL int *p;
int y[1];
int main(void) {
p = y;
EXEC SQL SELECT 1 INTO :p[1];
SHOWN
EXEC SQL SELECT 1 INTO :p[1]:p[0];
SHOWN
}
"""),
    ("code before further place", 5, [rows([b"1"], [b"2"], [b"x"]), rows([b"1"], [b"2"], [b"3"])], """\
EXEC SQL struct s { int a[3]; } *p;
int y[2];
int main(void) {
p = (struct s *)y;
EXEC SQL SELECT 1 INTO :p->a;
SHOWN
EXEC SQL SELECT 1 INTO :p->a;
}
"""),
    ("pointer unset and too long", 5, [rows([b"ab"]), rows([b"ab"])], """\
EXEC SQL char *q; char r[3];
int main(void) {
EXEC SQL char *t; q = r;
EXEC SQL SELECT 1 INTO :q;
EXEC SQL SELECT 1 INTO :t;
}
"""),
    ("pointer too long", 5, [rows([b"abc"])], """\
EXEC SQL char *q; char r[3];
int main(void) {
q = r;
EXEC SQL SELECT 1 INTO :q;
}
"""),
    ("indicator trap after value", 5, [rows([b"5"])], """\
EXEC SQL int x;
EXEC SQL short *i;
int y[1];
int main(void) {
i = (short *)y;
EXEC SQL SELECT 1 INTO :x:i[2];
}
"""),
    ("cut then indicator trap", 5, [rows([b"5555"])], """\
EXEC SQL char x[2];
EXEC SQL short *i;
int y[1];
int main(void) {
i = (short *)y;
EXEC SQL SELECT 1 INTO :x:i[2];
}
"""),
    ("turn of open and places", 0, [], """\
EXEC SQL int *p;
int main(void) {
EXEC SQL DECLARE c CURSOR FOR SELECT :p[0];
EXEC SQL OPEN c;
}
"""),
    ("open uses then cursor", 2, [], """\
EXEC SQL VARCHAR v[2];
EXEC SQL int *p;
int main(void) {
EXEC SQL DECLARE c CURSOR FOR SELECT :v; v.len = 3; p = NULL;
EXEC SQL OPEN c USING :p[0];
}
"""),
    ("short told", 2, [rows([b"a" * 40000]), rows([b"b" * 32768], [b"b" * 32767])], """\
EXEC SQL VARCHAR v[2];
EXEC SQL short i;
EXEC SQL char c[2][2];
EXEC SQL short j[2];
int main(void) {
EXEC SQL SELECT 1 INTO :v:i;
printf("%d %d", i, v.len);
EXEC SQL SELECT 1 INTO :c:j;
printf(" %d %d", j[0], j[1]);
}
"""),
    ("row by row", 2, [rows([b"1", b"x"], [b"2", b"3"])], """\
EXEC SQL int a[2];
EXEC SQL int b[2];
int main(void) {
EXEC SQL SELECT 1 INTO :a, :b;
printf("%d %d %d %d", a[0], a[1], b[0], b[1]);
}
"""),
    ("index by what is stored", 2, [rows([b"2", b"7"])], """\
EXEC SQL int a[3];
EXEC SQL int i;
int main(void) {
i = 1;
EXEC SQL SELECT 1 INTO :i, :a[i];
printf("%d %d %d", i, a[1], a[2]);
}
"""),
    ("no connection, places trap", 2, [], """\
EXEC SQL int *p;
int main(void) {
EXEC SQL AT other SELECT 1 INTO :p[1];
}
"""),
    ("no connection, outputs can't", 2, [], """\
EXEC SQL char *p;
int main(void) {
EXEC SQL AT other SELECT 1 INTO :p;
SHOWN
}
"""),
    ("goto into for with block objects", 9, [], """\
EXEC SQL int x;
int main(void) {
EXEC SQL WHENEVER SQLERROR GOTO in;
EXEC SQL SELECT 1; for (int i = 0; i < 2; i++) { int k = 5; in: x++;
printf("%d", x); }
}
"""),
    ("goto ends blocks", 9, [], """\
EXEC SQL char *p;
int main(void) {
EXEC SQL WHENEVER SQLERROR GOTO out; { char k[3] = "db"; p = k;
EXEC SQL AT nope SELECT 1; } out: ;
EXEC SQL WHENEVER SQLERROR CONTINUE;
EXEC SQL AT :p SELECT 1;
}
"""),
    ("handler args read late", 9, [done(0), done(0)], """\
EXEC SQL int x; void f(int a, long b) { printf("%d %ld;", a, b); }
int main(void) {
EXEC SQL WHENEVER NOT FOUND DO f(x, SQLCODE); x = 4;
EXEC SQL SELECT 1; { int x = 9;
EXEC SQL SELECT 2; }
}
"""),
    ("handler of unset local", 9, [done(0)], """\
void f(int a) { }
int main(void) {
int x;
EXEC SQL WHENEVER NOT FOUND DO f(x);
 EXEC SQL SELECT 1;
}
"""),
    ("handler turn", 1, [done(0)], """\
void f(int a) { }
int main(void) {
int x;
EXEC SQL WHENEVER NOT FOUND DO f(1);
 EXEC SQL SELECT 1;
}
"""),
    ("handler goto turn", 1, [done(0)], """\
int main(void) {
EXEC SQL WHENEVER NOT FOUND GOTO e;
 EXEC SQL SELECT 1; e: ;
}
"""),
    ("line of trap in handler", 3, [done(0)], """\
void f(int a) {
 int y;
 y = 1 / a;
 }

int main(void) {
EXEC SQL WHENEVER NOT FOUND DO f(0);

 EXEC SQL SELECT 1
;
}
"""),
    ("line of NoValue", 9, [done(0)], """\
int f(int a) {
}

int main(void) {
EXEC SQL WHENEVER NOT FOUND DO f(0);

 EXEC SQL SELECT 1
; return
 f(1);
}
"""),
    ("sign and zeros", 9, [rows([b"-0", b"-5", b"-009223372036854775808"]), rows([b"-1"])], """\
EXEC SQL unsigned short u;
EXEC SQL char c;
EXEC SQL long long l;
int main(void) {
EXEC SQL SELECT 1 INTO :u, :c, :l;
SHOWN
printf("%d %d %lld", u, c, l);
EXEC SQL SELECT 1 INTO :u;
SHOWN
}
"""),
    ("sqlerrd of 2^63", 9, [done(2 ** 63), done(2 ** 64 - 1), done()], """\
int main(void) {
EXEC SQL DELETE;
SHOWN
EXEC SQL DELETE;SHOWN
EXEC SQL DELETE;SHOWN
}
"""),
    ("done with outs", 9, [done(1), done(0), done()], """\
EXEC SQL int x;
int main(void) {
EXEC SQL DELETE INTO :x;
SHOWN
EXEC SQL DELETE INTO :x;SHOWN
EXEC SQL DELETE INTO :x;SHOWN
}
"""),
    ("empty columns", 9, [rows([]), rows([], [])], """\
EXEC SQL int x;
int main(void) {
EXEC SQL DELETE INTO :x;
SHOWN
EXEC SQL DELETE;SHOWN
}
"""),
    ("message", 9, [refused(b"21000", b"m" * 145), refused(b"23505", b"ab\x00cd")], """\
int main(void) {
EXEC SQL
 DELETE;
SHOWN
EXEC SQL WHENEVER SQLERROR SQLPRINT;
EXEC SQL DELETE;
printf("%d", sqlca.sqlerrm.sqlerrml);
}
"""),
    ("code before a far place", 5, [rows([b"1", b"2"], [b"3", b"x"], [b"x", b"5"])], """\
EXEC SQL struct t { struct { int a; int b; } k[3]; } *q;
int y[3];
int main(void) {
q = (struct t *)y;
EXEC SQL SELECT 1 INTO :q->k;
SHOWN
}
"""),
    ("length above capacity", 5, [done()], """\
EXEC SQL VARCHAR v[2];
int main(void) {
v.len = 3;
EXEC SQL SELECT :v;
}
"""),
    ("input before connection", 5, [done()], """\
EXEC SQL VARCHAR v[2];
int main(void) {
v.len = -1;
EXEC SQL AT other SELECT :v;
}
"""),
    ("name of a descriptor then index place", 5, [], """\
EXEC SQL char *q; EXEC SQL int k[2]; EXEC SQL long i = 5; EXEC SQL int x;
int main(void) {
EXEC SQL struct s { char *q; } *p = NULL;
EXEC SQL GET DESCRIPTOR :p->q VALUE :k[i] :x = DATA;
}
"""),
    ("index place then item place", 5, [], """\
EXEC SQL struct s { int a; int b; } *p; EXEC SQL int k[2]; EXEC SQL long i = 5;
int main(void) {
EXEC SQL GET DESCRIPTOR d VALUE :k[i] :p->b = DATA;
}
"""),
    ("item places then turn", 0, [], """\
EXEC SQL struct s { int a; int b; } *p; EXEC SQL int k[2];
int main(void) {
EXEC SQL SET DESCRIPTOR d VALUE :k[0] DATA = :k[1], TYPE = :p->b;
}
"""),
    ("turn of a descriptor", 1, [], """\
int main(void) {
EXEC SQL ALLOCATE DESCRIPTOR d;
EXEC SQL DEALLOCATE DESCRIPTOR d;
}
"""),
    ("index read before the descriptor is found", 5, [], """\
EXEC SQL VARCHAR v[2]; EXEC SQL int x;
int main(void) {
v.len = 3;
EXEC SQL GET DESCRIPTOR d VALUE :v :x = DATA;
}
"""),
    ("name read before index", 5, [], """\
EXEC SQL char q[2] = "ab"; EXEC SQL VARCHAR v[2];
int main(void) {
v.len = 3;
EXEC SQL SET DESCRIPTOR :q VALUE :v DATA = 'x';
}
"""),
    ("items read before the first is set", 5, [], """\
EXEC SQL int x = 5; EXEC SQL int n; EXEC SQL VARCHAR v[2];
int main(void) {
v.len = 3;
EXEC SQL ALLOCATE DESCRIPTOR d;
EXEC SQL SET DESCRIPTOR d VALUE 1 DATA = :x, TYPE = :v;
}
"""),
    ("connection, prepared statement, descriptors", 20, [done()], """\
int main(void) {
EXEC SQL AT no EXECUTE p INTO SQL DESCRIPTOR e USING SQL DESCRIPTOR d;
SHOWN
EXEC SQL EXECUTE p INTO SQL DESCRIPTOR e USING SQL DESCRIPTOR d;
SHOWN
EXEC SQL PREPARE p FROM 'SELECT ?';
EXEC SQL EXECUTE p INTO SQL DESCRIPTOR e USING SQL DESCRIPTOR d;
SHOWN
EXEC SQL ALLOCATE DESCRIPTOR d;
EXEC SQL EXECUTE p INTO SQL DESCRIPTOR e USING SQL DESCRIPTOR d;
SHOWN
}
"""),
    ("descriptors before a transaction begins", 20, [done(), rows([b"x"]), done()], """\
int main(void) {
EXEC SQL SET AUTOCOMMIT TO OFF;
EXEC SQL SELECT 1 INTO SQL DESCRIPTOR d;
SHOWN
EXEC SQL ALLOCATE DESCRIPTOR d;
SHOWN
EXEC SQL SELECT 1 INTO SQL DESCRIPTOR d;
SHOWN
}
"""),
    ("a refused transaction leaves a descriptor", 20, [refused(b"25P01", b"no"), refused(b"42P01", b"no")], """\
EXEC SQL int n; EXEC SQL char s[3];
int main(void) {
EXEC SQL ALLOCATE DESCRIPTOR d;
EXEC SQL SET DESCRIPTOR d VALUE 2 DATA = 'ab';
EXEC SQL SET AUTOCOMMIT TO OFF;
EXEC SQL SELECT 1 INTO SQL DESCRIPTOR d;
SHOWN
EXEC SQL SET AUTOCOMMIT TO ON;
EXEC SQL SELECT 1 INTO SQL DESCRIPTOR d;
SHOWN
EXEC SQL GET DESCRIPTOR d :n = COUNT;
EXEC SQL GET DESCRIPTOR d VALUE 2 :s = DATA;
printf("%d %s", n, s);
}
"""),
    ("what is got before a code stays", 20, [rows([b"12", None], width=2)], """\
EXEC SQL int x; EXEC SQL bool b; EXEC SQL long l = 7; EXEC SQL short i = 9; EXEC SQL char c[2];
int main(void) {
EXEC SQL ALLOCATE DESCRIPTOR d;
EXEC SQL SELECT 1 INTO SQL DESCRIPTOR d;
EXEC SQL GET DESCRIPTOR d VALUE 1 :c = NAME, :x = DATA, :b = DATA, :l = DATA;
SHOWN
printf("%d %ld %c;", x, l, c[0]);
EXEC SQL GET DESCRIPTOR d VALUE 2 :x = TYPE, :l = DATA, :i = INDICATOR;
SHOWN
printf("%d %ld %d;", x, l, i);
EXEC SQL GET DESCRIPTOR d VALUE 2 :i = TYPE, :l = DATA, :x = TYPE;
SHOWN
printf("%d %ld %d;", x, l, i);
}
"""),
    ("what is set before a code stays", 20, [], """\
EXEC SQL int x; EXEC SQL char c[4]; EXEC SQL int n;
int main(void) {
EXEC SQL ALLOCATE DESCRIPTOR d;
EXEC SQL SET DESCRIPTOR d VALUE 2 TYPE = 'x', DATA = 'no';
SHOWN
EXEC SQL GET DESCRIPTOR d :n = COUNT;
printf("%d;", n);
EXEC SQL SET DESCRIPTOR d VALUE 2 DATA = 'yes', TYPE = 'x', DATA = 'no';
SHOWN
EXEC SQL SET DESCRIPTOR d VALUE 1 DATA = 'one';
EXEC SQL GET DESCRIPTOR d :n = COUNT;
EXEC SQL GET DESCRIPTOR d VALUE 2 :c = DATA, :x = TYPE;
printf("%d %.3s %d", n, c, x);
}
"""),
    ("a host that is the index", 20, [rows([b"2", b"7"])], """\
EXEC SQL int i = 1; EXEC SQL int x;
int main(void) {
EXEC SQL ALLOCATE DESCRIPTOR d;
EXEC SQL SELECT 1 INTO SQL DESCRIPTOR d;
EXEC SQL GET DESCRIPTOR d VALUE :i :i = DATA, :x = DATA;
printf("%d %d", i, x);
}
"""),
    ("names in sqlca", 20, [rows([b"1"])], """\
EXEC SQL char *q; EXEC SQL int n;
int main(void) {
q = sqlca.sqlstate;
EXEC SQL ALLOCATE DESCRIPTOR :q;
}
"""),
    ("a text that is prepared", 20, [done(), done(), done(2)], r"""
EXEC SQL char q[60] = "a ? 'it''s ?' E'\\'?' e\"?\" \"?\" /* ? /* */ ? */ -- ?\n?1?x?";
int main(void) {
EXEC SQL PREPARE p FROM :q;
EXEC SQL DECLARE c CURSOR FOR p;
EXEC SQL OPEN c USING 1, 'x', :q;
EXEC SQL EXECUTE IMMEDIATE :q;
EXEC SQL DEALLOCATE PREPARE P;
SHOWN
}
"""),
    ("escapes of a text that is prepared", 20, [done()], r"""
EXEC SQL char q[60] = "e'\\'?' ? xE'\\' ? 1E'\\' ? E '\\' ? E\"\\\" ?";
int main(void) {
EXEC SQL PREPARE p FROM :q;
}
"""),
]
