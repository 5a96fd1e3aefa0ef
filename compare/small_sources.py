"""Small sources for the translator, each of which asks one thing: `SOURCES` by their names.

`LARGE` has some that are as large as they may be, or larger. `TOLD` says what the answer to some of these has to be: a
refusal, the whole C, or parts of it.
"""

SOURCES, LARGE, TOLD = {}, {}, {}
# How `run` ends that reads what is written: a call with a member more has 4,097 postfix parts, which is L3.
RUN = {"deep-host-4095": 0, "deep-host-4096": 71, "deep-host-4097": 71}
MAIN = "int main(void) { return 0; }\n"
OPEN, CLOSE = "EXEC SQL BEGIN DECLARE SECTION;\n", "EXEC SQL END DECLARE SECTION;\n"


def source(name, text):
    assert name not in SOURCES, name
    SOURCES[name] = text


def main(body):
    return f"int main(void) {{\n{body}\nreturn 0; }}\n"


def host(name, declarations, statement, before=""):
    """A main with a statement, and hosts that are declared in a section."""
    source(name, OPEN + declarations + "\n" + CLOSE + before + main(statement))


SELECT_WRITTEN = """#include <ecpglib.h>
#include <sqlca.h>
#line 1
int x;
#line 2
int main(void)
{
#line 3
{
#line 3
ECPGdo(3, NULL, ECPGst_normal, "SELECT a FROM t", ECPGt_EOIT, ECPGt_int, &x, 0L, 1L, 4L, ECPGt_NO_INDICATOR, NULL, 0L, 0L, \
0L, ECPGt_EORT);
}
#line 4
printf("%d\\012", x);
#line 5
return 0;
}
"""


def deep_host(n):
    """A host whose one leaf lies in so many structs."""
    structs = "".join(f"struct s{i} {{ struct s{i - 1} m; }};\n" for i in range(2, n + 1))
    return "struct s1 { int a; };\n" + structs + OPEN + f"struct s{n} h;\n" + CLOSE + main("EXEC SQL SELECT a INTO :h;")


def told():
    """What the answers to some sources have to be."""
    for name, text in {
        "bad-number": "int a = 08;", "no-semicolon": "int main(void) { return 0 }", "label-nowhere": "int f(void) { goto z; }",
        "no-last-line": SOURCES["select"].removesuffix("}\n"), "cut-statement": "\n".join(SOURCES["select"].split("\n")[:3])[:-1],
        "large-array": "char a[16777216];\n" + MAIN, "larger-array": "char a[16777217];\n" + MAIN,
        "stars-64": f"int {'*' * 64}p; {MAIN}", "stars-65": f"int {'*' * 65}p; {MAIN}",
    }.items():
        source(name, text)
    for n in (4096, 4097):
        LARGE[f"operators-{n}"] = f"int main(void) {{ return 0{' + 0' * n}; }}"
    for n in (2**24, 2**24 + 1):
        LARGE[f"blanks-{n}"] = " " * n
    for n in (4095, 4096, 4097):
        LARGE[f"deep-host-{n}"] = deep_host(n)
    TOLD.update({
        "select": SELECT_WRITTEN.replace("\\\n", ""), "empty": "F20 1", "cursor-of-another": "F28 6", "nested-65": "L3",
        "inputs-1001": "L4",
        "members-1001-output": "L5", "no-declaration": "F7 1", "outside": "F21 1", "break-outside": "F30 3", "open-quote": "F2 1",
        "open-comment": "F1 2", "open-statement": "F3 3", "directive-if-whenever": "F29 2", "bad-number": "F5 1",
        "no-semicolon": "F7 1",
        "label-nowhere": "F18 1", "no-last-line": "F7 6", "cut-statement": "F3 3", "larger-array": "L1", "stars-65": "L3",
        "operators-4097": "L3", f"blanks-{2**24}": "F20 1", f"blanks-{2**24 + 1}": "L6",
        "cursor": ['ECPGdo(6, NULL, ECPGst_normal, "DECLARE c CURSOR FOR SELECT a FROM t WHERE b = $1", ECPGt_int, &k, '],
        "array-of-structs": ["ECPGt_char, &a[0].c, 1L, 2L, 8L, ", "ECPGt_int, &a[0].n, 0L, 2L, 8L, "],
        "sent": ['"select a,b from \\"T x\\" where c=$1::int and s=\'a  b\'", ECPGt_int, &x, 0L, 1L, 4L, '.replace('\\"',
        '\\042')],
        **{f"deep-host-{n}": [f", ECPGt_int, &h{'.m' * (n - 1)}.a, 0L, 1L, 4L, "] for n in (4095, 4096, 4097)},
        "nested-64": [], "inputs-1000": [], "members-1000-output": [], "large-array": [], "stars-64": [], "operators-4096": [],
    })


def programs():
    """Programs of a few lines, for the order of phases and for limits."""
    one = "EXEC SQL int x;\n"
    cursor = """EXEC SQL int k;
int main(void) {
k = 1;
EXEC SQL DECLARE c CURSOR FOR SELECT a FROM t WHERE b = :k;
k = 2;
%s
return 0;
}
"""
    printed = one + 'int main(void) {\nEXEC SQL SELECT a FROM t INTO :x;\nprintf("%d\\n", x);\nreturn 0;\n}\n'
    source("select", printed)
    source("empty", "")
    source("carriage-returns", printed.replace("\n", "\r\n"))
    source("cursor", cursor % "EXEC SQL OPEN c;")
    source("cursor-of-another", cursor % "{ EXEC SQL int k = 3; EXEC SQL OPEN c; }")
    source("array-of-structs", main("EXEC SQL struct p { char c; int n; } a[2]; EXEC SQL SELECT c, n FROM t INTO :a;"))
    for n in (64, 65):
        source(f"nested-{n}", f"int main(void){'{' * n};{'}' * n}\n")
    for n in (1000, 1001):
        source(f"inputs-{n}", one + main(f"EXEC SQL INSERT INTO t VALUES ({', '.join([':x'] * n)});"))
        members = " ".join(f"short m{i};" for i in range(n))
        for name, statement in {"output": "SELECT 1 INTO :s", "input": "SELECT :s", "indicator": "SELECT 1 INTO :x :s",
                                "text": "CONNECT TO :s", "descriptor": "GET DESCRIPTOR d :s = COUNT",
                                "cursor": "DECLARE c CURSOR FOR SELECT :s", "many": "SELECT 1 INTO :many"}.items():
            host(f"members-{n}-{name}", f"struct s {{ {members} }} s, many[2]; int x;", f"EXEC SQL {statement};")
        source(f"members-{n}-outside", f"struct {{ {members} }} s;\n" + main("EXEC SQL SELECT 1 INTO :s;"))
        arrays = " ".join(f"int m{i}[2];" for i in range(n))
        host(f"members-{n}-arrays", f"struct {{ {arrays} }} s;", "EXEC SQL SELECT 1 INTO :s;")
    sent = "EXEC SQL select  /* c */ a,b\nfrom \"T x\" -- d;\nwhere c=:x::int and s='a  b';"
    source("sent", one + main("x = 5;\n" + sent))
    source("no-declaration", "EXEC SQL varChar v[3];\n" + MAIN)
    source("outside", "int y; int main(void) { EXEC SQL SELECT 1 INTO :y; }")
    source("break-outside", "EXEC SQL WHENEVER SQLERROR DO BREAK;\nint main(void) {\nEXEC SQL DELETE FROM t; }")
    source("break-outside-2", "EXEC SQL WHENEVER SQLERROR DO BREAK;\nint main(void) {\nEXEC SQL COMMIT WORK; }")
    source("under-if", "int a = 1; int b;\nEXEC SQL WHENEVER NOT FOUND GOTO done;\n" + main(
        'if (a) EXEC SQL DELETE FROM t; else b = 1;\nprintf("%d\\n", b);\ndone: ;'))
    source("in-text", main("if (0) { EXEC SQL WHENEVER SQLERROR STOP; } EXEC SQL DELETE FROM t;"))
    source("open-quote", "int main(void) { char c = 'a")
    source("open-comment", "\n/* x")
    source("open-statement", "\n\nEXEC SQL COMMIT\n")
    for n, text in enumerate([
        OPEN + "VARCHAR v[0];\n" + CLOSE + main("zz = 1;"), main("EXEC SQL SELECT :zz;\nEXEC SQL OPEN c;"),
        main("EXEC SQL OPEN c;\nEXEC SQL SELECT :zz;"), main("EXEC SQL OPEN c;\nEXEC SQL DECLARE;"),
        main("EXEC SQL OPEN c;\nEXEC SQL GET x;\nint a["), main("return 1 }\nchar c = 08;"),
        "char a[17000000];\nint zz = yy;\n" + MAIN, "int zz = yy;\nchar a[17000000];\n" + MAIN,
        "char a[17000000] = yy;\n" + MAIN,
    ]):
        source(f"phases-{n}", text)


REFERENCES = """SQLCODE SQLSTATE NULL true printf f g sqlca sqlca.sqlcode sqlca.sqlstate sqlca.sqlwarn[0] stdout zz main strlen
f.x f[1] f[zz] NULL[1] zz[yy] x[yy] x[f] x[true] x[NULL] x[p] x[s] x[SQLCODE] x[sqlca] x[printf] x[c] x[b] x[l] x[x] x[stdout]
x[outside] outside y[0] s.m s.n q->m q->n q[0].m q.m s->m x.m x->m p[0] p[1][0] v.len v.arr v.arr[1] v[0] vv[1] vv[1].arr vv w[0]
x[9223372036854775807] x[3] x[00] int x[int] EXEC r->m deep.a.b.c deep.a.b deep.a deep""".split()


def names():
    """References to names of all kinds."""
    declarations = """int x[3]; int y; struct { int m; } s, *q; char *p; char c; bool b; long l; VARCHAR v[5]; VARCHAR vv[2][5];
void *w; struct later *r; struct { struct { struct { int c; } b; } a; } deep; int g(void) { return 1; }"""
    for reference in REFERENCES:
        before = "int f(void) { return 1; }\nint outside;\n"
        host(f"name-{reference}", declarations.replace("struct later *r;", ""), f"EXEC SQL SELECT 1 INTO :{reference};", before)
    for reference in ("f", "g", "NULL", "true", "printf", "sqlca", "sqlca.sqlcode", "outside", "f.x", "NULL[1]"):
        host(f"indicator-name-{reference}", declarations.replace("struct later *r;", ""), f"EXEC SQL SELECT 1 INTO :y :{reference};",
             "int f(void) { return 1; }\nint outside;\n")
    host("name-unclosed", "struct later; struct later *r;", "EXEC SQL SELECT 1 INTO :r->m;")
    host("name-unclosed-element", "struct later; struct later *r;", "EXEC SQL SELECT 1 INTO :r[0];")


TYPES = {
    "int": "int h;", "char": "char h;", "uchar": "unsigned char h;", "schar": "signed char h;", "bool": "bool h;",
    "ullong": "unsigned long long h;", "char10": "char h[10];", "uchar10": "unsigned char h[10];", "char1": "char h[1];",
    "charp": "char *h;", "ucharp": "unsigned char *h;", "intp": "int *h;", "voidp": "void *h;", "charpp": "char **h;",
    "varchar": "VARCHAR h[10];", "varchars": "VARCHAR h[2][10];", "varchars3": "VARCHAR h[2][3][10];", "int3": "int h[3];",
    "int1": "int h[1];", "int23": "int h[2][3];", "char23": "char h[2][3];", "uchar23": "unsigned char h[2][3];",
    "char234": "char h[2][3][4];", "charp3": "char *h[3];", "bool2": "bool h[2];",
    "struct": "struct { int a; char b[4]; } h;", "structs": "struct { int a; char b[4]; } h[3];",
    "structs23": "struct { int a; char b[4]; } h[3][2];", "structp": "struct { int a; } *h;",
    "struct-array": "struct { int a[3]; } h;", "struct-charp": "struct { char *a; unsigned char *b; } h;",
    "structs-charp": "struct { char *a; int b; } h[3];", "struct-intp": "struct { int *a; } h;",
    "struct-inner": "struct { int a; struct { char b; long c; } d; short e; } h;",
    "structs-inner": "struct { int a; struct { char b; long c; } d; short e; } h[3];",
    "struct-inner-array": "struct { int a; struct { char b; long c; } d[2]; short e; } h;",
    "struct-varchar": "struct { int a; VARCHAR v[7]; } h;", "structs-varchar": "struct { int a; VARCHAR v[7]; } h[2];",
    "struct-varchars": "struct { int a; VARCHAR v[2][7]; } h;", "struct-char2": "struct { char a[2][7]; } h;",
    "struct-structp": "struct { struct q *a; } h;", "struct-self": "struct q { struct q *a; } h;",
}
PLACES = {
    "out": "SELECT 1 INTO :h", "in": "INSERT INTO t VALUES (:h)", "text": "CONNECT TO :h", "immediate": "EXECUTE IMMEDIATE :h",
    "get": "GET DESCRIPTOR d VALUE 1 :h = DATA", "index": "SET DESCRIPTOR d VALUE :h DATA = 1",
    "set": "SET DESCRIPTOR d VALUE 1 DATA = :h", "count": "GET DESCRIPTOR d :h = COUNT", "using": "EXECUTE p USING :h",
    "into": "EXECUTE p INTO :h", "area": "ALLOCATE DESCRIPTOR :h", "at": "AT :h COMMIT",
    "cursor": "DECLARE c CURSOR FOR SELECT :h;\nEXEC SQL OPEN c USING :h",
}


def types():
    """Hosts of all types at all places, in a section and outside."""
    for name, declaration in TYPES.items():
        for place, statement in PLACES.items():
            host(f"{place}-{name}", declaration, f"EXEC SQL {statement};")
            if "VARCHAR" not in declaration:
                source(f"{place}-{name}-outside", declaration + main(f"EXEC SQL {statement};"))


INDICATORS = {
    "short": "short i;", "int": "int i;", "long": "long i;", "llong": "long long i;", "char": "char i;", "bool": "bool i;",
    "ushort": "unsigned short i;", "short3": "short i[3];", "short2": "short i[2];", "short5": "short i[5];",
    "short1": "short i[1];", "char3": "char i[3];", "short23": "short i[3][2];", "shortp": "short *i;",
    "struct1": "struct { short a; } i;", "struct2": "struct { short a, b; } i;",
    "struct-mixed": "struct { short a; long long b; } i;",
    "struct-char": "struct { short a; char b; } i;", "struct-char3": "struct { short a; char b; int c; } i;",
    "struct-array": "struct { short a[2], b; } i;", "structs3": "struct { short a, b; } i[3];",
    "structs2": "struct { short a, b; } i[2];", "structs5": "struct { short a, b; } i[5];",
    "structs3-one": "struct { short a; } i[3];", "structs3-one-char": "struct { char a; } i[3];",
    "structs3-char": "struct { short a; char b; } i[3];", "struct-inner": "struct { short a; struct { int b; } c; } i;",
    "structs-inner": "struct { short a; struct { int b; } c; } i[3];", "varchar": "VARCHAR i[5];",
    "varchars": "VARCHAR i[3][5];", "struct-varchar": "struct { short a; VARCHAR b[5]; } i;",
    "struct4": "struct { short a, b, c, d; } i;", "structs4": "struct { short a, b, c, d; } i[3];",
}
BESIDE = ["int", "char10", "charp", "varchar", "int3", "char23", "varchars", "struct", "structs", "struct-inner", "structs-inner",
          "int1", "structs-charp", "int23", "structs23", "struct-array", "intp"]
INDICATED = {
    "connect": "CONNECT TO :h :i", "as": "CONNECT TO x AS :h INDICATOR :i", "at": "AT :h :i COMMIT",
    "prepare": "PREPARE p FROM :h :i",
    "immediate": "EXECUTE IMMEDIATE :h :i", "allocate": "ALLOCATE DESCRIPTOR :h :i", "into": "SELECT 1 INTO SQL DESCRIPTOR :h :i",
    "using": "EXECUTE p USING SQL DESCRIPTOR :h :i", "area": "GET DESCRIPTOR :h INDICATOR :i :n = COUNT",
    "count": "GET DESCRIPTOR d :n :i = COUNT", "set-count": "SET DESCRIPTOR d COUNT = :n :i",
    "index": "GET DESCRIPTOR d VALUE :n INDICATOR :i :n = DATA", "set-index": "SET DESCRIPTOR d VALUE :n :i DATA = :n",
    "item": "GET DESCRIPTOR d VALUE :n :n :i = DATA", "set-item": "SET DESCRIPTOR d VALUE :n DATA = :n :i",
    "count-text": "GET DESCRIPTOR d :n :h = COUNT", "index-text": "SET DESCRIPTOR d VALUE :n :h DATA = 1",
    "struct": "GET DESCRIPTOR d :st = COUNT", "count-struct": "GET DESCRIPTOR d :n :st = COUNT",
    "count-array": "GET DESCRIPTOR d :n :ar = COUNT", "index-struct": "SET DESCRIPTOR d VALUE :st :st DATA = 1",
    "text-outside": "CONNECT TO :h :outside", "text-unknown": "CONNECT TO :h :unknown",
    "item-outside": "SET DESCRIPTOR d VALUE 1 DATA = :n :outside",
}


def indicators():
    for one in BESIDE:
        for name, declaration in INDICATORS.items():
            both = TYPES[one] + " " + declaration
            host(f"indicator-{one}-{name}", both, "EXEC SQL SELECT 1 INTO :h :i;")
            host(f"input-indicator-{one}-{name}", both, "EXEC SQL INSERT INTO t VALUES (:h:i);")
    for name, before in {"outside": "short i;\n", "outside-struct": "struct { int a; } i;\n", "unknown": ""}.items():
        host(f"indicator-{name}", "int h;", "EXEC SQL SELECT 1 INTO :h :i;", before)
    declarations = "char h[5]; short i; int n; struct { short a; } st; short ar[3];"
    for name, statement in INDICATED.items():
        host(f"indicated-{name}", declarations, f"EXEC SQL {statement};", "short outside;\n")
    for name, declarations, statement in [
        ("21-22", "int h[2]; char b[3];", "SELECT :h, :n INTO :b :c"), ("22-24", "int h[2]; struct { int *a; } b;",
        "SELECT :h, :b"),
        ("23-25", "struct { int a, b; } h; struct { char a; } i;", "SELECT 1 INTO :h :i"), ("23-24", "int h[2]; short i;",
        "SELECT :h :i"),
        ("24-25", "struct { int a, b; } h[2]; struct { short a; } i[2];", "SELECT :h :i"),
    ]:
        host(f"several-{name}", declarations, f"EXEC SQL {statement};", "int n; int c;\n")


MEMBERS = """struct in { char c; struct { short e; VARCHAR v[3]; } d[2]; int n[4]; char t[2][6]; char *p; VARCHAR w[2][9]; };
struct in h, k[3], *q, **r; struct { short a[4], b; struct { long a, b; } c, d[2]; } i, j[3], *p; char *z[2]; int m[2][3], o[2];"""
REFERRED = """h.d h.d[1] h.d[1].e h.d[0].v h.d[0].v.arr h.n h.n[3] h.t h.t[1] h.p h.p[2] h.w h.w[1] k[1] k[2].d k[o].n k[o[1]] k[1].t[1]
q->d q->n q->w[1] q[1] q[1].n q[0].d[1].v r[0]->n r[0][1].t r[0] *q z[1] m[1] m[1][2] m[1][o] k.n q.n h->n k[1]->n k q h h.d.e h.w.len h.w[1].len""".split()
BESIDE_REFERRED = """h.n:i.a h.n:j[1].a h.n:p->a h.n:o m[1]:i.a h.n[2]:i.a[1] h.n[2]:i.b h.d:i.d h.d:j[2].d h.d[1]:i.c h.d[1]:p->c h.d[1]:p->d[1] h.d:i.c
h.t:o h.t:i.c.a h.w:o h.w[1]:o[1] h.p:p[1].b h.d[1].e:j[1].c.b k[1].n:p[0].a q->d:p->d k[1].d[1].v:i.c.b m[1][1]:m[0][2] h.n:m[1] h.t:m[1]""".split()


def members():
    """References to members and elements, and indicators that are such."""
    for reference in REFERRED:
        host(f"member-{reference}", MEMBERS, f"EXEC SQL SELECT 1 INTO :{reference};")
        host(f"input-member-{reference}", MEMBERS, f"EXEC SQL INSERT INTO t VALUES (:{reference});")
        host(f"text-member-{reference}", MEMBERS, f"EXEC SQL CONNECT TO :{reference} AS c;")
    for reference in BESIDE_REFERRED:
        value, _, indicator = reference.partition(":")
        host(f"member-beside-{reference}", MEMBERS, f"EXEC SQL SELECT 1 INTO :{value} INDICATOR :{indicator};")
        host(f"input-member-beside-{reference}", MEMBERS, f"EXEC SQL SELECT :{value} :{indicator};")


LENGTHS = ["0", "1", "-1", "2 + 3", "(4)", "'a'", "sizeof(int)", "true", "(int)3", "1/0", "", "1 == 1", "1 != 1", "1 && 2", "1 || 1/0",
           "n", "17000000", "16777212", "16777209", "16777208", "2147483647 + 1", "1 << 4", "1 << 32", "!0", "~-3", "5LL",
           "5UL", '"a"',
           "f()", "(2 * (3 - 1)) % 3", "0 || 5", "0 && 1/0", "18446744073709551615U", "4294967296", "-1 + 2U", "3 > 2 > 1",
           "5 ^ 1",
           "'\\377'", "+7", "-2147483647 - 1", "7 / 2", "-7 % 4 + 5", "1 >> 0", "0x10", "010"]


def varchars():
    for n, length in enumerate(LENGTHS):
        for name, declaration in {"length": f"VARCHAR h[{length}];", "dimension": f"VARCHAR h[{length}][5];",
                                  "member": f"struct {{ VARCHAR h[{length}]; }} h;", "array": f"int h[{length}];"}.items():
            host(f"varchar-{name}-{n}", "int n; " + declaration, "EXEC SQL SELECT 1 INTO :h;")
    for n, declarations in enumerate([
        "VARCHAR v;", "VARCHAR;", "VARCHAR *v;", "VARCHAR *v[5];", "const VARCHAR const v[5];", "varchar v[5], w[6];",
        "int f(VARCHAR v[5]);", "VARCHAR f(void);", "VARCHAR *f(void);", "int x = sizeof(VARCHAR);", "int x = sizeof(VARCHAR *);",
        'VARCHAR v[5] = {2, "ab"};', "VARCHAR v[5] = 3;", 'VARCHAR v[5] = {2, "abcdef"};', "VARCHAR v[][5] = {{2, \"ab\"}, {0}};",
        "VARCHAR v[][5];", "VARCHAR v[5]; VARCHAR v[6];", "VARCHAR v[5], v[6];", "struct varchar_v *w; VARCHAR v[5];",
        "struct varchar_v; VARCHAR v[5];", "struct varchar_v { int a; } x;", "int varchar_v;", "VARCHAR v[5], *w;",
        "struct { VARCHAR v[5], v[6]; } s;", "struct { VARCHAR *v; } s;", "struct { VARCHAR v; } s;", "VARCHAR v[5], w[v.len];",
        "VARCHAR a[5], b[n]; int n;", "struct { VARCHAR; } s;", "VARCHAR v[n][5], v[6];", "VARCHAR sqlca[5];",
        "VARCHAR v[2][-1][5];",
        "struct { int a; VARCHAR arr[3]; } s;", "typedef VARCHAR v[5];", "VARCHAR v[3] = {1};", "static VARCHAR v[3], w[4];",
    ]):
        host(f"varchar-{n}", declarations, ";")
        source(f"varchar-{n}-outside", declarations + "\n" + MAIN)
        source(f"varchar-{n}-local", main(OPEN + declarations + "\n" + CLOSE))
    host("varchar-tag", "VARCHAR v[5]; struct varchar_v w;", "EXEC SQL SELECT 1 INTO :w;")
    host("varchar-tag-outside", "VARCHAR v[5];", "EXEC SQL SELECT 1 INTO :v;", "struct varchar_v x; struct varchar_v y;\n")
    host("varchar-inner", "VARCHAR v[5];", "{ EXEC SQL VARCHAR v[6]; EXEC SQL SELECT 1 INTO :v; } EXEC SQL SELECT 1 INTO :v;")
    host("varchar-tag-in-length", "VARCHAR v[sizeof(struct varchar_v)][5];", "EXEC SQL SELECT 1 INTO :v;")
    host("varchar-tag-in-last", "VARCHAR v[2][sizeof(struct varchar_v)];", "EXEC SQL SELECT 1 INTO :v;")
    host("varchar-members", "struct { VARCHAR a[5], b[6]; int c; } s;", "EXEC SQL SELECT 1 INTO :s;")
    host("varchar-assigned", "VARCHAR v[5], w[5];", "v = w;")
    host("varchar-assigned-element", "VARCHAR v[2][5];", "v[0] = v[1];")
    source("varchar-cast", main("return (int)(VARCHAR)3;"))
    source("varchar-size", main("return sizeof(VARCHAR);"))
    source("varchar-size-inside", OPEN + main("return sizeof(VARCHAR);") + CLOSE)
    source("varchar-for", main(OPEN + "for (VARCHAR v[5], w[4];;) break;\n" + CLOSE))
    source("varchar-for-outside", main("for (VARCHAR v[5];;) break;"))
    source("in-place", "EXEC SQL VARCHAR\nv[5];\nEXEC SQL\n\nint\nx;\nEXEC SQL struct s { int a;\nint b; } z;\n" + MAIN)


def marks():
    inside = "EXEC SQL SELECT 1 INTO :x;"
    for n, text in enumerate([
        OPEN + "int x;\n" + OPEN + "int y;\n" + CLOSE + MAIN, OPEN + "int x;\n" + MAIN, "int x;\n" + CLOSE + MAIN,
        OPEN + OPEN + CLOSE + CLOSE + MAIN, OPEN + "int x;\nEXEC SQL int y;\n" + CLOSE + MAIN, OPEN + CLOSE + CLOSE + MAIN,
        "int main(void) {\n" + OPEN + "int x;\nreturn 0; }\n" + CLOSE, main("{ " + OPEN + "int x; } " + CLOSE + inside),
        main("{ " + OPEN + "int x; " + inside + " } " + CLOSE), OPEN + main("int x; " + inside) + CLOSE,
        OPEN + "int f(int x) { EXEC SQL SELECT 1 INTO :x; return x; }\n" + CLOSE + MAIN,
        "int f(int x) { EXEC SQL SELECT 1 INTO :x; return x; }\n" + MAIN, OPEN + "VARCHAR v[0];\n" + OPEN + CLOSE + CLOSE + MAIN,
        CLOSE + OPEN + MAIN, CLOSE + OPEN + CLOSE + MAIN, OPEN + CLOSE + OPEN + MAIN, OPEN + "VARCHAR v[0];\n" + MAIN,
        "VARCHAR v[5];\n" + OPEN + MAIN, OPEN + "int f(int x);\n" + CLOSE + "int f(int x) { " + inside + " return x; }\n" + MAIN,
        "int f(\n" + OPEN + "int x) { return x; }\n" + MAIN, main("if (1) " + OPEN + "int x; " + CLOSE),
        OPEN + "int x;" + CLOSE + "static " + OPEN + "int y;" + CLOSE + MAIN, OPEN + "struct { int a; " + CLOSE + "} x;\n" + MAIN,
        OPEN + "int\n" + CLOSE + "x;\n" + MAIN, main(OPEN) + main(CLOSE), main("for (EXEC SQL int x;;) ;"),
        main(OPEN + "for (int x;;) { " + inside + " }\n" + CLOSE), "EXEC SQL int f(int x) { " + inside + " return 1; };\n" + MAIN,
        "EXEC SQL int x, f(void);\n" + MAIN, "EXEC SQL struct s;\nEXEC SQL struct s { int a; };\n" + MAIN,
        "EXEC SQL int x, y = 1;" + MAIN,
    ]):
        source(f"marks-{n}", text)


BODIES = {"if": "if (1) %s", "else": "if (1) ; else %s", "while": "while (1) %s", "do": "do %s while (1);", "for": "for (;;) %s",
          "label": "l: %s", "block": "{ %s }", "for-declared": "for (int i;;) %s", "if-unknown": "if (zz) %s",
          "deep": "if (1) l: while (1) %s"}
DIRECTIVES = {"whenever": "EXEC SQL WHENEVER SQLERROR STOP;", "declare": "EXEC SQL DECLARE c CURSOR FOR SELECT 1;",
              "include": "EXEC SQL INCLUDE sqlca;", "wrong": "EXEC SQL DECLARE c CURSOR FOR SELECT :zz;"}


def directives():
    for body, form in BODIES.items():
        for name, directive in DIRECTIVES.items():
            source(f"directive-{body}-{name}", main(form % directive))
            source(f"directive-{body}-{name}-below", main(form % ("\n" + directive) + "\nzz = 1;"))
    source("directive-above", main("zz = 1;\nif (1) EXEC SQL WHENEVER SQLERROR STOP;"))
    source("directive-top", "EXEC SQL INCLUDE sqlca;\n" + MAIN + "EXEC SQL WHENEVER SQLERROR STOP;\nEXEC SQL DECLARE c CURSOR FOR p;\n")


HANDLERS = [
    ("", "GOTO l", "%s l: ;"), ("", "GOTO l", "%s"), ("", "GOTO l", "%s { l: ; }"), ("", "DO BREAK", "while (1) %s"), ("",
    "DO BREAK", "%s"),
    ("", "DO CONTINUE", "while (1) { %s }"), ("", "DO CONTINUE", "%s"), ("", "DO BREAK", "do %s while (0);"), ("", "DO BREAK",
    "for (;;) %s"),
    ("", "STOP", "%s"), ("", "SQLPRINT", "%s"), ("", "CONTINUE", "%s"), ("", "GOTO while", "%s"), ("", "GO TO l", "%s l: ;"),
    ("", "GOTO l$", "%s l: ;"), ("void f(void) { }", "DO f()", "%s"), ("void f(void) { }", "CALL f()", "%s"), ("", "DO f()",
    "%s"),
    ("void f(void);", "DO f()", "%s"), ("void f(void) { }", "DO f(1)", "%s"), ("void f(int a) { }", "DO f()", "%s"),
    ("void f(int *a) { }", "DO f(1)", "%s"), ("void f(int *a) { }", "DO f(0)", "%s"), ("void f(int *a) { }", "DO f(NULL)", "%s"),
    ("int n; void f(int a) { }", "DO f(n)", "%s"), ("int n; void f(int a) { }", "DO f(n)", "{ int *n; %s }"),
    ("void f(int a) { }", "DO f(zz)", "%s"), ("void f(int a) { }", "DO f(SQLCODE)", "%s"), ("void f(char *a) { }",
    "DO f(SQLSTATE)", "%s"),
    ("void f(int a) { }", "DO f('\\n')", "%s"), ("void f(int a) { }", "DO f(3000000000)", "%s"), ("void f(int a) { }",
    "DO f(007)", "%s"),
    ("char *p;", "DO printf(p)", "%s"), ("", "DO exit(3)", "%s"), ("", "DO exit()", "%s"), ("char *p;", "DO puts(p)", "%s"),
    ("char *p;", "DO strcpy(p, p)", "%s"), ("", "DO f()", "%s } void f(void) { "), ("int f;", "DO f()", "%s"),
    ("int g(void) { return 1; } void f(int a) { }", "DO f(g)", "%s"), ("void f(int a) { }", "DO f(true)", "%s"),
    ("struct q { int a; } x; int f(int a) { return 1; }", "DO f(x)", "%s"), ("void BREAK(int x) { }", "DO BREAK (1)", "%s"),
    ("", "DO fprintf(stdout)", "%s"), ("", "DO main()", "%s"), ("", "DO ECPGsetcommit(1)", "%s"), ("", "DO sqlprint()", "%s"),
    ("", "DO putchar('x')", "%s"), ("int a[3]; void f(int *p) { }", "DO f(a)", "%s"), ("void f(int a) { }", "DO f(1)",
    "{ int f; %s }"),
    ("void f(int a) { }", "DO f(sqlca)", "%s"), ("void f(int a) { }", "DO f(stdout)", "%s"), ("void f(void);", "DO f()",
    "%s } void f(void) { "),
]


def handlers():
    for n, (before, action, body) in enumerate(HANDLERS):
        for condition in ("SQLERROR", "NOT FOUND", "SQLWARNING"):
            text = f"{before}\nEXEC SQL WHENEVER {condition} {action};\n" + main(body % "\nEXEC SQL COMMIT;")
            source(f"handler-{n}-{condition.replace(' ', '-').lower()}", text)
    all_three = "EXEC SQL WHENEVER SQLERROR STOP;\nEXEC SQL WHENEVER NOT FOUND SQLPRINT;\nEXEC SQL WHENEVER SQLWARNING DO f(1);\n"
    last = "EXEC SQL COMMIT;\nEXEC SQL WHENEVER SQLERROR CONTINUE;\nEXEC SQL DECLARE c CURSOR FOR SELECT 1;\nEXEC SQL OPEN c;"
    source("handlers-all", all_three + "void f(int a) { }\n" + main(last))
    source("handlers-last", "EXEC SQL WHENEVER SQLERROR STOP;\n" + main("if (0) { EXEC SQL WHENEVER SQLERROR SQLPRINT; }\nEXEC SQL COMMIT;"))
    source("handlers-behind", main("EXEC SQL COMMIT;\nEXEC SQL WHENEVER SQLERROR STOP;"))
    missing = "EXEC SQL WHENEVER SQLERROR GOTO l;\nint x;\n"
    for name, statement in {"unknown": "SELECT :zz", "outside": "SELECT :x",
    "directive": "DECLARE c CURSOR FOR SELECT 1"}.items():
        source(f"handlers-{name}", missing + main(f"EXEC SQL {statement};"))


OPENS = {
    "plain": "EXEC SQL OPEN c;", "upper": "EXEC SQL OPEN C;", "using": "EXEC SQL OPEN c USING :k, 5, 'x';",
    "area": "EXEC SQL OPEN c USING SQL DESCRIPTOR d;", "unknown": "EXEC SQL OPEN d;", "twice": "EXEC SQL DECLARE C CURSOR FOR p;",
    "other": "{ EXEC SQL int k; EXEC SQL OPEN c; }", "other-outside": "{ int k; EXEC SQL OPEN c; }",
    "other-type": "{ int *k; EXEC SQL OPEN c; }",
    "other-index": "{ int j; EXEC SQL OPEN c; }", "other-indicator": "{ EXEC SQL short i; EXEC SQL OPEN c; }",
    "other-struct": "{ EXEC SQL int s; EXEC SQL OPEN c; }", "other-member": "{ EXEC SQL int m; EXEC SQL OPEN c; }",
    "at": "EXEC SQL AT x OPEN c;", "at-host": "EXEC SQL AT :k OPEN c;",
    "deep": "EXEC SQL OPEN c; { int k; { EXEC SQL OPEN c; } }",
    "parameter": "EXEC SQL OPEN c; } void g(int k) { EXEC SQL OPEN c;", "behind": "{ int k; } EXEC SQL OPEN c;",
    "host-outside": "{ int k; EXEC SQL OPEN c USING :j; }",
    "function": "EXEC SQL OPEN c; } int k2(void) { int s; EXEC SQL OPEN c; return 1;",
}


def cursors():
    declared = OPEN + "int k; struct { int m[3]; } s; short i;\n" + CLOSE + "int j;\n"
    cursor = "EXEC SQL DECLARE c CURSOR FOR SELECT :k, :s.m[j] :i;\n"
    for name, body in OPENS.items():
        source(f"open-{name}", declared + cursor + main(body))
    for n, text in enumerate([
        declared + main("EXEC SQL OPEN c;") + cursor,
        main("{ EXEC SQL int k; EXEC SQL DECLARE c CURSOR FOR SELECT :k; }\nEXEC SQL OPEN c;"),
        main("EXEC SQL DECLARE c NO SCROLL  CURSOR WITH HOLD FOR  p;\nEXEC SQL OPEN c USING 1;"),
        main("EXEC SQL DECLARE c CURSOR FOR p /* x */;\nEXEC SQL AT a OPEN c;"),
        "EXEC SQL int k;\nvoid f(void) { EXEC SQL DECLARE c CURSOR FOR SELECT :k; }\n" + main("EXEC SQL OPEN c;"),
        declared + "EXEC SQL DECLARE c CURSOR FOR SELECT :j;\n" + main(";"),
        declared + "EXEC SQL DECLARE c CURSOR FOR SELECT :s;\n" + main(";"),
        declared + cursor + "EXEC SQL DECLARE c CURSOR FOR SELECT :j;\n" + main(";"),
        declared + main("EXEC SQL OPEN c USING :j;"),
        declared + cursor + "EXEC SQL int z;\n" + main("{ EXEC SQL int z; EXEC SQL OPEN c; }"),
        OPEN + "int f(void) { return 1; }\n" + CLOSE + "EXEC SQL DECLARE c CURSOR FOR SELECT :f;\n" + main(";"),
        main("{ int k; EXEC SQL DECLARE c CURSOR FOR SELECT :k; }"),
        main("EXEC SQL DECLARE c CURSOR FOR p;\nEXEC SQL DECLARE C CURSOR FOR q;\nEXEC SQL OPEN c;"),
        OPEN + "int k;\nVARCHAR v[5];\nchar *p;\n" + CLOSE + main("EXEC SQL DECLARE c CURSOR FOR SELECT :k,:v,:p::text;\nEXEC SQL OPEN c USING 'x', :k;"),
        main("EXEC SQL DECLARE c CURSOR FOR SELECT :k;\nEXEC SQL OPEN c;"), main("EXEC SQL DECLARE \"c\" CURSOR FOR SELECT 1;"),
    ]):
        source(f"cursors-{n}", text)


FORMS = """DISCONNECT|disconnect current|DISCONNECT all|DISCONNECT 'all'|DISCONNECT default|DISCONNECT 'default'|SET CONNECTION TO default
SET CONNECTION = 'default'|SET CONNECTION c|set connection to|AT default COMMIT|AT 'a"b' SET AUTOCOMMIT = off|CONNECT TO default AS default USER me / you
CONNECT TO a b @ c : 5|CONNECT TO 'it''s' USER 'u' IDENTIFIED BY 'p'|CONNECT TO db USER me USING you|CONNECT TO "q" AS x|CONNECT TO tcp:postgresql://h/d
EXECUTE p INTO :x USING :x, -5, 'a''b'|EXECUTE p USING SQL DESCRIPTOR d INTO SQL DESCRIPTOR 'e'|EXECUTE immediate|EXECUTE p INTO :x, :x
PREPARE p FROM 'a?'|PREPARE p FROM ''|DEALLOCATE p|DEALLOCATE PREPARE p|DEALLOCATE DESCRIPTOR p|DEALLOCATE PREPARE|COMMIT  /* x */ WORK
rollback to  savepoint s|COMMIT :x|SELECT a INTO :x,:x FROM t|SELECT a INTO :x FROM t INTO :x|SELECT a INTO :x , b FROM t|SELECT (1 INTO :x)
SELECT a INTO:x:x FROM t|SELECT a/**/INTO/**/:x/**/FROM t|SELECT a FROM t INTO :x ;|INTO :x|INTO :x SELECT 1||;|SELECT '\t\x01\x7fé\\n"'
SELECT 1 INTO SQL DESCRIPTOR d|SELECT 1 INTO SQL DESCRIPTOR 'd' FROM t|SELECT 1 INTO SQL DESCRIPTOR :x FROM t|SELECT 1 INTO DESCRIPTOR d
SET DESCRIPTOR d VALUE 'k' TYPE = 12, DATA = 'x''y', INDICATOR = -1|SET DESCRIPTOR d VALUE :x INDICATOR = 5|SET DESCRIPTOR d COUNT = - 5
GET DESCRIPTOR d VALUE :x INDICATOR :x :x = NAME, :x = TYPE|GET DESCRIPTOR d VALUE 1 :x = DATA|GET DESCRIPTOR d :x INDICATOR :x = COUNT
SELECT :x::int, a:: int, :x ::text|SELECT a[:x], b[1:2], :x[0]|INSERT INTO t(a)VALUES(:x,:x)|SELECT E'\\'' , 'a''b'  ,"q""r"|SELECT .5,5.e3 , t . a
SELECT : x|SELECT $1|INCLUDE sqlca|INCLUDE stdio|TYPE x IS int|VAR x IS int|DESCRIBE x|DEFINE x|PREPARE p AS SELECT 1|DECLARE c STATEMENT|DEALLOCATE ALL
AT x CONNECT TO y|AT x DECLARE c CURSOR FOR p|AT x AT y COMMIT|AT x|AT x GET DESCRIPTOR d :x = COUNT|AT :x COMMIT|WHENEVER SQLERROR DO x|WHENEVER FOUND STOP
ALLOCATE DESCRIPTOR d|ALLOCATE DESCRIPTOR 'd e'|ALLOCATE d|FETCH NEXT FROM c INTO :x|CLOSE c|EXECUTE IMMEDIATE 'a''b'|EXECUTE IMMEDIATE x"""


def forms():
    for n, statement in enumerate(FORMS.replace("\n", "|").split("|")):
        source(f"form-{n}", "EXEC SQL int x;\n" + main(f"EXEC SQL {statement};"))
        source(f"form-{n}-top", f"EXEC SQL {statement};\n" + MAIN)
    source("form-lines", "EXEC SQL int x;\n" + main("EXEC SQL SELECT\n\n1\n\t+ 2\n:x;\n\n\nEXEC\nSQL COMMIT;"))


IN_MAIN = [
    "if (1) EXEC SQL COMMIT; else EXEC SQL ABORT;", "l: EXEC SQL COMMIT; goto l;", "do EXEC SQL COMMIT; while (0);",
    "for (int i = 0, j = 1; i < 3; i++) EXEC SQL COMMIT;", "for (;;) break;", "for (struct { int a; } s;;) break;",
    "if (1) if (2) EXEC SQL COMMIT; else ; else ;", "const int a = 1; static_ = 2;", "int;",
    "x = -(-x) - -x; x = !(~x); x = -(--x);",
    "x = (x + 1) * (2 - x) / (x = 3), 1;",
    "x = ((x + 1)) * (2 - (x)); x = (x = 3) + 1; x = x - (x - 1); x = (x && x) || (x | x);",
    'printf("a\\n\\"\\x41\\101" "b?");', "x = '\\'' + '\"' + '\\\\' + '\\377' + 'a';",
    "x = 0x7fffffff + 0xffffffff + 10L + 5u + 07 + 0x10LL + 5ull; 2147483648; 0xffffffffffffffff;",
    "EXEC SQL struct s { int m; struct { int k; } n; } *p, q; x = p->m + q.n.k + (*p).m; x = (&q)->m; x = sizeof(struct s) + sizeof q + sizeof(int *) + sizeof *p + sizeof (int);",
    "x = (int)x + (char)(x + 1) + (int)(long)x; x = (int)-x; x = (unsigned char)x; x = *(int *)&x;",
    "x++; ++x; x--; x = x++ + ++x; ",
    "int a[2][3] = {{1, 2}, {3,},}; x = a[1][2] + a[0][x]; x = *a[1]; x = (*a)[1];", "return (x);", "; ; {} { ; }",
    "goto e; e: ; f: g: ;",
    'x = SQLCODE + sqlca.sqlcode; printf("%s", SQLSTATE);', "x = x ? 1 : 2;", "switch (x) { }", "x, x;",
    "int *p = &x, **q = &p; x = **q; x = *&x; x = &x == p;", "int f(void); f();", "ECPGtrans(1, NULL, \"x\");", "ECPGt_int;",
    "f(1)(2);",
    "struct varchar_x { int a; } y;", "x = 'ab';", 'char s[3] = "abc", t[] = "x" "y", u[2] = {"a"};',
    "EXEC SQL int y[2] = {1, 2}; y[0] = y[1];",
]
AT_TOP = [
    """#include <stdio.h>
#include "a.h" /* c */
static const int a = 1, *b, c[3];
unsigned long int const f(const char *s, int a[], int, int b[3][4]);
unsigned long int f(const char *s, int a[5], int n, int b[3][4])
{ return n; }
struct s { int a; struct s *n; } ;
struct t;
struct s g1, *g2;
void h(void);
int
*
k
(
int
z
)
;
int main(void) { return 0; }
""",
    "int main(int a) { return 0; }", "int f(void) { return 0; }\n\n\n", "void main(void) { }",
    "static int main(void) { return 0; }",
    "#include <sqlca.h>\n#include <ecpglib.h>\n" + MAIN, "#line 5\n" + MAIN, "#define X\n" + MAIN, "#include <a.h>  \r\n" + MAIN,
    "static\n\nint\nx;\nstatic\nint main(void) { return 0; }", "int main(); int main(void) { return 0; } int main(void);",
]


def plain_c():
    for n, body in enumerate(IN_MAIN):
        source(f"c-{n}", "EXEC SQL int x;\n" + main(body))
    for n, text in enumerate(AT_TOP):
        source(f"top-{n}", text)


for make in (programs, names, types, indicators, members, varchars, marks, directives, handlers, cursors, forms, plain_c, told):
    make()
