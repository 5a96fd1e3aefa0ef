"""Random programs of the C subset that the checks accept.

A tame program is meant for a C compiler: its expressions have side effects only where the order is fixed, and the caller keeps
those that the second evaluator runs to their end, so that nothing in them is undefined. A wild one reads what is unset, divides
by zero, leaves its arrays, jumps anywhere, and may never end.
"""

INTEGERS = ["bool", "char", "unsigned char", "short", "unsigned short", "int", "unsigned", "long", "unsigned long", "long long",
            "unsigned long long"]
HEAD = "#include <stdio.h>\n#include <string.h>\n#include <stdlib.h>\n#include <stdbool.h>\n"


class Programs:
    def __init__(self, rng, wild, most):
        self.rng, self.wild, self.most = rng, wild, most
        self.count = 0

    def chance(self, p):
        return self.rng.random() < p

    def pick(self, *weighted):
        choices = [(w, c) for w, c in weighted if w]
        return self.rng.choices([c for _, c in choices], [w for w, _ in choices])[0]()

    def name(self, letter):
        self.count += 1
        return f"{letter}{self.count}"

    # -- what is in scope: integers, arrays of integers, pointers to int, structs, texts, arrays of arrays, structs of structs, pointers to char

    def whole(self):
        """A program."""
        self.integers, self.arrays, self.pointers, self.structs, self.texts = [], [], [], [], []
        self.tables, self.nested, self.words = [], [], []
        self.functions = []
        self.lines = ["struct s { char k; int m; short t[2]; };", "struct r { struct s a; char *n; struct s b[2]; };"]
        self.integers.append(("g", "int"))
        self.lines.append(f"int g = {self.rng.choice([0, 1, 3])};")
        for _ in range(self.rng.randrange(0, 3)):
            self.lines.append(self.declaration(True))
        for _ in range(self.rng.randrange(0, 3 if self.most > 5 else 2)):
            self.function()
        self.body("int main(void)", [], "int")
        return (HEAD if not self.wild else "") + "\n".join(self.lines) + "\n"

    def scope(self):
        return [list(x) for x in (self.integers, self.arrays, self.pointers, self.structs, self.texts, self.tables, self.nested, self.words)]

    def back(self, kept):
        self.integers, self.arrays, self.pointers, self.structs, self.texts, self.tables, self.nested, self.words = kept

    def function(self):
        name, result = self.name("f"), self.rng.choice(["int", "int", "long", "char", "unsigned", "void", "bool"])
        params = [(self.rng.choice(INTEGERS), self.name("a")) for _ in range(self.rng.randrange(0, 3))]
        if self.chance(0.2):
            params.append(("int *", self.name("p")))
        head = ", ".join(f"{t} {n}" for t, n in params) or "void"
        if self.chance(0.3):
            self.lines.append(f"{result} {name}({head});")
            self.functions.append((name, result, [t for t, _ in params]))
            self.body(f"{result} {name}({head})", params, result)
        else:
            self.body(f"{result} {name}({head})", params, result)
            self.functions.append((name, result, [t for t, _ in params]))

    def body(self, head, params, result):
        kept = self.scope()
        self.integers += [(n, t) for t, n in params if t != "int *"]
        self.pointers += [n for t, n in params if t == "int *"]
        self.result, self.depth, self.in_loop, self.used = result, 0, False, []
        self.labels = [self.name("l") for _ in range(self.rng.choice([0, 0, 1, 2]))]
        self.to_place = list(self.labels)
        self.lines.append(head + " {")
        for _ in range(self.rng.randrange(0, 3)):
            self.lines.append(self.declaration(False))
        for _ in range(self.rng.randrange(2, self.most + 1)):
            self.statement()
        for label in self.to_place:
            self.lines.append(f"{label}: ;")
        if result != "void" and (not self.wild or self.chance(0.8)):
            self.lines.append(f"return {self.expression(2)};")
        self.lines.append("}")
        self.back(kept)

    # -- declarations

    def constant(self):
        return str(self.rng.choice([0, 1, 2, 3, 5, 7, 10, 100, 127, 128, 255, 256, 1000, 65535, 65536, "'a'", "2147483647", "4294967295u", "3l", "9ull",
                                    "0x7fff", "-1", "-2"]))

    def declaration(self, is_global):
        value = self.constant if is_global else (lambda: self.expression(1))
        return self.pick((6, lambda: self.integer(is_global, value)), (3, lambda: self.array(is_global, value)), (2, lambda: self.pointer_object(is_global)),
                         (2, lambda: self.struct(is_global, value)), (2, lambda: self.text(is_global)), (1, lambda: self.table(value)),
                         (1, lambda: self.nest(is_global, value)), (1, self.word))

    def initialized(self):
        return self.chance(0.9)

    def integer(self, is_global, value):
        t, n = self.rng.choice(INTEGERS), self.name("i")
        line = f"{t} {n} = {value()};" if self.initialized() else f"{t} {n};"
        self.integers.append((n, t))
        return line

    def array(self, is_global, value):
        t, n, k = self.rng.choice(INTEGERS), self.name("v"), self.rng.randrange(1, 4)
        line = f"{t} {n}[{k}]"
        if self.initialized():
            line += " = {" + ", ".join(value() for _ in range(self.rng.randrange(1, k + 1))) + "}"
        self.arrays.append((n, t, k))
        return line + ";"

    def pointer_object(self, is_global):
        n = self.name("p")
        ints = [i for i, t in self.integers if t == "int" and (not is_global or i in self.global_names())]
        line = f"int *{n} = {'&' + self.rng.choice(ints) if ints else 'NULL'};"
        self.pointers.append(n)
        return line

    def global_names(self):
        return [n for n, _ in self.integers]

    def struct(self, is_global, value):
        n = self.name("s")
        line = f"struct s {n}"
        if self.initialized():
            line += " = {" + ", ".join([value(), value(), self.rng.choice(["{" + value() + "}", value()])][:self.rng.randrange(1, 4)]) + "}"
        elif self.structs and not is_global and self.chance(0.5):
            line += " = " + self.rng.choice(self.structs)
        self.structs.append(n)
        return line + ";"

    def text(self, is_global):
        n, word = self.name("t"), self.rng.choice(["", "a", "xy", "abc", "%d"])
        k = len(word) + self.rng.randrange(1, 4)
        self.texts.append((n, k))
        return f'char {n}[{k}] = "{word}";' if self.initialized() else f"char {n}[{k}];"

    def table(self, value):
        t, n = self.rng.choice(["int", "char", "unsigned", "long"]), self.name("w")
        self.tables.append((n, t))
        v = value
        lists = [f"{{{{{v()}}}, {v()}, {v()}}}", f"{{{v()}, {v()}, {v()}, {v()}}}", f"{{{{{v()}, {v()}}}, {{{v()}}}}}", "{0}"]
        return f"{t} {n}[2][3]" + (" = " + self.rng.choice(lists) if self.initialized() else "") + ";"

    def nest(self, is_global, value):
        n, v = self.name("r"), value
        lists = [f'{{{{{v()}, {v()}, {{{v()}}}}}, "ab", {{{{{v()}}}, {{{v()}, {v()}}}}}}}', f'{{{v()}, {v()}, {v()}, {v()}, "cd", {v()}, {v()}}}',
                 f"{{{{{v()}}}, NULL}}", f'{{{v()}, {v()}, {{{v()}, {v()}}}, "e", {{{{0}}, {v()}}}}}']
        if self.structs and not is_global:
            lists += [f'{{{self.rng.choice(self.structs)}, "f", {self.rng.choice(self.structs)}, {v()}}}']
        self.nested.append(n)
        return f"struct r {n}" + (" = " + self.rng.choice(lists) if self.initialized() else "") + ";"

    def word(self):
        n = self.name("c")
        self.words.append(n)
        return f'char *{n} = "{self.rng.choice(["one", "", "x", "four"])}";'

    def inner(self):
        n = self.rng.choice(self.nested)
        return n + self.rng.choice([".a.k", ".a.m", ".a.t[1]", ".b[0].m", ".b[1].k", ".b[1].t[0]"])

    def cell(self, depth):
        n, _ = self.rng.choice(self.tables)
        return f"{n}[{self.index(2, depth)}][{self.index(3, depth)}]"

    def letter(self):
        n = self.rng.choice(self.words)
        return self.rng.choice([f"*{n}", f"{n}[0]", f"(int)strlen({n})"] + ([f"{n}[2]", f"{n}[1]"] if self.wild else []))

    # -- expressions of integers; `calls` says whether a call may stand here

    def place(self, depth):
        """A place of an integer."""
        return self.pick((8 if self.integers else 0, lambda: self.rng.choice(self.integers)[0]),
                         (3 if self.arrays else 0, lambda: self.element(depth)),
                         (2 if self.pointers else 0, lambda: "*" + self.rng.choice(self.pointers)),
                         (1 if self.pointers else 0, lambda: f"{self.rng.choice(self.pointers)}[{self.index(1, depth)}]"),
                         (3 if self.structs else 0, self.member),
                         (1 if self.texts else 0, lambda: self.character(depth)), (2 if self.tables else 0, lambda: self.cell(depth)),
                         (3 if self.nested else 0, self.inner),
                         (0 if self.integers or self.arrays or self.pointers or self.structs or self.texts else 1, lambda: "(*(int *)NULL)"))

    def index(self, n, depth):
        if self.wild and self.chance(0.06):
            return self.expression(depth - 1)
        return str(self.rng.randrange(n + (1 if self.wild and self.chance(0.04) else 0)))

    def element(self, depth):
        n, _, k = self.rng.choice(self.arrays)
        i = self.index(k, depth)
        return f"{i}[{n}]" if self.chance(0.1) and i.isalnum() else f"{n}[{i}]"

    def character(self, depth):
        n, k = self.rng.choice(self.texts)
        return f"{n}[{self.index(k, depth)}]"

    def member(self):
        s = self.rng.choice(self.structs)
        m = self.rng.choice(["k", "m", "t[0]", "t[1]"])
        return f"(&{s})->{m}" if self.chance(0.2) else f"{s}.{m}"

    def expression(self, depth, pure=True):
        if depth <= 0:
            return self.pick((3, self.constant), (6, lambda: self.place(0)))
        e = lambda: self.expression(depth - 1)
        return self.pick((2, self.constant), (4, lambda: self.place(depth)),
                         (8, lambda: f"({e()} {self.rng.choice(['+', '-', '*', '&', '|', '^', '+', '-'])} {e()})"),
                         (1.5, lambda: f"({e()} {self.rng.choice(['/', '%'])} {self.rng.choice([e(), '3', '10l', '7u'])})"),
                         (3, lambda: f"({e()} {self.rng.choice(['==', '!=', '<', '>', '<=', '>='])} {e()})"),
                         (2, lambda: f"({e()} {self.rng.choice(['<<', '>>'])} {self.rng.choice(['1', '2', '3', '7', '31', e()]) if self.wild and self.chance(0.5) else '1'})"),
                         (2, lambda: f"({e()} {self.rng.choice(['&&', '||'])} {e()})"),
                         (2, lambda: f"{self.rng.choice(['-', '~', '!', '+'])}({e()})"),
                         (2, lambda: f"({self.rng.choice(INTEGERS)})({e()})"),
                         (1, lambda: f"sizeof({self.rng.choice([e(), 'int', 'struct s', 'long *'])})"),
                         (1 if self.pointers else 0, lambda: f"({self.pointer()} {self.rng.choice(['==', '!='])} {self.rng.choice([self.pointer(), 'NULL', '0'])})"),
                         (1 if self.pointers and self.wild else 0, lambda: f"({self.pointer()} - {self.pointer()})"),
                         (1 if self.words else 0, self.letter),
                         (2 if self.wild else 0, self.effect), (2 if self.wild and self.functions else 0, lambda: self.call(False)))

    def pointer(self):
        ints = [n for n, t in self.integers if t == "int"]
        arrays = [n for n, t, _ in self.arrays if t == "int"]
        return self.pick((3 if self.pointers else 0, lambda: self.rng.choice(self.pointers)), (2 if ints else 0, lambda: "&" + self.rng.choice(ints)),
                         (2 if arrays else 0, lambda: self.rng.choice(arrays)),
                         (1 if self.pointers and self.wild else 0, lambda: f"({self.rng.choice(self.pointers)} + {self.expression(0)})"),
                         (0 if self.pointers or ints or arrays else 1, lambda: "(int *)NULL"))

    def effect(self):
        p = self.place(1)
        return self.pick((2, lambda: f"({p} = {self.expression(1)})"), (2, lambda: f"({p} {self.operator()} {self.expression(1)})"),
                         (2, lambda: f"{self.rng.choice(['++', '--'])}{p}"), (2, lambda: f"{p if p[0] != '*' else '(' + p + ')'}{self.rng.choice(['++', '--'])}"),
                         (1, lambda: f"putchar({self.rng.choice([97, 98, 99])})"))

    def operator(self):
        return self.rng.choice(["+=", "-=", "*=", "/=", "%=", "&=", "|=", "^=", "<<=", ">>="] if self.wild else ["+=", "-=", "*=", "&=", "|=", "^=", "/="])

    def call(self, alone):
        fitting = [f for f in self.functions if alone or f[1] != "void"]
        if not fitting:
            return self.constant()
        name, _, params = self.rng.choice(fitting)
        return f"{name}({', '.join(self.pointer() if t == 'int *' else self.expression(1) for t in params)})"

    # -- statements

    def statement(self):
        if self.to_place and self.chance(0.2):
            self.lines.append(f"{self.to_place.pop()}:" + (" ;" if self.chance(0.5) else ""))
            if not self.lines[-1].endswith(";"):
                return self.rng.choice([self.assignment, self.printing, self.condition, self.block])()
        deep = self.depth > (2 if self.most > 5 else 0)
        self.pick((8, self.assignment), (4, self.printing), (0 if deep else 3, self.condition), (0 if deep else 3, self.loop), (0 if deep else 2, self.block),
                  (2 if self.functions else 0, self.calling), (2 if self.labels else 0, self.jump), (1 if self.in_loop else 0, self.leaving),
                  (1 if self.pointers else 0, self.pointing), (1 if self.structs else 0, self.copying), (1 if self.texts else 0, self.texting),
                  (1 if self.words else 0, self.wording), (1 if self.wild else 0, self.odd), (0.3, self.returning))

    def say(self, text):
        self.lines.append("  " * (self.depth + 1) + text)

    def assignment(self):
        p = self.place(1)
        # C has no order between a call and the place, or its old value, that the call may change
        value = self.value() if self.wild or p.isalnum() else self.expression(2)
        self.say(self.pick((4, lambda: f"{p} = {value};"), (3, lambda: f"{p} {self.operator()} {self.value() if self.wild else self.expression(2)};"),
                           (2, lambda: f"{'(' + p + ')' if p[0] == '*' else p}{self.rng.choice(['++', '--'])};"), (1, lambda: f"{self.rng.choice(['++', '--'])}{p};")))

    def value(self):
        if self.functions and self.chance(0.2):
            return self.call(False)
        return self.expression(self.rng.randrange(0, 3))

    def printing(self):
        self.say(self.pick((4, lambda: f'printf("%{self.rng.choice(["", "-5", "03", "7"])}d,", (int)({self.value()}));'),
                           (2, lambda: f'printf("%{self.rng.choice(["u", "x", "o", "X"])};", (unsigned)({self.value()}));'),
                           (2, lambda: f'printf("%ld %llu|", (long)({self.value() if self.wild else self.expression(2)}), (unsigned long long)({self.expression(1)}));'),
                           (1, lambda: f'printf("%*d%c", {self.rng.choice([3, -3])}, (int)({self.expression(1)}), {self.rng.choice([65, 66])});'),
                           (1, lambda: "putchar(" + self.rng.choice(["120", "121", "10"]) + ");"),
                           (1 if self.texts else 0, lambda: f'printf("%s%.2s%4s", {self.a_text()}, {self.a_text()}, {self.a_text()});')))

    def a_text(self):
        return self.rng.choice(['"lit"', '"q"'] + [n for n, _ in self.texts] + self.words)

    def inside(self, head, tail="}", in_loop=None):
        kept, loop = self.scope(), self.in_loop
        self.say(head)
        self.depth += 1
        self.in_loop = loop if in_loop is None else in_loop
        for _ in range(self.rng.randrange(0, 2)):
            self.say(self.declaration(False))
        for _ in range(self.rng.randrange(1, 4)):
            self.statement()
        self.depth -= 1
        self.in_loop = loop
        self.back(kept)
        self.say(tail)

    def condition(self):
        self.inside(f"if ({self.expression(2)}) {{")
        if self.chance(0.4):
            self.inside("else {")

    def loop(self):
        if self.wild and self.chance(0.5):
            kind = self.rng.randrange(3)
            if kind == 0:
                self.inside(f"while ({self.expression(2)}) {{", in_loop=True)
            elif kind == 1:
                self.inside("do {", f"}} while ({self.expression(1)});", True)
            else:
                part = lambda: self.rng.choice(["", self.expression(1), self.effect()])
                self.inside(f"for ({part()}; {part()}; {part()}) {{", in_loop=True)
            return
        n, kind = self.name("i"), self.rng.randrange(3)
        bound = self.rng.randrange(1, 4)
        kept = self.scope()
        if kind == 0:
            self.inside(f"for (int {n} = 0; {n} < {bound}; {n}++) {{", "}", True)
        elif kind == 1:
            self.say(f"int {n} = 0;")
            self.inside(f"while ({n}++ < {bound}) {{", "}", True)
        else:
            self.say(f"int {n} = {bound};")
            self.inside("do {", f"}} while (--{n} > 0);", True)
        self.back(kept)

    def block(self):
        self.inside("{")

    def calling(self):
        call = self.call(True)
        self.say(self.rng.choice([f"{call};", f"(void){call};"]))

    def jump(self):
        guard = f"if ({self.expression(1)}) " if self.chance(0.7) else ""
        self.say(f"{guard}goto {self.rng.choice(self.labels)};")

    def leaving(self):
        self.say(f"if ({self.expression(1)}) {self.rng.choice(['break', 'continue'])};")

    def pointing(self):
        p = self.rng.choice(self.pointers)
        self.say(self.pick((3, lambda: f"{p} = {self.pointer()};"), (1 if self.wild else 0, lambda: f"{p}{self.rng.choice(['++', '--', ' += 1'])};")))

    def copying(self):
        places = self.structs + [n + m for n in self.nested for m in (".a", ".b[0]", ".b[1]")]
        a, b = self.rng.choice(places), self.rng.choice(places)
        self.say(self.rng.choice([f"{a} = {b};", f"memcpy(&{a}, &{b}, sizeof {a});"] if a != b or self.wild else [f"{a} = {b};"]))

    def texting(self):
        n, k = self.rng.choice(self.texts)
        self.say(self.pick((2, lambda: f"puts({n});"), (2, lambda: f'strcpy({n}, "{self.rng.choice(["", "z"] + (["toolong"] if self.wild else []))}");'),
                           (1, lambda: f'printf("%d,", {self.rng.choice(["strcmp", "strcmp"])}({n}, {self.a_text()}) < 0);'),
                           (1, lambda: f"printf(\"%lu,\", strlen({n}));"), (1, lambda: f"memset({n}, {self.rng.choice([97, 0])}, {k if self.chance(0.5) else 1});"),
                           (1, lambda: f'strncpy({n}, {self.rng.choice([chr(34) + "pq" + chr(34)])}, {k});'),
                           (1 if self.wild else 0, lambda: f"strcat({n}, {self.a_text()});"),
                           (1, lambda: f"printf(\"%d,\", memcmp({n}, \"abcdefgh\", {self.rng.randrange(0, k + 1)}) == 0);")))

    def wording(self):
        n = self.rng.choice(self.words)
        self.say(self.rng.choice([f"{n} = {self.a_text()};", f"puts({n});", f"{n} = {n};"] + ([f"{n}++;", f"*{n} = 'w';", f"{n} += 1;"] if self.wild else [])))

    def odd(self):
        self.say(self.pick((2, lambda: f"{self.place(1)};"), (1 if self.structs else 0, lambda: f"{self.rng.choice(self.structs)};"),
                           (0.2 if self.pointers else 0, lambda: f"{self.rng.choice(self.pointers)} = NULL;"), (2, lambda: f"{self.effect()};"),
                           (1, lambda: f"exit({self.expression(0)});" if self.chance(0.2) else ";"),
                           (1 if self.structs else 0, lambda: f"({self.rng.choice(self.structs)} = {self.rng.choice(self.structs)}).m;"),
                           (1, lambda: f"return{'' if self.result == 'void' else ' ' + self.effect()};" if self.chance(0.3) else ";")))

    def returning(self):
        self.say(f"if ({self.expression(1)}) return{'' if self.result == 'void' else ' ' + self.expression(1)};")


def program(rng, wild, most=9):
    """A program whose functions have so many statements at most, those in others aside."""
    return Programs(rng, wild, most).whole()
