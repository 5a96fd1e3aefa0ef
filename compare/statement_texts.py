"""Random embedded statements: of every form, most of them cut or with some tokens changed."""

import random

NAMES = ["a", "b", "c1", "st", "cur", "_x", "x$1", "w\xe9", "t"]
FORM_WORDS = """AT CONNECT TO AS USER IDENTIFIED BY USING SET CONNECTION AUTOCOMMIT ON OFF DISCONNECT CURRENT ALL DEFAULT
DECLARE INSENSITIVE ASENSITIVE NO SCROLL CURSOR WITH WITHOUT HOLD FOR OPEN EXECUTE IMMEDIATE INTO SQL DESCRIPTOR PREPARE
FROM DEALLOCATE ALLOCATE GET VALUE COUNT DATA INDICATOR NAME TYPE RETURNED_OCTET_LENGTH WHENEVER SQLERROR SQLWARNING NOT
FOUND CONTINUE GOTO GO SQLPRINT STOP DO BREAK CALL INCLUDE sqlca BEGIN START COMMIT END ROLLBACK ABORT SAVEPOINT RELEASE
VAR DESCRIBE DEFINE UNDEF IFDEF IFNDEF ELSE ENDIF STATEMENT BINARY INSERT MERGE SELECT SQLCODE SQLSTATE E""".split()
MARKS = list(":,()[].-=/+*<>|@!~%^&?{}") + ["::", "->"]
QUOTES = ["'x'", "'it''s'", "''", '"col"', '"a""b"', "'a'", r"'\n'", r"'\101'", r"'\x41'", r"'\xfff'", "'ab'", "'a;b'",
          "'/*'", "'line\nline'", r"'\400'"]
NUMBERS = ["0", "1", "42", "007", "2147483647", "2147483648", "9223372036854775807", "9223372036854775808", "1.5", ".5",
           "1e5", "0x10", "99999999999999999999"]
GAPS = [" ", " ", " ", "", "  ", "\n", "\t", " /* c */ ", "/**/", "--c\n", "/* /* */ ; */", "\r\n", "\f\v"]


class Statements:
    """Statements by their seed."""

    def __init__(self, seed):
        self.random = random.Random(seed)

    def one_of(self, *choices):
        return self.random.choice(choices)

    def maybe(self, part, chance=0.5):
        return part() if self.random.random() < chance else []

    def name(self):
        if self.random.random() < 0.1:
            return [self.random.choice(FORM_WORDS)]
        return [self.random.choice(NAMES)]

    def case(self, word):
        return self.one_of(word, word, word.lower(), word.capitalize())

    def words(self, text):
        return [self.case(word) for word in text.split()]

    def number(self):
        return [self.one_of("0", "1", "2", "42", "007", "2147483648", self.random.choice(NUMBERS))]

    def quote(self):
        return [self.one_of("'x'", "'it''s'", "''", "'a b'", self.random.choice(QUOTES))]

    def reference(self):
        text = ":" + self.name()[0]
        while self.random.random() < 0.25:
            text += self.one_of(".m", "->m", "[1]", "[i]", "[" + self.random.choice(NUMBERS) + "]", ".", "[", "->")
        return [text]

    def host(self):
        indicator = lambda: self.one_of([], self.words("INDICATOR")) + self.reference()
        return self.reference() + self.maybe(indicator, 0.3)

    def text_argument(self):
        return self.one_of(self.name, self.quote, self.host)()

    def value(self):
        return self.one_of(self.host, self.quote, self.number, lambda: ["-"] + self.number())()

    def listed(self, part):
        tokens = part()
        while self.random.random() < 0.4:
            tokens += [","] + part()
        return tokens

    def area(self):
        return self.words("SQL DESCRIPTOR") + self.text_argument()

    def inputs(self):
        return self.one_of(self.area, lambda: self.listed(self.value), lambda: self.listed(self.value))()

    def outputs(self):
        return self.one_of(self.area, lambda: self.listed(self.host), lambda: self.listed(self.host))()

    def any_token(self):
        kinds = (lambda: [self.random.choice(FORM_WORDS)], lambda: [self.random.choice(MARKS)], self.quote, self.number,
                 self.name, self.host, lambda: ["E" + self.random.choice([r"'a\'b'", "'x'", r"'\\'"])])
        return self.random.choice(kinds)()

    def text(self):
        tokens = self.one_of(self.words("SELECT"), self.words("INSERT INTO"), self.words("UPDATE"), self.words("FETCH"),
                             self.words("SET"), self.name(), ["("])
        for _ in range(self.random.randrange(12)):
            tokens += self.one_of(self.any_token, self.any_token, self.host, lambda: self.words("INTO") + self.outputs(),
                                  lambda: ["("] + self.any_token() + [")"],
                                  lambda: self.words("INTO") + self.any_token())()
        return tokens

    # -- forms

    def connect(self):
        target = self.one_of(self.host, self.quote, self.name, lambda: self.words("DEFAULT"),
                             lambda: ["tcp", ":", "postgresql", ":", "/", "/", "host", ":", "5432", "/", "db"],
                             lambda: self.any_token() + self.any_token())
        alias = lambda: self.words("AS") + self.text_argument()
        password = lambda: self.one_of(self.words("IDENTIFIED BY"), self.words("USING"), ["/"]) + self.text_argument()
        user = lambda: self.words("USER") + self.text_argument() + self.maybe(password)
        return self.words("CONNECT TO") + target() + self.maybe(alias) + self.maybe(user)

    def set_connection(self):
        return self.words("SET CONNECTION") + self.maybe(lambda: self.one_of(self.words("TO"), ["="])) \
            + self.text_argument()

    def autocommit(self):
        return self.words("SET AUTOCOMMIT") + self.one_of(self.words("TO"), ["="]) + self.words(self.one_of("ON", "OFF"))

    def disconnect(self):
        what = (lambda: [], self.text_argument, lambda: self.words(self.one_of("CURRENT", "ALL", "DEFAULT")))
        return self.words("DISCONNECT") + self.random.choice(what)()

    def declare(self):
        option = lambda: self.words(self.one_of("INSENSITIVE", "ASENSITIVE", "SCROLL", "NO SCROLL"))
        hold = lambda: self.words(self.one_of("WITH HOLD", "WITHOUT HOLD"))
        return self.words("DECLARE") + self.name() + self.maybe(option) + self.words("CURSOR") + self.maybe(hold) \
            + self.words("FOR") + self.one_of(self.text, self.text, self.name)()

    def open(self):
        return self.words("OPEN") + self.name() + self.maybe(lambda: self.words("USING") + self.inputs())

    def execute(self):
        if self.random.random() < 0.3:
            return self.words("EXECUTE IMMEDIATE") + self.one_of(self.host, self.quote)()
        parts = [self.maybe(lambda: self.words("INTO") + self.outputs()),
                 self.maybe(lambda: self.words("USING") + self.inputs())]
        self.random.shuffle(parts)
        return self.words("EXECUTE") + self.name() + parts[0] + parts[1]

    def prepare(self):
        return self.words("PREPARE") + self.name() + self.words("FROM") + self.one_of(self.host, self.quote)()

    def deallocate(self):
        return self.words("DEALLOCATE") + self.maybe(lambda: self.words("PREPARE")) + self.name()

    def descriptors(self):
        return self.words(self.one_of("ALLOCATE", "DEALLOCATE")) + self.words("DESCRIPTOR") + self.text_argument()

    def get(self):
        head = self.words("GET DESCRIPTOR") + self.text_argument()
        if self.random.random() < 0.3:
            return head + self.host() + ["="] + self.words("COUNT")
        item = lambda: self.words(self.one_of("DATA", "INDICATOR", "NAME", "TYPE", "RETURNED_OCTET_LENGTH"))
        return head + self.words("VALUE") + self.value() + self.listed(lambda: self.host() + ["="] + item())

    def set(self):
        head = self.words("SET DESCRIPTOR") + self.text_argument()
        if self.random.random() < 0.3:
            return head + self.words("COUNT") + ["="] + self.value()
        item = lambda: self.words(self.one_of("DATA", "INDICATOR", "TYPE"))
        return head + self.words("VALUE") + self.value() + self.listed(lambda: item() + ["="] + self.value())

    def whenever(self):
        condition = self.words(self.one_of("SQLERROR", "SQLWARNING", "NOT FOUND"))
        argument = lambda: self.one_of(self.name, self.number, self.quote, lambda: ["SQLCODE"])()
        call = lambda: self.words(self.one_of("DO", "CALL")) + self.name() + ["("] \
            + self.maybe(lambda: self.listed(argument)) + [")"]
        jump = lambda: self.words(self.one_of("GOTO", "GO TO")) + self.name()
        plain = lambda: self.words(self.one_of("CONTINUE", "SQLPRINT", "STOP", "DO BREAK", "DO CONTINUE"))
        return self.words("WHENEVER") + condition + self.random.choice((call, jump, plain))()

    def include(self):
        path = self.one_of([".", ".", "/", "f"], ["/", "f"], ["sqlca", ".", "h"], ["sqlca"] + self.any_token(), self.any_token())
        return self.words("INCLUDE") + self.one_of(self.words("sqlca"), self.words("SQLCA"), self.name(), ['"f"'], ["<", "f", ">"],
                                                   ["'f'"], ["5"], [], path)

    def transaction(self):
        tokens = self.words(self.one_of("BEGIN", "START", "COMMIT", "END", "ROLLBACK", "ABORT", "SAVEPOINT", "RELEASE"))
        for _ in range(self.random.randrange(3)):
            tokens += self.any_token()
        return tokens

    def left_out(self):
        return self.words(self.one_of("TYPE", "VAR", "DESCRIBE", "DEFINE", "UNDEF", "IFDEF", "IFNDEF", "ELSE", "ENDIF",
                                      "PREPARE a AS", "DECLARE a STATEMENT", "DEALLOCATE ALL", "DECLARE a BINARY",
                                      "SELECT a INTO DESCRIPTOR d", "OPEN c USING DESCRIPTOR d",
                                      "EXECUTE s USING DESCRIPTOR d", "INSERT INTO DESCRIPTOR")) + self.any_token()

    def form(self):
        forms = (self.connect, self.set_connection, self.autocommit, self.disconnect, self.declare, self.open,
                 self.execute, self.prepare, self.deallocate, self.descriptors, self.get, self.set, self.whenever,
                 self.include, self.transaction, self.left_out, self.text, self.text)
        return self.random.choice(forms)()

    # -- changes

    def changed(self, tokens):
        """Some tokens taken away, changed, doubled or put in, or the end cut off."""
        tokens = list(tokens)
        for _ in range(self.random.choice((1, 1, 1, 2, 3))):
            at = self.random.randrange(len(tokens) + 1)
            kind = self.random.randrange(5)
            if kind == 0:
                tokens[at:at] = self.any_token()
            elif kind == 1:
                tokens[at:at + 1] = []
            elif kind == 2:
                tokens[at:at + 1] = self.any_token()
            elif kind == 3:
                tokens[at:at] = tokens[at:at + 1]
            else:
                del tokens[at:]
        return tokens

    def statement(self):
        """The bytes of a statement."""
        tokens = self.form()
        if self.random.random() < 0.2:
            tokens = self.words("AT") + self.text_argument() + tokens
        if self.random.random() < 0.5:
            tokens = self.changed(tokens)
        plain = self.random.random() < 0.5
        text = self.one_of("EXEC SQL", "exec sql", "Exec\nSql", "EXEC \t SQL")
        joined = False
        for token in tokens:
            gap = " " if plain else self.random.choice(GAPS)
            if not joined and not gap:
                gap = " "
            text += gap + token
            joined = True
        return (text + self.one_of("", " ", "\n") + ";").encode("latin-1")


def statement(seed):
    return Statements(seed).statement()
