"""A parser of scripts and their faults, and random texts that are nearly scripts.

Written from docs/LANGUAGE.md alone. It gives the tree of storm_texts.py, or the first fault and its place.
"""
from storm_texts import ASKS, DIGITS, KEYWORDS, LETTERS

BLANKS = frozenset(" \t\r\n")
MARKS = frozenset("( ) { } , ; = == != < <= > >= + - * / %".split())
RELATIONS = frozenset(["==", "!=", "<", "<=", ">", ">="])
MOST_NUMBER, MOST_OPEN, MOST_VARIABLES, MOST_TASKS = 2**63 - 1, 64, 256, 1024
END = ""


class Fault(Exception):
    """A kind of fault and the index of its byte."""


def tokens_of(text):
    """Each token with the index of its first byte; the end is the empty token behind the last byte."""
    found, i = [], 0
    while i < len(text):
        c, first = text[i], i
        if c in BLANKS:
            i += 1
        elif c == "#":
            while i < len(text) and text[i] != "\n":
                i += 1
        elif c in LETTERS or c in DIGITS:
            while i < len(text) and (text[i] in DIGITS or c in LETTERS and text[i] in LETTERS):
                i += 1
            token = text[first:i]
            if c in DIGITS and int(token) > MOST_NUMBER:
                raise Fault("L2", first)
            if len(token) > 64 and c in LETTERS:
                raise Fault("L3", first)
            found.append((token, first))
        else:
            i += 2 if text[i:i + 2] in MARKS else 1
            if text[first:i] not in MARKS:
                raise Fault("L1", first)
            found.append((text[first:i], first))
    return found + [(END, len(text))]


class Parser:
    """Reads the tokens from the left. What it meets first is the first fault."""

    def __init__(self, text):
        self.tokens, self.i, self.opened = tokens_of(text), 0, 0
        self.known, self.forks = [], []

    def token(self):
        return self.tokens[self.i][0]

    def fault(self, kind):
        return Fault(kind, self.tokens[self.i][1])

    def take(self, token):
        if self.token() != token:
            raise self.fault("P1")
        self.i += 1

    def takes(self, token):
        """Takes the token where it stands here."""
        if self.token() != token:
            return False
        self.i += 1
        return True

    def open(self, token):
        """Takes a token that opens a construct."""
        if self.token() == token and self.opened == MOST_OPEN:
            raise self.fault("P7")
        self.take(token)
        self.opened += 1

    def close(self, token):
        self.take(token)
        self.opened -= 1

    def is_name(self):
        return self.token()[:1] in LETTERS and self.token() not in KEYWORDS

    def name(self):
        if not self.is_name():
            raise self.fault("P1")
        self.i += 1
        return self.tokens[self.i - 1][0]

    def variable(self):
        """A name that has to be known."""
        if self.is_name() and self.token() not in self.known:
            raise self.fault("P2")
        return self.name()

    def declared(self, before, most):
        """A name that isn't among these before it, of which there may be so many."""
        if self.is_name() and self.token() in before:
            raise self.fault("P3")
        if self.is_name() and len(before) == most:
            raise self.fault("P8")
        return self.name()

    def script(self):
        tasks, places = [], {}
        while self.token() != END:
            self.take("task")
            at = self.tokens[self.i][1]
            name = self.declared(list(places), MOST_TASKS)
            places[name] = at
            params = self.known = []
            self.take("(")
            if self.token() != ")":
                params.append(self.declared(params, MOST_VARIABLES))
                while self.takes(","):
                    params.append(self.declared(params, MOST_VARIABLES))
            self.take(")")
            self.known = list(params)
            tasks.append((name, params, self.block()))
        counts = {name: len(params) for name, params, _ in tasks}
        for name, count, at in self.forks:
            if counts.get(name) != count:
                raise Fault("P4" if name in counts else "P2", at)
        if "main" not in counts:
            raise Fault("P5", 0)
        if counts["main"] > 0:
            raise Fault("P6", places["main"])
        return tasks

    def block(self):
        self.open("{")
        statements = []
        while self.token() != "}":
            statements.append(self.statement())
        self.close("}")
        return statements

    def statement(self):
        token = self.token()
        if token == "let":
            self.i += 1
            x = self.declared(self.known, MOST_VARIABLES)
            self.take("=")
            made = ("let", x, self.given())
            self.take(";")
            self.known.append(x)
            return made
        if token in ("if", "while"):
            self.i += 1
            tested, inner = self.expression(), self.block()
            if token == "while":
                return ("while", tested, inner)
            return ("if", tested, inner, self.block() if self.takes("else") else None)
        if token in ("print", "return"):
            self.i += 1
            made = (token, self.expression())
        elif token == "set":
            self.i += 1
            x = self.variable()
            self.take("=")
            made = ("set", x, self.expression())
        elif token in ASKS:
            made = ("do", self.given())
        else:
            x = self.variable()
            self.take("=")
            made = ("assign", x, self.given())
        self.take(";")
        return made

    def given(self):
        if self.takes("new"):
            return ("new",)
        if self.takes("fork"):
            at = self.tokens[self.i][1]
            name, arguments = self.name(), []
            self.take("(")
            if self.token() != ")":
                arguments.append(self.argument())
                while self.takes(","):
                    arguments.append(self.argument())
            self.take(")")
            self.forks.append((name, len(arguments), at))
            return ("fork", name, arguments)
        if self.token() in ("get", "join"):
            way = self.token()
            self.i += 1
            x = "me" if self.takes("me") else self.variable()
            return (way, x, self.expression() if self.takes("or") else None)
        return self.expression()

    def argument(self):
        return ("own", self.variable()) if self.takes("own") else self.expression()

    def expression(self):
        left = self.chain("+-", lambda: self.chain("*/%", self.unary))
        mark = self.token()
        if mark not in RELATIONS:
            return left
        self.i += 1
        return ("compare", mark, left, self.chain("+-", lambda: self.chain("*/%", self.unary)))

    def chain(self, marks, operand):
        first, more = operand(), []
        while self.token() != END and self.token() in marks:
            mark = self.token()
            self.i += 1
            more.append((mark, operand()))
        return ("chain", first, more) if more else first

    def unary(self):
        token = self.token()
        if token == "-":
            self.open("-")
            inner = self.unary()
            self.opened -= 1
            return ("minus", inner)
        if token == "(":
            self.open("(")
            inner = self.expression()
            self.close(")")
            return inner
        if token[:1] in DIGITS and token != END:
            self.i += 1
            return ("number", int(token))
        if self.takes("me"):
            return ("me",)
        return ("name", self.variable())


def parsed(text):
    """The tree of a text of bytes and None, or None and the fault's line as the program writes it."""
    letters = text.decode("latin-1")
    try:
        return Parser(letters).script(), None
    except Fault as fault:
        kind, at = fault.args
        line = letters.count("\n", 0, at) + 1
        return None, f"script fault {kind} at {line}:{at - letters.rfind(chr(10), 0, at)}\n"


WORDS = sorted(KEYWORDS | MARKS) + ["x", "main", "v", "0", "7", "9223372036854775807", "9223372036854775808",
                                    "a" * 64, "a" * 65, "!", "@", "\xe9", "&", "\"", "--", "own own", "me me"]


def put_in(text, at, more, dropped=0):
    """The text with other letters in the place of so many."""
    return text[:at] + more + text[at + dropped:]


def renamed(places, text, draw):
    """Another name in the place of one."""
    names = [(name, at) for name, at in places if name[:1] in LETTERS and name not in KEYWORDS]
    if not names:
        return text
    name, at = draw.choice(names)
    return put_in(text, at, draw.choice(names)[0], len(name))


def recounted(places, text, draw):
    """A parameter or an argument more, or one less."""
    tokens = [token for token, _ in places]
    more = [i for i in range(len(places) - 1) if tokens[i] == "(" and tokens[i + 1] == ")"]
    less = [i for i in range(2, len(places)) if tokens[i] == "," and tokens[i - 2] in ("(", ",")]
    if more and (draw.random() < 0.6 or not less):
        return put_in(text, places[draw.choice(more) + 1][1], draw.choice(["1", "me", "x_"]))
    if not less:
        return text
    i = draw.choice(less)
    return put_in(text, places[i - 1][1], "", places[i][1] + 1 - places[i - 1][1])


def deepened(places, text, draw):
    """Many constructs more at a place where they may stand."""
    i = draw.randrange(1, len(places)) if len(places) > 1 else 0
    tokens = [token for token, _ in places]
    count = draw.choice([1, 30, 61, 62, 63, 64])
    for j in range(i, len(places)):
        if tokens[j - 1] in ("=", "print", "return", "while", "+", "*", "or"):
            return put_in(text, places[j][1], draw.choice(["(", "-", "- ", "(-"]) * count)
        if tokens[j - 1] in (";", "{"):
            return put_in(text, places[j][1], draw.choice(["if 1 {", "while 0{"]) * count)
    return text


def crowded(places, text, draw):
    """Many variables or tasks more."""
    if draw.random() < 0.5:
        count = draw.choice([1, 1020, 1022, 1023, 1024, 1025])
        return text + "\n" + "".join(f"task t{n}() {{ }} " for n in range(count))
    at = text.find("}", draw.choice(places)[1])
    many = "".join(f"let u{n} = 1; " for n in range(draw.choice([1, 250, 253, 254, 255, 256, 257])))
    return put_in(text, at, many) if at >= 0 else text


def retokened(places, text, draw):
    """A token less, more or another, or the text cut."""
    token, at = draw.choice(places)
    other = draw.choice(places)[0] if draw.random() < 0.4 else draw.choice(WORDS)
    return draw.choice([put_in(text, at, "", len(token)), put_in(text, at, f" {other} ", len(token)),
                        put_in(text, at, f" {other} "), text[:draw.randint(0, len(text))]])


def nearly(text, draw):
    """The text with a few places changed."""
    text = text.decode("latin-1")
    changes = [renamed] * 3 + [recounted] * 2 + [deepened, crowded] + [retokened] * 4
    for _ in range(draw.choice([1, 1, 1, 2, 3])):
        try:
            text = draw.choice(changes)(tokens_of(text), text, draw)
        except Fault:
            break
    return text.encode("latin-1")
