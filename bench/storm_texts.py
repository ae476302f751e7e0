"""Scripts as trees, and the two ways in which the storm writes one: its listing, and a loose text of the same script.

Written from docs/LANGUAGE.md alone. A tree is made of tuples:

    script      a list of tasks              task        (NAME, [PARAMETER ..], block)
    block       a list of statements
    statement   ("let" | "assign", NAME, given), ("do", ask), ("print", E), ("set", NAME, E), ("return", E),
                ("if", E, block, block or None), ("while", E, block)
    given       an ask or an expression
    ask         ("new",), ("fork", NAME, [argument ..]), ("get" | "join", NAME or "me", E or None)
    argument    ("own", NAME) or an expression
    expression  ("number", N), ("name", NAME), ("me",), ("minus", E), ("compare", MARK, E, E),
                ("chain", E, [(MARK, E) ..]), whose marks are all of "+-" or all of "*/%"
"""

KEYWORDS = frozenset("task let if else while print set return new fork own get join me or".split())
LETTERS = frozenset("abcdefghijklmnopqrstuvwxyzABCDEFGHIJKLMNOPQRSTUVWXYZ_")
DIGITS = frozenset("0123456789")
ASKS = frozenset(["new", "fork", "get", "join"])


def level(e):
    """How tightly an expression holds together: a comparison least, a number most."""
    if e[0] == "compare":
        return 0
    if e[0] == "chain":
        return 1 if e[2][0][0] in "+-" else 2
    return 3


def expression(e, least, more):
    """The tokens of an expression where this level is needed. `more` says how many parentheses stand round it."""
    extra = more()
    wanted = extra + (1 if level(e) < least else 0)
    yield from ["("] * wanted
    kind = e[0]
    if kind == "number":
        yield e[1]
    elif kind == "name":
        yield e[1]
    elif kind == "me":
        yield "me"
    elif kind == "minus":
        yield "neg"
        yield from expression(e[1], 3, more)
    elif kind == "compare":
        yield from expression(e[2], 1, more)
        yield e[1]
        yield from expression(e[3], 1, more)
    else:
        inner = level(e) + 1
        yield from expression(e[1], inner, more)
        for mark, right in e[2]:
            yield mark
            yield from expression(right, inner, more)
    yield from [")"] * wanted


def given(g, more):
    """The tokens of an ask or of an expression."""
    if g[0] not in ASKS:
        yield from expression(g, 0, more)
        return
    yield g[0]
    if g[0] == "fork":
        yield from [g[1], "call("]
        for i, a in enumerate(g[2]):
            if i > 0:
                yield ","
            if a[0] == "own":
                yield from ["own", a[1]]
            else:
                yield from expression(a, 0, more)
        yield "call)"
    elif g[0] != "new":
        yield g[1]
        if g[2] is not None:
            yield "or"
            yield from expression(g[2], 0, more)


def statement(s, more):
    """The tokens of a statement, with "{" and "}" round its blocks."""
    kind = s[0]
    if kind in ("let", "assign"):
        yield from (["let"] if kind == "let" else []) + [s[1], "="]
        yield from given(s[2], more)
    elif kind == "do":
        yield from given(s[1], more)
    elif kind == "set":
        yield from ["set", s[1], "="]
        yield from expression(s[2], 0, more)
    else:
        yield kind
        yield from expression(s[1], 0, more)
    if kind in ("if", "while"):
        yield from block(s[2], more)
        if kind == "if" and s[3] is not None:
            yield "else"
            yield from block(s[3], more)
    else:
        yield ";"


def block(b, more):
    yield "{"
    for s in b:
        yield from statement(s, more)
    yield "}"


def tokens(script, more=lambda: 0):
    """The tokens of a script. A sign is "neg", and the parentheses of a call are "call(" and "call)"."""
    for name, params, body in script:
        yield from ["task", name, "call("]
        for i, p in enumerate(params):
            if i > 0:
                yield ","
            yield p
        yield "call)"
        yield from block(body, more)


WRITTEN = {"neg": "-", "call(": "(", "call)": ")"}
SPACED = frozenset(["=", "==", "!=", "<", "<=", ">", ">=", "+", "-", "*", "/", "%"])


def listing(script):
    """The listing: a statement a line, two spaces a block, one space where one stands."""
    lines, line, depth, last = [], "", 0, None
    for token in tokens(script):
        text = WRITTEN.get(token, str(token))
        if token == "}":
            if line:
                lines.append("  " * depth + line)
            depth -= 1
            line = "}"
            last = token
            continue
        if last == "}" and token != "else":
            lines.append("  " * depth + line)
            line, last = "", None
        spaced = token in SPACED or last in SPACED or last == "," or token in ("{", "else", "or") or last == "else"
        word = is_word(text) and last is not None and is_word(WRITTEN.get(last, str(last)))
        begins = is_word(str(last)) and last in KEYWORDS and token in ("(", "neg")
        if line and (spaced or word or begins):
            line += " "
        line += text
        last = token
        if token in (";", "{"):
            lines.append("  " * depth + line)
            line, last = "", None
            depth += token == "{"
    if line:
        lines.append(line)
    return "".join(line + "\n" for line in lines)


def is_word(text):
    return text[0] in LETTERS or text[0] in DIGITS


def loose(script, draw):
    """A text of the same script: other blanks, comments, leading zeros and parentheses that nothing needs."""
    plain = draw.random() < 0.5
    comments = 0 if plain else draw.choice([0, 0.02, 0.1])
    def more():
        return 0 if plain or draw.random() < 0.9 else draw.randint(1, 3)
    out, last = [], ""
    for token in tokens(script, more):
        text = WRITTEN.get(token, str(token))
        if text[0] in DIGITS and not plain and draw.random() < 0.1:
            text = "0" * draw.choice([1, 2, 30]) + text
        # Behind a name a name or number would go on with it; behind a number only a number does; and `=` behind `=`.
        joins = last and is_word(text) and (last[0] in LETTERS or (last[0] in DIGITS and text[0] in DIGITS))
        joins = joins or (last in ("=", "<", ">", "!") and text[0] == "=")
        if plain:
            blank = " "
        elif joins:
            blank = draw.choice([" ", "  ", "\n", "\t", "\r\n"])
        else:
            blank = draw.choice(["", "", " ", " ", "\n", " \t\r "])
        if comments and draw.random() < comments:
            blank += "#" + draw.choice(["", " a comment", "# task main() {", "\t;}", " \xfc\xff", "\r"]) + "\n"
        out.append(blank + text)
        last = text
    if comments and draw.random() < 0.3:
        out.append("# the end")
    # Each character stands for its byte, so a comment has bytes that are no UTF-8.
    return "".join(out).encode("latin-1")


def asks_of(b):
    """Each ask of a block, those of inner blocks too."""
    for s in b:
        if s[0] in ("let", "assign") and s[2][0] in ASKS:
            yield s[2]
        elif s[0] == "do":
            yield s[1]
        elif s[0] in ("if", "while"):
            yield from asks_of(s[2])
            if s[0] == "if" and s[3] is not None:
                yield from asks_of(s[3])


def names_used(node):
    """Each variable that an expression, an ask or an argument uses."""
    if node is None or node[0] in ("number", "me", "new"):
        return
    if node[0] in ("name", "own"):
        yield node[1]
    elif node[0] == "minus":
        yield from names_used(node[1])
    elif node[0] == "compare":
        yield from names_used(node[2])
        yield from names_used(node[3])
    elif node[0] == "chain":
        yield from names_used(node[1])
        for _, e in node[2]:
            yield from names_used(e)
    elif node[0] == "fork":
        for a in node[2]:
            yield from names_used(a)
    else:
        if node[1] != "me":
            yield node[1]
        yield from names_used(node[2])


def depth(node):
    """How many parentheses and signs an expression, an ask or an argument opens at most."""
    if node is None or node[0] in ("number", "me", "new", "name", "own"):
        return 0
    if node[0] == "fork":
        return max([depth(a) for a in node[2]], default=0)
    if node[0] in ("get", "join"):
        return depth(node[2])
    if node[0] == "minus":
        inner = [(node[1], 3)]
    elif node[0] == "compare":
        inner = [(node[2], 1), (node[3], 1)]
    else:
        inner = [(e, level(node) + 1) for e in [node[1]] + [e for _, e in node[2]]]
    return max(depth(e) + (level(e) < least) for e, least in inner) + (node[0] == "minus")


def is_known(b, known, opened):
    """Whether a block uses only what is known there, declares no name twice, and opens at most 60 constructs."""
    for s in b:
        used = s[2] if s[0] in ("let", "assign", "set") else s[1]
        if any(name not in known for name in names_used(used)) or opened + depth(used) > 60:
            return False
        if s[0] == "let":
            if s[1] in known:
                return False
            known.add(s[1])
        elif s[0] in ("assign", "set") and s[1] not in known:
            return False
        elif s[0] in ("if", "while"):
            for inner in s[2:]:
                if inner is not None and not is_known(inner, known, opened + 1):
                    return False
    return True


def is_script(script):
    """Whether the tree is one of a script: what a mutation or the shrinking leaves may be none."""
    params = {name: len(given) for name, given, _ in script}
    if len(params) != len(script) or len(script) > 1024 or params.get("main") != 0:
        return False
    for _, given, body in script:
        known = set(given)
        if len(known) != len(given) or not is_known(body, known, 1) or len(known) > 256:
            return False
        if any(a[0] == "fork" and params.get(a[1]) != len(a[2]) for a in asks_of(body)):
            return False
    return True
