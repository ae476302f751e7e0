"""Changes of a script's tree at random places, and the paths of its nodes and blocks."""
from storm_making import COMPARISONS, EDGES, PRODUCTS, SUMS, join, name, num


def places(node, path=()):
    """Each node of a tree with its path; a tuple that begins with a word is a node."""
    if isinstance(node, tuple) and node and isinstance(node[0], str):
        yield path, node
    if isinstance(node, (tuple, list)):
        for i, inner in enumerate(node):
            if isinstance(inner, (tuple, list)):
                yield from places(inner, path + (i,))


def put(node, path, new):
    """The tree with another node at this path."""
    if not path:
        return new
    made = list(node)
    made[path[0]] = put(node[path[0]], path[1:], new)
    return tuple(made) if isinstance(node, tuple) else made


def lists(node, path=()):
    """The paths of all blocks of a script."""
    for i, (_, _, body) in enumerate(node):
        yield from blocks(body, (i, 2))


def blocks(b, path):
    yield path, b
    for i, s in enumerate(b):
        if s[0] in ("if", "while"):
            yield from blocks(s[2], path + (i, 2))
            if s[0] == "if" and s[3] is not None:
                yield from blocks(s[3], path + (i, 3))


def changed(script, draw):
    """The script with one place changed; it may be no script."""
    roll = draw.random()
    if roll < 0.45:
        path, b = draw.choice([(p, b) for p, b in lists(script) if b] or [((0, 2), [("return", num(1))])])
        i, b = draw.randrange(len(b)), list(b)
        if roll < 0.15:
            del b[i]
        elif roll < 0.22 and b[i][0] != "let":
            b.insert(i, b[i])
        elif roll < 0.32 and len(b) > 1:
            j = draw.randrange(len(b))
            b[i], b[j] = b[j], b[i]
        elif roll < 0.40:
            b[i] = ("if", num(draw.choice([0, 1])), [b[i]], draw.choice([None, [], [b[i]]]))
        else:
            b.insert(i, draw.choice([("return", num(3)), ("print", ("me",)), ("do", ("new",)),
                                     ("do", join("me", num(1)))]))
        return put(script, path, b)
    found = list(places([body for _, _, body in script]))
    if not found:
        return script
    path, node = draw.choice(found)
    variables = [n[1] for p, n in places(script[path[0]][2]) if n[0] in ("let", "name")] + script[path[0]][1]
    path = (path[0], 2) + path[1:]
    kind = node[0]
    if kind == "name" and variables:
        new = ("name", draw.choice(variables))
    elif kind == "own":
        new = ("name", node[1]) if draw.random() < 0.6 else ("own", draw.choice(variables))
    elif kind == "number":
        new = num(draw.choice(EDGES)) if draw.random() < 0.8 else ("me",)
    elif kind in ("get", "join"):
        new = draw.choice([(draw.choice(["get", "join"]), node[1], node[2]), (kind, node[1], None),
                           (kind, node[1], num(4)), (kind, draw.choice(variables + ["me"]), node[2])])
    elif kind == "chain":
        marks = SUMS if node[2][0][0] in SUMS else PRODUCTS
        new = ("chain", node[1], [(draw.choice(marks), e) for _, e in node[2]])
    elif kind == "compare":
        new = ("compare", draw.choice(COMPARISONS), node[3], node[2])
    elif kind == "set" and variables:
        new = ("set", draw.choice(variables), node[2])
    elif kind == "fork" and node[2]:
        i, arguments = draw.randrange(len(node[2])), list(node[2])
        a = arguments[i]
        others = [("me",), num(1)] + [name(v) for v in variables]
        arguments[i] = ("own", a[1]) if a[0] == "name" else draw.choice(others)
        new = ("fork", node[1], arguments)
    else:
        return script
    return put(script, path, new)


def renamed(script, draw):
    """The script with longer or stranger names: one of 64 bytes, or one that a keyword begins."""
    old = [n for n, _, _ in script if n != "main"]
    if not old or draw.random() < 0.9:
        return script
    f = draw.choice(old)
    new = draw.choice(["while_", "tasks", "_", "me2", "O" * 64, "new_1"])
    if any(n == new for n, _, _ in script):
        return script
    rename = lambda node: ("fork", new, [rename(a) for a in node[2]]) if node[0] == "fork" and node[1] == f else tuple(
        rename(x) if isinstance(x, tuple) and x and isinstance(x[0], str) else
        [rename(y) if isinstance(y, tuple) and y and isinstance(y[0], str) and y[0] not in "+-*/%" else y for y in x]
        if isinstance(x, list) else x for x in node)
    return [(new if n == f else n, params, [rename(s) for s in body]) for n, params, body in script]
