"""Makes a failing case smaller: what is dropped or made simpler stays so while the case still fails."""
from storm_changes import lists, places, put
from storm_making import num
from storm_texts import is_script

# Another order of workers may not fail each time, so each smaller case is tried so often.
TRIES = 5


def smaller_scripts(script):
    """Scripts with a task, a statement or a part of an expression less, the greatest parts first."""
    for i, (name, _, _) in enumerate(script):
        if name != "main":
            yield script[:i] + script[i + 1:]
    for path, b in lists(script):
        size = len(b)
        while size > 0:
            for i in range(0, len(b) - size + 1, size):
                yield put(script, path, b[:i] + b[i + size:])
            size //= 2
        for i, s in enumerate(b):
            if s[0] in ("if", "while"):
                yield put(script, path, b[:i] + s[2] + (s[3] or [] if s[0] == "if" else []) + b[i + 1:])
            if s[0] == "if" and s[3] is not None:
                yield put(script, path, b[:i] + [("if", s[1], s[2], None)] + b[i + 1:])
    for i, (name, params, _) in enumerate(script):
        for j in range(len(params)):
            yield without_place(script, name, j)
    for path, node in places([body for _, _, body in script]):
        path = (path[0], 2) + path[1:]
        if node[0] in ("minus", "compare"):
            yield put(script, path, node[-1])
        if node[0] in ("minus", "compare", "chain") or node[0] == "number" and node[1] not in (0, 1):
            yield put(script, path, num(1))
        if node[0] == "chain":
            yield put(script, path, node[1])
        if node[0] in ("get", "join") and node[2] is not None:
            yield put(script, path, (node[0], node[1], None))


def without_place(script, name, j):
    """The script whose task `name` has no parameter j, and whose forks of it have no argument there."""
    def dropped(node):
        if isinstance(node, list):
            return [dropped(inner) for inner in node]
        if not isinstance(node, tuple):
            return node
        if node and node[0] == "fork" and node[1] == name:
            return ("fork", name, node[2][:j] + node[2][j + 1:])
        return tuple(dropped(inner) for inner in node)
    return [(n, params[:j] + params[j + 1:] if n == name else params, dropped(body)) for n, params, body in script]


def smaller_lines(lines):
    """Journals with some lines less, the longest rows of them first."""
    size = len(lines)
    while size > 0:
        for i in range(0, len(lines) - size + 1, size):
            yield lines[:i] + lines[i + size:]
        size //= 2


def shrunk(case, run, found, fails, most=3000):
    """The run of the smallest case that still fails by the way of this run, and what it ended with."""
    best = run, found
    if case.remade is None:
        return best
    way = run.words[0] if run.words[0] != "run" else run.words[2]
    smaller = smaller_lines if case.tree and isinstance(case.tree[0], bytes) else smaller_scripts
    tree, tried, going = case.tree, 0, True
    while going and tried < most:
        going = False
        for other in smaller(tree):
            if smaller is smaller_scripts and not is_script(other):
                continue
            tried += 1
            failing = first_failing(case, other, way, fails)
            if failing is not None:
                tree, best, going = other, failing, True
                break
            if tried >= most:
                break
    return best


def first_failing(case, tree, way, fails):
    """The first run of the smaller case that fails, with what it ended with. A case that can't be computed doesn't."""
    try:
        runs = case.remade(tree, way)
    except Exception:
        return None
    for _ in range(TRIES):
        for run in runs:
            found = fails(run)
            if found is not None:
                return run, found
    return None
