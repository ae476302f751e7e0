"""Random scripts that parse by construction: parts of a subject each, put together and then changed here and there.

A part gives tasks and statements for `main`. Its names begin with a prefix of its own, so parts never clash.
"""
from storm_changes import changed, renamed
from storm_making import COMPARISONS, EDGES, PRODUCTS, SUMS, add, chain, counted, fork, get, join, let, name, num
from storm_texts import ASKS, is_script


class Part:
    """What a part is made with: the draws, and names with its prefix."""

    def __init__(self, draw, prefix):
        self.draw, self.prefix, self.count = draw, prefix, 0

    def fresh(self, stem="v"):
        self.count += 1
        return f"{self.prefix}{stem}{self.count}"

    def few(self, most):
        """A number from 1 on, mostly small."""
        return 1 + min(int(self.draw.expovariate(0.6)), most - 1)

    def value(self, numbers=(), references=(), depth=0):
        """An expression over these variables: mostly a number, and rarely one that faults."""
        draw = self.draw
        roll = draw.random()
        if roll < 0.35 or depth > 3:
            return num(draw.choice(EDGES[:9] if draw.random() < 0.9 else EDGES))
        if roll < 0.7:
            if numbers and draw.random() < 0.95:
                return name(draw.choice(numbers))
            return name(draw.choice(references)) if references else ("me",) if draw.random() < 0.2 else num(4)
        if roll < 0.76:
            return ("minus", self.value(numbers, references, depth + 1))
        if roll < 0.82:
            return ("compare", draw.choice(COMPARISONS), self.value(numbers, references, depth + 1),
                    self.value(numbers, references, depth + 1))
        marks = SUMS if draw.random() < 0.6 else PRODUCTS
        return chain(self.value(numbers, references, depth + 1),
                     *[(draw.choice(marks), self.value(numbers, references, depth + 1)) for _ in range(self.few(3))])


def loop_of_forks(part):
    """Tasks in a chain of promises, forked in a loop: each gets one promise and sets the next one."""
    a, p, q, t, i, f = (part.fresh(stem) for stem in "apqtif")
    times = part.few(12) + (part.draw.randint(10, 60) if part.draw.random() < 0.15 else 0)
    main = [let(a, ("new",)), let(p, name(a)), let(q, num(0)), let(t, num(0))]
    body = [("assign", q, ("new",)), ("assign", t, fork(f, name(i) if part.draw.random() < 0.5 else num(3), name(p),
                                                         ("own", q))), ("assign", p, name(q))]
    main += counted(i, times, body)
    if part.draw.random() < 0.85:
        main.append(("set", a, part.value()))
    v, w = part.fresh(), part.fresh()
    main += [let(v, get(p, part.value() if part.draw.random() < 0.2 else None)), ("print", name(v))]
    if part.draw.random() < 0.6:
        main.append(let(w, join(t)))
    tasks = [(f, ["i", "p", "q"], [let("v", get("p")), ("set", "q", chain(name("v"), ("+", name("i")))),
                                   ("return", name("i"))])]
    return tasks, main


def cycles(part):
    """A cycle of 1 to 40 tasks, by gets or by joins, with tails of tasks that wait for it."""
    draw, f = part.draw, part.fresh("f")
    n = draw.choice([1, 2, 2, 3, 3, 4, 5, draw.randint(6, 40), draw.randint(6, 40), draw.randint(6, 40)])
    a, p, q, i = (part.fresh(stem) for stem in "apqi")
    closed = draw.random() < 0.8
    main = [let(a, ("new",)), let(p, name(a)), let(q, num(0))]
    main += counted(i, max(n - 1, 0), [("assign", q, ("new",)), ("do", fork(f, name(p), ("own", q))),
                                       ("assign", p, name(q))])
    if closed:
        main.append(("do", fork(f, name(p), ("own", a))))
    else:
        main.append(("set", a, num(5)))
    tasks = [(f, ["p", "q"], [let("v", get("p")), ("set", "q", name("v")), ("return", num(1))])]
    tail = part.fresh("tail")
    tasks.append((tail, ["t", "p"], draw.choice([
        [("return", num(0))],
        [let("v", get("p")), ("return", name("v"))],
        [let("v", join("t", num(3))), ("return", name("v"))],
        [let("k", fork(tail, ("me",), name("p"))), let("v", get("p")), let("w", join("k")), ("return", name("w"))]])))
    for _ in range(draw.choice([0, 0, 1, 2, 5])):
        main.append(("do", fork(tail, ("me",) if draw.random() < 0.7 else num(1), name(draw.choice([a, p])))))
    if draw.random() < 0.3:
        main.append(("do", get(p)))
    return tasks, main


def joins_round(part):
    """Tasks that are told of each other by promises and join one another, round in a cycle or towards an end."""
    draw, f = part.draw, part.fresh("f")
    n = draw.randint(2, 7)
    promises, tasks = [part.fresh("p") for _ in range(n)], [part.fresh("t") for _ in range(n)]
    main = [let(p, ("new",)) for p in promises]
    main += [let(t, fork(f, name(p))) for t, p in zip(tasks, promises)]
    shift = draw.choice([1, 1, 1, n - 1, draw.randint(0, n)])
    order = list(enumerate(promises))
    draw.shuffle(order)
    for i, p in order:
        at = (i + shift) % n
        main.append(("set", p, name(tasks[at]) if draw.random() < 0.9 else draw.choice([("me",), num(2)])))
    body = [let("t", get("p")), let("v", join("t", num(8) if draw.random() < 0.2 else None)), ("return", name("v"))]
    return [(f, ["p"], body)], main


def handed_down(part):
    """A promise handed down from task to task, that others on the way wait for too."""
    draw, f = part.draw, part.fresh("f")
    p, t, v, w = (part.fresh(stem) for stem in "ptvw")
    last = draw.choice([[("set", "p", chain(num(6), ("+", name("n"))))]] * 3 + [[("set", "p", ("me",))], [],
                        [("set", "p", num(1)), ("set", "p", num(2))], [("return", chain(num(1), ("/", name("n"))))],
                        [let("u", get("p")), ("set", "p", name("u"))]])
    down = [let("k", fork(f, ("own", "p"), chain(name("n"), ("-", num(1)))))]
    if draw.random() < 0.4:
        down.append(let("x", join("k", num(4) if draw.random() < 0.3 else None)))
    if draw.random() < 0.4:
        down.append(let("y", get("p", name("n") if draw.random() < 0.3 else None)))
    if draw.random() < 0.1:
        down.append(("set", "p", num(2)))
    tasks = [(f, ["p", "n"], [("if", ("compare", "<", name("n"), num(1)), last, down), ("return", name("n"))])]
    main = [let(p, ("new",)), let(t, fork(f, ("own", p), num(draw.randint(0, 6))))]
    ends = [let(v, get(p, num(9) if draw.random() < 0.4 else None)),
            let(w, join(t, num(7) if draw.random() < 0.4 else None))]
    draw.shuffle(ends)
    return tasks, main + ends[:draw.randint(0, 2)]


def handed_across(part):
    """Two or more tasks with a promise each, which wait for each other's or hand them along."""
    draw, f, g = part.draw, part.fresh("f"), part.fresh("g")
    n = draw.randint(2, 5)
    promises = [part.fresh("p") for _ in range(n)]
    main = [let(p, ("new",)) for p in promises]
    order = promises[:]
    if draw.random() < 0.3:
        draw.shuffle(order)
    for mine, his in zip(promises, order[1:] + order[:1]):
        main.append(("do", fork(f, ("own", mine) if draw.random() < 0.93 else name(mine), name(his))))
    body = [[let("v", get("his")), ("set", "mine", name("v"))], [("set", "mine", num(3)), let("v", get("his"))],
            [let("k", fork(g, ("own", "mine"), name("his"))), let("v", get("his")), let("w", join("k"))],
            [let("v", fork(g, name("mine"), ("own", "mine")))]]
    tasks = [(f, ["mine", "his"], draw.choice(body) + [("return", name("v"))]),
             (g, ["mine", "his"], [("set", "mine", draw.choice([num(1), ("me",), name("his")])),
                                   ("do", get("his", num(2) if draw.random() < 0.3 else None))])]
    return tasks, main


def references(part):
    """References in promises: to a promise, a task, or the promise itself; who gets one gets or joins it."""
    draw, f = part.draw, part.fresh("f")
    p, q, t = (part.fresh(stem) for stem in "pqt")
    main = [let(p, ("new",)), let(q, ("new",)), let(t, fork(f, name(p), name(q)))]
    main += [("set", p, draw.choice([name(q), name(q), name(t), name(t), name(p), ("me",), num(3)]))]
    main += [("set", q, draw.choice([name(p), num(12), ("me",), name(t)]))] if draw.random() < 0.8 else []
    body = [let("r", get("p")), let("s", draw.choice([get("r"), join("r"), get("r", num(0)), join("r", ("me",))]))]
    body += draw.choice([[], [], [], [let("u", get("s"))], [("print", name("s"))], [let("u", join("s"))]])
    tasks = [(f, ["p", "q"], body + [("return", draw.choice([name("r"), name("s"), num(0), name("q")]))])]
    if draw.random() < 0.7:
        v = part.fresh()
        main += [let(v, join(t, num(1) if draw.random() < 0.3 else None))]
        main += [("print", name(v))] if draw.random() < 0.5 else [("return", name(v))] if draw.random() < 0.2 else []
    return tasks, main


def tree(part):
    """A tree of forks and joins."""
    draw, f, t, v = part.draw, part.fresh("f"), part.fresh("t"), part.fresh()
    ends = [let("x", join("a")), let("y", join("b"))]
    draw.shuffle(ends)
    back = [let("y", join("b")), let("x", join("a", num(1)))]
    tasks = [(f, ["n"], [("if", ("compare", "<", name("n"), num(2)), [("return", name("n"))], None),
                         let("a", fork(f, chain(name("n"), ("-", num(1))))),
                         let("b", fork(f, chain(name("n"), ("-", num(draw.choice([2, 2, 3])))))),
                         *draw.choice([ends, ends, back]),
                         ("return", chain(name("x"), ("+", name("y"))))])]
    main = [let(t, fork(f, num(draw.randint(0, 7)))), let(v, join(t)), ("print", name(v))]
    return tasks, main


def owed(part):
    """Promises that nobody sets, got with `or` and without."""
    draw, f, g = part.draw, part.fresh("f"), part.fresh("g")
    n = draw.randint(1, 4)
    promises = [part.fresh("p") for _ in range(n)]
    main = [let(p, ("new",)) for p in promises]
    for p in promises:
        if draw.random() < 0.7:
            main.append(("do", fork(f, ("own", p))))
        if draw.random() < 0.7:
            main.append(("do", fork(g, name(p))))
    for p in promises:
        if draw.random() < 0.5:
            main.append(let(part.fresh(), get(p, part.value() if draw.random() < 0.6 else None)))
    tasks = [(f, ["p"], draw.choice([[], [("return", name("p"))], [("do", ("new",)), ("do", ("new",))],
                                     [("return", chain(num(1), ("/", num(0))))], [("set", "p", num(1))]])),
             (g, ["p"], [let("v", get("p", draw.choice([None, num(5), ("me",), chain(num(3), ("%", num(0)))]))),
                         ("return", name("v"))])]
    return tasks, main


def faults(part):
    """Arithmetic and kinds at their edges."""
    draw = part.draw
    least = chain(("minus", num(2**63 - 1)), ("-", num(1)))
    rows = [chain(num(draw.choice(EDGES)), (draw.choice("+-*/%"), num(draw.choice(EDGES)))),
            chain(least, (draw.choice("*/%"), ("minus", num(draw.choice([0, 1, 2]))))), ("minus", least),
            chain(("minus", num(draw.randint(0, 9))), (draw.choice("/%"), num(draw.randint(0, 4)))),
            chain(num(draw.randint(0, 9)), (draw.choice("/%"), ("minus", num(draw.randint(0, 4))))),
            chain(("me",), ("+", chain(num(1), ("/", num(0))))), chain(chain(num(1), ("/", num(0))), ("+", ("me",))),
            ("compare", draw.choice(COMPARISONS), least, num(draw.choice(EDGES))), ("me",)]
    f, main = part.fresh("f"), []
    for _ in range(draw.randint(1, 4)):
        e = draw.choice(rows)
        main.append(draw.choice([("print", e), let(part.fresh(), e),
                                 ("if", e, [("print", num(1))], [("print", num(2))]), let(part.fresh(), fork(f, e))]))
    return [(f, ["n"], [("print", name("n")), ("return", ("minus", name("n")))])], main


def wild(part):
    """A few tasks of statements that are drawn one by one."""
    draw, count = part.draw, part.draw.randint(1, 4)
    heads = [(part.fresh("w"), [f"a{j}" for j in range(draw.randint(0, 3))]) for _ in range(count)]
    tasks = [(f, params, statements(part, heads, i, list(params), draw.randint(1, 7), 0))
             for i, (f, params) in enumerate(heads)]
    return tasks, statements(part, heads, -1, [], draw.randint(1, 8), 0)


def statements(part, heads, at, known, count, depth):
    """Statements over what is known, which grows; a fork is mostly of a later task, so mostly forks end."""
    draw, out = part.draw, []
    for _ in range(count):
        roll, x = draw.random(), draw.choice(known) if known else None
        later = heads[at + 1:] if draw.random() < 0.95 else heads
        if roll < 0.16:
            given = ("new",)
        elif roll < 0.34 and later:
            f, params = draw.choice(later)
            given = fork(f, *[("own", draw.choice(known)) if known and draw.random() < 0.35 else
                              part.value(known, known) for _ in params])
        elif roll < 0.46 and x:
            given = get(x, part.value(known) if draw.random() < 0.3 else None)
        elif roll < 0.56:
            given = join(x if x and draw.random() < 0.95 else "me", part.value(known) if draw.random() < 0.3 else None)
        elif roll < 0.66 and x:
            out.append(("set", x, part.value(known, known)))
            continue
        elif roll < 0.72:
            out.append(("print", part.value(known, known)))
            continue
        elif roll < 0.75:
            out.append(("return", part.value(known, known)))
            continue
        elif roll < 0.86 and depth < 3:
            tested, i = part.value(known), part.fresh("i")
            inner = statements(part, heads, at, known, draw.randint(0, 3), depth + 1)
            if roll < 0.82:
                has_else = draw.random() < 0.4
                other = statements(part, heads, at, known, draw.randint(0, 2), depth + 1) if has_else else None
                out.append(("if", tested, inner, other))
            elif draw.random() < 0.9:
                out += counted(i, draw.randint(1, 4), inner)
                known.append(i)
            else:
                out.append(("while", tested, inner))
            continue
        else:
            given = part.value(known, known)
        if x and draw.random() < 0.2:
            out.append(("assign", x, given))
        elif given[0] in ASKS and draw.random() < 0.2:
            out.append(("do", given))
        else:
            y = part.fresh()
            out.append(let(y, given))
            known.append(y)
    return out


PARTS = [(loop_of_forks, 4), (cycles, 3), (joins_round, 2), (handed_down, 4), (handed_across, 2), (references, 2),
         (tree, 3), (owed, 2), (faults, 1), (wild, 4)]


def drawn(draw):
    """A script and the names of its parts."""
    makers = draw.choices([m for m, _ in PARTS], [w for _, w in PARTS], k=draw.choice([1, 1, 1, 1, 1, 2, 2, 3]))
    tasks, main, kinds = [], [], []
    for i, make in enumerate(makers):
        more, first = make(Part(draw, "abc"[i] + "_" if draw.random() < 0.5 else "xyz"[i]))
        tasks += more
        main += first
        kinds.append(make.__name__.replace("_", " "))
    if draw.random() < 0.5:
        main.append(("return", num(draw.randint(0, 9))))
    script = [("main", [], main)] + tasks
    if draw.random() < 0.3:
        draw.shuffle(script)
    for _ in range(draw.choice([0, 0, 0, 1, 1, 2, 4])):
        for _ in range(4):
            other = changed(script, draw)
            if other is not script and is_script(other):
                script, kinds = other, kinds + ["changed"]
                break
    other = renamed(script, draw)
    return (other if is_script(other) else script), sorted(set(kinds))
