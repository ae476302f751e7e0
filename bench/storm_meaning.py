"""The meaning of a script, by rounds, written from docs/LANGUAGE.md alone: it shares nothing with the crates.

A history goes on where it stopped the round before: rounds only grow, so its front is the same. In each round a task
sees what the rounds before set and broke.
"""

LEAST, GREATEST = -2**63, 2**63 - 1
BROKEN = object()


class Fails(Exception):
    """A task fails, with its cause."""


class Full(Exception):
    """More cells than there may be."""


class TooLong(Exception):
    """More statements than the storm computes."""


class Returns(Exception):
    """A task returns a value."""


class Cell:
    """A promise or a task: the parts of its name behind the first 0; `became` is None, BROKEN or (VALUE,)."""

    def __init__(self, name, is_task):
        self.name, self.is_task, self.became = name, is_task, None


class Task(Cell):
    """A task with what its history has so far."""

    def __init__(self, name, body, variables):
        super().__init__(name, True)
        self.body, self.variables = body, variables
        self.made, self.owned, self.prints, self.begun = 0, [], [], 0
        self.ending, self.owes, self.waits, self.history = None, [], None, None
        # What a task knows: the tasks that it forked, and so on; and each join as (the joined task, known).
        self.knows, self.joins = set(), []


def shown(name):
    return ".".join(["0"] + [str(part) for part in name])


def is_before(t, u):
    """Whether task t is before task u: a new child stands directly behind its parent."""
    return [-part for part in t.name] < [-part for part in u.name]


def number(value):
    """The value, which has to be a number."""
    if isinstance(value, Cell):
        raise Fails("kind")
    return value


def reference(value):
    """The value, which has to be a reference."""
    if not isinstance(value, Cell):
        raise Fails("kind")
    return value


def rest(owned, cells):
    """What is owned without these cells, each of which has to be a promise that is still owned."""
    left = list(owned)
    for cell in cells:
        if cell.is_task:
            raise Fails("kind")
        if cell not in left:
            raise Fails("owner " + shown(cell.name))
        left.remove(cell)
    return left


def fitting(n):
    if not LEAST <= n <= GREATEST:
        raise Fails("arith")
    return n


def combined(mark, a, b):
    """What an operator gives: `/` cuts towards zero, and `%` has the sign of its left side."""
    if mark == "+":
        return fitting(a + b)
    if mark == "-":
        return fitting(a - b)
    if mark == "*":
        return fitting(a * b)
    if b == 0:
        raise Fails("arith")
    cut = abs(a) // abs(b) * (1 if (a < 0) == (b < 0) else -1)
    # Where the quotient doesn't fit there is no rest either.
    fitting(cut)
    return cut if mark == "/" else a - cut * b


COMPARED = {"==": lambda a, b: a == b, "!=": lambda a, b: a != b, "<": lambda a, b: a < b,
            "<=": lambda a, b: a <= b, ">": lambda a, b: a > b, ">=": lambda a, b: a >= b}


class Meaning:
    """The meaning of a script under these limits. `full` says that it needs more cells than there may be."""

    def __init__(self, script, cells, steps, strict, budget=300_000):
        self.bodies = {name: (params, body) for name, params, body in script}
        self.cells, self.steps, self.strict, self.budget = cells, steps, strict, budget
        self.tasks, self.made, self.became, self.rounds, self.full = [], 0, [], 0, False
        # Which kinds of thing have happened.
        self.met = set()
        try:
            self.root = self.new_task((), "main", [])
            self.all_rounds()
        except Full:
            self.full = True

    def count_cell(self):
        self.made += 1
        if self.made > self.cells:
            raise Full

    def new_task(self, name, body, values):
        self.count_cell()
        params, statements = self.bodies[body]
        task = Task(name, statements, dict(zip(params, values)))
        task.history = self.history(task)
        self.tasks.append(task)
        return task

    def all_rounds(self):
        fresh = list(self.tasks)
        waiting = []
        while fresh:
            self.rounds += 1
            count = len(self.tasks)
            for task in fresh:
                task.waits = next(task.history, None)
                if task.waits is not None:
                    waiting.append(task)
            # What this round set and broke is given in the next one.
            for cell, became in self.became:
                cell.became = became
            self.became = []
            fresh = [t for t in waiting if t.waits.became is not None] + self.tasks[count:]
            waiting = [t for t in waiting if t.waits.became is None]

    def history(self, task):
        """All that a task does. It gives each cell that nothing is given of: there the task waits."""
        try:
            yield from self.block(task, task.body)
            task.ending = ("done", 0)
        except Returns as returned:
            task.ending = ("done", returned.args[0])
        except Fails as failed:
            task.ending = ("failed", failed.args[0])
            self.met.add(task.ending[1].split()[0])
        task.owes = sorted(task.owned, key=lambda cell: cell.name)
        self.became += [(cell, BROKEN) for cell in task.owes]
        task.owned = []
        self.became.append((task, (task.ending[1],) if task.ending[0] == "done" else BROKEN))

    def begins(self, task):
        if task.begun == self.steps:
            raise Fails("steps")
        task.begun += 1
        self.budget -= 1
        if self.budget < 0:
            raise TooLong

    def block(self, task, statements):
        for s in statements:
            self.begins(task)
            kind = s[0]
            if kind in ("let", "assign"):
                task.variables[s[1]] = yield from self.given(task, s[2])
            elif kind == "do":
                yield from self.given(task, s[1])
            elif kind == "print":
                task.prints.append(number(self.value(task, s[1])))
            elif kind == "set":
                self.set(task, reference(task.variables.get(s[1], 0)), self.value(task, s[2]))
            elif kind == "return":
                raise Returns(self.value(task, s[1]))
            elif kind == "if":
                yield from self.block(task, s[2] if number(self.value(task, s[1])) != 0 else s[3] or [])
            else:
                while number(self.value(task, s[1])) != 0:
                    yield from self.block(task, s[2])
                    self.begins(task)

    def set(self, task, promise, value):
        task.owned = rest(task.owned, [promise])
        self.became.append((promise, (value,)))
        self.met.add("reference in a promise" if isinstance(value, Cell) else "set")

    def given(self, task, g):
        """What an ask or an expression gives."""
        if g[0] == "new":
            self.count_cell()
            task.made += 1
            promise = Cell(task.name + (task.made,), False)
            task.owned.append(promise)
            return promise
        if g[0] == "fork":
            return self.fork(task, g[1], g[2])
        if g[0] in ("get", "join"):
            return (yield from self.answer(task, *g))
        return self.value(task, g)

    def fork(self, task, body, arguments):
        values, handed = [], []
        for a in arguments:
            if a[0] == "own":
                handed.append(reference(task.variables.get(a[1], 0)))
                values.append(handed[-1])
            else:
                values.append(self.value(task, a))
        task.owned = rest(task.owned, handed)
        task.made += 1
        knew = set(task.knows)
        child = self.new_task(task.name + (task.made,), body, values)
        child.owned, child.knows = handed, knew
        task.knows.add(child)
        self.met.update(["handed"] if handed else [])
        return child

    def answer(self, task, way, at, spare):
        cell = task if at == "me" else reference(task.variables.get(at, 0))
        if cell.is_task != (way == "join"):
            raise Fails("kind")
        if way == "join":
            known = cell in task.knows
            task.joins.append((cell, known))
            if self.strict and not is_before(task, cell):
                raise Fails("order " + shown(cell.name))
        if cell.became is None:
            yield cell
        if way == "join" and known:
            task.knows |= cell.knows
        if cell.became is not BROKEN:
            return cell.became[0]
        if spare is None:
            raise Fails("broken " + shown(cell.name))
        self.met.add("or")
        return self.value(task, spare)

    def value(self, task, e):
        """The value of an expression, computed from the left."""
        kind = e[0]
        if kind == "number":
            return e[1]
        if kind == "name":
            return task.variables.get(e[1], 0)
        if kind == "me":
            return task
        if kind == "minus":
            return fitting(-number(self.value(task, e[1])))
        if kind == "compare":
            left = number(self.value(task, e[2]))
            return int(COMPARED[e[1]](left, number(self.value(task, e[3]))))
        total = number(self.value(task, e[1]))
        for mark, right in e[2]:
            total = combined(mark, total, number(self.value(task, right)))
        return total

    def most_begun(self):
        """The most statements that a task has begun."""
        return max(task.begun for task in self.tasks)

    def named(self):
        """The tasks in the order of their names."""
        return sorted(self.tasks, key=lambda task: task.name)

    def cycles(self):
        """Each cycle of tasks that wait, from its least name on."""
        owner = {cell: task for task in self.tasks for cell in task.owned}
        found, seen = [], set()
        for task in self.named():
            path = []
            while task not in seen:
                seen.add(task)
                if task.ending is not None:
                    break
                path.append(task)
                task = task.waits if task.waits.is_task else owner[task.waits]
            if task in path:
                cycle = path[path.index(task):]
                least = cycle.index(min(cycle, key=lambda t: t.name))
                found.append(cycle[least:] + cycle[:least])
        return sorted(found, key=lambda cycle: cycle[0].name)

    def too_full(self):
        return 4, f"full: more than {self.cells} cells\n"

    def report(self):
        """Status and text of `run` and `plan`."""
        if self.full:
            return self.too_full()
        lines, marked = [], False
        for task in self.named():
            name = shown(task.name)
            lines += [f"{name} prints {n}" for n in task.prints]
            if task.ending is None:
                lines.append(f"{name} waits for {shown(task.waits.name)}")
            elif task.ending[0] == "done":
                lines.append(f"{name} done {told(task.ending[1])}")
            else:
                lines.append(f"{name} failed {task.ending[1]}")
            if task.owes:
                lines.append(f"{name} owes " + ", ".join(shown(cell.name) for cell in task.owes))
            marked |= task.ending is None or task.ending[0] == "failed" or task.owes != []
        for cycle in self.cycles():
            lines.append("alarm " + ", ".join(f"{shown(t.name)} waits for {shown(t.waits.name)}" for t in cycle))
        lines.append("marked" if marked else "clean")
        return int(marked), "".join(line + "\n" for line in lines)

    def watched(self):
        """Status and text of `watch`."""
        if self.full:
            return self.too_full()
        ending = self.root.ending
        became = "waits" if ending is None else "broken" if ending[0] == "failed" else told(ending[1])
        return self.report()[0], f"root {became}\n"

    def known(self):
        """Status and text of `known`."""
        if self.full:
            return self.too_full()
        lines, count = [], {"known": 0, "along": 0, "against": 0}
        for task in self.named():
            for joined, known in task.joins:
                way = "known" if known else "along" if is_before(task, joined) else "against"
                count[way] += 1
                lines.append(f"{shown(task.name)} joins {shown(joined.name)} {way}")
        lines.append(f"joins {sum(count.values())} known {count['known']} along {count['along']} "
                     f"against {count['against']}")
        return int(count["against"] > 0), "".join(line + "\n" for line in lines)


def told(value):
    """A value as the report has it."""
    return "@" + shown(value.name) if isinstance(value, Cell) else str(value)
