"""Random journals, mostly of allowed events, and a model of the detector that judges them.

Written from docs/DETECTOR.md and docs/PROGRAM.md alone. The generator asks the model which events are allowed.
"""

MOST_NUMBER = 4294967295
# The events, and the cells that each names: a task, a promise or other cell, a child.
PLACES = {"make": "t", "fork": "t", "hand": "tpc", "close": "tp", "raise": "t", "publish": "tp", "others": "t",
          "count": "t", "owner": "t", "again": "t", "wait": "t", "alarm": "t", "settle": "t", "unwait": "t",
          "lower": ""}


class Task:
    """A cell that is a task: its name, its stage, and what its walk has read."""

    def __init__(self, name, parent):
        self.name, self.parent = name, parent
        # Fresh, Running, Raised, Walking, Parked, Alarmed or Ended; a fresh one has had no event yet.
        self.stage = "Fresh"
        self.made, self.waits, self.along, self.loads = 0, None, False, 0
        # Of a walker: what its last event was, its present cell, the owner that it read, and what that one waits for.
        self.last, self.present, self.read, self.next = None, None, None, None
        self.bound, self.trail = 0, 0

    def runs(self):
        return self.stage in ("Fresh", "Running")

    def is_waiting(self):
        return self.stage in ("Walking", "Parked", "Alarmed")


class Model:
    """The detector's state. `apply` is False, and changes nothing, where the event isn't allowed."""

    def __init__(self, limit):
        self.limit, self.others, self.to_lower, self.verdicts, self.alarms = limit, 0, 0, [], 0
        root = Task((), None)
        root.stage = "Running"
        # Each cell: a task, or None for a promise; and its owner's number, or None.
        self.cells, self.owners = [root], [0]

    def task(self, c):
        return self.cells[c] if c < len(self.cells) else None

    def is_along(self, t, p):
        """Whether a wait of task t for cell p is along the fork order: a younger sibling is before an older one."""
        joined = self.cells[p]
        return joined is not None and [-k for k in self.cells[t].name] < [-k for k in joined.name]

    def apply(self, event, *places):
        if event == "lower":
            if self.to_lower == 0:
                return False
            self.to_lower -= 1
            self.others -= 1
            return True
        t = places[0]
        task = self.task(t)
        if task is None or not getattr(self, "on_" + event)(t, task, *places[1:]):
            return False
        if task.stage == "Fresh":
            task.stage = "Running"
        return True

    def add(self, task, owner):
        self.cells.append(task)
        self.owners.append(owner)

    def on_make(self, t, task):
        if not task.runs() or len(self.cells) >= self.limit:
            return False
        task.made += 1
        self.add(None, t)
        return True

    def on_fork(self, t, task):
        if not task.runs() or len(self.cells) >= self.limit:
            return False
        task.made += 1
        self.add(Task(task.name + (task.made,), t), len(self.cells))
        return True

    def on_hand(self, t, task, p, c):
        child = self.task(c)
        if not (task.runs() and self.owns_promise(t, p) and child and child.stage == "Fresh" and child.parent == t):
            return False
        self.owners[p] = c
        return True

    def owns_promise(self, t, p):
        return p < len(self.cells) and self.cells[p] is None and self.owners[p] == t

    def on_close(self, t, task, p):
        if not task.runs() or p >= len(self.cells) or self.owners[p] != t:
            return False
        if p == t:
            if self.owners.count(t) > 1:
                return False
            task.stage = "Ended"
        self.owners[p] = None
        return True

    def on_raise(self, t, task):
        if not task.runs():
            return False
        task.stage = "Raised"
        self.others += 1
        return True

    def on_publish(self, t, task, p):
        if p >= len(self.cells):
            return False
        along = self.is_along(t, p)
        if not (task.runs() if along else task.stage == "Raised"):
            return False
        task.stage, task.waits, task.along, task.loads, task.trail = "Walking", p, along, 0, 0
        task.last, task.present = "published", p
        return True

    def on_others(self, t, task):
        if task.stage != "Walking" or task.last != "published" or not task.along:
            return False
        task.last = "others" if self.others > 0 else "no others"
        return True

    def on_count(self, t, task):
        if task.stage != "Walking" or task.last != ("others" if task.along else "published"):
            return False
        task.last, task.bound = "counted", len(self.cells)
        return True

    def on_owner(self, t, task):
        if task.stage != "Walking" or not (task.last == "counted" or task.last == "passed" and task.trail < task.bound):
            return False
        task.loads += 1
        task.read = self.owners[task.present]
        task.last = "nobody" if task.read is None else "itself" if task.read == t else "owner"
        return True

    def on_wait(self, t, task):
        if task.stage != "Walking" or task.last != "owner":
            return False
        task.loads += 1
        owner = self.cells[task.read]
        task.next = owner.waits if owner.is_waiting() else None
        task.last = "no wait" if task.next is None else "wait"
        return True

    def on_again(self, t, task):
        if task.stage != "Walking" or task.last != "wait":
            return False
        task.loads += 1
        if self.owners[task.present] != task.read:
            task.last = "changed"
            return True
        task.trail += 1
        task.present, task.last = task.next, "passed"
        return True

    def on_alarm(self, t, task):
        if task.stage != "Walking" or task.last != "itself":
            return False
        task.stage = "Alarmed"
        cycle, at = [], t
        while not cycle or at != t:
            cycle.append(f"{at} waits for {self.cells[at].waits}")
            at = self.owners[self.cells[at].waits]
        self.verdicts.append(f"task {t} alarmed after {task.loads} loads: " + ", ".join(cycle))
        self.alarms += 1
        return True

    def on_settle(self, t, task):
        ended = task.last in ("no others", "nobody", "no wait", "changed")
        if task.stage != "Walking" or not (ended or task.last == "passed" and task.trail == task.bound):
            return False
        skipped = task.last == "no others"
        self.verdicts.append(f"task {t} skipped" if skipped else f"task {t} walked after {task.loads} loads")
        task.stage = "Parked"
        return True

    def on_unwait(self, t, task):
        if task.stage != "Parked" or self.owners[task.waits] is not None:
            return False
        task.stage = "Running"
        self.to_lower += not task.along
        return True


def event_in(line):
    """The event that a line is, or None."""
    words = line.split(b" ")
    kind = words[0].decode("latin-1")
    if kind not in PLACES or len(words) != 1 + len(PLACES[kind]):
        return None
    numbers = []
    for word in words[1:]:
        if not word or any(byte not in b"0123456789" for byte in word) or (word[:1] == b"0" and word != b"0"):
            return None
        if len(word) > 10 or int(word) > MOST_NUMBER:
            return None
        numbers.append(int(word))
    return (kind, *numbers)


def judged(journal, limit):
    """Status and text of `judge`."""
    lines = journal.split(b"\n")
    if lines[-1] == b"":
        lines.pop()
    events = []
    for number, line in enumerate(lines, 1):
        events.append(event_in(line))
        if events[-1] is None:
            return 3, f"journal fault at line {number}\n"
    model = Model(limit)
    last = f"legal {len(events)} events"
    for number, event in enumerate(events, 1):
        if not model.apply(*event):
            last = f"illegal at line {number}"
            break
    status = int(last.startswith("illegal") or model.alarms > 0)
    return status, "".join(line + "\n" for line in model.verdicts + [last])


STEP = {"others": "count", "counted": "owner", "owner": "wait", "wait": "again", "itself": "alarm", "nobody": "settle",
        "no others": "settle", "no wait": "settle", "changed": "settle"}


def walk_step(model, t):
    """The one event that a walker has."""
    task = model.cells[t]
    if task.last == "published":
        return ("others" if task.along else "count", t)
    if task.last == "passed":
        return ("owner" if task.trail < task.bound else "settle", t)
    return (STEP[task.last], t)


def next_event(model, draw, mood):
    """An event that is allowed in nearly every case, weighted by the mood."""
    tasks = [(t, task) for t, task in enumerate(model.cells) if task is not None]
    t, task = draw.choice(tasks)
    walkers = [u for u, other in tasks if other.stage == "Walking"]
    if walkers and draw.random() < mood["walk"]:
        return walk_step(model, draw.choice(walkers))
    if task.stage == "Walking":
        return walk_step(model, t)
    if task.stage == "Parked":
        return ("unwait", t) if model.owners[task.waits] is None or draw.random() < 0.02 else None
    if task.stage in ("Ended", "Alarmed"):
        return None
    if model.to_lower and draw.random() < 0.3:
        return ("lower",)
    mine = [c for c, owner in enumerate(model.owners) if owner == t and c != t]
    if task.stage == "Raised":
        others = [c for c in range(len(model.cells)) if not model.is_along(t, c)]
        if draw.random() < 0.9:
            others = [c for c in others if model.owners[c] != t] or others
        # Mostly for what a task that waits already owns, so that chains and cycles come about.
        held = [c for c in others if model.owners[c] is not None and model.cells[model.owners[c]].is_waiting()]
        return ("publish", t, draw.choice(held if held and draw.random() < mood["chain"] else others))
    roll = draw.random()
    if roll < mood["make"]:
        room = len(model.cells) < model.limit or draw.random() < 0.05
        return (draw.choice(["make", "fork", "fork"]), t) if room else None
    if roll < mood["make"] + 0.15 and mine:
        children = [c for c, other in tasks if other.parent == t and other.stage == "Fresh"]
        return ("hand", t, draw.choice(mine), draw.choice(children)) if children else None
    if roll < mood["make"] + mood["close"] + 0.15:
        return ("close", t, draw.choice(mine)) if mine else ("close", t, t)
    along = [c for c in range(len(model.cells)) if model.is_along(t, c)]
    return ("publish", t, draw.choice(along)) if along and draw.random() < 0.4 else ("raise", t)


def any_event(model, draw):
    """An event of any kind with any places."""
    kind = draw.choice(list(PLACES))
    places = [draw.randrange(len(model.cells) + 1) if draw.random() < 0.97 else draw.choice([MOST_NUMBER, 1024, 99])
              for _ in PLACES[kind]]
    return (kind, *places)


def drawn(draw):
    """A journal, the limit of cells to judge it by (or None), and the names of its kinds."""
    limit = draw.choice([None, None, 1, 2, 3, draw.randint(4, 12), 1024])
    model = Model(limit or 256)
    mood = {"walk": draw.choice([0.2, 0.5, 0.8]), "chain": draw.choice([0.3, 0.9]),
            "make": draw.choice([0.05, 0.2, 0.4]), "close": draw.choice([0.02, 0.1, 0.3])}
    wrong = draw.choice([0, 0, 0, 0.01, 0.1])
    lines = []
    first = draw.choice([0, 1, 4, 10, 30])
    for i in range(draw.choice([0, 1, 5, 20, 60, 60, 150, 400])):
        if i < first:
            runs = [t for t, task in enumerate(model.cells) if task is not None and task.runs()]
            room = runs and (len(model.cells) < model.limit or draw.random() < 0.05)
            event = (draw.choice(["make", "fork", "fork"]), draw.choice(runs)) if room else None
        else:
            event = any_event(model, draw) if draw.random() < wrong else next_event(model, draw, mood)
        if event is None:
            continue
        allowed = model.apply(*event)
        if not allowed and draw.random() < 0.7:
            continue
        lines.append(" ".join(str(word) for word in event))
        if not allowed and draw.random() < 0.5:
            break
    text = "".join(line + "\n" for line in lines).encode()
    kinds = {"journal"}
    if draw.random() < 0.15 and text:
        text, kind = damaged(text, draw)
        kinds.add(kind)
    elif draw.random() < 0.1 and text:
        text = text[:-1]
    return text, limit, kinds


def damaged(text, draw):
    """The journal with a byte or a word changed, which mostly leaves a line that is no event."""
    at = draw.randrange(len(text))
    roll = draw.random()
    if roll < 0.3:
        return text[:at] + text[at + 1:], "byte dropped"
    if roll < 0.6:
        byte = draw.choice([b" ", b"\n", b"0", b"7", b"\r", b"x", b"\xff", b"\t", b"-"])
        return text[:at] + byte + text[at:], "byte put in"
    if roll < 0.8:
        return text[:at], "cut"
    lines = text.split(b"\n")
    i = draw.randrange(len(lines))
    lines[i] = draw.choice([b"lower 0", b"make", b"make 00", b"make 4294967296", b"make 4294967295", b"hand 0 1",
                            b"Make 0", b"make 0 ", b" make 0", b"wake 0", b"close 0 0 0", b"", b"make 01", b"fork +0"])
    return b"\n".join(lines), "line put in"
