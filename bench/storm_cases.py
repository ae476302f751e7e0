"""The cases of the storm: an input, and each run of it with the status and the text that it has to have."""
import random
import storm_journals, storm_parsing, storm_scripts, storm_words
from storm_meaning import Meaning, TooLong
from storm_texts import listing, loose

# Of ten cases so many are of each kind.
KINDS = ["script"] * 4 + ["near script"] * 2 + ["journal"] * 3 + ["words"]


class Run:
    """One run of the program: its words, its input, and what it has to end with. Some have a port that fails."""

    def __init__(self, words, source, status, text, port=None):
        self.words, self.source, self.status, self.text, self.port = words, source, status, text, port


class Case:
    """An input with all its runs. `remade` gives the case of a smaller input, where its kind can be shrunk."""

    def __init__(self, kinds, runs, tree=None, remade=None):
        self.kinds, self.runs, self.tree, self.remade = kinds, runs, tree, remade


def options(cells, steps, strict):
    words = [] if cells is None else ["--cells", str(cells)]
    return words + ([] if steps is None else ["--steps", str(steps)]) + (["--strict"] if strict else [])


def script_runs(script, text, cells, steps, strict, ways):
    """The runs of a script by these ways, and its meaning."""
    meaning = Meaning(script, cells or 4096, steps or 100_000, strict)
    status, report = meaning.report()
    runs = []
    for way in ways:
        more = options(cells, steps, strict)
        if way == "list":
            written = listing(script)
            runs.append(Run(["list"], text, 0, written))
            runs.append(Run(["list"], written.encode(), 0, written))
        elif way == "plan":
            runs.append(Run(["plan", *more], text, status, report))
        elif way in ("watch", "known"):
            # Neither has the strict rule, so that has a meaning of its own.
            plain = Meaning(script, cells or 4096, steps or 100_000, False) if strict else meaning
            more = options(cells, steps, False)
            runs.append(Run([way, *more], text, *(plain.watched() if way == "watch" else plain.known())))
        else:
            runs.append(Run(["run", "--workers", str(way), *more], text, status, report))
    return runs, meaning


def limits(script, draw):
    """Limits of cells and of statements: none, some, or exactly what the script needs, or one less."""
    strict = draw.random() < 0.25
    cells, steps = draw.choice([200, 300]), draw.choice([200, 400, 1000])
    meaning = Meaning(script, cells, steps, strict)
    kinds = {"strict"} if strict else set()
    short = not meaning.full and meaning.most_begun() < steps
    if not short or draw.random() < 0.1:
        return cells, steps, strict, kinds
    cells, steps = draw.choice([None] * 5 + [meaning.made] * 2 + [meaning.made - 1]), None
    if cells:
        kinds.add("cells exactly" if cells == meaning.made else "a cell too few")
    if draw.random() < 0.25:
        begun = sorted({task.begun for task in meaning.tasks} - {0})
        steps = draw.choice(begun or [1]) - draw.randint(0, 1)
        kinds.add("statements exactly")
    # No option of 0.
    return cells or None, steps or None, strict, kinds


def script_case(draw, workers):
    while True:
        script, kinds = storm_scripts.drawn(draw)
        try:
            cells, steps, strict, more = limits(script, draw)
            ways = [*workers, "plan", "list"] + [way for way in ("watch", "known") if draw.random() < 0.3]
            text = loose(script, draw)
            runs, meaning = script_runs(script, text, cells, steps, strict, ways)
            break
        except TooLong:
            pass
    ended = "full" if meaning.full else meaning.report()[1].split()[-1]
    kinds = {"script", *kinds, *more, *("met " + met for met in meaning.met), ended} | {
        "cycles of " + ("1" if n == 1 else "2 to 5" if n <= 5 else "6 and more")
        for n in ([] if meaning.full else map(len, meaning.cycles()))}
    def remade(smaller, way):
        """The runs of a smaller script by the same way, over its listing."""
        return script_runs(smaller, listing(smaller).encode(), cells, steps, strict, [way])[0]
    return Case(kinds, runs, script, remade)


def near_script_case(draw):
    """A text that is nearly a script: mostly it has a fault, which each way has to name."""
    while True:
        text = storm_parsing.nearly(loose(storm_scripts.drawn(draw)[0], draw), draw)
        tree, fault = storm_parsing.parsed(text)
        way = draw.choice([["plan"], ["known"], ["watch"], ["run", "--workers", "2"]])
        if fault is not None:
            runs = [Run(words, text, 3, fault) for words in (["list"], way)]
            break
        try:
            runs = script_runs(tree, text, 300, 1000, False, [2, "plan", "list"])[0]
            break
        except TooLong:
            pass
    kinds = {"near script", "near script: " + (fault.split()[2] if fault else "none")}
    def faulty(lines, way):
        """The runs of fewer lines of the text by this way, where that is no script either."""
        fewer = b"\n".join(lines)
        fault = storm_parsing.parsed(fewer)[1]
        return [Run(run.words, fewer, 3, fault) for run in runs] if fault else []
    return Case(kinds, runs, text.split(b"\n"), faulty if fault else None)


def journal_case(draw):
    text, limit, kinds = storm_journals.drawn(draw)
    words = ["judge"] + options(limit, None, False)
    def judged(journal):
        return [Run(words, journal, *storm_journals.judged(journal, limit or 256))]
    runs = judged(text)
    last = runs[0].text.splitlines()[-1]
    kinds |= {"journal " + ("fault" if runs[0].status == 3 else last.split()[0])}
    kinds |= {"journal " + word for word in ("alarmed", "walked", "skipped") if f" {word}" in runs[0].text}
    return Case(kinds, runs, text.split(b"\n"), lambda lines, way: judged(b"\n".join(lines)))


def words_case(draw):
    while True:
        words, which = storm_words.drawn(draw), draw.randrange(len(storm_words.SCRIPTS) + 1)
        try:
            found = storm_words.wanted(words, which)
        except TooLong:
            continue
        if found is not None:
            break
    source, status, text = found
    port = draw.choice([None] * 8 + ["source", "sink"])
    if port == "source" and status != 2 and words[0] not in ("gen", "relay"):
        status, text = 5, ""
    elif port == "sink":
        status, text = 6, ""
    kinds = {"words", f"words status {status}"} | ({f"failing {port}"} if port else set())
    return Case(kinds, [Run(words, source, status, text, port)])


def case_of(seed, index, workers):
    """The case with this number of this seed."""
    draw = random.Random(f"{seed}/{index}")
    kind = draw.choice(KINDS)
    if kind == "script":
        return script_case(draw, workers)
    made = {"near script": near_script_case, "journal": journal_case, "words": words_case}[kind]
    return made(draw)
