"""Random command lines, right and wrong, with what each has to write; and ports that fail.

Written from docs/PROGRAM.md alone. A command line that is right is run over a small input of its mode.
"""
import storm_journals
from storm_meaning import Meaning
from storm_making import chain, fork, get, join, let, name, num
from storm_texts import listing

USAGE = ("usage: tj run|plan|list|judge|gen|known|relay|watch "
         "[--workers N] [--cells N] [--steps N] [--size N] [--strict]\n")
TAKES = {"run": ["--workers", "--cells", "--steps", "--strict"], "plan": ["--cells", "--steps", "--strict"], "list": [],
         "judge": ["--cells"], "gen": ["--size", "--workers", "--cells", "--steps"], "known": ["--cells", "--steps"],
         "relay": ["--size", "--workers", "--cells"], "watch": ["--workers", "--cells", "--steps"]}
MOST = {"--workers": 64, "--cells": 16384, "--steps": 1000000, "--size": 4000}
ABSENT = {"--workers": 4, "--cells": 4096, "--steps": 100000, "--size": 100, "--strict": False}

SCRIPTS = [
    [("main", [], [("return", chain(num(1), ("+", num(2))))])],
    [("main", [], [let("p", ("new",)), ("do", fork("kid", ("own", "p"), num(4))), let("v", get("p")),
                   ("print", name("v")), ("return", ("me",))]),
     ("kid", ["p", "n"], [("set", "p", chain(name("n"), ("*", name("n"))))])],
    [("main", [], [let("k", fork("kid", ("me",))), let("v", join("k")), ("return", name("v"))]),
     ("kid", ["m"], [let("v", join("m")), ("return", name("v"))])],
    [("main", [], [let("p", ("new",)), ("do", fork("kid", name("p"))), ("while", num(1), [("print", num(7))])]),
     ("kid", ["p"], [let("v", get("p", num(8))), ("return", name("v"))])],
]
JOURNAL = b"fork 0\nmake 1\nraise 1\npublish 1 2\ncount 1\nowner 1\nalarm 1\n"
NO_SCRIPT = b"task main() { return 1;"


def most(mode, option):
    """The most that an option may be in this mode."""
    return {"judge": 1024, "known": 4096}.get(mode, MOST[option]) if option == "--cells" else MOST[option]


def options_of(words):
    """The mode and its options where the words are a command line, else None."""
    if not words or words[0] not in TAKES:
        return None
    mode, found, i = words[0], {}, 1
    while i < len(words):
        option = words[i]
        if option not in TAKES[mode] or option in found:
            return None
        if option == "--strict":
            found[option] = True
            i += 1
            continue
        text = words[i + 1] if i + 1 < len(words) else ""
        if not 1 <= len(text) <= 10 or any(c not in "0123456789" for c in text):
            return None
        if not 1 <= int(text) <= most(mode, option):
            return None
        found[option] = int(text)
        i += 2
    given = dict(ABSENT, **found)
    if mode == "judge" and "--cells" not in found:
        given["--cells"] = 256
    return mode, given


def number(draw, mode, option):
    """The text of a number for an option, rarely one that it may not be."""
    top = most(mode, option)
    if draw.random() < 0.2:
        return draw.choice(["0", str(top + 1), "", "-1", "+1", "1.0", "1e2", "0x4", "00000000001", "10000000000", " 1",
                            "1 ", "99999999999999999999", "\u0663", "1_0", "--cells", "--strict"])
    n = draw.choice([1, 2, 3, draw.randint(1, 40), draw.randint(1, top), top])
    if option == "--size" and draw.random() < 0.9:
        n = min(n, 60)
    return str(n).zfill(draw.choice([0, 0, 0, 5, 10]))


def drawn(draw):
    """Words, some of which are bytes that are no UTF-8."""
    others = ["", "Run", "runs", "-h", "--help", "--", "help"]
    mode = draw.choice(list(TAKES)) if draw.random() < 0.95 else draw.choice(others)
    takes = TAKES.get(mode, [])
    words = [mode]
    for option in draw.sample(takes, draw.randint(0, len(takes))):
        words.append(option)
        if option != "--strict":
            words.append(number(draw, mode, option))
    roll = draw.random()
    if roll < 0.25:
        i = draw.randint(0, len(words))
        words.insert(i, draw.choice(["--strict", "--cells", "--workers", "--steps", "--size", "-h", "--", "--cells=5",
                                     "-c", "5", "run", "", "--version", "--strict=1", "--STRICT", "\u00e9", b"\xff",
                                     b"--cells\x80", "--work"]))
    elif roll < 0.3 and len(words) > 1:
        del words[draw.randrange(len(words))]
    elif roll < 0.34:
        words += words[1:]
    return words


def is_utf8(word):
    return not isinstance(word, bytes)


def relay_text(size):
    """The report of a relay: the first task makes an item for each value, and then the child."""
    lines = [f"0 prints {i}" for i in range(1, size + 1)]
    lines += [f"0 done {size * (size + 1) // 2}", f"0.{size + 1} done 0", f"0.{size + 1}.1 done 0", "clean"]
    return "".join(line + "\n" for line in lines)


def answer(mode, given, which):
    """The input, status and text of a right command line; None where the documents don't say."""
    if mode in ("gen", "relay"):
        size, cells = given["--size"], given["--cells"]
        if cells < (2 * size + 2 if mode == "gen" else size + 3):
            # With too few statements the generated script may stop before it needs too many cells.
            if mode == "gen" and given["--steps"] < 3 * size + 8:
                return None
            return b"", 4, f"full: more than {cells} cells\n"
        if mode == "relay":
            return b"", 0, relay_text(size)
        if given["--steps"] < 3 * size + 8:
            return None
        return b"", 0, (f"size {size} tasks {size + 1} done {size + 1} failed 0 waiting 0 owed 0 cycles 0 "
                        f"result {size * (size + 1) // 2}\nclean\n")
    if mode == "judge":
        return (JOURNAL, *storm_journals.judged(JOURNAL, given["--cells"]))
    if which == len(SCRIPTS):
        return NO_SCRIPT, 3, "script fault P1 at 1:24\n"
    script = SCRIPTS[which]
    if mode == "list":
        return listing(script).encode(), 0, listing(script)
    meaning = Meaning(script, given["--cells"], given["--steps"], given["--strict"], budget=30_000)
    told = {"known": meaning.known, "watch": meaning.watched}.get(mode, meaning.report)
    return (listing(script).encode(), *told())


def wanted(words, which):
    """The input, status and text for these words; None where the documents don't say."""
    found = options_of(words) if all(is_utf8(word) for word in words) else None
    return (NO_SCRIPT, 2, USAGE) if found is None else answer(*found, which)
