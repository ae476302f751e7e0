"""Shorthands for the trees of scripts."""

EDGES = [0, 1, 2, 3, 5, 7, 10, 64, 2**31, 2**32, 2**62, 2**63 - 2, 2**63 - 1]
SUMS, PRODUCTS, COMPARISONS = "+-", "*/%", ["==", "!=", "<", "<=", ">", ">="]


def num(n):
    return ("number", n)


def name(x):
    return ("name", x)


def chain(e, *more):
    return ("chain", e, list(more))


def fork(f, *arguments):
    return ("fork", f, list(arguments))


def get(x, spare=None):
    return ("get", x, spare)


def join(x, spare=None):
    return ("join", x, spare)


def let(x, g):
    return ("let", x, g)


def add(x, n):
    """x = x + n;"""
    return ("assign", x, chain(name(x), ("+", num(n))))


def counted(i, times, body):
    """i is declared and counts to so many while the body is done."""
    return [let(i, num(0)), ("while", ("compare", "<", name(i), num(times)), body + [add(i, 1)])]
