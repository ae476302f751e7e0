"""What the tools of this folder share: the built program, numbers and names on the command line, progress, and how a
tool ends. An error of the command line, or of the build, is one line on standard error and status 2; Ctrl-C ends with
130."""
import argparse, pathlib, subprocess, sys

ROOT = pathlib.Path(__file__).resolve().parent.parent
HERE = ROOT / "bench"
LIMIT = 60


class Stop(Exception):
    """Why a tool can't go on."""


def number(least, most):
    """A type of argument: a number from `least` to `most`."""
    def read(text):
        if not text.isascii() or not text.isdigit() or not least <= int(text) <= most:
            raise argparse.ArgumentTypeError(f"{text!r} is no number from {least} to {most}")
        return int(text)
    return read


def numbers(least, most):
    """A type of argument: such numbers, with commas between them."""
    return lambda text: [number(least, most)(one) for one in text.split(",")]


def chosen(there, only):
    """Of the names that are there those that `only` has, with commas between them; all where it is empty."""
    there = list(dict.fromkeys(there))
    if not there:
        raise Stop("there is nothing to run")
    names = only.split(",") if only else there
    for name in names:
        if name not in there:
            raise Stop(f"there is no {name!r}: the names are {', '.join(there)}")
    return names


def parser(page):
    """A parser whose help is the tool's page, with the option for names that all tools have."""
    made = argparse.ArgumentParser(description=page, formatter_class=argparse.RawDescriptionHelpFormatter)
    made.add_argument("--only", default="", help="names, with commas between them")
    return made


def built(root=ROOT):
    """The program of this source, which `./tj` builds where that is wanting."""
    made = subprocess.run([root / "tj", "run"], input=b"task main() { }\n", stdout=subprocess.DEVNULL)
    if made.returncode != 0:
        raise Stop(f"there is no program to run: {root / 'tj'} ended with status {made.returncode}")
    return root / "crates" / "tj_program" / "out" / "tj"


def answer(program, words, text, limit=LIMIT, **more):
    """Status and output of one run of a program, or None after so many seconds."""
    try:
        run = subprocess.run([program, *words], input=text, stdout=subprocess.PIPE, timeout=limit, **more)
    except subprocess.TimeoutExpired:
        return None
    return run.returncode, run.stdout


def ended(found):
    """An answer, short enough for a line."""
    return "no answer in time" if found is None else f"status {found[0]}, {found[1][:200]!r}"


def progress(text):
    """Tells on standard error what is run now: on a terminal in one line that the next one replaces."""
    print(f"\r\033[K{text}" if sys.stderr.isatty() else text, end="" if sys.stderr.isatty() else "\n",
          file=sys.stderr, flush=True)


def tell(text):
    """Writes a line of the tool's output, behind the progress where a terminal has both."""
    if sys.stderr.isatty():
        print("\r\033[K", end="", file=sys.stderr, flush=True)
    print(text, flush=True)


def run(main):
    """Ends with the status that `main` gives, with 2 where it can't go on, and with 130 at Ctrl-C."""
    tool = f"bench/{pathlib.Path(sys.argv[0]).name}"
    try:
        status = main()
    except Stop as why:
        print(f"{tool}: {why}", file=sys.stderr)
        status = 2
    except OSError as why:
        print(f"{tool}: {why}", file=sys.stderr)
        status = 2
    except KeyboardInterrupt:
        print(f"\n{tool}: interrupted", file=sys.stderr)
        status = 130
    sys.exit(status)
