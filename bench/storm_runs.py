"""Runs of the program for the storm: one process each, started without a shell and ended at a limit of time."""
import contextlib, os, pathlib, shutil, signal, tempfile

from common import LIMIT


class Runner:
    """Runs one program in a folder of its own. With `memory`, in KB, each run has that much address space."""

    def __init__(self, program, memory=None):
        self.program, self.memory = os.fspath(program), memory
        shared = "/dev/shm" if os.access("/dev/shm", os.W_OK) else None
        self.folder = pathlib.Path(tempfile.mkdtemp(prefix="storm-", dir=shared))
        self.source, self.sink, self.errors = (os.fspath(self.folder / name) for name in ("source", "sink", "errors"))
        self.held, self.pid = None, None
        signal.signal(signal.SIGALRM, self.over)

    def close(self):
        shutil.rmtree(self.folder, ignore_errors=True)

    def over(self, _signal, _frame):
        """The limit of time is over: the run, where it still goes on, is ended."""
        with contextlib.suppress(ProcessLookupError):
            os.kill(self.pid, signal.SIGKILL)

    def ended(self, run):
        """Status and text of a run; a status below 0 is a signal, which SIGKILL is where it took too long."""
        if self.held is not run.source:
            with open(self.source, "wb") as source:
                source.write(run.source)
            self.held = run.source
        source = os.fspath(self.folder) if run.port == "source" else self.source
        sink = "/dev/full" if run.port == "sink" else self.sink
        flags = os.O_WRONLY | os.O_CREAT | os.O_TRUNC
        actions = [(os.POSIX_SPAWN_OPEN, 0, source, os.O_RDONLY, 0), (os.POSIX_SPAWN_OPEN, 1, sink, flags, 0o600),
                   (os.POSIX_SPAWN_OPEN, 2, self.errors, flags, 0o600)]
        words = [self.program, *run.words]
        if self.memory:
            words = ["/bin/sh", "-c", 'ulimit -v "$0" && exec "$@"', str(self.memory), *words]
        self.pid = os.posix_spawn(words[0], words, os.environ, file_actions=actions)
        signal.setitimer(signal.ITIMER_REAL, LIMIT)
        _, status = os.waitpid(self.pid, 0)
        signal.setitimer(signal.ITIMER_REAL, 0)
        written = b"" if run.port == "sink" else pathlib.Path(self.sink).read_bytes()
        return os.waitstatus_to_exitcode(status), written + pathlib.Path(self.errors).read_bytes()

    def is_wrong(self, run):
        """What a run ended with where that isn't what it has to, else None."""
        found = self.ended(run)
        if found == (run.status, run.text.encode()) or self.memory and found == (7, b""):
            return None
        return found
