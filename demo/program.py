"""The program that the demo runs: the one that is built, or its sources without a proof."""
import contextlib
import os
import shutil
import signal
import subprocess
from pathlib import Path

TOP = Path(__file__).resolve().parent.parent
RATE = 48_000
# Seconds after which a run ends by itself if this script is killed, beyond the time that it was to take.
SPARE = 60
# Seconds in which a run writes its report.
MOST_SECONDS = 20
# The one signal that the run takes as its end. `rt` keeps SIGTERM, by which it clears up.
END = signal.SIGHUP


def is_built() -> bool:
    """Whether bin/darbexum is there, and no source is newer."""
    built = TOP / "bin" / "darbexum"
    if not os.access(built, os.X_OK):
        return False
    made, newest = built.stat().st_mtime, (TOP / "crates.txt").stat().st_mtime
    for folder, below, files in os.walk(TOP / "crates"):
        below[:] = [name for name in below if name != "out"]
        newest = max([newest, *(os.stat(f"{folder}/{name}").st_mtime for name in files)])
        if newest > made:
            return False
    return True


def found() -> str | None:
    """The program that is built; `rt`, which runs the sources; or nothing."""
    return str(TOP / "bin" / "darbexum") if is_built() else shutil.which("rt")


def children_of() -> dict[int, list[int]]:
    """The children of each process."""
    children = {}
    for pid in filter(str.isdigit, os.listdir("/proc")):
        # A process may end meanwhile.
        with contextlib.suppress(OSError), open(f"/proc/{pid}/stat", errors="replace") as file:
            parent = int(file.read().rpartition(")")[2].split()[1])
            children.setdefault(parent, []).append(int(pid))
    return children


def below(pid: int) -> list[int]:
    """The processes that a process has started, and those that these have started."""
    children, left, every = children_of(), [pid], []
    while left:
        own = children.get(left.pop(), [])
        every += own
        left += own
    return every


def words_of(pid: int) -> list[str]:
    with contextlib.suppress(OSError), open(f"/proc/{pid}/cmdline", errors="replace") as file:
        return file.read().split("\0")
    return []


class Program:
    """A run of the program in a session of its own, which Ctrl-C at the terminal does not reach."""

    def __init__(self, program: str, options: list[str], seconds: int, folder: str):
        """Starts a run with the options of `live`, of which the first is the configuration."""
        self.is_source, self.config = os.path.basename(program) == "rt", options[0]
        live = ["live", *options, "--instants", str((seconds + SPARE) * RATE)]
        # rt gives its output only at the end. Steps are those of an interpreter, which cannot run a live program.
        tried = ["try", "--seconds", str(seconds + 2 * SPARE), "--steps", "1", "--"] if self.is_source else []
        words = ["env", f"--block-signal={END.name.removeprefix('SIG')}", program, *tried, *live]
        self.output, self.faults = open(f"{folder}/output", "w+"), open(f"{folder}/faults", "w+")
        how = {"stdin": subprocess.DEVNULL, "stdout": self.output, "stderr": self.faults, "start_new_session": True}
        self.child = subprocess.Popen(words, cwd=TOP / "crates" / "studio_main" if self.is_source else TOP, **how)

    def running(self) -> int | None:
        """The process of the run, once it has begun."""
        if not self.is_source:
            return self.child.pid
        is_run = lambda words: ("live", self.config) in zip(words, words[1:])
        return next((pid for pid in below(self.child.pid) if is_run(words_of(pid))), None)

    def has_ended(self) -> bool:
        return self.child.poll() is not None

    def end(self) -> int:
        """Ends the run with its report, and returns its status. A run that has not begun is given up."""
        pid = None if self.has_ended() else self.running()
        if pid is not None:
            with contextlib.suppress(ProcessLookupError):
                os.kill(pid, END)
        elif not self.has_ended():
            self.child.terminate()
        try:
            return self.child.wait(MOST_SECONDS)
        except subprocess.TimeoutExpired:
            return self.kill()

    def kill(self) -> int:
        for pid in [self.child.pid, *below(self.child.pid)]:
            with contextlib.suppress(ProcessLookupError):
                os.kill(pid, signal.SIGKILL)
        return self.child.wait()

    def report(self) -> str:
        """The report of a run that has ended."""
        self.output.seek(0)
        return self.output.read()

    def told(self) -> str:
        """What the run, and `rt`, wrote to standard error."""
        self.faults.seek(0)
        return self.faults.read()
