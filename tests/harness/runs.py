"""Runs of the program: which one, with which signals, what it says when it has begun, and how it ends."""
import os
import re
import signal
import subprocess
import time
from collections.abc import Callable, Iterable
from pathlib import Path

from .checks import Wrong, require
from .ports import are_bound

TOP = Path(__file__).resolve().parent.parent.parent
# Seconds that a run, or what a test waits for in it, may take.
MOST_SECONDS = 60
# The words of each form of a live run: by workers, and in one thread.
FORMS: tuple[list[str], ...] = ([], ["--one-thread"])
# The signals that end a live run with its report if they were blocked when it started, as darbexum-live does.
ENDING = "INT,TERM,HUP"
# The units in which the system counts processor time, a second.
TICKS = os.sysconf("SC_CLK_TCK")
PAGE = re.compile(r" page=http://127\.0\.0\.1:(\d+)/\n$")


def program_in(words: list[str]) -> str:
    """Returns the path of the program: the first of these words, or bin/darbexum if there is none."""
    return os.path.realpath(words[0] if words else TOP / "bin" / "darbexum")


def take_signals() -> None:
    """Lets SIGINT and SIGHUP have their effect on this process and what it starts.

    A shell starts a command in the background with SIGINT ignored, and nohup with SIGHUP, and a run would inherit that.
    """
    signal.signal(signal.SIGINT, signal.default_int_handler)
    signal.signal(signal.SIGHUP, signal.SIG_DFL)


def start(
    program: str, *words: str, blocked: str = ENDING, before: Iterable[str] = (), **options: object
) -> subprocess.Popen:
    """Starts the program with signals blocked, by a command that comes before it. What it writes is read as text, if
    `options` don't say otherwise."""
    piped = {"stdin": subprocess.DEVNULL, "stdout": subprocess.PIPE, "stderr": subprocess.PIPE, "text": True}
    return subprocess.Popen([*before, "env", f"--block-signal={blocked}", program, *words], **(piped | options))


def page_port_in(line: str) -> int:
    """Returns the port of the page that the first line of a run names."""
    found = PAGE.search(line)
    if not found:
        raise Wrong(f"the first line: {line!r}")
    return int(found[1])


def wait_until(what: str, child: subprocess.Popen, holds: Callable[[], object], seconds: float = MOST_SECONDS) -> None:
    """Waits until a condition holds. Raises Wrong if the run ends before, or it takes too long."""
    ends_by = time.monotonic() + seconds
    while not holds():
        if child.poll() is not None or time.monotonic() > ends_by:
            raise Wrong(f"{what} didn't come: status {child.returncode}")
        time.sleep(0.01)


def wait_bound(child: subprocess.Popen, ports: Iterable[int]) -> None:
    """Waits until a run has bound these ports of 127.0.0.1."""
    wait_until("a socket at each port", child, lambda: are_bound(ports))


def ended(child: subprocess.Popen, seconds: float = MOST_SECONDS) -> tuple[int | str, str, str]:
    """Returns the status, the output and the faults of a run that ends by itself. One that doesn't end is killed."""
    try:
        output, faults = child.communicate(timeout=seconds)
    except subprocess.TimeoutExpired:
        child.kill()
        return "no end", *child.communicate()
    return child.returncode, output, faults


def end(child: subprocess.Popen, number: int = signal.SIGTERM) -> tuple[int | str, str, str]:
    """Ends a run by a signal, and returns its status, its report and its faults."""
    child.send_signal(number)
    return ended(child)


def stop(child: subprocess.Popen) -> None:
    """Kills a run that still goes on, and forgets what it wrote."""
    if child.poll() is None:
        child.kill()
        child.communicate()


def processor_seconds(path: str) -> float:
    """Returns the processor time so far of a process or a thread, by its file `stat` in /proc."""
    with open(path) as file:
        fields = file.read().rsplit(")", 1)[1].split()
    return (int(fields[11]) + int(fields[12])) / TICKS


def run(
    *words: object, given: str | None = None, seconds: float = MOST_SECONDS, **options: object
) -> subprocess.CompletedProcess:
    """Runs a command, which reads the text `given`, to its end, and returns its status and what it wrote, as text."""
    piped = {"stdout": subprocess.PIPE, "stderr": subprocess.PIPE, "text": True}
    read = {"stdin": subprocess.DEVNULL} if given is None else {"input": given}
    return subprocess.run([str(word) for word in words], timeout=seconds, check=False, **(piped | read | options))


def succeed(*words: object, **options: object) -> str:
    """Runs a command as `run` does, and returns its output. Raises Wrong if its status is not 0."""
    done = run(*words, **options)
    told = done.stdout[-700:] + (done.stderr or "")[-700:]
    require(f"{' '.join(map(str, words))}: status {done.returncode}", done.returncode == 0, told)
    return done.stdout
