"""The processor time of the provers that run on this machine, by crate and by task.

A task is the proof of a crate, that of its tests, the proof with which its wrong bodies begin (the seed), or those
wrong bodies (the edits). Times are read once a second of the processes themselves, some of which have words or names
that are no UTF-8.
"""
import os
import threading
import time
from collections import defaultdict

TICKS = os.sysconf("SC_CLK_TCK")
KINDS = "proofs", "tests", "seeds", "edits"
# The tasks that a summary names.
LONGEST = 4


def task_of(pid):
    """The crate and the kind of task that a process of the prover works for; none of another process."""
    with open(f"/proc/{pid}/cmdline", errors="replace") as file:
        words = file.read().split("\0")
    if not words[0].endswith("/rattle") or "--crate-name" not in words:
        return None
    crate = words[words.index("--crate-name") + 1]
    if "/rt-edit-" in os.readlink(f"/proc/{pid}/cwd"):
        return crate, "seeds" if any(word.endswith("/seed") for word in words) else "edits"
    return crate, "tests" if "--test" in words else "proofs"


def seconds_of(pid):
    with open(f"/proc/{pid}/stat", errors="replace") as file:
        fields = file.read().rpartition(")")[2].split()
    return (int(fields[11]) + int(fields[12])) / TICKS


class Provers:
    """A thread that adds up what the provers spend until `end`: the seconds of each task, and the minute in which it
    ended."""

    def __init__(self):
        self.begin, self.over = time.monotonic(), threading.Event()
        self.spent, self.ended = defaultdict(float), {}
        self.watcher = threading.Thread(target=self.watch)
        self.watcher.start()

    def watch(self):
        last = {}
        while not self.over.wait(1):
            for pid in filter(str.isdigit, os.listdir("/proc")):
                try:
                    task, seconds = task_of(pid), seconds_of(pid)
                except OSError:
                    continue
                if task:
                    known = last.get(pid, 0)
                    self.spent[task] += seconds - known if seconds >= known else seconds
                    last[pid] = seconds
                    self.ended[task] = self.minutes()

    def minutes(self):
        return (time.monotonic() - self.begin) / 60

    def end(self):
        self.over.set()
        self.watcher.join()

    def sum_of(self, kind):
        return sum(seconds for (_, of), seconds in self.spent.items() if of == kind)

    def table(self):
        """A line for each crate, by the minute in which its last task ended, and the sums."""
        yield "crate".ljust(18) + "".join(f"{kind + ' s':>10}{'ended':>7}" for kind in KINDS)
        for crate in sorted(
            {crate for crate, _ in self.spent}, key=lambda it: max(self.ended.get((it, kind), 0) for kind in KINDS)
        ):
            tasks = [(crate, kind) for kind in KINDS]
            cells = (
                f"{self.spent[task]:10.0f}{self.ended[task]:7.0f}" if task in self.ended else " " * 17 for task in tasks
            )
            yield (crate.ljust(18) + "".join(cells)).rstrip()
        yield "all".ljust(18) + "".join(f"{self.sum_of(kind):10.0f}       " for kind in KINDS).rstrip()

    def summary(self):
        """The sums and the longest tasks in one line."""
        sums = ", ".join(f"{kind} {self.sum_of(kind):.0f} s" for kind in KINDS)
        longest = sorted(self.spent.items(), key=lambda it: -it[1])[:LONGEST]
        named = ", ".join(f"{crate} ({kind}) {seconds:.0f} s" for (crate, kind), seconds in longest)
        return f"{self.minutes():.0f} minutes; processor time: {sums}; longest: {named}"
