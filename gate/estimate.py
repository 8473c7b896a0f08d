"""How long a run of the gate still takes, by what a saved run of bench/gate spent on each task.

A task is a crate and a kind, as in `provers`. The seconds of this run's ended tasks, compared with those of the saved
run, say how fast this machine is. What is left takes at least as long as its longest chain of crates, and as its sum on
all processors.
"""
import re
from pathlib import Path

RESULTS = Path(__file__).resolve().parent.parent / "bench" / "results"
SAVED = re.compile(r"gate-(\d{4}-\d\d-\d\d)(?:-(\d+))?\.txt")
WHOLE = "bench/gate, ", "bench/gate --anew, "
# The columns of a saved table: a crate's name, then for each kind its seconds and the minute in which it ended.
NAME, CELL, SECONDS = 18, 17, 10
# In the table a crate's edits and the proof that they begin with are two kinds. Here they are one task.
KINDS = ("proofs", ["proofs"]), ("tests", ["tests"]), ("edits", ["seeds", "edits"])
COLUMNS = "proofs", "tests", "seeds", "edits"
# A crate and a kind.
Task = tuple[str, str]
# Below this share of the saved seconds the speed of this machine isn't known.
LEAST = 0.05


def newest(folder: Path = RESULTS) -> str:
    """The text of the last saved run of the whole gate, which begins so; an empty text if there is none."""
    runs = sorted(
        (found[1], int(found[2] or 1), file)
        for file in folder.glob("gate-*.txt")
        if (found := SAVED.fullmatch(file.name))
    )
    texts = (file.read_text() for _, _, file in reversed(runs))
    return next((text for text in texts if text.startswith(WHOLE)), "")


def seconds_of(line):
    """The processor seconds of a crate's tasks in a line of a saved table."""
    cells = (line[NAME + CELL * place :][:SECONDS].strip() for place in range(len(COLUMNS)))
    seconds = {column: int(cell) for column, cell in zip(COLUMNS, cells) if cell}
    return {
        kind: sum(seconds.get(column, 0) for column in columns)
        for kind, columns in KINDS
        if any(column in seconds for column in columns)
    }


def saved_seconds(text: str) -> dict[Task, float]:
    """The processor seconds of each task in the text of a saved run."""
    _, _, table = text.partition("\ncrate ")
    lines = table.partition("\nall ")[0].splitlines()[1:]
    return {(line.split()[0], kind): seconds for line in lines for kind, seconds in seconds_of(line).items()}


def speed(saved, spent, done):
    """The seconds of ended tasks for each second that they took in the saved run; none if too few have ended."""
    known = [task for task in done if task in saved]
    expected = sum(saved[task] for task in known)
    if not expected or expected < LEAST * sum(saved.values()):
        return None
    return sum(spent.get(task, 0) for task in known) / expected


def chain(crate, rest, above, known):
    """The seconds from the proof of a crate to the end of all that waits for it."""
    if crate not in known:
        own = rest.get((crate, "proofs"), 0)
        behind = [chain(it, rest, above, known) for it in above[crate]]
        behind += [rest.get((crate, kind), 0) for kind in ("tests", "edits")]
        known[crate] = own + max(behind)
    return known[crate]


def minutes_left(
    saved: dict[Task, float], spent: dict[Task, float], done: set[Task], below: dict[str, list[str]], lanes: int
) -> float | None:
    """About how many minutes the tasks of crates that are not done still take; none if nothing is known of them yet.

    `below` has the crates that each crate depends on, and `lanes` tasks run at the same time."""
    pace = speed(saved, spent, done)
    if pace is None:
        return None
    tasks = [task for task in saved if task[0] in below and task not in done]
    rest = {task: max(0, saved[task] * pace - spent.get(task, 0)) for task in tasks}
    above, known = {name: [it for it in below if name in below[it]] for name in below}, {}
    longest = max((chain(crate, rest, above, known) for crate in below), default=0)
    return max(longest, sum(rest.values()) / lanes) / 60
