"""The times that a check of a crate has kept, of each goal and each answer, and the goals that have no answer."""
import re
from collections.abc import Iterator
from pathlib import Path

# The name of a declaration and the microseconds of the phases of its check, as the toolchain's record of a module has
# them.
CHECKED = re.compile(rb'"name":"([^"]+)","notes":\[[^\]]*\],"own":\[[^\]]*\],"phases":\[([\d,]+)\]')


def times_of(top: Path, crate: str, module: str) -> Iterator[tuple[float, str, str]]:
    """The seconds, the function and the name of each goal that the check of a crate below `top` has proved by itself,
    if the module is Proof, or of each answer, if it is Answers."""
    home, prefix, suffix = (
        top / "crates" / crate / "out" / "incremental", f"Rattle-{crate}-proofs.", f".{module}.decls.oantt"
    )
    for record in home.glob(f"*/records/{prefix}*{suffix}"):
        function = record.name.removeprefix(prefix).removesuffix(suffix)
        for name, phases in CHECKED.findall(record.read_bytes()):
            yield sum(map(int, phases.split(b","))) / 1e6, function, name.decode()


def answers_file(top: Path, crate: str, function: str) -> Path:
    return top / "crates" / crate / "proofs" / function.replace(".", "/") / "Answers.antt"


def answered(file):
    """The goals that a file of answers has."""
    return set(re.findall(r"^(?:abbrev )?pub ([^\s:]+) :", file.read_text(), re.M)) if file.is_file() else set()


def is_open(goal, have):
    """Whether a goal has no answer, alone or with all clauses of its call or return."""
    return (
        goal not in have and goal.split("-clause-")[0] not in have
        and not any(it.startswith(f"{goal}-clause-") for it in have)
    )


def open_goals(top: Path, crate: str) -> Iterator[tuple[float, str, str]]:
    """The seconds, the function and the name of each goal that has no answer. The records of a check also have older
    ones."""
    for seconds, function, goal in times_of(top, crate, "Proof"):
        if is_open(goal, answered(answers_file(top, crate, function))):
            yield seconds, function, goal
