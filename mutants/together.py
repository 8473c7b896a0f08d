"""Tries edits of a crate over what its check kept, or over the libraries that `rt ci` kept: those that change different
functions in one check, and then each that is left alone.

A contract is not changed by an edit, so whether a function meets its own says nothing of another function. Of a check
with several edits those are refused whose own functions the prover says are not proved, with a message that points into
the function or into its proofs. What such a check does not decide is tried alone, and is refused by the rules of `rt
must-fail`, which begins with a proof of the crate from nothing where these checks begin with what is kept.
"""
import re
import subprocess
import sys
from collections.abc import Callable
from pathlib import Path
from typing import NamedTuple

sys.path.insert(0, str(Path(__file__).resolve().parent.parent / "gate"))
import kept_libraries as kept

FUNCTION = re.compile(r"(?:    )?(?:pub(?:\(\w+\))? )?(?:const )?(?:unsafe )?(?:extern \"C\" )?fn (\w+)")
# The first line of an impl block without its generic parameters: the trait, if there is one, and the type.
IMPL = re.compile(r"impl (?:(?:\w+::)*(\w+) for )?&?(?:mut )?(?:\w+::)*(\w+)")
GENERIC = re.compile(r"<[^<>]*>")
# What the prover says of a place: an error of a proof, or a goal of a function that it could not prove.
MESSAGE = re.compile(r"(?:note: )?(?:\./)?(src|proofs)/(\S+?):(\d+):\d+: (error|warning|it is not proved)?")
# The function of a crate that is not proved, by its path. A message's file alone may be of a crate below.
UNPROVED = re.compile(r"fn (\w+)::(\S+): (?:not proved|no proof)")
# A proof names what an edit took away: that says nothing of a contract.
NAMES = re.compile(r"has no field|is not in scope|has no `|was not admitted")
# A place in a file, of which an error or a note says something.
PLACED = re.compile(r"(note: )?\S+:\d+:\d+:")
# antt could not read a text, or a library's kept work could not be used: no contract was tried.
UNTRIED = re.compile(r"is no name|operand is missing|expected the end|cannot continue|Run the lower steps again")
# The front end did not take the code.
UNREAD = re.compile(r"\berror\[[\w-]+\]")


class Change(NamedTuple):
    """A line of a file that an edit replaces."""

    file: str
    old: str
    new: str


class Edit(NamedTuple):
    """An edit: its file and what it changes."""

    file: Path
    changes: list


class Place(NamedTuple):
    """A function: its module's path, the name under which the prover has its impl block, if it is in one, and its
    name."""

    module: tuple
    owner: str
    name: str


def read(file):
    """An edit, as its file has it."""
    changes, target, old = [], None, None
    for line in file.read_text().splitlines():
        word, _, text = line.partition(": ")
        if word == "file":
            target = text.strip()
        elif word == "old":
            old = text
        elif word == "new":
            changes.append(Change(target, old, text))
    return Edit(file, changes)


def module_of(file):
    """The path of a file's module, without its crate."""
    parts = Path(file).with_suffix("").parts[1:]
    return () if parts in (("lib",), ("main",)) else parts


def place_at(file, lines, number):
    """The function of a file that holds a line, its attributes among them, or None between functions.

    A message may point into a file of the same name of a crate below, which may have more lines."""
    if number >= len(lines):
        return None
    while lines[number].lstrip().startswith(("#[", "//")) and number + 1 < len(lines):
        number += 1
    for at, line in reversed(list(enumerate(lines[: number + 1]))):
        if found := FUNCTION.match(line):
            return Place(module_of(file), owner_at(lines, at), found[1])
        if line.startswith("}") and at != number:
            return None
    return None


def owner_at(lines, number):
    """The name under which the prover has the impl block that holds a function: its type and its trait, or nothing
    outside of one."""
    for line in reversed(lines[:number]):
        if line.startswith("}"):
            break
        if line.startswith("impl"):
            bare = line
            while bare != (bare := GENERIC.sub("", bare)):
                pass
            found = IMPL.match(bare)
            return found[2] + (found[1] or "") if found else ""
    return ""


def applied(texts, edit, home):
    """The texts of the files with an edit, and the functions that it changes; None if its lines are not there once, or
    in no function."""
    texts, places = dict(texts), set()
    for change in edit.changes:
        text = texts.get(change.file) or (home / change.file).read_text()
        if not change.old or text.count(change.old) != 1:
            return None
        number = text[: text.index(change.old)].count("\n")
        place = place_at(change.file, text.splitlines(), number)
        if not place:
            return None
        places.add(place)
        texts[change.file] = text.replace(change.old, change.new)
    return texts, places


def batches(edits, home):
    """Groups of edits that change different functions. An edit that can't be placed is in none."""
    groups = []
    for edit in edits:
        for group in groups:
            made = applied(group["texts"], edit, home)
            if made and not made[1] & group["places"]:
                group["texts"], group["places"] = made[0], group["places"] | made[1]
                group["edits"].append(edit)
                break
        else:
            if made := applied({}, edit, home):
                groups.append({"texts": made[0], "places": made[1], "edits": [edit]})
    return [group["edits"] for group in groups]


def points_into(line, places, texts, home):
    """Whether a message points into one of these functions or its proofs, and says more than that a name is gone."""
    found = MESSAGE.match(line)
    if not found or found[4] == "warning" or NAMES.search(line):
        return False
    kind, path, number = found[1], found[2], int(found[3])
    if kind == "src":
        file = f"src/{path}"
        if not (home / file).is_file():
            # It is of a crate below.
            return False
        lines = (texts.get(file) or (home / file).read_text()).splitlines()
        return place_at(file, lines, number - 1) in places
    return holds(Path(path).parts[:-1], places)


def holds(parts, places):
    """Whether a path in a crate, as its names, is that of one of these functions, or of a part of it."""
    return any(it.name in behind(parts, it) for it in places)


def behind(parts, place):
    """What is behind the module of a function in a path. A method is found by its type, which may be in another one."""
    if place.owner:
        return parts[parts.index(place.owner) + 1 :] if place.owner in parts else ()
    return parts[len(place.module) :] if parts[: len(place.module)] == place.module else ()


def is_unproved(lines, places, crate):
    """Whether the prover says of one of these functions of a crate that it is not proved."""
    found = filter(None, map(UNPROVED.match, lines))
    return any(it[1] == crate and holds(tuple(it[2].split("::")), places) for it in found)


def whole(home: Path, texts: dict[str, str], places: set[Place]) -> list[str]:
    """The command that checks a crate over what its check kept, whatever its texts are."""
    return ["rt", "check", "--jobs", "1"]


def functions(home: Path, texts: dict[str, str], places: set[Place]) -> list[str]:
    """The command that checks these functions over libraries that were laid. It decides nothing if the prover has one
    of them by another name."""
    names = {f"{it.owner}::{it.name}" if it.owner else "::".join([home.name, *it.module, it.name]) for it in places}
    return only(home, sorted(names))


def modules(home: Path, texts: dict[str, str], places: set[Place]) -> list[str]:
    """The command that checks the modules of these texts over libraries that were laid; the whole crate if one of the
    texts is no source."""
    if all(file.startswith("src/") for file in texts):
        return only(home, ["::".join([home.name, *module_of(file)]) for file in sorted(texts)])
    return laid(home, texts, places)


def only(home, names):
    """The command that checks these functions or modules of a crate over libraries that were laid."""
    words = [word for name in names for word in ("--only", name)]
    return kept.words(home.parent.parent, home.name, ["--jobs", "1", "--allow-holes", *words])


def laid(home: Path, texts: dict[str, str], places: set[Place]) -> list[str]:
    """The command that checks a crate over libraries that were laid, whatever its texts are."""
    return kept.words(home.parent.parent, home.name, ["--jobs", "1"])


def check(home, texts, command, places=frozenset()):
    """Checks a crate with these texts of its files, which change these functions, and puts the files back."""
    former = {file: (home / file).read_text() for file in texts}
    try:
        for file, text in texts.items():
            (home / file).write_text(text)
        words = command(home, texts, places)
        return subprocess.run(words, cwd=home, capture_output=True, text=True, errors="replace", check=False)
    finally:
        for file, text in former.items():
            (home / file).write_text(text)


def refused_in(home, edits, command=whole):
    """The edits that one check of all of them refuses, each by a message of its own. Where the check decides nothing,
    halves are tried."""
    texts, changed_places = {}, set()
    for edit in edits:
        texts, own = applied(texts, edit, home)
        changed_places |= own
    ran = check(home, texts, command, changed_places)
    said = ran.stdout + ran.stderr
    if ran.returncode != 1 or UNREAD.search(said):
        half = len(edits) // 2
        return refused_in(home, edits[:half], command) + refused_in(home, edits[half:], command) if half else []
    lines, found = said.splitlines(), []
    for edit in edits:
        places = applied({}, edit, home)[1]
        if is_unproved(lines, places, home.name) and any(points_into(line, places, texts, home) for line in lines):
            found.append(edit)
    return found


def changed(edit, home):
    """The texts of the files with an edit; None if its lines are not there once."""
    texts = {}
    for change in edit.changes:
        text = texts.get(change.file) or (home / change.file).read_text()
        if not change.old or text.count(change.old) != 1:
            return None
        texts[change.file] = text.replace(change.old, change.new)
    return texts


def is_refused_alone(home, edit, command=whole):
    """Whether a check of the crate, or of the modules that are changed, with this edit alone refuses it, by a message
    that says more than that a name is gone."""
    texts = changed(edit, home)
    if not texts:
        return False
    ran = check(home, texts, command)
    lines = (ran.stdout + ran.stderr).rstrip().splitlines()
    placed = [line for line in lines if PLACED.match(line) and ": warning" not in line]
    unread = [
        line for line in placed if UNTRIED.search(line) or NAMES.search(line) and not re.match(r"(\./)?proofs/", line)
    ]
    # A check of some modules has no verdict on the crate.
    verdict = any(
        line.startswith("logic=not-proved") or (found := UNPROVED.match(line)) and found[1] == home.name
        for line in lines
    )
    return (
        ran.returncode == 1 and verdict and not unread and not UNREAD.search("\n".join(lines))
        and any(not NAMES.search(line) for line in placed)
    )


def refused_over(command: Callable, home: Path, edits: list[Edit]) -> list[Edit]:
    """Of these edits of a crate, those that checks of several refuse."""
    return [edit for group in batches(edits, home) for edit in refused_in(home, group, command)]


def refused(home: Path, files: list[Path]) -> list[Path]:
    """Of these files of edits of the crate in a folder, those that checks over what is kept there refuse."""
    edits = [read(file) for file in files]
    found = [edit.file for edit in refused_over(whole, home, edits)]
    left = [edit for edit in edits if edit.file not in found]
    if not left:
        return found
    if check(home, {}, whole).returncode:
        # The crate itself is not proved over what is kept here, so that no refusal says anything of an edit.
        return []
    return found + [edit.file for edit in left if is_refused_alone(home, edit)]


def refused_over_laid(home: Path, files: list[Path]) -> list[Path]:
    """Of these files of edits of the crate in a folder, those that checks over the libraries that were laid there
    refuse. `rt ci` proved the crate, so that a function that is not proved is one that an edit changed."""
    edits = [read(file) for file in files]
    found = refused_over(functions, home, edits)
    # An edit of a constant is in no function, and one of a type may be refused in another function, or another module.
    left = [
        edit
        for edit in edits
        if edit not in found and (is_refused_alone(home, edit, modules) or is_refused_alone(home, edit, laid))
    ]
    return [edit.file for edit in found + left]
