"""The record of the wrong bodies that the prover refused: `refused.txt`, a line for each crate that has any.

A line holds the crate, how many edits it has, how many of them were refused, the date, and two checksums: of the crate,
and of what it may use of the crates below it. While both hold, no edit of the crate can have become provable.
"""
import fcntl
import hashlib
import re
import sys
from collections.abc import Iterator
from functools import cache
from pathlib import Path
from typing import NamedTuple

sys.path.insert(0, str(Path(__file__).resolve().parent.parent / "docs"))
import sources

FILE = Path(__file__).resolve().parent / "refused.txt"
TOKEN = re.compile(r"[\w']+|[^\w\s]")
WORD = re.compile(r"\w+")
DEFINED = re.compile(r"(\w+) \. specs \. (\w+)")
BROUGHT = re.compile(r"^ *ghost use [^;]*;", re.MULTILINE)
HEAD = (
    "# crate, edits, refused, date, checksum of the crate, checksum of what it uses of the crates below: written by"
    " make mutants"
)


class Line(NamedTuple):
    """What one crate's edits came to."""

    edits: int
    refused: int
    date: str
    own: str
    below: str


def sum_of(parts):
    """A checksum of texts."""
    return hashlib.sha256("\0".join(parts).encode()).hexdigest()[:16]


def code(text):
    """The tokens of a text without comments, so that a change of comments or layout costs no new try."""
    tokens = TOKEN.findall("\n".join(sources.code_lines(text)))
    # A list that is broken over lines has a comma more.
    return " ".join(
        token for token, after in zip(tokens, [*tokens[1:], ""]) if token != "," or after not in (")", "]", "}")
    )


def edit(text):
    """The part of an edit that the toolchain reads."""
    return "\n".join(line for line in text.splitlines() if line.startswith(("file:", "old:", "new:")))


def files_of(crate: str) -> list[Path]:
    """The files of a crate's sources, specs and proofs."""
    home = sources.ROOT / "crates" / crate
    folders = [home / folder for folder in ("src", "specs", "proofs")]
    return [file for folder in folders for file in sorted(folder.rglob("*")) if file.suffix in (".rt", ".antt")]


@cache
def own_sum(crate: str) -> str:
    """The checksum of a crate's sources, specs, proofs and edits."""
    home, parts = sources.ROOT / "crates" / crate, []
    for file in files_of(crate):
        parts += [str(file.relative_to(home)), code(file.read_text())]
    for file in sorted(sources.edit_files(crate), key=lambda file: file.name):
        parts += [file.name, edit(file.read_text())]
    return sum_of(parts)


class Part(NamedTuple):
    """A piece of what a crate shows to those above: a file of definitions, a public call with its clauses, or a public
    type. A text that has all its names may use it."""

    crate: str
    names: frozenset[str]
    code: str


@cache
def parts_of(crate: str) -> list[Part]:
    """What a crate shows to those above."""
    parts, exports = [], sources.exports_of(crate)
    for file in sorted((sources.ROOT / "crates" / crate / "specs").rglob("*.antt")):
        parts.append(Part(crate, frozenset({f"{crate}.specs.{file.stem}"}), code(file.read_text())))
    for text in sources.code_of(crate):
        # The definitions that clauses name are those that the file brings in.
        brought = code("\n".join(BROUGHT.findall(text)))
        for call in sources.calls_in(text):
            if sources.is_given_out(call, exports):
                parts.append(Part(crate, frozenset({call.owner, call.name} - {""}), f"{code(call.head)} {brought}"))
        for owner in sources.owners_in(text):
            if owner.kind != "impl" and owner.name in exports:
                parts.append(Part(crate, frozenset({owner.name}), f"{code(owner.body)} {brought}"))
    return parts


def names_in(text: str) -> set[str]:
    """The words of a text, and the files of definitions that it names, as `studio_io.specs.Clocks`."""
    return {*WORD.findall(text), *(f"{crate}.specs.{name}" for crate, name in DEFINED.findall(text))}


@cache
def below_sum(crate: str) -> str:
    """The checksum of what a crate may use of those below it: of each part whose names it has, or a part that it may
    use. What a crate can't name changes none of its proofs."""
    names = names_in(" ".join(code(file.read_text()) for file in files_of(crate)))
    names |= names_in(" ".join(edit(file.read_text()) for file in sources.edit_files(crate)))
    left = [part for name in sorted(sources.below(crate)) for part in parts_of(name)]
    used: list[Part] = []
    while reached := [part for part in left if part.names <= names]:
        left = [part for part in left if not part.names <= names]
        used += reached
        names = names.union(*(names_in(part.code) for part in reached))
    return sum_of(sorted(f"{part.crate} {' '.join(sorted(part.names))} {part.code}" for part in used))


def read():
    """The lines of the record, by crate."""
    lines = FILE.read_text().splitlines() if FILE.is_file() else []
    fields = [line.split() for line in lines if line and not line.startswith("#")]
    return {crate: Line(int(edits), int(refused), *rest) for crate, edits, refused, *rest in fields}


def write(lines):
    """Writes the record, with the crates in the order of crates.txt."""
    rows = [
        [crate, str(line.edits), str(line.refused), *line[2:]]
        for crate in sources.crates()
        if (line := lines.get(crate))
    ]
    FILE.write_text(
        "\n".join([HEAD, *(f"{row[0]:16} {row[1]:>3} {row[2]:>3}  {'  '.join(row[3:])}" for row in rows), ""])
    )


def update(lines: dict[str, Line]) -> None:
    """Puts lines into the record, which another run may write at the same time."""
    with open(FILE, "a+") as file:
        fcntl.flock(file, fcntl.LOCK_EX)
        write({**read(), **lines})


def differences() -> Iterator[str]:
    """What the record lacks: crates that changed since their edits were tried, and edits that were not refused."""
    lines = read()
    for crate in sources.crates():
        edits, line = len(sources.edit_files(crate)), lines.get(crate)
        if not edits and not line:
            continue
        if not line:
            yield f"{crate}: its {edits} edits were never tried: make mutants {crate}"
        elif line.own != own_sum(crate) or line.edits != edits:
            yield f"{crate}: it changed since its edits were tried on {line.date}: make mutants {crate}"
        elif line.below != below_sum(crate):
            yield (
                f"{crate}: a definition or contract of a crate below it changed since its edits were tried on"
                f" {line.date}: make mutants {crate}"
            )
        elif line.refused < line.edits:
            yield f"{crate}: {line.edits - line.refused} of its {line.edits} edits were not refused"
    for crate in lines.keys() - set(sources.crates()):
        yield f"{crate}: mutants/refused.txt has a line for it, and crates.txt does not"
