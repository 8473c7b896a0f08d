"""What the sources say of themselves: crates, tests, edits, public calls and lemma files, each with its sentence."""
import ast
import re
from collections.abc import Iterator
from functools import cache
from pathlib import Path
from typing import NamedTuple

ROOT = Path(__file__).resolve().parent.parent
FUNCTION = re.compile(r"^(?:    )?(pub |pub\(\w+\) )?(?:extern \"C\" )?fn (\w+)", re.MULTILINE)
OWNER = re.compile(r"^(?:pub |pub\(\w+\) )?(impl|trait|struct|enum)\b([^{;]*?) ?\{\n(.*?)^\}", re.MULTILINE | re.DOTALL)
GENERICS = re.compile(r"<[^<>]*>")
CLAUSE = re.compile(r"\b(requires|ensures)(?: (\w+))? $")
FIELD = re.compile(r"^    (?:pub )?ghost (\w+):", re.MULTILINE)
TO_C = "#[unsafe(no_mangle)]"
EXPORT = re.compile(r"^pub use (\w+)::(?:\{([^}]*)\}|(\w+));", re.MULTILINE)
COMMENT = re.compile(r"$|//|--(?!\S)")
HEAD_LINE = re.compile(r"^//! ?(.*)$", re.MULTILINE)
FIRST_SENTENCE = re.compile(r"\s*(.*?\.(?=\s)|.*)")
REFUSED = re.compile(r"(.*\.) \[(\w+(?:::\w+)?: \w+)\]")


class Call(NamedTuple):
    """A function: the type or trait that it belongs to, if any, its `///` lines, the names of its clauses, and its head
    with them."""

    name: str
    owner: str
    trait: str
    public: bool
    attributes: list
    sentence: list
    requires: list
    ensures: list
    head: str

    def path(self):
        return f"{self.owner}::{self.name}" if self.owner else self.name

    def text(self):
        return " ".join(line for line in self.sentence if line)


class Owner(NamedTuple):
    """A type or a trait with what stands in its braces."""

    kind: str
    name: str
    trait: str
    body: str
    start: int
    end: int


NO_OWNER = Owner("", "", "", "", 0, 0)


class Edit(NamedTuple):
    """A wrong body: its name, whether the gate tries it, its sentence and the clause that refuses it, or neither."""

    name: str
    in_gate: bool
    sentence: str
    clause: str


@cache
def crate_lines():
    """The lines of crates.txt that name a crate: its section, its name with its kind, and what it depends on. A line `#
    TITLE` begins a section."""
    lines, section = [], ""
    for line in (ROOT / "crates.txt").read_text().splitlines():
        code, sign, comment = line.partition("#")
        name, colon, below = code.partition(":")
        if colon:
            lines.append((section, name.strip(), below.split()))
        elif sign:
            section = comment.strip()
    return lines


@cache
def dependencies() -> dict[str, list[str]]:
    """The crates and libraries that each crate names in crates.txt, the lowest first."""
    return {name.split()[0]: below for _, name, below in crate_lines()}


def heading(crate: str) -> str:
    """The name of a crate as crates.txt has it: with `staticlib` behind it if it is a static library."""
    return next(name for _, name, _ in crate_lines() if name.split()[0] == crate)


def crates() -> list[str]:
    """The names of all crates, the lowest first."""
    return list(dependencies())


def sections():
    """The crates of each section of crates.txt, by its title."""
    found = {}
    for section, name, _ in crate_lines():
        found.setdefault(section, []).append(name.split()[0])
    return found


@cache
def below(crate: str) -> list[str]:
    """All crates of the repository that a crate depends on, the lowest first."""
    named = [name for name in dependencies()[crate] if name in dependencies()]
    found = {*named, *(deeper for name in named for deeper in below(name))}
    return [name for name in crates() if name in found]


def root_of(crate):
    """The text of a crate's root file."""
    files = [ROOT / "crates" / crate / "src" / name for name in ("lib.rt", "main.rt")]
    return next((file.read_text() for file in files if file.is_file()), "")


def crate_sentence(crate: str) -> str:
    """What a crate is: the first sentence of the `//!` text in its root file."""
    return FIRST_SENTENCE.match(" ".join(HEAD_LINE.findall(root_of(crate))))[1]


def line_count(crate, suffix):
    """The number of lines in a crate's files with this suffix."""
    files = (ROOT / "crates" / crate).rglob(f"*{suffix}")
    return sum(file.read_text().count("\n") for file in files if "out" not in file.relative_to(ROOT).parts)


def crate_map(with_lines: bool = False) -> Iterator[str]:
    """The map of the crates: for each section its title, then a line for each crate with its sentence and, if asked
    for, its lines."""
    for section, names in sections().items():
        yield section
        for name in names:
            counts = f"{line_count(name, '.rt'):6} {line_count(name, '.antt'):6}  " if with_lines else ""
            yield f"  {name:16}{counts}{crate_sentence(name)}"
        yield ""


def code_files(crate: str) -> list[Path]:
    """The files of a crate's code."""
    return sorted((ROOT / "crates" / crate / "src").rglob("*.rt"))


def logic_files(crate: str) -> list[Path]:
    """The files of a crate's definitions and lemmas."""
    return [
        file for folder in ("specs", "proofs") for file in sorted((ROOT / "crates" / crate / folder).glob("*.antt"))
    ]


def code_of(crate: str) -> list[str]:
    """The text of each file of a crate's code."""
    return [file.read_text() for file in code_files(crate)]


def owners_in(text: str) -> Iterator[Owner]:
    """The types, traits and implementations of a file."""
    for found in OWNER.finditer(text):
        kind, head, body = found.groups()
        while GENERICS.search(head):
            head = GENERICS.sub("", head)
        trait, _, name = head.partition(" for ") if " for " in head else ("", "", head.split(":")[0])
        yield Owner(kind, name.strip(), trait.strip(), body, found.start(), found.end())


def lines_above(text, place):
    """The attributes and the `///` lines right above a place. A `//` line among them is a reason, and is left out."""
    attributes, sentence = [], []
    for line in reversed(text[:place].splitlines()):
        line = line.strip()
        if line.startswith("///"):
            sentence.insert(0, line[3:].strip())
        elif line.startswith("#["):
            attributes.append(line)
        elif not line.startswith("//"):
            break
    return attributes, sentence


def clauses_from(text, place):
    """The names of the clauses between a function's name and its body, and where the body begins; a clause without a
    name has its keyword."""
    clauses, depth, begin, at = {"requires": [], "ensures": []}, 0, place, place
    for at in range(place, len(text)):
        if text[at] in "([{":
            clause = CLAUSE.search(text[begin:at])
            if text[at] == "{" and depth == 0 and not clause:
                break
            if text[at] == "{" and depth == 0:
                clauses[clause[1]].append(clause[2] or clause[1])
            depth += 1
        elif text[at] in ")]}":
            depth -= 1
            begin = at + 1
        elif text[at] == ";" and depth == 0:
            break
    return clauses, at


@cache
def calls_of(crate: str) -> list[Call]:
    """All functions of a crate, at the top of a file or of a type or trait."""
    return [call for text in code_of(crate) for call in calls_in(text)]


def calls_in(text):
    """The functions of a file."""
    owners = list(owners_in(text))
    for found in FUNCTION.finditer(text):
        owner = next((owner for owner in owners if owner.start < found.start() < owner.end), NO_OWNER)
        public = found[1] == "pub " or owner.kind == "trait"
        above = lines_above(text, found.start())
        clauses, end = clauses_from(text, found.end())
        yield Call(found[2], owner.name, owner.trait, public, *above, **clauses, head=text[found.start() : end])


def exports_of(crate: str) -> set[str]:
    """The names that a library gives out."""
    root = ROOT / "crates" / crate / "src" / "lib.rt"
    found = EXPORT.findall(root.read_text()) if root.is_file() else []
    return {name.strip() for _, several, one in found for name in (several or one).split(",")}


def public_calls_of(crate: str) -> list[Call]:
    """Each call that a library gives out, to crates or to C, with its contract."""
    exports = exports_of(crate)
    return [call for call in calls_of(crate) if is_given_out(call, exports)]


def is_given_out(call: Call, exports: set[str]) -> bool:
    """Whether a library with these exports gives out the call, to crates or to C."""
    return call.public and ((call.owner or call.name) in exports or TO_C in call.attributes)


def tests_of(crate: str) -> list[Call]:
    return [call for call in calls_of(crate) if "#[test]" in call.attributes]


class Case(NamedTuple):
    """A worked case: where it is, its name, its sentence, and the sentences of the rows of its table."""

    place: str
    name: str
    sentence: str
    rows: list


# All worked cases, in the order in which they are read: each topic with its files of tests, its examples and its
# scripts.
RECEPTION, STUDIO, WORKERS, LIVE, PAGE = (
    f"crates/{crate}/src" for crate in ("worked_cases", "engine_tests", "worker_tests", "live_tests", "page_tests")
)
CASE_PLACES = {
    "Datagrams and samples": [f"{RECEPTION}/tests/wire.rt"],
    "Streams": [f"{RECEPTION}/tests/{name}.rt" for name in ("numbers", "streams")],
    "Reception": [f"{RECEPTION}/tests/{name}.rt" for name in ("merges", "restarts", "boundaries", "windows", "runs")],
    "Lanes": [f"{RECEPTION}/tests/lanes.rt"],
    "Gains": [f"{STUDIO}/tests/{name}.rt" for name in ("gains", "moving_gains")],
    "Outputs and blocks": [f"{STUDIO}/tests/{name}.rt" for name in ("datagrams", "mixer", "lists")],
    "Traces": [
        *(
            f"examples/{name}"
            for name in ("first", "wrapped", "lost", "arrival-clock", "two-streams", "unlike-packets", "every-key")
        ),
        *(
            f"examples/{name}"
            for name in (
                "silent-stream", "long-latency", "gain-change", "moving-gains", "restart", "four-paths", "media-output"
            )
        ),
        *(
            f"examples/follow-{name}"
            for name in ("late", "seven", "early", "paths", "early-path", "pause", "stall", "restart", "flood")
        ),
        "examples/capture",
        "examples/blocks",
        f"{STUDIO}/tests/players.rt",
    ],
    "Faults": ["examples/faults", "examples/statuses"],
    "Engines": [f"{STUDIO}/tests/{name}.rt" for name in ("calls", "deadlines")],
    "Rings": [f"{WORKERS}/tests/{name}.rt" for name in ("rings", "stats", "threads")],
    "Workers": [f"{WORKERS}/tests/{name}.rt" for name in ("workers", "holding", "memory")],
    "One thread": [f"{WORKERS}/tests/alone.rt"],
    "Gains that move during a run": [f"{WORKERS}/tests/gain_moves.rt"],
    "WAV files of a divided mix": [f"{WORKERS}/tests/parts.rt"],
    "Records and statistics": [
        f"{LIVE}/{name}.rt" for name in ("records/octets", "records/changes", "records/marks", "statistics", "drift")
    ],
    "Sockets and the clock": [f"{LIVE}/{name}.rt" for name in ("sockets", "sends", "late_copies", "hold_ups")],
    "The page": [f"{PAGE}/tests/{name}.rt" for name in ("texts", "requests", "controls", "sockets")],
    "Captures and live runs": [
        "tests/captures", "tests/control", "tests/desk", "tests/ends", "tests/loopback", "tests/networks",
        "tests/numbers", "tests/page", "tests/states", "tests/faders", "tests/senders", "tests/twins", "tests/takeover",
        "tests/service", "tests/kept"
    ],
}
ROW = re.compile(r'\bshows:\s*"((?:[^"\\]|\\.)*)"', re.DOTALL)
# The greatest length of a row of a script as it is listed.
ROW_WIDTH = 160
TEST = re.compile(r"#\[test\]\s*fn (\w+)")


def cases_at(place: str) -> Iterator[Case]:
    """The worked cases of a file of tests, of an example or of a script."""
    path = ROOT / place
    if path.suffix == ".rt":
        yield from cases_in(place, path.read_text())
    elif path.is_dir():
        _, sentence = (path / "README.md").read_text().splitlines()[:2]
        yield Case(place, path.name, sentence, [])
    else:
        text = path.read_text()
        said = text.split('"""')[1]
        yield Case(
            place, path.name, FIRST_SENTENCE.match(" ".join(said.partition(": ")[2].split()))[1], rows_of_script(text)
        )


def rows_of_script(text):
    """The rows of a script: its tables, which are lists of tuples, each behind its comment, and the names of the cases
    that it runs."""
    lines, tree, rows = text.splitlines(), ast.parse(text), []
    for node in tree.body:
        if isinstance(node, ast.Assign) and isinstance(node.value, ast.List):
            entries = [entry for part in node.value.elts for entry in entries_in(part) if isinstance(entry, ast.Tuple)]
            above = next(place for place in range(node.lineno - 2, -1, -1) if not lines[place].startswith("# "))
            if entries:
                rows.append(
                    (node.lineno, " ".join(line.removeprefix("# ") for line in lines[above + 1 : node.lineno - 1]))
                )
                rows += [(node.lineno, "  " + shortened(", ".join(map(ast.unparse, entry.elts)))) for entry in entries]
    calls = {
        "Case",
        *(
            it.name
            for it in tree.body
            if isinstance(it, ast.FunctionDef) and it.args.args and it.args.args[0].arg == "name"
        ),
    }
    for node in ast.walk(tree):
        if isinstance(node, ast.Call) and isinstance(node.func, ast.Name) and node.func.id in calls and node.args:
            name = node.args[0].value if isinstance(node.args[0], ast.Constant) else ""
            # A name of one word is that of a file or a command.
            if isinstance(name, str) and " " in name:
                rows.append((node.lineno, name))
    return list(dict.fromkeys(row for _, row in sorted(rows, key=lambda row: row[0])))


def entries_in(part):
    """The entries that a part of a list adds to it: those of a list that is spread into it, the one of which a loop
    makes each, or the part itself."""
    if not isinstance(part, ast.Starred):
        return [part]
    return [part.value.elt] if isinstance(part.value, ast.GeneratorExp) else part.value.elts


def shortened(row):
    """A row, of which the end is left out if it is long."""
    return row if len(row) <= ROW_WIDTH else f"{row[: ROW_WIDTH - 3]} .."


def cases_in(place, text):
    """The tests of a file. A table stands before the test that tries it."""
    start = 0
    for test in TEST.finditer(text):
        rows = [re.sub(r"\\\n\s*", "", row) for row in ROW.findall(text, start, test.start())]
        _, sentence = lines_above(text, test.start())
        line = text.count("\n", 0, test.start(1)) + 1
        yield Case(f"{place}:{line}", test[1], " ".join(sentence), rows)
        start = test.end()


def unlisted_cases() -> list[str]:
    """The files of tests in the crates of worked cases, and the examples, that no topic names."""
    listed = {place for places in CASE_PLACES.values() for place in places}
    files = [
        file
        for crate in (RECEPTION, STUDIO, WORKERS, LIVE, PAGE)
        for file in sorted((ROOT / crate).rglob("*.rt"))
        if TEST.search(file.read_text())
    ]
    examples = [trace.parent for trace in sorted((ROOT / "examples").glob("*/input.trace"))]
    return [name for name in (str(path.relative_to(ROOT)) for path in [*files, *examples]) if name not in listed]


def lemma_files_of(crate: str) -> Iterator[tuple[str, str]]:
    """Each lemma file of a crate with its first line."""
    for file in sorted((ROOT / "crates" / crate / "proofs").glob("*.antt")):
        if file.stem != "Lib":
            yield file.stem, file.read_text().splitlines()[0]


def edit_files(crate: str) -> list[Path]:
    """The files of a crate's edits: those that the gate tries, then those that `make mutants` adds."""
    return [
        file
        for folder in (ROOT / "crates" / crate / "must-fail", ROOT / "mutants" / crate)
        for file in sorted(folder.glob("*.edit"))
    ]


def edits_of(crate: str) -> Iterator[Edit]:
    """Each edit of a crate."""
    for file in edit_files(crate):
        said = REFUSED.fullmatch(file.read_text().splitlines()[0])
        yield Edit(file.stem, file.parent.name == "must-fail", *(said.groups() if said else ("", "")))


def code_lines(text: str) -> list[str]:
    """The lines of a .rt or .antt file without blank ones and those that are a comment."""
    return [line for line in map(str.strip, text.splitlines()) if not COMMENT.match(line)]


@cache
def clauses_of(crate: str) -> set[str]:
    """All that can refuse an edit of a crate: `call: clause`, `type: ghost field` and `type: invariant`."""
    calls = {f"{call.path()}: {clause}" for call in calls_of(crate) for clause in call.ensures + trait_clauses(call)}
    owners = [owner for text in code_of(crate) for owner in owners_in(text)]
    structs = [owner for owner in owners if owner.kind == "struct"]
    fields = {f"{struct.name}: {field}" for struct in structs for field in FIELD.findall(struct.body)}
    models = {f"{owner.name}: invariant" for owner in owners if "ghost invariant" in owner.body}
    return calls | fields | models


def trait_clauses(call):
    """What a method promises by the trait that it belongs to."""
    others = [other for crate in crates() for other in calls_of(crate)] if call.trait else []
    return [
        clause for other in others if (other.owner, other.name) == (call.trait, call.name) for clause in other.ensures
    ]
