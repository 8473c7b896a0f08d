"""What the pages have to say, by the sources: keys, fault lines, metrics, words of the command line, alerts, code,
links and words."""
import re
from collections.abc import Iterator
from pathlib import Path

import sources
from sources import ROOT

LINK = re.compile(r"\]\(([^)#:\s]*)(?:#([^)\s]+))?\)")
FENCE = re.compile(r"^(```|~~~).*?^\1\s*$", re.MULTILINE | re.DOTALL)
# Pages whose words are checked. The changelog keeps what was written at the time.
OLD = {"CHANGELOG.md"}
# Words that are never right in a page, outside of code, with the words to write.
NEVER = {
    r"want of memory": "out of memory",
    r"handed over": "inherited, or passed in",
    r"held[- ]back": "blocked",
    r"strangers?": "unexpected source",
    r"spare time": "arrival margin",
    r"stands? (?:on|at)": "depends on, or is",
    r"anew": "again",
    r"beside": "next to",
    r"len[dt]s?": "borrowed, or returns a reference to",
    r"a front of": "a prefix of",
    r"sightings": "what is counted, by name",
    r"stands as it is": "is unchanged",
    r"(?:the reasons? for|because of) which": "why",
}
SOURCES = ROOT / "crates"
ERRORS = "file_commands/src/fault.rt", "studio_main/src/fault.rt", "live_run/src/fault.rt"
CODE_PAGES = "README.md", "docs/EMBEDDING.md"


def page(name):
    path = ROOT / name
    return path.read_text() if path.is_file() else ""


def all_pages() -> list[Path]:
    """The pages of the repository, without what is built."""
    return [path for path in sorted(ROOT.glob("**/*.md")) if "out" not in path.relative_to(ROOT).parts]


def anchors_of(text):
    """The names by which the headings of a page are linked to."""
    found = {}
    for heading in re.findall(r"^#+ (.*)$", FENCE.sub("", text), re.MULTILINE):
        plain = re.sub(r"\[([^\]]*)\]\([^)]*\)", r"\1", heading).replace("`", "").lower()
        name = re.sub(r"[^\w\- ]", "", plain).replace(" ", "-")
        found[name] = found.get(name, -1) + 1
    return {name if not number else f"{name}-{number}" for name, last in found.items() for number in range(last + 1)}


def broken_links():
    """Links that lead to no file or to no heading."""
    for path in all_pages():
        for target, anchor in LINK.findall(FENCE.sub("", path.read_text())):
            file = path.parent / target if target else path
            if not file.exists():
                yield f"{path.relative_to(ROOT)} links to {target}, which isn't there"
            elif anchor and file.suffix == ".md" and anchor not in anchors_of(file.read_text()):
                yield f"{path.relative_to(ROOT)} links to {target}#{anchor}, which isn't there"


def prose(text):
    """A page without its code."""
    text = FENCE.sub("", text)
    text = re.sub(r"^    .*$", "", text, flags=re.MULTILINE)
    return re.sub(r"`[^`]*`", "", text)


def wrong_words():
    """Words that are never right."""
    for path in all_pages():
        if path.name in OLD:
            continue
        text = prose(path.read_text())
        for wrong, right in NEVER.items():
            for found in re.findall(rf"\b(?:{wrong})\b", text, re.IGNORECASE):
                yield f"{path.relative_to(ROOT)} says '{found}'; write {right}"


def lacks(name, words, what):
    """Words that a page lacks as code."""
    text = page(name)
    for word in words:
        if not re.search(rf"`[^`\n]*(?<![\w-]){re.escape(word)}(?![\w])[^`\n]*`", text):
            yield f"{name} lacks {what} {word}"


def keys():
    return re.findall(r'Key::\w+ => "(\w+)"', (SOURCES / "studio_config/src/config/keys.rt").read_text())


def missing_keys():
    """Keys of the configuration without a row, or without a line in the file that has every key."""
    example = page("examples/every-key/studio.toml")
    yield from lacks("docs/CONFIGURATION.md", keys(), "the key")
    for key in keys():
        if not re.search(rf"^(?:{key} = |\[\[?(?:\w+\.)?{key}\]?\])", example, re.MULTILINE):
            yield f"examples/every-key/studio.toml lacks the key {key}"
    if f"```toml\n{example}```" not in page("docs/CONFIGURATION.md"):
        yield "docs/CONFIGURATION.md has another file than examples/every-key/studio.toml"


def defaults():
    """The defaults that `help config` prints, by key. A key of which the source has no text is required."""
    names = dict(re.findall(r'Key::(\w+) => "(\w+)"', (SOURCES / "studio_config/src/config/keys.rt").read_text()))
    text = (SOURCES / "file_commands/src/config_help.rt").read_text()
    for arm, default in re.findall(r'((?:Key::\w+\s*\|?\s*)+)=> "([^"]+)"', text):
        yield from ((names[name], default) for name in re.findall(r"Key::(\w+)", arm))


def wrong_defaults():
    """Keys whose default in CONFIGURATION is not that of `help config`. Words after a semicolon explain it."""
    known = dict(defaults())
    for table in page("docs/CONFIGURATION.md").split("\n| Key |")[1:]:
        head, _, *rows = [
            [cell.strip() for cell in row.strip("|").split("|")] for row in table.partition("\n\n")[0].splitlines()
        ]
        column = head.index("Default") + 1 if "Default" in head else None
        for row in rows if column else []:
            written = re.sub('[`"]', "", row[column]).partition(";")[0]
            for key in re.findall(r"`(\w+)`", row[0]):
                # A source (SSRC) has a default in a stream's table alone, and a clock in the output's.
                if written != known.get(key, "") and (key, written) not in {("ssrc", "any"), ("clock", "run")}:
                    yield (
                        f"docs/CONFIGURATION.md has the default '{written}' of {key}, and help config"
                        f" '{known.get(key, 'required')}'"
                    )


def error_lines():
    """What each fault's line begins with."""
    for name in ERRORS:
        for text in re.findall(r'#\[error\("([^"]+)"\)\]', (SOURCES / name).read_text()):
            # A line that explains the fault may follow.
            begin = text.partition("{")[0].partition("\\n")[0].strip()
            if begin:
                yield begin


def missing_faults():
    text = page("docs/FORMATS.md") + page("docs/CONFIGURATION.md")
    yield from (
        f"docs/FORMATS.md lacks the fault line '{line}'" for line in sorted(set(error_lines())) if line not in text
    )


def command_words():
    """The commands, and their options."""
    text = (SOURCES / "command_line/src/commands.rt").read_text()
    for found in re.finditer(r'(CommandSpec|ArgSpec)(?: = ArgSpec)? \{\s*name: "([\w-]+)"', text):
        if found[2] not in ("CONFIG", "FILE"):
            yield found[2] if found[1] == "CommandSpec" else f"--{found[2]}"


def metric_names(group, file, counts=()):
    """The metrics of a group of numbers, by the keys and kinds in its file."""
    text = (SOURCES / "status_page/src/fields" / file).read_text()
    named = dict(re.findall(r'Field::(\w+) => "(\w+)"', text))
    gauges = {
        name
        for arm in re.findall(r"((?:\w+Field::\w+(?:\(_\))?\s*\|?\s*)+)=>\s*\{?\s*MetricKind::Gauge", text)
        for name in re.findall(r"Field::(\w+)", arm)
    }
    for name, key in named.items():
        yield f"darbexum_{group}_{key}{'' if name in gauges else '_total'}"
    yield from (f"darbexum_{group}_{key}_total" for key in counts)


def metrics():
    counts = re.findall(
        r'CountField::\w+ => "(\w+)"', (SOURCES / "rtp_stream/src/count_field.rt").read_text().partition("fn word")[0]
    )
    yield from metric_names("stream", "stream.rt", counts)
    yield from metric_names("path", "path.rt")
    yield from metric_names("output", "output.rt")
    yield from (
        "darbexum_stream_state", "darbexum_path_state", "darbexum_sends_failed_total", "darbexum_record_state",
        "darbexum_record_datagrams_total"
    )
    yield from ("darbexum_wav_state", "darbexum_wav_blocks_total")
    yield from ("darbexum_pcm_state", "darbexum_pcm_blocks_total", "darbexum_pcm_left_out_total")


def alerts():
    return re.findall(r"- alert: (\w+)", page("examples/alerts.yml"))


def copied_code():
    """Blocks of code that differ from the file that they are said to be of. Indents are left out."""
    plain = lambda text: "\n".join(line.strip() for line in text.splitlines())
    for name in CODE_PAGES:
        for before, block in re.findall(r"([^\n]*)\n\n```(?:rust|c)\n(.*?)```", page(name), re.DOTALL):
            names = re.findall(r"`((?:crates|bindings)/[^`]+\.(?:rt|c|md))`", before)
            source = "".join((ROOT / file).read_text() for file in names if (ROOT / file).is_file())
            if plain(block) not in plain(source):
                yield f"{name} has code that isn't word for word in {', '.join(names) or 'any file that it names'}"


def clauses_by_call():
    """The clauses of all public functions, by the call's name with its type."""
    found = {}
    for crate in sources.crates():
        for call in sources.calls_of(crate):
            if call.public:
                found.setdefault(call.path(), set()).update(call.requires + call.ensures)
    return found


def claim_rows():
    """The calls and the clauses of each row in the tables of CLAIMS."""
    is_claim = False
    for line in page("docs/CLAIMS.md").splitlines():
        cells = [cell.strip() for cell in line.strip("|").split("|")]
        if cells[1:] == ["Call", "Clause"]:
            is_claim = True
        elif not line.startswith("|"):
            is_claim = False
        elif is_claim and not cells[0].startswith("-"):
            yield [re.findall(r"`([\w:]+)`", cell) for cell in cells[1:3]]


def unknown_claims():
    """Calls and clauses that CLAIMS names and that are gone."""
    known = clauses_by_call()
    for calls, clauses in claim_rows():
        yield from (f"docs/CLAIMS.md names the call {call}, which isn't there" for call in calls if call not in known)
        for clause in clauses:
            if not any(clause in known.get(call, ()) for call in calls):
                yield f"docs/CLAIMS.md names the clause {clause}, which {', '.join(calls) or 'no call'} doesn't have"


def unlinked_pages():
    """Pages of docs/ that the README doesn't lead to."""
    linked = {target for target, _ in LINK.findall(page("README.md"))}
    for path in sorted((ROOT / "docs").glob("*.md")):
        if f"docs/{path.name}" not in linked:
            yield f"README.md has no link to docs/{path.name}"


def unknown_names():
    """Names in the column `In code` of GLOSSARY, and lemma files in PROOFS, that no crate has."""
    files = [
        file
        for kind in ("rt", "antt")
        for folder in ("src", "specs")
        for file in SOURCES.glob(f"*/{folder}/**/*.{kind}")
    ]
    known = set(re.findall(r"\w+", "\n".join(file.read_text() for file in files)))
    for row in re.findall(r"^\| [^|]* \| [^|]* \|([^|]*)\| [^|]* \|$", page("docs/GLOSSARY.md"), re.MULTILINE):
        yield from (
            f"docs/GLOSSARY.md names {name}, which is in no crate"
            for name in re.findall(r"\w+", " ".join(re.findall(r"`([^`]*)`", row)))
            if name not in known
        )
    lemmas = {file.stem for file in SOURCES.glob("*/proofs/**/*.antt")}
    for name in re.findall(r"`(\w+(?:Lemmas|Cases))`", page("docs/PROOFS.md")):
        if name not in lemmas:
            yield f"docs/PROOFS.md names {name}, which is in no crate"


def unknown_outputs():
    """Lines of a report that MIXING shows and that no example has."""
    reports = {line for file in ROOT.glob("examples/*/report.txt") for line in file.read_text().splitlines()}
    for line in re.findall(r"^ +(out [0-9a-f]+)$", page("docs/MIXING.md"), re.MULTILINE):
        if line not in reports:
            yield f"docs/MIXING.md has the line {line[:40]}.., which is in no report of examples/"


def differences() -> Iterator[str]:
    yield from broken_links()
    yield from wrong_words()
    yield from missing_keys()
    yield from wrong_defaults()
    yield from missing_faults()
    yield from lacks("docs/FORMATS.md", command_words(), "the word")
    yield from lacks("docs/METRICS.md", metrics(), "the metric")
    yield from (
        f"docs/OPERATING.md lacks the alert {alert}" for alert in alerts() if alert not in page("docs/OPERATING.md")
    )
    yield from copied_code()
    yield from unlinked_pages()
    yield from unknown_names()
    yield from unknown_outputs()
    yield from unknown_claims()
