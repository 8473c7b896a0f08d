"""The numbers of a run by all of their names in the report, the count lines, /state and /metrics (docs/METRICS.md)."""
import re
from collections.abc import Iterator
from typing import Any, NamedTuple

from .runs import TOP

ROW = re.compile(r"\| (?P<report>[^|]*) \| (?P<lines>[^|]*) \| `(?P<key>[^|]*)` \| `(?P<metric>[^|]*)` \| [^|]* \|")
# The words of each metric of a state.
STATES = {
    "darbexum_stream_state": ("no_packet", "running", "lost", "ended"),
    "darbexum_path_state": (
        "given_up", "not_joined", "no_datagrams", "refused", "late", "too_early", "losing", "in_time"
    ),
    "darbexum_record_state": ("none", "writing", "ended"),
    "darbexum_wav_state": ("none", "writing", "ended"),
    "darbexum_pcm_state": ("none", "waiting", "writing", "ended"),
}
# A row of a metric that /state does not have.
FURTHER = re.compile(r"\| [^|]* \| [^|]* \| – \| `(?P<metric>[^|]*)` \| [^|]* \|")
LABEL = re.compile(r'(\w+)="((?:[^"\\]|\\.)*)"')
METRIC = re.compile(r"(\w+)(?:\{(.*)\})? (-?\d+)")
# A metric's name and its labels; a line of a report or of count lines, and a word of it.
Metric = tuple[str, frozenset[tuple[str, str]]]
Place = tuple[str, str]


class Number(NamedTuple):
    """A number of /state, and its other names: its metric, and its places in the count lines and in the report."""

    value: Any
    metric: Metric
    lines: Place | None
    report: Place | None


def lines_of_table() -> list[str]:
    """Returns the lines of the table of names, and those around it."""
    text = (TOP / "docs" / "METRICS.md").read_text()
    return text.partition("\n## Names of the numbers\n")[2].partition("\n## ")[0].splitlines()


def table() -> list[dict[str, str]]:
    """Returns the rows of the table of names that have a metric and a name in /state."""
    return [row.groupdict() for line in lines_of_table() if (row := ROW.fullmatch(line))]


def further_metrics() -> list[str]:
    """Returns the metrics that /state does not have."""
    return [row["metric"] for line in lines_of_table() if (row := FURTHER.fullmatch(line))]


def words_of(cell: str, letter: str = "") -> tuple[str, str] | None:
    """Returns the first word of a name in the table and the word behind it, of a path or copy with this letter."""
    if not cell.startswith("`"):
        return None
    first, _, word = cell.strip("`").partition(" ")
    return first, word.removesuffix("a") + letter if word.endswith("_a") else word


def numbers(state: dict[str, Any]) -> list[Number]:
    """Returns each number of a state by all of its names."""
    return [number for row in table() for number in numbers_of(row, state)]


def numbers_of(row: dict[str, str], state: dict[str, Any]) -> Iterator[Number]:
    """Yields the numbers of a row of the table, one for each stream, path, output channel or copy that has it."""
    kind = row["metric"].split("_")[1]
    if kind in ("stream", "path"):
        for number, stream in enumerate(state["streams"]):
            labels = {"stream": str(number)} | ({"name": stream["name"]} if stream["name"] is not None else {})
            if kind == "stream":
                yield from named(row, stream[row["key"]], labels, str(number), "")
            for letter, path in zip("abcd", stream["paths"] if kind == "path" else []):
                yield from named(row, path[row["key"]], labels | {"path": letter}, str(number), letter)
    elif kind == "output":
        for number, output in enumerate(state["outputs"]):
            yield from named(row, output[row["key"]], {"output": str(number)}, "", "")
    elif row["key"] == "failed_sends":
        for letter, failed in zip("ab", state["failed_sends"]):
            yield from named(row, failed, {"copy": letter}, "", letter)
    else:
        value = state
        for key in row["key"].split("."):
            value = value[key]
        yield from named(row, value, {}, "", "")


def named(row: dict[str, str], value: Any, labels: dict[str, str], stream: str, letter: str) -> Iterator[Number]:
    """Yields a number by its names, or a state by the metric of each word that it may have."""
    lines, report = words_of(row["lines"], letter), words_of(row["report"], letter)
    of_path = letter if stream else ""
    if lines:
        # The counts of a stream by path are in the line of the stream.
        place = stream + ("" if lines[0] in ("stream", "left", "run") else of_path)
        lines = f"{lines[0]}={place}" if place else lines[0], lines[1]
    if report:
        place = [stream] * bool(stream) + [of_path] * bool(of_path and report[0] != "merge")
        report = " ".join([report[0], *place]), report[1]
    for word in STATES.get(row["metric"], ("",)):
        own = labels | ({"state": word} if word else {})
        number = int(value == word) if word and value is not None else value
        yield Number(number, (row["metric"], frozenset(own.items())), None if word else lines, report)
    if row["metric"] in STATES and lines:
        yield Number(value, ("", frozenset()), lines, None)


def metrics_in(text: str) -> dict[Metric, int]:
    """Returns the value of each metric in the text of /metrics."""
    plain = lambda label: re.sub(r"\\(.)", lambda found: {"n": "\n"}.get(found[1], found[1]), label)
    found = {}
    for line in text.splitlines():
        if not line.startswith("#"):
            name, labels, value = METRIC.fullmatch(line).groups("")
            found[name, frozenset((key, plain(label)) for key, label in LABEL.findall(labels))] = int(value)
    return found


def report_in(text: str) -> dict[Place, int]:
    """Returns the numbers of a report. Where a line has one number, or N of M, the word is empty."""
    found = {}
    for line in text.splitlines():
        head = re.match(r"(path|feed) \d \w|merge \d|sink|(unexpected|too_long|held_up) \d \w|\w+", line)[0]
        words = line[len(head) :].split()
        if len(words) == 1 or words[1:2] == ["of"]:
            found[head, ""] = int(words[0])
        else:
            found |= {(head, word): int(number) for word, number in zip(words[::2], words[1::2])}
    return found
