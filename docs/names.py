"""The table of docs/METRICS.md that joins the names of each number in the report, in the lines of --stats, in /state
and in /metrics. Keys, kinds and descriptions are those of the crate status_page, and the words of lines those of the
crates that write the lines."""
import re
from collections.abc import Iterator

from sources import ROOT

SOURCES = ROOT / "crates"
FIELDS = SOURCES / "status_page/src/fields"
METRICS = [SOURCES / f"status_page/src/page/{name}.rt" for name in ("metrics", "path_states", "facts")]
COUNTS = SOURCES / "rtp_stream/src/count_field.rt"
KINDS = SOURCES / "studio_io/src/output_kind.rt"
# The files that write the lines of the report, and of --stats.
REPORT = (
    "studio_run/src/lines/counts.rt",
    "live_status/src/lines/report.rt",
    "studio_main/src/live_command.rt",
    "studio_main/src/left_out_lines.rt",
)
STATS = "live_status/src/lines/running.rt", "live_status/src/lines/drift.rt"
HEAD = "| In the report | In `--stats` | In `/state` | In `/metrics` | Meaning |\n|---|---|---|---|---|"

# The words in lines of the numbers that are no counts of a merge: the first word of the line, and the word before the
# number. A line with one number has no further word.
IN_REPORT = {
    "path_datagrams": "path offered",
    "path_packets": "path sent",
    "path_bad": "path bad",
    "path_wrong_type": "path type",
    "path_wrong_length": "path length",
    "path_full": "path full",
    "path_first": "merge from_a",
    "path_unexpected": "unexpected",
    "path_socket_faults": "feed faults",
    "path_too_long": "too_long",
    "path_held_up": "held_up",
    "sends_failed": "sink fault_a",
    "sends_stale": "stale",
    "incomplete_datagrams": "incomplete",
    "late_datagrams": "sent_late",
    "left_out_datagrams": "left_out",
}
IN_STATS = {
    "stream_seconds_left": "left seconds",
    "path_first": "stream from_a",
    "path_drift_ppm": "drift ppm",
    "path_astray": "drift astray",
    "path_repeating": "drift repeating",
    "path_unexpected": "socket unexpected",
    "path_socket_faults": "socket faults",
    "path_socket_ended": "socket ended",
    "path_socket_dropped": "socket dropped",
    "path_too_long": "socket too_long",
    "path_held_up": "socket held_up",
    "sends_failed": "run failed_a",
    "sends_stale": "run stale",
    "incomplete_datagrams": "run incomplete",
    "late_datagrams": "run sent_late",
    "left_out_datagrams": "run left_out",
}
# The numbers that no list of fields has: the name in /state, if there is one, the constant that describes the number,
# and whether it is a gauge.
FURTHER = {
    "stream_state": ("state", "STATE_HELP", True),
    "path_state": ("state", "PATH_STATE_HELP", True),
    "sends_failed": ("failed_sends", "FAILED_HELP", False),
    "sends_stale": ("stale", "STALE_HELP", False),
    "incomplete_datagrams": ("incomplete", "INCOMPLETE_HELP", False),
    "late_datagrams": ("sent_late", "LATE_HELP", False),
    "left_out_datagrams": ("left_out", "LEFT_OUT_HELP", False),
    "build_info": (None, "VERSION_HELP", True),
    "start_time_seconds": (None, "START_HELP", True),
}
# Words of the report that are in nothing else.
REPORT_ALONE = {
    "sink blocks": "Datagrams of the mix.",
    "sink sent_a": "Datagrams of the mix that were sent to the address of this copy."
}
# Words before numbers that are no counts.
NO_COUNTS = {"time"}


def read(path):
    return (SOURCES / path).read_text()


def texts(source, after, before="\n    }\n"):
    """The texts of a function's arms, by variant."""
    body = source.partition(after)[2].partition(before)[0]
    arms = re.findall(r'((?:\w+(?:Field|Kind)::\w+[\s|]*)+)=>\s+"([^"]*)"', body)
    return {name: text for names, text in arms for name in re.findall(r"::(\w+)", names)}


def gauges(source):
    """The variants whose kind is a gauge."""
    body = source.partition("fn kind(")[2].partition("\n    }\n")[0]
    arms = re.findall(r"((?:\w+Field::\w+(?:\(_\))?\s*\|?\s*)+)=>\s*\{?\s*MetricKind::Gauge", body)
    return {name for arm in arms for name in re.findall(r"Field::(\w+)", arm)}


def row(report, stats, state, metric, meaning):
    cells = *(f"`{name}`" if name else "–" for name in (report, stats, state, metric)), meaning
    return f"| {' | '.join(cells)} |"


def rows_of_counts():
    """The counts of a merge, which have one word in both lines."""
    source = COUNTS.read_text()
    words, key, help_of = texts(source, "pub fn word("), texts(source, "pub fn key("), texts(source, "pub fn help(")
    for name in re.findall(r"CountField::(\w+)", source.partition("pub const COUNT_FIELDS")[2].partition("];")[0]):
        word = words.get(name, key[name])
        yield row(f"merge {word}", f"stream {word}", key[name], f"darbexum_stream_{key[name]}_total", help_of[name])


def rows_of_fields():
    """The other numbers of a stream, of a path, of an output channel, and of the run."""
    for group in ("stream", "path", "output"):
        source = (FIELDS / f"{group}.rt").read_text()
        help_of, gauge = texts(source, "fn help("), gauges(source)
        for name, key in texts(source, "fn key(").items():
            metric = f"darbexum_{group}_{key}{'' if name in gauge else '_total'}"
            yield row(IN_REPORT.get(f"{group}_{key}"), IN_STATS.get(f"{group}_{key}"), key, metric, help_of[name])
    source = "\n".join(file.read_text() for file in METRICS)
    for name, (state, constant, is_gauge) in FURTHER.items():
        meaning = re.search(rf'const {constant}: &str =\s+"([^"]+)"', source)[1]
        yield row(
            IN_REPORT.get(name), IN_STATS.get(name), state, f"darbexum_{name}{'' if is_gauge else '_total'}", meaning
        )


def rows_of_outputs() -> Iterator[str]:
    """The state and the counts of each output of a run."""
    kinds = KINDS.read_text()
    key_of, unit_of, word_of, state_help, written_help, left_out_help = (
        texts(kinds, f"fn {name}(")
        for name in ("key", "unit", "written_word", "state_help", "written_help", "left_out_help")
    )
    for name, key in key_of.items():
        unit, metric, word = unit_of[name], f"darbexum_{key}", word_of[name]
        yield row(None, f"run {key}", f"{key}.state", f"{metric}_state", state_help[name])
        yield row(key, f"run {word}", f"{key}.{unit}", f"{metric}_{unit}_total", written_help[name])
        if left_out_help[name]:
            yield row(None, f"run {key}_left_out", f"{key}.left_out", f"{metric}_left_out_total", left_out_help[name])


def table() -> list[str]:
    """The lines of the table."""
    alone = (row(words, None, None, None, meaning) for words, meaning in REPORT_ALONE.items())
    return [HEAD, *rows_of_counts(), *rows_of_fields(), *rows_of_outputs(), *alone]


def words_of(files, pattern):
    return {word for file in files for word in re.findall(pattern, read(file))} - NO_COUNTS


def differences() -> Iterator[str]:
    """Whether METRICS has another table, and words of lines that the table lacks, or has too many."""
    if "\n".join(table()) not in (ROOT / "docs" / "METRICS.md").read_text():
        yield "docs/METRICS.md lacks the output of docs/list names"
    counted = set(texts(COUNTS.read_text(), "pub fn key(").values()) | {"source"}
    # The second copy of the mix, and the other paths, have names of the same form.
    alike = lambda words: {re.sub("_b$", "_a", word) for word in words}
    last = lambda names: {name.split()[-1] for name in names}
    report = words_of(REPORT, r'push_count\(text, "(\w+)"')
    report |= words_of(REPORT, r'writeln!\(output, "(\w+) \{') - {"open_at"}
    for found, named, kind in (
        (report | {"from_a"}, {*IN_REPORT.values(), *REPORT_ALONE}, "the report"),
        (words_of(STATS, r'push\(" (\w+)="\)') | {"from_a"}, IN_STATS.values(), "--stats"),
    ):
        yield from (
            f"docs/names.py lacks the word {word} of {kind}" for word in sorted(alike(found) - last(named) - counted)
        )
        yield from (
            f"docs/names.py has the word {word}, which {kind} doesn't have"
            for word in sorted(last(named) - alike(found) - counted)
        )
