"""The text of libdarbexum(3), from the comments and declarations of bindings/c/darbexum.h."""
import re
from pathlib import Path

HEADER = Path(__file__).resolve().parent.parent / "bindings/c/darbexum.h"
NAMED = "Order of calls", "Units", "Codes", "What the caller owes"
CALL = re.compile(r"\b(darbexum_\w+)\([^;]*\);")
VALUE = re.compile(r"^    (DARBEXUM_\w+) = (-?\d+),? +/\* (.*) \*/$", re.MULTILINE)


def words(comment):
    """A comment as text, without its marks and the stars before its lines."""
    return re.sub(r"^ \* ?", "", comment.removeprefix("/* ").removesuffix(" */"), flags=re.MULTILINE)


def head_sections(comment):
    """The paragraphs of the comment at the header's front that have no title, and those that begin with one, by their
    titles."""
    plain, named = [], {}
    for paragraph in words(comment).split("\n\n")[1:]:
        title, _, rest = paragraph.partition(". ")
        if title in NAMED:
            # A list begins after an empty line.
            named[title] = rest.replace(":\n  - ", ":\n\n  - ")
        else:
            plain.append(paragraph)
    return plain, named


def parts(text):
    """The comments of declarations, each with the declarations below it."""
    for part in text.split("\n\n"):
        found = re.fullmatch(r"(/\* .*? \*/)\n?(.*)", part.strip(), re.DOTALL)
        if found and not found[2].startswith("#ifdef"):
            yield words(found[1]), found[2]


def code_block(code):
    """Declarations as code."""
    return "\n".join(f"    {line}" for line in code.splitlines())


def narrow(code):
    """Declarations of calls, broken before an argument that passes column 72."""
    lines = []
    for line in code.splitlines():
        while len(line) > 72:
            at = line.rindex(", ", 0, 72) + 1
            lines.append(line[:at])
            line = f"        {line[at:].lstrip()}"
        lines.append(line)
    return code_block("\n".join(lines))


def value_table(code):
    """The names of an enum, with their values and meanings."""
    rows = [f"| `{name}` | {value} | {meaning} |" for name, value, meaning in VALUE.findall(code)]
    return "\n".join(["| Name | Value | Meaning |", "|---|---|---|", *rows])


def described(comment, code):
    """A part of the header: an enum as a table, and others as code, if there is any."""
    return f"{comment}\n\n{value_table(code) if code.startswith('enum ') else code_block(code)}".rstrip()


def page_text() -> str:
    """The man page from its synopsis on, in the dialect of the pages. It ends with an error if a part of the header is
    missing."""
    text = HEADER.read_text(encoding="utf-8")
    head, _, rest = text.partition(" */\n")
    plain, named = head_sections(head)
    found = list(parts(rest))
    calls = [(comment, code) for comment, code in found if CALL.search(code)]
    others = [(comment, code) for comment, code in found if not CALL.search(code)]
    shown = [name for _, code in calls for name in CALL.findall(code)]
    values = [name for _, code in others for name, _, _ in VALUE.findall(code)]
    lost = [
        name
        for name in re.findall(r"^\S.*?(darbexum_\w+)\(|^    (DARBEXUM_\w+) =", rest, re.MULTILINE)
        if "".join(name) not in {*shown, *values}
    ]
    if lost or set(named) != set(NAMED):
        raise SystemExit(
            f"packaging/man: {HEADER.name} has parts that are not understood: {lost} {sorted(set(NAMED) - set(named))}"
        )
    return "\n\n".join(
        [
            "## Synopsis",
            "    #include <darbexum.h>",
            *(narrow(code) for _, code in calls),
            "Link with `-ldarbexum`. `pkg-config --cflags --libs darbexum` prints the flags.",
            "## Description",
            *plain,
            *(f"## {name}\n\n{named[name]}" for name in NAMED),
            "## Calls",
            *(f"### {', '.join(CALL.findall(code))}\n\n{comment}" for comment, code in calls),
            "## Constants and types",
            *(described(comment, code) for comment, code in others),
            "",
        ]
    )
