"""Writes the SDP files of one or two configurations' outputs: one for each copy, and one for all copies as a group of
duplicates (RFC 7104)."""
import os

from .output import Copy, Output, Session, copies_of, descriptions, identity_of, section_lines, session_lines
from .output import session_of, text_of
from .rules import QUOTED
from .texts import quoted, say

# The numbers of sessions: those of single copies are less than 2^33.
GROUP_NUMBERS, PAIR_NUMBERS = 1 << 33, 1 << 34
# The keys in which the outputs of a pair may differ: where the copies go, and how far.
OWN_KEYS = "to_a", "to_b", "to_address_a", "to_address_b", "from_a", "from_b", "ttl"
ABSENT = {"offset": 0, "change": []}
# The differing keys that a report names.
MOST_NAMED = 10
# A copy, the output that it is of, and the name of its section.
Member = tuple[Output, Copy, str]


def sdp_files(outputs: list[Output], title: str, ptp: str | None, order: str | None, now: int) -> dict[str, str]:
    """The texts of SDP files by their names: of an output and its copies, or of the copies of a pair of outputs, at a
    time in seconds since 1970."""
    session = session_of(title, ptp, order, now)
    name = "-".join([*map(stem_of, outputs), "ab.sdp"])
    if len(outputs) > 1:
        return {name: pair(outputs, session)}
    output = outputs[0]
    single = descriptions(output, title, ptp, now, order)
    texts = {f"{stem_of(output)}-{letter}.sdp": text for letter, text in single.items()}
    members = [(output, copy, copy.letter) for copy in copies_of(output)]
    if len(members) > 1:
        reason = one_place(members)
        if reason is None:
            texts[name] = group(members, GROUP_NUMBERS, session)
        else:
            say(f"{output.name}: {reason}: {name} is not written")
    return texts


def stem_of(output: Output) -> str:
    return os.path.splitext(os.path.basename(output.name))[0] or "studio"


def pair(outputs: list[Output], session: Session) -> str:
    """The SDP file of all copies of two outputs. Refuses outputs that are no copies of one stream."""
    first, second = outputs
    compare(first, second)
    numbered = enumerate(outputs, 1)
    members = [(output, copy, f"{number}{copy.letter}") for number, output in numbered for copy in copies_of(output)]
    reason = one_place(members)
    if reason is not None:
        second.refuse(reason)
    return group(members, PAIR_NUMBERS, session)


def compare(first: Output, second: Output) -> None:
    """Refuses the second output if its packets differ from those of the first."""
    keys = [key for key in {**first.table, **second.table} if key not in OWN_KEYS]
    differing = [key for key in keys if value_of(first, key) != value_of(second, key)]
    if differing:
        texts = [difference(first, second, key) for key in differing[:MOST_NAMED]]
        texts += ["others"] if len(differing) > MOST_NAMED else []
        what = f"the output differs from that of {first.name} in {', '.join(texts)}"
        second.refuse(f"{what}; copies of one stream may differ only in {', '.join(OWN_KEYS)}")


def value_of(output: Output, key: str) -> object:
    return output.table.get(key, ABSENT.get(key))


def difference(first: Output, second: Output, key: str) -> str:
    """A key whose values differ, with both if they are short."""
    values = [value_of(output, key) for output in (second, first)]
    if not all(isinstance(value, int | str) for value in values):
        return key[:QUOTED]
    found, wanted = (quoted(str(value)[:QUOTED]) for value in values)
    return f"{key[:QUOTED]} ({found}, not {wanted})"


def one_place(members: list[Member]) -> str | None:
    """What is wrong with two copies that a receiver can't tell apart, or `None`: those of one address and port, unless
    it is a group that gets them from two addresses."""
    for place, (output, copy, _) in enumerate(members):
        for other_output, other, _ in members[:place]:
            sources = {copy.source(), other.source()}
            if (copy.to, copy.port) == (other.to, other.port) and (None in sources or len(sources) == 1):
                where = "" if output is other_output else f" of {other_output.name}"
                both = f"to_{copy.letter} and to_{other.letter}{where} are {copy.to} port {copy.port} both"
                return f"{both}; allowed are two places, or a group from two addresses"
    return None


def group(members: list[Member], numbers: int, session: Session) -> str:
    """The SDP file of copies."""
    output, first, _ = members[0]
    # The copies have one source (SSRC), so that there is no a=ssrc-group.
    lines = session_lines(numbers + identity_of(output), first, session.title, session)
    lines += ["t=0 0", f"a=group:DUP {' '.join(name for _, _, name in members)}"]
    for output, copy, name in members:
        media, attributes = section_lines(output, copy, session)
        lines += [media, copy.connection(), *attributes, f"a=mid:{name}"]
    return text_of(lines)
