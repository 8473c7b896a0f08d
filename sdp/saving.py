"""Saves announced texts as files, and never over a file of anybody else.

The last line of a saved file names the session by its identity: the SAP origin, the message id hash, whether there was
authentication data, and the digest that tells apart what would be one session without it. Then comes a digest of the
lines before it:

    a=x-darbexum-saved:192.168.1.1 3fd1 0 - 5b1c..

A file is written again only for its own session, and only if its digest still holds: an edited file is the user's.
"""
import hashlib
import os
import re
import stat
from collections.abc import Container
from typing import NamedTuple

from .rules import DEVICE, MAX_SDP_OCTETS
from .sessions import Identity, Session
from .summary import origin_in_text, value_in_text
from .texts import Refused, reason_of

MAX_NAME_OCTETS = 64
# The files of one name, and the SDP files of the folder, beyond which no further one is made.
MAX_OF_NAME, MAX_FILES = 100, 1_000
MARK_BEGIN = b"a=x-darbexum-saved:"
MARK = re.compile(MARK_BEGIN + rb"(\S+) ([0-9a-f]{4}) ([01]) ([0-9a-f]{64}|-) ([0-9a-f]{64})\r\n")


class Saved(NamedTuple):
    """A file: its text without a mark, and the identity of its session, if it has a mark and is as it was written."""

    text: bytes
    identity: Identity | None


def file_name(name: str) -> str:
    """A name of letters and digits for a session, with `-` for each other character. None is at the begin, where a
    command would take it for an option."""
    name = "".join(each if each.isalnum() else "-" for each in name).strip("-")
    return name.encode()[:MAX_NAME_OCTETS].decode(errors="ignore") or "session"


class Folder:
    """A folder to which texts are saved."""

    def __init__(self, path: str) -> None:
        self.path = path
        if not os.path.isdir(path):
            raise Refused(f"--save {path}: no such folder", DEVICE)

    def save(self, session: Session, text: bytes, known: Container[Identity]) -> str:
        """Saves the text of a session, and returns what to say of it, or nothing if the file is there already. Files of
        other sessions that are known are kept."""
        stem = file_name(value_in_text(text, "s"))
        if not text.endswith(b"\n"):
            text += b"\r\n"
        path = self.path
        try:
            for number in range(1, MAX_OF_NAME + 1):
                path = os.path.join(self.path, f"{stem}.sdp" if number == 1 else f"{stem}-{number}.sdp")
                if not os.path.lexists(path):
                    return self.create(path, marked(session, text))
                saved = saved_in(path)
                if saved.text == text:
                    return ""
                if is_same_session(saved, session, known):
                    return replace(path, marked(session, text))
        except OSError as fault:
            return f"{path}: {reason_of(fault)}"
        return f"{self.path}: there are {MAX_OF_NAME} files of the name {stem}; this one is not saved"

    def create(self, path: str, octets: bytes) -> str:
        with os.scandir(self.path) as entries:
            count = sum(entry.name.endswith(".sdp") for entry in entries)
        if count >= MAX_FILES:
            return f"{path}: not saved, since the folder has {count} SDP files; allowed are {MAX_FILES}"
        write(path, octets)
        return f"wrote {path}"


def replace(path: str, octets: bytes) -> str:
    """Puts a whole file in the place of another one: a reader never sees a part of it."""
    whole = os.path.join(os.path.dirname(path), f".darbexum-sdp-{os.getpid()}")
    write(whole, octets)
    os.replace(whole, path)
    return f"wrote {path}"


def write(path: str, octets: bytes) -> None:
    """Writes a file that is not there yet. One that can't be written whole is removed again."""
    with open(path, "xb") as file:
        try:
            file.write(octets)
            file.flush()
        except OSError:
            os.unlink(path)
            raise


def marked(session: Session, text: bytes) -> bytes:
    """A text with the line that names its session."""
    origin, number, is_authenticated, apart = session.identity
    digest = hashlib.sha256(text).hexdigest()
    mark = f"{origin} {number:04x} {int(is_authenticated)} {apart.hex() or '-'} {digest}\r\n"
    return text + MARK_BEGIN + mark.encode()


def saved_in(path: str) -> Saved:
    """What is in a file. One that is no regular file is somebody else's, and isn't read."""
    if not stat.S_ISREG(os.lstat(path).st_mode):
        return Saved(b"", None)
    with open(path, "rb") as file:
        octets = file.read(MAX_SDP_OCTETS + 1)
    text, _, _ = octets.rpartition(MARK_BEGIN)
    found = MARK.fullmatch(octets[len(text) :])
    if not found:
        return Saved(octets, None)
    if hashlib.sha256(text).hexdigest().encode() != found[5]:
        return Saved(octets, None)
    origin, number, is_authenticated, apart, _ = (each.decode("ascii", "replace") for each in found.groups())
    return Saved(text, (origin, int(number, 16), is_authenticated == "1", bytes.fromhex(apart.strip("-"))))


def is_same_session(saved: Saved, session: Session, known: Container[Identity]) -> bool:
    """Returns true if a file has this session, or an earlier version of it: one of the same origin, with the same line
    `o=` and a lower version, that is not known as a session of its own."""
    if saved.identity is None or saved.identity == session.identity:
        return saved.identity is not None
    own, theirs = session.summary.origin, origin_in_text(saved.text)
    is_later = bool(own and theirs and own.owner == theirs.owner and own.version > theirs.version)
    has_one_origin = saved.identity[0] == session.identity[0] and saved.identity[2] == session.identity[2]
    return is_later and has_one_origin and saved.identity not in known
