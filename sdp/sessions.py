"""The sessions that are announced, with the rules of RFC 2974 for how long each is known and how often it is announced.

Times are passed in, in seconds: `now` counts from any start, `wall` from 1970.
"""
import hashlib
from collections import Counter, OrderedDict, defaultdict
from dataclasses import dataclass
from typing import NamedTuple

from .sap import Message, Unreadable, header_of
from .summary import Summary, origin_in_text, summary_of

# All announcements of a group together use no more bits in a second than this, RFC 2974, section 3.1.
LIMIT_BITS = 4_000
MIN_INTERVAL = 300.0
# A session without a word is gone after so many intervals, and an hour at least, RFC 2974, section 4.
INTERVALS_OF_SILENCE, MIN_SILENCE = 10, 3_600.0
MAX_SESSIONS = 1_000
# The addresses that may announce one session.
MAX_SENDERS = 8

# The SAP origin, the message id hash, whether there is authentication data, and the digest of the text if two texts
# would have one place without it.
Identity = tuple[str, int, bool, bytes]


def interval(count: int, octets: int) -> float:
    """The base interval between two announcements of so many octets, in a group with so many announcements."""
    return max(MIN_INTERVAL, 8 * count * octets / LIMIT_BITS)


def next_time(last: float, base: float, chance: float) -> float:
    """The time of the next announcement: an interval after the last one, or up to a third of it earlier or later, by a
    chance from 0 to 1."""
    return last + base + chance * base * 2 / 3 - base / 3


def longest_silence(count: int, octets: int) -> float:
    """The time without a word after which a session of so many octets is gone, in a group with so many."""
    return max(MIN_SILENCE, INTERVALS_OF_SILENCE * interval(count, octets))


@dataclass
class Session:
    """A session, the addresses that announce it, and the last announcement: in which SAP group, how long, and when.
    A sender on two networks has an address on each."""

    identity: Identity
    summary: Summary
    digest: bytes
    senders: set[str]
    group: str
    octets: int
    heard: float

    def origin(self) -> str:
        return self.identity[0]

    def hash(self) -> int:
        return self.identity[1]


class Event(NamedTuple):
    """A session that is new, has changed or is gone, and for one that is gone the reason."""

    kind: str
    session: Session
    reason: str = ""


class Sessions:
    """The sessions that are known, at most so many; in the order in which they were last heard, the oldest first."""

    def __init__(self, most: int = MAX_SESSIONS) -> None:
        self.most = most
        self.known: OrderedDict[Identity, Session] = OrderedDict()
        self.by_owner: dict[tuple, dict[Identity, Session]] = defaultdict(dict)

    def hear(self, message: Message, sender: str, group: str, now: float, wall: float) -> list[Event]:
        """Takes a message that an address sent to a SAP group, and returns what it changes. Raises Refused if its text
        is no SDP."""
        if message.is_deletion:
            return self.delete(message, sender)
        digest = hashlib.sha256(message.payload).digest()
        identity = self.identity_of(message, sender, digest)
        held = self.known.get(identity)
        if held is not None and held.digest == digest:
            held.group, held.heard = group, now
            if len(held.senders) < MAX_SENDERS:
                held.senders.add(sender)
            self.known.move_to_end(identity)
            return []
        summary = summary_of(message.payload)
        session = Session(identity, summary, digest, {sender}, group, message.octets, now)
        if is_over(session, wall):
            return self.removed([held], "over") if held else []
        older = held or self.older_version(session, sender)
        if older is not None:
            session.senders |= older.senders
            self.drop(older)
        self.known[identity] = session
        self.by_owner[owner_of(session)][identity] = session
        events = [Event("changed" if older else "new", session)]
        if len(self.known) > self.most:
            events += self.removed([next(iter(self.known.values()))], "room")
        return events

    def identity_of(self, message: Message, sender: str, digest: bytes) -> Identity:
        """The identity of an announcement. Texts without a hash are told apart by the text itself, and so is another
        text under the hash of a session that other addresses announce: nobody changes the session of another."""
        place = (message.origin, message.hash, message.is_authenticated)
        held = self.known.get((*place, b""))
        is_own = held is None or sender in held.senders or held.digest == digest
        return (*place, b"" if message.hash and is_own else digest)

    def older_version(self, session: Session, sender: str) -> Session | None:
        """The session of which this one is a later version, by its line `o=`, if an address that announced that one
        sends it."""
        origin = session.summary.origin
        others = self.by_owner.get(owner_of(session), {}).values() if origin else []
        older = (other for other in others if other.summary.origin.version < origin.version and sender in other.senders)
        return next(older, None)

    def delete(self, message: Message, sender: str) -> list[Event]:
        """Removes the session that a deletion names, if an address that announced it deletes it."""
        place = (message.origin, message.hash, message.is_authenticated)
        named = [each for each in self.known.values() if each.identity[:3] == place and sender in each.senders]
        if not message.hash:
            origin = origin_in_text(message.payload)
            named = [each for each in named if origin and each.summary.origin == origin]
        return self.removed(named, "deleted")

    def expire(self, now: float, wall: float) -> list[Event]:
        """Removes the sessions that are over, or that were not heard for too long."""
        counts = Counter(session.group for session in self.known.values())
        over = [session for session in self.known.values() if is_over(session, wall)]
        events = self.removed(over, "over")
        limits = [(session, longest_silence(counts[session.group], session.octets)) for session in self.known.values()]
        silent = [session for session, limit in limits if now - session.heard > limit]
        return events + self.removed(silent, "silent")

    def drop(self, session: Session) -> None:
        del self.known[session.identity]
        owner = owner_of(session)
        del self.by_owner[owner][session.identity]
        if not self.by_owner[owner]:
            del self.by_owner[owner]

    def removed(self, sessions: list[Session], reason: str) -> list[Event]:
        for session in sessions:
            self.drop(session)
        return [Event("gone", session, reason) for session in sessions]


def is_over(session: Session, wall: float) -> bool:
    return session.summary.ends_at is not None and session.summary.ends_at < wall


def owner_of(session: Session) -> tuple:
    """What versions of one session have in common: the SAP origin, whether there is authentication data, and the line
    `o=` without its version."""
    origin = session.summary.origin
    return session.origin(), session.identity[2], origin and origin.owner


class Announcements:
    """How many announcements there are in a SAP group: also those that are encrypted or no SDP, which take their part
    of the bandwidth too."""

    def __init__(self, most: int = MAX_SESSIONS) -> None:
        self.most = most
        self.heard: OrderedDict[tuple[str, int, bytes], float] = OrderedDict()

    def hear(self, packet: bytes, now: float) -> None:
        """Takes a packet that was sent to the group."""
        try:
            header = header_of(packet)
        except Unreadable:
            return
        place = (header.origin, header.hash, b"" if header.hash else hashlib.sha256(header.body).digest())
        if header.is_deletion:
            self.heard.pop(place, None)
            return
        self.heard[place] = now
        self.heard.move_to_end(place)
        if len(self.heard) > self.most:
            self.heard.popitem(last=False)

    def count(self, own: set[tuple[str, int]], now: float) -> int:
        """How many there are at a time, with one's own ones, of these origins and hashes, heard or not."""
        while self.heard and now - next(iter(self.heard.values())) > MIN_SILENCE:
            self.heard.popitem(last=False)
        return len(own) + sum(place[:2] not in own for place in self.heard)
