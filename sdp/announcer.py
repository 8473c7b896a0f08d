"""Announces SDP files on some networks, again and again, until a signal ends it."""
import os
import random
import selectors
import socket
import stat
import time
from collections import defaultdict
from collections.abc import Callable

from .announcement import NoGroup, Text, hash_for, length_report, text_in
from .networks import Interface, end_by_signals, interface_named, own_address, receiver_at, sender_on
from .rules import DEVICE, MAX_SDP_OCTETS
from .sap import PORT, build
from .sessions import Announcements, interval, next_time
from .texts import Refused, reason_of, say

# A file is taken when two looks in sequence find it the same: an editor may write it in several steps.
LOOK_SECONDS = 1.0
MAX_IN_A_TURN = 64
ROOM = 65_536


class Announced:
    """A file with the text that is announced of it, and when that was sent to each group."""

    def __init__(self, name: str) -> None:
        self.name = name
        self.octets = self.found = octets_of(name)
        self.text = text_in(name, self.octets)
        self.hash = 0
        self.fault = ""
        self.sent: dict[str, float] = {}
        self.chances: dict[str, float] = {}

    def look(self) -> Text | None:
        """The text of a file that has changed, once two looks have found the same; or `None`. A file that can't be
        read, or is wrong, changes nothing: it is reported once."""
        try:
            before, self.found = self.found, octets_of(self.name)
            if self.found == self.octets:
                self.fault = ""
                return None
            if self.found != before:
                return None
            text = text_in(self.name, self.found)
        except Refused as refused:
            if str(refused) != self.fault:
                self.fault = str(refused)
                say(f"{refused}; the last good text stays announced")
            return None
        self.octets, self.fault = self.found, ""
        # The user may have raised the version, or not.
        return text.with_version(max(text.origin.version, self.text.origin.version + 1))


def announced(names: list[str]) -> list[Announced]:
    """The files of these names that have a group. Others are reported, and an output may have one of each kind."""
    files, left_out = [], []
    for name in dict.fromkeys(names):
        try:
            files.append(Announced(name))
        except NoGroup as no_group:
            left_out.append(no_group)
    for no_group in left_out if files else left_out[:-1]:
        say(f"{no_group}; it is left out")
    if not files:
        raise left_out[-1]
    return files


class Announcer:
    """The files that are announced from an origin, by a function that sends packets to groups."""

    def __init__(self, names: list[str], send: Callable[[bytes, str], None], chance: Callable[[], float]) -> None:
        self.files = announced(names)
        self.send, self.chance = send, chance
        self.origin = ""
        self.heard: dict[str, Announcements] = defaultdict(Announcements)
        owners: dict[str, str] = {}
        for file in self.files:
            first = owners.setdefault(file.text.origin.owner, file.name)
            if first != file.name:
                say(f"{file.name}: its 'o=' is that of {first}: listeners may take them for one session")

    def groups(self) -> list[str]:
        """The SAP groups of all files."""
        return list(dict.fromkeys(group for file in self.files for group in file.text.groups))

    def begin(self, origin: str) -> None:
        """Gives the files their hashes, so that they can be sent from this origin."""
        self.origin = origin
        for file in self.files:
            self.identify(file, file.text)

    def identify(self, file: Announced, text: Text) -> None:
        """Makes a text that of a file, with a hash that no text of this announcer has."""
        taken = {each.hash for each in self.files}
        file.text, file.hash = text, hash_for(text.octets(), taken)
        report = length_report(file.name, len(self.packet(file)))
        if report:
            say(report)

    def packet(self, file: Announced) -> bytes:
        return build(self.origin, file.hash, file.text.octets())

    def count(self, group: str, now: float) -> int:
        """The announcements in a group, with one's own."""
        own = {(self.origin, file.hash) for file in self.files if group in file.text.groups}
        return self.heard[group].count(own, now)

    def due(self, file: Announced, group: str, now: float) -> float:
        """When a file is next sent to a group: at once, and then by the number of announcements as it is now. So one
        that was planned for a time of few announcements is put off if there are more."""
        if group not in file.sent:
            return now
        base = interval(self.count(group, now), len(self.packet(file)))
        return next_time(file.sent[group], base, file.chances[group])

    def send_due(self, now: float) -> float:
        """Sends what is due, and returns when it is next."""
        for file in self.files:
            for group in file.text.groups:
                if self.due(file, group, now) <= now:
                    self.send(self.packet(file), group)
                    file.sent[group], file.chances[group] = now, self.chance()
        return min(self.due(file, group, now) for file in self.files for group in file.text.groups)

    def look(self) -> bool:
        """Looks at the files again, and returns true if one has changed. That one is deleted, and announced at once
        under another hash."""
        changed = [(file, text) for file in self.files if (text := file.look()) is not None]
        for file, text in changed:
            self.delete(file)
            self.identify(file, text)
            file.sent.clear()
            say(f"{file.name}: announced again, as version {text.origin.version}")
        return bool(changed)

    def packets(self) -> list[tuple[bytes, str]]:
        """All announcements, each with its group."""
        return [(self.packet(file), group) for file in self.files for group in file.text.groups]

    def delete(self, file: Announced) -> None:
        for group in file.sent:
            self.send(build(self.origin, file.hash, file.text.deletion(), is_deletion=True), group)

    def end(self) -> None:
        for file in self.files:
            self.delete(file)


class Networks:
    """The sockets that send on each network. A network that fails is reported once, and tried again at each look."""

    def __init__(self, interfaces: list[Interface]) -> None:
        self.senders = {interface.word: sender_on(interface) for interface in interfaces}
        self.failed: set[str] = set()

    def send(self, packet: bytes, group: str) -> None:
        for word in self.senders:
            self.send_on(word, packet, group)

    def send_on(self, word: str, packet: bytes, group: str) -> None:
        try:
            self.senders[word].sendto(packet, (group, PORT))
        except OSError as fault:
            if word not in self.failed:
                self.failed.add(word)
                say(f"{group} can't be sent to{f' on {word}' if word else ''}: {reason_of(fault)}")

    def retry(self, packets: list[tuple[bytes, str]]) -> None:
        """Sends on the networks that failed. The interface may be another one of the same name by now."""
        for word in list(self.failed):
            try:
                one = sender_on(interface_named(word) if word else Interface())
            except (Refused, OSError):
                continue
            self.senders[word].close()
            self.senders[word] = one
            try:
                for packet, group in packets:
                    one.sendto(packet, (group, PORT))
            except OSError:
                continue
            self.failed.discard(word)
            say(f"announced again{f' on {word}' if word else ''}")

    def close(self) -> None:
        for one in self.senders.values():
            one.close()


def octets_of(name: str) -> bytes:
    """The octets of a file, or one more than an SDP file may have."""
    try:
        # A pipe would be waited for.
        if not stat.S_ISREG(os.stat(name).st_mode):
            raise Refused(f"{name}: no regular file, which can be looked at again", DEVICE)
        with open(name, "rb") as file:
            return file.read(MAX_SDP_OCTETS + 1)
    except (OSError, ValueError) as fault:
        raise Refused(f"{name}: {reason_of(fault)}", DEVICE) from None


def announce(names: list[str], interfaces: list[Interface]) -> None:
    """Announces files until a signal ends it, and then deletes them."""
    networks = Networks(interfaces)
    announcer = Announcer(names, networks.send, random.random)
    # On all networks a text has one origin: its announcements are the same, and listeners know it as one session.
    announcer.begin(own_address(interfaces[0], announcer.groups()[0]))
    receivers: dict[str, socket.socket] = {}
    ended = end_by_signals()
    with selectors.DefaultSelector() as selector:
        selector.register(ended, selectors.EVENT_READ)
        listen_to(announcer, receivers, selector, interfaces)
        for file in announcer.files:
            say(f"{file.name}: announced to {' and '.join(file.text.groups)}, with hash {file.hash:04x}")
        try:
            run(announcer, networks, receivers, selector, interfaces)
        finally:
            announcer.end()
            networks.close()
            for each in receivers.values():
                each.close()
            os.close(ended)
    say("deletions are sent")


def listen_to(
    announcer: Announcer,
    receivers: dict[str, socket.socket],
    selector: selectors.BaseSelector,
    interfaces: list[Interface],
) -> None:
    """Joins the groups to which files are announced, for the number of announcements there."""
    for group in announcer.groups():
        if group not in receivers:
            receivers[group] = receiver_at(group, interfaces)
            selector.register(receivers[group], selectors.EVENT_READ, group)


def run(
    announcer: Announcer,
    networks: Networks,
    receivers: dict[str, socket.socket],
    selector: selectors.BaseSelector,
    interfaces: list[Interface],
) -> None:
    look_at = time.monotonic() + LOOK_SECONDS
    while True:
        now = time.monotonic()
        if now >= look_at:
            look_at = now + LOOK_SECONDS
            if networks.failed:
                networks.retry(announcer.packets())
            if announcer.look():
                try:
                    listen_to(announcer, receivers, selector, interfaces)
                except Refused as refused:
                    say(str(refused))
        next_at = announcer.send_due(now)
        for key, _ in selector.select(max(min(look_at, next_at) - now, 0.001)):
            if key.data is None:
                return
            take_turn(announcer, key.fileobj, key.data)


def take_turn(announcer: Announcer, one: socket.socket, group: str) -> None:
    for _ in range(MAX_IN_A_TURN):
        try:
            packet = one.recv(ROOM)
        except OSError:
            return
        announcer.heard[group].hear(packet, time.monotonic())
