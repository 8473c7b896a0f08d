"""Listens to the announcements on some networks, shows the sessions, and saves their texts."""
import os
import selectors
import socket
import time
from collections import Counter
from typing import TextIO

from .listing import Lines, Table, display_for, left_out_texts
from .networks import Interface, end_by_signals, receiver_at
from .sap import GROUPS, Unreadable, parse
from .saving import Folder
from .sessions import Event, Sessions
from .texts import Refused, say

# The times between two looks at what is silent, and between two tables.
LOOK_SECONDS, PAINT_SECONDS = 1.0, 0.25
# The packets that are taken from a socket before the others have their turn.
MAX_IN_A_TURN = 64
# More than a datagram has.
ROOM = 65_536


class Listener:
    """The sessions that are heard, with where they are shown and saved."""

    def __init__(self, display: Lines | Table, folder: Folder | None) -> None:
        self.sessions, self.left_out = Sessions(), Counter()
        self.display, self.folder = display, folder
        self.is_painted = False

    def take(self, packet: bytes, sender: str, group: str, now: float, wall: float) -> None:
        """Takes a packet that an address sent to a SAP group, whatever is in it."""
        try:
            message = parse(packet)
            events = self.sessions.hear(message, sender, group, now, wall)
        except Unreadable as unreadable:
            self.count(str(unreadable))
        except Refused:
            self.count("messages that are not SDP")
        else:
            self.show(events, message.payload)

    def count(self, what: str) -> None:
        self.left_out[what] += 1
        self.is_painted = False

    def show(self, events: list[Event], text: bytes = b"") -> None:
        """Shows events, and saves the text of a session that is new or has changed."""
        if not events:
            return
        self.is_painted = False
        self.display.show(events)
        for event in events:
            if self.folder is not None and event.kind != "gone":
                self.report(self.folder.save(event.session, text, self.sessions.known))

    def report(self, text: str) -> None:
        if text:
            self.display.erase()
            say(text)

    def paint(self) -> None:
        if not self.is_painted:
            self.display.paint(self.sessions.known.values(), self.left_out)
            self.is_painted = True


def listen(stdout: TextIO, seconds: float | None, interfaces: list[Interface], folder: Folder | None) -> None:
    """Listens for so many seconds, or until a signal ends it."""
    ended = end_by_signals()
    listener = Listener(display_for(stdout), folder)
    receivers = {receiver_at(group, interfaces): group for group in GROUPS}
    with selectors.DefaultSelector() as selector:
        for each in (ended, *receivers):
            selector.register(each, selectors.EVENT_READ)
        try:
            hear(listener, selector, receivers, None if seconds is None else time.monotonic() + seconds)
        finally:
            for each in receivers:
                each.close()
            os.close(ended)
    listener.paint()
    if isinstance(listener.display, Lines):
        for text in left_out_texts(listener.left_out):
            say(text)


def hear(
    listener: Listener, selector: selectors.BaseSelector, receivers: dict[socket.socket, str], ends_at: float | None
) -> None:
    look_at = paint_at = time.monotonic()
    while True:
        now = time.monotonic()
        if now >= look_at:
            listener.show(listener.sessions.expire(now, time.time()))
            look_at = now + LOOK_SECONDS
        if now >= paint_at:
            listener.paint()
            paint_at = now + PAINT_SECONDS
        if ends_at is not None and now >= ends_at:
            return
        wake_at = min(each for each in (look_at, paint_at, ends_at) if each is not None)
        for key, _ in selector.select(max(wake_at - now, 0.001)):
            if key.fileobj not in receivers:
                return
            take_turn(listener, key.fileobj, receivers[key.fileobj])


def take_turn(listener: Listener, one: socket.socket, group: str) -> None:
    for _ in range(MAX_IN_A_TURN):
        try:
            packet, (address, _) = one.recvfrom(ROOM)
        except OSError:
            # An error of the network, as when an interface goes down. The socket goes on.
            return
        listener.take(packet, address, group, time.monotonic(), time.time())
