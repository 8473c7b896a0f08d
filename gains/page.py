"""The page of a run: its gains, and the changes that it is asked for."""
import http.client
import json
from typing import Any, NamedTuple

from .texts import DEVICE, Refused

HOST = "127.0.0.1"
# Seconds in which a page has to respond. A run answers within 200 ms, or its page says so.
SECONDS = 5
# The octets of a response that are read: 64 rows of 1,024 gains are below them.
MAX_OCTETS = 1_048_576

Matrix = list[list[int]]
# What each fault of a page means to whoever asked.
MEANINGS = {
    "token": "the token is not that of the run",
    "rate": "too many requests in a second",
    "no answer": "the run did not answer in time",
    "time": "the time has passed, or is past 2^60",
    "too many": "64 changes are planned before it",
    "shape": "the run has no such output or input",
    "origin": "the page takes no such request",
}


class Gains(NamedTuple):
    """The gains in force at a time, as a page shows them."""

    at: int
    next_block_start: int
    planned: list[int]
    matrix: Matrix


class Fault(Exception):
    """A response that says no: the word of the page, and its status."""

    def __init__(self, status: int, word: str) -> None:
        super().__init__(MEANINGS.get(word, f"status {status}"))
        self.status, self.word = status, word

    def is_passing(self) -> bool:
        """Whether the same may be granted a little later."""
        return self.word in ("rate", "no answer", "time")


class Page:
    """The page of a run at a port, over a connection that is kept."""

    def __init__(self, port: int, token: str | None) -> None:
        self.port, self.connection = port, http.client.HTTPConnection(HOST, port, timeout=SECONDS)
        self.fields = {} if token is None else {"Authorization": f"Bearer {token}"}

    def __str__(self) -> str:
        return f"page {self.port}"

    def gains(self, at: int | None = None) -> Gains:
        """The gains in force at a time, or at the start of the next block if that is later or there is no time.

        Raises Fault if the page refuses, and Refused if nothing that is a page of gains responds.
        """
        shown = self.ask("GET", "/gains" if at is None else f"/gains?at={at}")
        try:
            return Gains(shown["at"], shown["next_block_start"], shown["planned"], shown["gains"])
        except (KeyError, TypeError):
            raise Refused(f"{self}: the response has no gains", DEVICE) from None

    def change(self, at: int, matrix: Matrix) -> None:
        """Asks that all gains are these from a time on, in place of what was planned from then on.

        Raises as `gains` does; nothing is changed then, or later.
        """
        self.ask("PUT", "/gains", json.dumps({"at": at, "gains": matrix}).encode())

    def ask(self, method: str, path: str, body: bytes | None = None) -> Any:
        try:
            status, octets = self.response(method, path, body)
        except (OSError, http.client.HTTPException) as fault:
            # The next request is made over a new connection: a response that is still to come would be taken for its.
            self.connection.close()
            raise Refused(f"{self} does not respond: {reason_of(fault)}", DEVICE) from None
        if status == 404:
            raise Refused(f"{self} has no gains: the run has no --control", DEVICE)
        try:
            told = json.loads(octets)
        except ValueError:
            raise Refused(f"{self}: status {status} without a text of gains", DEVICE) from None
        if status != 200:
            raise Fault(status, str(told.get("fault")) if isinstance(told, dict) else "")
        return told

    def response(self, method: str, path: str, body: bytes | None) -> tuple[int, bytes]:
        try:
            return self.once(method, path, body)
        except (http.client.RemoteDisconnected, ConnectionResetError, BrokenPipeError):
            # A page ends an idle connection. The request was not taken then: it is made again over a new one.
            self.connection.close()
            return self.once(method, path, body)

    def once(self, method: str, path: str, body: bytes | None) -> tuple[int, bytes]:
        self.connection.request(method, path, body, self.fields)
        response = self.connection.getresponse()
        return response.status, response.read(MAX_OCTETS)

    def close(self) -> None:
        self.connection.close()


def reason_of(fault: Exception) -> str:
    return getattr(fault, "strerror", None) or str(fault) or type(fault).__name__
