"""Two hosts of a test: network namespaces of this machine that are joined by pairs of interfaces."""
import os
import subprocess
from types import TracebackType
from typing import NamedTuple

from .checks import Skipped

SECONDS = 20


class Network(NamedTuple):
    """A network between both hosts: the name that its interfaces have, and their addresses."""

    name: str
    far: str
    near: str


def ip(*words: str) -> None:
    subprocess.run(["ip", *words], check=True, capture_output=True, timeout=SECONDS)


class Hosts:
    """A host nearby, in which the program runs, and a far one, in which its senders and listeners are."""

    def __init__(self, networks: list[Network]) -> None:
        self.networks, self.made = networks, []
        self.near, self.far = (f"darbexum{os.getpid()}{side}" for side in ("near", "far"))

    def __enter__(self) -> "Hosts":
        """Raises Skipped where namespaces aren't allowed."""
        try:
            for name in (self.near, self.far):
                ip("netns", "add", name)
                self.made.append(name)
                ip("-n", name, "link", "set", "lo", "up")
            for network in self.networks:
                self.connect(network)
        except (OSError, subprocess.SubprocessError):
            self.delete()
            raise Skipped("`ip netns` isn't allowed here") from None
        return self

    def __exit__(self, kind: type | None, value: BaseException | None, trace: TracebackType | None) -> None:
        self.delete()

    def delete(self) -> None:
        for name in self.made:
            ip("netns", "delete", name)

    def connect(self, network: Network) -> None:
        """Makes a network's interfaces."""
        ends = [("netns", self.far), ("netns", self.near)]
        ip("link", "add", network.name, *ends[0], "type", "veth", "peer", "name", network.name, *ends[1])
        for side, address in ((self.far, network.far), (self.near, network.near)):
            ip("-n", side, "address", "add", f"{address}/24", "dev", network.name)
            ip("-n", side, "link", "set", network.name, "up")

    def disconnect(self, network: Network) -> None:
        """Deletes a network's interfaces, as a driver that is loaded again does."""
        ip("-n", self.near, "link", "delete", network.name)

    def inside(self, host: str, *words: str) -> list[str]:
        """The words of a command in a host."""
        return ["ip", "netns", "exec", host, *words]
