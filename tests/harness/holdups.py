"""Runs that are held up: a sender of the shortest packets goes on while the program stands still."""
import contextlib
import multiprocessing
import os
import re
import signal
import socket
import subprocess
import sys
import time
from collections.abc import Iterator
from dataclasses import dataclass, field
from pathlib import Path

from . import runs
from .ports import HOST, Listeners, free_ports
from .senders import L24_OCTETS, RATE, datagram

# Sampling instants in a packet, if a run has no other number: after 4.1 seconds half of all numbers are past.
FRAMES = 6
# A stream's latency, if a run has no other, in sampling instants.
LATENCY = 960
# How often a packet is offered to a full ring before it is dropped.
OFFERS = 1_001
# Sampling instants in a burst of a sender: a millisecond.
BURST = 48
# Seconds before a stop, and behind it.
BEFORE, BEHIND = 1.5, 5.0
CLOCKS = ("arrival", "follow", "media")
CONFIG = """open_at = 0
[[stream]]
encoding = "L24"
channels = 1
frames = {frames}
pt = 96
ssrc = 1
clock = "{clock}"
latency = {latency}
window = 512
port_a = {a}
port_b = {b}
[output]
encoding = "L24"
channels = 1
frames = 48
pt = 97
ssrc = 2
seq = 0
start = 0
gains = [[65536]]
to_a = {to_a}
to_b = {to_b}
"""


@dataclass
class HeldRun:
    """A run by a clock and in a form, with the ports of its two paths, and what was found once it has ended."""

    clock: str
    form: list[str]
    folder: Path
    frames: int = FRAMES
    latency: int = LATENCY
    # The words before the program, as those that set its priority.
    before: tuple[str, ...] = ()
    child: subprocess.Popen | None = None
    ports: list[int] = field(default_factory=list)
    listeners: Listeners | None = None
    status: int | str = 0
    report: str = ""
    faults: str = ""

    @property
    def name(self) -> str:
        own = "" if self.frames == FRAMES else f" {self.frames}"
        return f"{self.clock} {'one' if self.form else 'workers'}{own}"

    @property
    def file(self) -> Path:
        return self.folder / self.name.replace(" ", "-")

    def start(self, program: str) -> None:
        """Starts the run with a WAV file, and in one thread a record."""
        self.ports, self.listeners = free_ports(2), Listeners()
        (a, b), (to_a, to_b) = self.ports, self.listeners.ports
        # By the media clock the run and the sender count from 1970, without leap seconds.
        offset = '"\noffset = 0' if self.clock == "media" else '"'
        own = {"clock": self.clock, "frames": self.frames, "latency": self.latency}
        text = CONFIG.format(**own, a=a, b=b, to_a=to_a, to_b=to_b)
        self.file.with_suffix(".toml").write_text(text.replace(f'"{self.clock}"', f'"{self.clock}{offset}'))
        outputs = ["--wav", str(self.file.with_suffix(".wav"))]
        if self.form:
            outputs += ["--record", str(self.file.with_suffix(".pcapng"))]
        times = ["--clock", "tai", "--tai-offset", "0"] if self.clock == "media" else []
        config = str(self.file.with_suffix(".toml"))
        self.child = runs.start(program, "live", config, *self.form, *outputs, *times, before=self.before)
        runs.wait_bound(self.child, self.ports)

    def end(self) -> None:
        """Ends the run by SIGTERM, and keeps its report."""
        self.status, self.report, self.faults = runs.end(self.child)
        self.listeners.take()
        self.listeners.close()

    def count(self, word: str, line: str = "") -> int:
        """Returns the sum of the numbers after a word of the report, in the lines that begin so."""
        found = (re.findall(rf"\b{word} (\d+)", text) for text in self.report.splitlines() if text.startswith(line))
        return sum(int(number) for numbers in found for number in numbers)

    def dropped(self) -> int:
        """Returns how many packets at most found no room in their ring: each was offered so often."""
        found = re.findall(r"^path .* full (\d+)$", self.report, re.MULTILINE)
        return sum(int(full) // OFFERS for full in found)

    def left_out(self, word: str) -> int:
        """Returns the datagrams of both paths that were left out, by the word of their lines."""
        return sum(int(number) for number in re.findall(rf"^{word} \d \w (\d+)$", self.report, re.MULTILINE))

    def stale(self) -> int:
        return sum(int(number) for number in re.findall(r"^stale (\d+)$", self.report, re.MULTILINE))

    def has_whole_wav(self) -> bool:
        """Returns true if the WAV file has all blocks of the mix."""
        found = re.search(r"^wav (\d+) of (\d+)$", self.report, re.MULTILINE)
        return bool(found) and found[1] == found[2]

    def samples(self) -> bytes:
        """Returns the whole samples of the WAV file."""
        octets, at = self.file.with_suffix(".wav").read_bytes(), 12
        while octets[at : at + 4] != b"data":
            at += 8 + int.from_bytes(octets[at + 4 : at + 8], "little")
        body = octets[at + 8 :]
        return body[: len(body) // L24_OCTETS * L24_OCTETS]

    def twice(self) -> int:
        """Returns how many samples of the WAV file were heard before: a packet's samples are its number and one."""
        body, again, most, held = self.samples(), 0, 0, 0
        for at in range(0, len(body), L24_OCTETS):
            value = int.from_bytes(body[at : at + L24_OCTETS], "little")
            if value == 0:
                continue
            if value > most:
                most, held = value, 1
            elif value == most and held < self.frames:
                held += 1
            else:
                again += 1
        return again

    def heard(self) -> int:
        """Returns the number of samples of the WAV file that are not silent."""
        body = self.samples()
        return sum(one | two | three > 0 for one, two, three in zip(body[::3], body[1::3], body[2::3]))

    def burst(self) -> int:
        """Returns the datagrams of the mix that came at its first port."""
        return len(self.listeners.taken[0])


def send_all(ports: list[int], seconds: float, frames: int) -> None:
    """Sends the same packets, of so many sampling instants, to all ports in bursts of a millisecond, for so many
    seconds."""
    # It stands for another machine, which the load of this one doesn't slow down; only root may have it so.
    with contextlib.suppress(OSError):
        os.setpriority(os.PRIO_PROCESS, 0, -15)
    out = [socket.socket(socket.AF_INET, socket.SOCK_DGRAM) for _ in ports]
    for one, port in zip(out, ports):
        one.connect((HOST, port))
    began, first = time.monotonic(), int(time.time() * RATE)
    for count in range(int(seconds * RATE / frames)):
        if count * frames % BURST == 0:
            time.sleep(max(0, began + count * frames / RATE - time.monotonic()))
        value = (count + 1).to_bytes(L24_OCTETS, "big")
        octets = datagram(96, count, first + count * frames, 1, value * frames)
        for one in out:
            # A port where nobody listens any more answers with an error.
            with contextlib.suppress(OSError):
                one.send(octets)


@contextlib.contextmanager
def busy(count: int) -> Iterator[None]:
    """Keeps so many processes busy meanwhile."""
    children = [subprocess.Popen([sys.executable, "-c", "while True: pass"]) for _ in range(count)]
    try:
        yield
    finally:
        for child in children:
            child.kill()
            child.wait()


@dataclass
class Stops:
    """How runs are stopped: for so many seconds, so often, with so many seconds behind each stop, in which so many
    processes are busy next to them."""

    seconds: float
    count: int = 1
    behind: float = BEHIND
    load: int = 0


def held_up(program: str, held: list[HeldRun], stops: Stops) -> None:
    """Starts the runs side by side, stops all of them, and lets them go on and end."""
    length = BEFORE + stops.count * (stops.seconds + stops.behind) + 1
    with contextlib.ExitStack() as stack:
        for run in held:
            run.start(program)
            stack.callback(runs.stop, run.child)
        # Each run has a sender of its own: one for all of them falls behind.
        for run in held:
            sender = multiprocessing.Process(target=send_all, args=(run.ports, length, run.frames))
            sender.start()
            stack.callback(sender.join)
            stack.callback(sender.kill)
        time.sleep(BEFORE)
        for _ in range(stops.count):
            for run in held:
                run.child.send_signal(signal.SIGSTOP)
            wait(held, stops.seconds)
            with busy(stops.load):
                for run in held:
                    run.child.send_signal(signal.SIGCONT)
                wait(held, stops.behind)
        for run in held:
            run.end()


def wait(held: list[HeldRun], seconds: float) -> None:
    """Takes for so many seconds what the runs send."""
    ends_by = time.monotonic() + seconds
    while time.monotonic() < ends_by:
        for run in held:
            run.listeners.take()
        time.sleep(0.01)


def held_runs(folder: str | os.PathLike, clocks: tuple[str, ...] = CLOCKS) -> list[HeldRun]:
    """Returns a run for each of the clocks and each form."""
    return [HeldRun(clock, form, Path(folder)) for clock in clocks for form in runs.FORMS]
