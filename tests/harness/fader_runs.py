"""A live run with one fader, to which known samples are sent, and what has to come out of it by the moves it took."""
import json
import threading
import time
from typing import Any

from . import pages, runs, senders
from .checks import Wrong, expect
from .ports import Listeners, free_ports

# Sampling instants in a packet and in a block, of which 250 come a second; how many are sent at most.
FRAMES = 192
PACKETS = 10_000
# The samples rise from 200 by 200, and begin again after so many.
STEP, PERIOD = 200, 30_000
# The greatest sample of 24 bits, and the gain 1.
TOP, ONE = 2**23 - 1, 65_536
# Seconds in which a request is answered.
ANSWER_SECONDS = 5
TOKEN = "c2VjcmV0LXRva2VuLTEyMw"
# The header field with the token, without which the gains are shown only so many times in a second.
BEARER = {"Authorization": f"Bearer {TOKEN}"}
CONFIG = """open_at = 0
[[stream]]
encoding = "L24"
channels = 1
frames = {frames}
pt = 96
clock = "arrival"
latency = 96000
window = 1024
port_a = {a}
port_b = {b}
[output]
encoding = "L24"
channels = 1
frames = {frames}
pt = 97
ssrc = 2
seq = 0
start = 0
gains = [[65536]]
to_a = {to_a}
to_b = {to_b}
"""


def sample(number: int) -> int:
    """Returns the sample of this number, from the first one on."""
    return STEP * (1 + number % PERIOD)


def packet(number: int) -> bytes:
    values = (sample(FRAMES * number + place) for place in range(FRAMES))
    return senders.datagram(96, number, FRAMES * number, 1, senders.l24(values))


def amplified(gain: int, value: int) -> int:
    """Returns the exact product, rounded once with halves up, and in range."""
    return max(-TOP - 1, min(TOP, (gain * value + ONE // 2) // ONE))


class FaderRun:
    """A run whose gains can be changed: its listeners, and what its page answered."""

    def __init__(self, program: str, form: list[str], folder: str) -> None:
        self.listeners, self.ports, self.config = Listeners(), free_ports(2), f"{folder}/studio.toml"
        (a, b), (to_a, to_b) = self.ports, self.listeners.ports
        with open(self.config, "w") as file:
            file.write(CONFIG.format(frames=FRAMES, a=a, b=b, to_a=to_a, to_b=to_b))
        token = f"{folder}/token"
        pages.write_token(token, TOKEN)
        words = ["live", self.config, "--page", "0", "--control", token, *form]
        self.child = runs.start(program, *words, blocked="TERM")
        self.port = runs.page_port_in(self.child.stderr.readline())
        self.page = pages.Page(self.port, ANSWER_SECONDS)
        # The moves that were accepted, in order: from which time on, and the gain. The first is the configuration's.
        self.moves = [(0, ONE)]

    def put(self, body: Any, token: str | None = TOKEN, **fields: str) -> pages.Answer:
        """Returns the answer to a request for a change, whose body is JSON if it is no octets."""
        text = body if isinstance(body, bytes) else json.dumps(body).encode()
        own = {"Authorization": f"Bearer {token}"} if token is not None else {}
        return self.page.ask_run("PUT", "/gains", text, own | fields)

    def move(self, body: dict[str, Any], gain: int) -> int:
        """Moves the fader, and keeps and returns the time from which on it is there."""
        status, text = self.put(body)
        expect(f"the status of {body}, {text}", status, 200)
        at = json.loads(text)["at"]
        if body["at"] is not None:
            expect(f"the time of {body}", at, body["at"])
        self.moves.append((at, gain))
        return at

    def shown(self, at: int | None = None) -> dict[str, Any]:
        """Returns what the page shows of the gains, now or at a time."""
        status, text = self.page.ask_run("GET", "/gains" + (f"?at={at}" if at is not None else ""), fields=BEARER)
        expect(f"the status of /gains at {at}, {text}", status, 200)
        return json.loads(text)

    def wait_until(self, instant: int) -> None:
        """Waits until the mix has come to a time."""
        ends_by = time.monotonic() + runs.MOST_SECONDS
        while self.shown()["next_block_start"] <= instant:
            self.listeners.take()
            if time.monotonic() > ends_by:
                raise Wrong(f"the mix doesn't come to {instant}")
            time.sleep(0.05)

    def send(self, stop: threading.Event) -> int:
        """Sends the packets, each at its time and on both paths, until `stop` is set, and returns how many it sent."""
        with senders.sender() as out:
            for number in senders.paced(FRAMES):
                if stop.is_set() or number == PACKETS:
                    return number
                for port in self.ports:
                    senders.send(out, port, packet(number))

    def end(self) -> str:
        """Ends the run, and returns its report."""
        status, report, faults = runs.end(self.child)
        expect("the status", (status, faults), (0, ""))
        self.listeners.take()
        return report

    def stop(self) -> None:
        self.page.close()
        runs.stop(self.child)
        self.listeners.close()

    def gains(self, instants: int) -> list[int]:
        """Returns the gain in force at each of so many instants: each move replaces those planned from its time on."""
        plan = []
        for at, gain in self.moves:
            plan = [row for row in plan if row[0] < at] + [(at, gain)]
        ends = [at for at, _ in plan[1:]] + [instants]
        return [gain for (at, gain), end in zip(plan, ends) for _ in range(min(at, instants), min(end, instants))]

    def compare(self, sent: int, report: str) -> None:
        """Compares each sample that came out at both ports with what the moves say of so many packets, and the report's
        counts with both."""
        blocks = len(self.listeners.taken[0])
        paths = [f"path 0 {path} offered {sent} sent {sent} bad 0 type 0 length 0 full" for path in "ab"]
        sink = f"sink blocks {blocks} sent_a {blocks} sent_b {blocks} fault_a 0 fault_b 0"
        counts = [line.rpartition(" ")[0] if line.startswith("path ") else line for line in report.splitlines()]
        expect("the paths of the report", counts[:2], paths)
        expect("the feeds and the sink of the report", counts[3:], ["feed 0 a faults 0", "feed 0 b faults 0", sink])
        for taken in self.listeners.taken:
            blocks = {int.from_bytes(octets[4:8], "big"): octets[12:] for octets in taken}
            expect("the blocks", sorted(blocks), list(range(0, FRAMES * len(blocks), FRAMES)))
            values = senders.values_of(b"".join(octets for _, octets in sorted(blocks.items())))
            first = next((at for at, value in enumerate(values) if value), None)
            if first is None:
                raise Wrong("only silence came out")
            heard = sent * FRAMES
            for at, (value, gain) in enumerate(zip(values, self.gains(len(values)))):
                number = at - first
                given = sample(number) if 0 <= number < heard else 0
                wanted = amplified(gain, given)
                if value != wanted:
                    what = f"at {at}, sample {number} of {given} with the gain {gain}: {value}, not {wanted}"
                    raise Wrong(f"{what}; moves {self.moves}; {report}")
            if len(values) < first + heard:
                raise Wrong(f"{len(values)} instants came out, not {first + heard}")
