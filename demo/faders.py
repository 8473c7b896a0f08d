"""The faders that the demo moves: a thread that asks the page for changes of two gains."""
import contextlib
import math
import threading

from page import NoAnswer, Page

UNITY = 65_536
# The gains that move, by output channel and input: both channels of the first stream.
CELLS = (0, 0), (0, 1)
# A fader moves between two levels in decibels and back in so many seconds, in so many steps a second.
LOW, HIGH, PERIOD, STEPS = -30, -6, 10, 5


def gain_at(seconds: float, fader: int) -> int:
    """The gain of a fader at a time. The second fader is down when the first one is up."""
    share = (1 - math.cos(2 * math.pi * seconds / PERIOD + math.pi * fader)) / 2
    return round(UNITY * 10 ** ((LOW + (HIGH - LOW) * share) / 20))


class Faders(threading.Thread):
    """A thread that moves the faders until `end`."""

    def __init__(self, page: Page):
        super().__init__(daemon=True)
        self.page, self.over = page, threading.Event()

    def run(self):
        step = 0
        while not self.over.wait(1 / STEPS):
            for fader, (output, number) in enumerate(CELLS):
                # A busy machine may refuse a move, and the next one follows at once.
                with contextlib.suppress(NoAnswer):
                    self.page.change(output, number, gain_at(step / STEPS, fader))
            step += 1

    def end(self):
        self.over.set()
        self.join()
