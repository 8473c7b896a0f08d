"""Gains in units of 1/65,536, and the texts for them."""
import math
import re

# The gain 1, and the greatest amount of a gain: 16, which is +24.08 dB.
ONE, GREATEST = 65_536, 1_048_576
# The levels that a text may name. -96 dB is the gain 1/65,536; what is below would be silence.
LEAST_DB, GREATEST_DB = -96, 24
LEVEL = re.compile(r"([+-]?\d{1,3}(?:\.\d{1,4})?)dB", re.ASCII)
UNITS = re.compile(r"-?\d{1,7}", re.ASCII)
ALLOWED = f"a level from {LEAST_DB}dB to +{GREATEST_DB}dB, off, and a whole number from -{GREATEST} to {GREATEST}"


def gain_of(text: str) -> int | None:
    """The gain that a text names: a level as -6dB, `off`, or a number of units. None if it names none."""
    if text == "off":
        return 0
    if found := LEVEL.fullmatch(text):
        level = float(found[1])
        return round(ONE * 10 ** (level / 20)) if LEAST_DB <= level <= GREATEST_DB else None
    if UNITS.fullmatch(text) and abs(int(text)) <= GREATEST:
        return int(text)
    return None


def level_of(gain: int) -> str:
    """A gain as a level: `off`, or so many decibels, with `inverted` if the gain is below 0."""
    if not gain:
        return "off"
    level = round(20 * math.log10(abs(gain) / ONE), 2)
    # The sum turns -0.0 into 0.0.
    return f"{level + 0.0:.2f} dB{' inverted' if gain < 0 else ''}"
