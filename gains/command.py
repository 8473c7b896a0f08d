"""The command darbexum-gains: its words, what it prints, and its exit status."""
import argparse
import os
import re
import sys

from . import desk
from .desk import Wanted
from .levels import level_of
from .page import Gains, Page, reason_of
from .plan import Cell, cell_in
from .texts import DEVICE, REFUSED, Refused, say

VERSION = "0.3.0"
TOKEN = re.compile(r"[!-~]{16,256}")
# The octets of a token's file that are read: a token, and more than a line feed behind it.
MOST_TOKEN_OCTETS = 300
INSTANTS_A_MS, MOST_MS = 48, 60_000
LAST_TIME = 2**60


def main(words: list[str]) -> int:
    """Runs the command with these words, and returns its exit status. Wrong words end the process with status 2."""
    options = options_of(words)
    pages: list[Page] = []
    try:
        for port, file in options.copy or options.to:
            pages.append(Page(port, token_in(file)))
        return done(pages, options)
    except Refused as refused:
        say(str(refused))
        return refused.exit_status
    except OSError as fault:
        say(f"standard output: {reason_of(fault)}")
        # Python flushes standard output at its end, and would report the same again.
        os.dup2(os.open(os.devnull, os.O_WRONLY), sys.stdout.fileno())
        return DEVICE
    finally:
        for page in pages:
            page.close()


def options_of(words: list[str]) -> argparse.Namespace:
    about = "Shows, sets and copies the gains of runs, over their pages."
    parser = argparse.ArgumentParser(prog="darbexum-gains", description=about, allow_abbrev=False)
    cells = "the gain from input IN to output OUT, both counted from 0: a level as -6dB, off, or a number of 1/65536"
    parser.add_argument("cells", nargs="*", type=cell_of, metavar="OUT:IN=GAIN", help=cells)
    to = "a page: its port, or PORT=TOKENFILE; once for each page"
    parser.add_argument("--to", action="append", type=place_in, default=[], metavar="PAGE", help=to)
    copied = "give the second page the gains of the first, and the changes that are planned there"
    parser.add_argument("--copy", nargs=2, type=place_in, metavar="PAGE", help=copied)
    over = "go there in up to 63 steps over so many milliseconds, 1 to 60000"
    parser.add_argument("--over", type=milliseconds_in, default=0, metavar="MS", help=over)
    at = "begin at this media time, in periods of 48 kHz; without it soon, at one time for all pages"
    parser.add_argument("--at", type=time_in, metavar="T", help=at)
    replace = "replace the changes that are planned from then on"
    parser.add_argument("--replace", action="store_true", help=replace)
    parser.add_argument("--version", action="version", version=f"darbexum-gains {VERSION}")
    # Gains may stand between options.
    options = parser.parse_intermixed_args(words)
    if bool(options.to) == bool(options.copy):
        parser.error("give the pages, as --to 8080=TOKENFILE, or two to --copy")
    if options.copy and (options.cells or options.over or options.replace):
        parser.error("--copy takes no gains, and neither --over nor --replace")
    if not options.cells and not options.copy and (options.over or options.at is not None or options.replace):
        parser.error("give the gains that are to be set, as 0:3=-6dB")
    ports = [port for port, _ in options.copy or options.to]
    if len(set(ports)) < len(ports):
        parser.error("a page is named twice")
    return options


def cell_of(text: str) -> Cell:
    try:
        return cell_in(text)
    except ValueError as fault:
        raise argparse.ArgumentTypeError(str(fault)) from None


def place_in(text: str) -> tuple[int, str | None]:
    port, _, file = text.partition("=")
    if not (re.fullmatch(r"\d{1,5}", port, re.ASCII) and 1 <= int(port) <= 65_535):
        raise argparse.ArgumentTypeError(f"'{text}' is no PORT or PORT=TOKENFILE; ports are 1 to 65535")
    return int(port), file or None


def milliseconds_in(text: str) -> int:
    if not re.fullmatch(r"\d{1,5}", text, re.ASCII) or not 1 <= int(text) <= MOST_MS:
        raise argparse.ArgumentTypeError(f"allowed are 1 to {MOST_MS} ms")
    return int(text) * INSTANTS_A_MS


def time_in(text: str) -> int:
    if not re.fullmatch(r"\d{1,19}", text, re.ASCII) or int(text) > LAST_TIME:
        raise argparse.ArgumentTypeError(f"allowed are 0 to {LAST_TIME}")
    return int(text)


def token_in(name: str | None) -> str | None:
    """The token in a file. Raises Refused if the file has none or cannot be read."""
    if name is None:
        return None
    try:
        with open(name, "rb") as file:
            text = file.read(MOST_TOKEN_OCTETS).removesuffix(b"\n").decode("latin-1")
    except OSError as fault:
        raise Refused(f"{name}: {reason_of(fault)}", DEVICE) from None
    if not TOKEN.fullmatch(text):
        raise Refused(f"{name}: no token, which is 16 to 256 characters of visible ASCII", DEVICE)
    return text


def done(pages: list[Page], options: argparse.Namespace) -> int:
    wanted = Wanted(options.at, options.over, options.replace)
    if options.copy:
        at = desk.copy(*pages, wanted)
        print(f"from {at} on {pages[1]} has the gains of {pages[0]}", flush=True)
        return 0
    if options.cells:
        at = desk.set_cells(pages, options.cells, wanted)
        names = ", ".join(str(page) for page in pages)
        print(f"{'at' if options.over else 'from'} {at}{'' if options.over else ' on'}: {names}", flush=True)
        return 0
    found = desk.shown_together(pages)
    for page, gains in zip(pages, found):
        print("\n".join(lines_of(page, gains)))
    sys.stdout.flush()
    if any((gains.matrix, gains.planned) != (found[0].matrix, found[0].planned) for gains in found):
        say(f"the gains differ: {', '.join(differing(found)) or 'in what is planned'}")
        return REFUSED
    return 0


def lines_of(page: Page, gains: Gains) -> list[str]:
    """What is shown of a page: when, what is planned, and each gain that is not 0."""
    planned = f", planned at {' '.join(map(str, gains.planned))}" if gains.planned else ""
    cells = [(output, input, gain) for output, row in enumerate(gains.matrix) for input, gain in enumerate(row) if gain]
    shape = f"{len(gains.matrix)} outputs, {len(gains.matrix[0])} inputs"
    return [
        f"{page}: {shape}, at {gains.at}{planned}",
        *(f"  {output}:{input}={gain}  {level_of(gain)}" for output, input, gain in cells),
        *([] if cells else ["  all gains are off"]),
    ]


def differing(found: list[Gains]) -> list[str]:
    """The cells in which pages of one shape differ."""
    shapes = {tuple(len(row) for row in gains.matrix) for gains in found}
    if len(shapes) > 1:
        return ["in outputs or inputs"]
    first = found[0].matrix
    return [
        f"{output}:{input}"
        for output, row in enumerate(first)
        for input in range(len(row))
        if any(gains.matrix[output][input] != row[input] for gains in found)
    ]
