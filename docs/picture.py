#!/usr/bin/env python3
"""docs/picture.py [PROGRAM] [--width N] [--file FILE]: makes docs/page.png, a picture of the page of `make demo`.

PROGRAM is as for demo/run, which runs for a minute. With --file the picture goes there. Otherwise docs/page.sum gets
the checksum of the page's text, by which docs/check sees that the page has changed since. Without Chromium the script
says so and makes no picture.
"""
import argparse
import hashlib
import http.client
import json
import random
import re
import signal
import subprocess
import sys
import tempfile
import time
from pathlib import Path

sys.dont_write_bytecode = True
from sources import ROOT

sys.path.insert(0, str(ROOT / "tests"))
from harness.pages import CHROMIUM, Browser

PICTURE, CHECKSUM = ROOT / "docs" / "page.png", ROOT / "docs" / "page.sum"
TEXTS = ROOT / "crates" / "status_page" / "src" / "page"
END = "</body>\n</html>\n"
WIDTH, HEIGHT = 1100, 800
# Seconds from the first state to the picture: the chart of the last minute is then full.
WATCHED = 63
# How far the ports of a run may be from those of demo/studio.toml, and the port of the page without a shift.
SHIFTS, PAGE = range(0, 10_000, 40), 12_000
TOKEN = re.compile(r"type this token in the page: (\w+)")


def text_of(name: str) -> str:
    """The text of the page in its source."""
    return (TEXTS / name).read_text().split('r##"', 1)[1].split('"##', 1)[0]


def page_text() -> str:
    """The text of the page with its gains, as a run serves it."""
    return text_of("html.rt").removesuffix(END) + text_of("controls_html.rt") + END


def checksum() -> str:
    return hashlib.sha256(page_text().encode()).hexdigest()


def differences():
    """Whether the page has changed since the picture of it was made."""
    if not CHECKSUM.is_file() or CHECKSUM.read_text().strip() != checksum():
        yield "docs/page.png shows an older page: docs/picture.py makes it again"


def served(port: int, path: str) -> str:
    """What the page at this port has at a path."""
    connection = http.client.HTTPConnection("127.0.0.1", port, timeout=10)
    connection.request("GET", path)
    return connection.getresponse().read().decode()


def token_of(demo: subprocess.Popen) -> str | None:
    """The token that the demo prints once its page is there; none if it ends before that."""
    for line in demo.stdout:
        print(line, end="", flush=True)
        if found := TOKEN.search(line):
            return found[1]
    return None


def picture_of(port: int, token: str, width: int, folder: str) -> bytes:
    """A picture of the whole page at this port, after a minute in which it had the token."""
    shown = Browser(f"http://127.0.0.1:{port}/", folder, width, HEIGHT)
    try:
        time.sleep(WATCHED / 2)
        shown.type_token(token)
        time.sleep(WATCHED / 2)
        shown.resize(width, shown.evaluate("document.body.scrollHeight"))
        # Longer than the page waits between two states, so that what depends on the size is drawn again.
        time.sleep(1)
        return shown.picture()
    finally:
        shown.stop()


def main() -> int:
    parser = argparse.ArgumentParser(prog="docs/picture.py")
    parser.add_argument("program", nargs="*")
    parser.add_argument("--width", type=int, default=WIDTH)
    parser.add_argument("--file", type=Path, default=PICTURE)
    options = parser.parse_args()
    if not CHROMIUM:
        print("docs/picture.py: no picture is made, for there is no chromium")
        return 0
    shift = random.choice(SHIFTS)
    port = PAGE + shift
    words = [ROOT / "demo" / "run", *options.program, "--shift", str(shift), "--page", str(port), "--seconds", "120"]
    with tempfile.TemporaryDirectory(ignore_cleanup_errors=True) as folder, \
            subprocess.Popen(words, stdout=subprocess.PIPE, text=True) as demo:
        try:
            token = token_of(demo)
            if token is None:
                return 1
            if served(port, "/") != page_text():
                print("docs/picture.py: the program serves another page than that of the sources")
                return 1
            picture = picture_of(port, token, options.width, folder)
            if json.loads(served(port, "/state"))["streams"][0]["lost"]:
                print("docs/picture.py: no picture is made, for this machine was too busy to run the demo in time")
                return 1
        finally:
            demo.send_signal(signal.SIGINT)
            demo.communicate()
    options.file.write_bytes(picture)
    if options.file == PICTURE:
        CHECKSUM.write_text(checksum() + "\n")
    return 0


if __name__ == "__main__":
    sys.exit(main())
