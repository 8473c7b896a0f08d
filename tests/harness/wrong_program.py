"""A program that is wrong: it alters its words and configuration, becomes the real program, and leaves a process that
alters what that prints, serves, sends and writes.

The real program has the process that the test started, so its signals, limits and descriptors are as without this. The
other process reads standard output and standard error from pipes, and ends with them.
"""
import contextlib
import os
import re
import signal
import socket
import sys
import tempfile
import threading
from collections.abc import Callable
from dataclasses import dataclass

Text = Callable[[str], str]
Octets = Callable[[bytes], bytes | None]
OWN_NAME = re.compile(r" page=http://127\.0\.0\.1:(\d+)/\n")
MOST = 1 << 20


@dataclass
class Edits:
    """What is altered; `None` leaves it as it is."""

    # The words behind the program's name, and the text of the configuration that the second of them names.
    words: Callable[[list[str]], list[str]] | None = None
    config: Text | None = None
    # All of standard output, and each line of standard error.
    output: Text | None = None
    line: Text | None = None
    # What the page sends: octets of the same length. Each datagram of the second copy of the mix; `None` drops it.
    page: Octets | None = None
    copy: Octets | None = None
    # Alters files, by the words, once the program has ended.
    files: Callable[[list[str]], None] | None = None
    # Of commands that end by themselves: alters the status.
    status: Callable[[int], int] | None = None


def run(edits: Edits, program: str, words: list[str]) -> None:
    """Becomes the program with these words, altered; or runs it to its end, if its status is altered."""
    words = edits.words(words) if edits.words else words
    words, copies = with_config(edits, words)
    words, page = with_page(edits, words)
    if edits.status:
        status = os.spawnv(os.P_WAIT, program, [program, *words])
        os._exit(edits.status(status))
    piped = [1] * bool(edits.output or edits.files) + [2] * bool(edits.line or edits.page or copies)
    if piped:
        begin_filter(edits, words, copies, page, piped)
    # Python ignores both.
    for number in (signal.SIGPIPE, signal.SIGXFSZ):
        signal.signal(number, signal.SIG_DFL)
    os.execv(program, [program, *words])


def with_config(edits, words):
    """The words with the path of an altered configuration, and the sockets of the second copy if it is altered."""
    has_config = len(words) > 1 and words[0] in ("live", "play", "replay", "marks", "chart", "check")
    if not has_config or not (edits.config or edits.copy) or not os.path.isfile(words[1]):
        return words, None
    with open(words[1], encoding="utf-8") as file:
        text = file.read()
    text, copies = edits.config(text) if edits.config else text, None
    if edits.copy and words[0] == "live":
        text, copies = through_relay(text)
    with tempfile.NamedTemporaryFile("w", suffix=".toml", delete=False) as file:
        file.write(text)
    return [words[0], file.name, *words[2:]], copies


def with_page(edits, words):
    """The words by which the system chooses the page's port, and the port at which clients ask, or 0 for any."""
    if not edits.page or "--page" not in words:
        return words, 0
    at = words.index("--page") + 1
    return [*words[:at], "0", *words[at + 1 :]], int(words[at])


class Copies:
    """The sockets by which the second copy of the mix is received and sent on, and its place before and now."""

    def __init__(self, place, sender):
        self.place = place
        self.taken, self.out = (socket.socket(socket.AF_INET, socket.SOCK_DGRAM) for _ in range(2))
        self.taken.setsockopt(socket.SOL_SOCKET, socket.SO_RCVBUF, 8 << 20)
        self.taken.bind((place[0], 0))
        self.out.bind((sender, 0))

    def relay(self, alter):
        while True:
            octets = alter(self.taken.recv(2_048))
            if octets is not None:
                self.out.sendto(octets, self.place)


def through_relay(text):
    """A configuration whose second copy goes to sockets of this process, and those."""
    key = lambda name, other: found[1] if (found := re.search(rf'(?m)^{name} = "?([^"\n]+)', text)) else other
    copies = Copies((key("to_address_b", "127.0.0.1"), int(key("to_b", "0"))), key("from_b", "127.0.0.1"))
    return re.sub(r"(?m)^to_b = \d+", f"to_b = {copies.taken.getsockname()[1]}", text), copies


def begin_filter(edits, words, copies, page, piped):
    """Makes the process that alters what the program writes to these descriptors, of standard output and error."""
    pipes = {own: os.pipe() for own in piped}
    if os.fork() == 0:
        filter_all(edits, words, copies, page, {own: reads for own, (reads, _) in pipes.items()})
        os._exit(0)
    for own, (reads, writes) in pipes.items():
        os.dup2(writes, own)
        os.close(reads)
        os.close(writes)
    if copies:
        copies.taken.close()
        copies.out.close()


def filter_all(edits, words, copies, page, pipes):
    """Passes on what comes by the pipes, altered, and alters the files behind the end."""
    kept = {0, 1, 2, *pipes.values()} | ({copies.taken.fileno(), copies.out.fileno()} if copies else set())
    # There may be no /proc.
    for number in set(range(1_024)) - kept:
        with contextlib.suppress(OSError):
            os.close(number)
    os.dup2(os.open(os.devnull, os.O_RDONLY), 0)
    if copies:
        threading.Thread(target=copies.relay, args=(edits.copy,), daemon=True).start()
    if 2 in pipes:
        lines = threading.Thread(target=pass_lines, args=(edits, copies, page, pipes[2]))
        lines.start()
    octets = b""
    if 1 in pipes:
        with open(pipes[1], "rb") as reads:
            octets = reads.read()
    if 2 in pipes:
        lines.join()
    if edits.files:
        edits.files(words)
    if edits.output:
        octets = edits.output(octets.decode()).encode()
    with contextlib.suppress(OSError):
        while octets:
            octets = octets[os.write(1, octets) :]


def pass_lines(edits, copies, page, reads):
    """Passes on the lines of standard error, each at once. In the first one the places of relays are put right."""
    with open(reads, encoding="utf-8", newline="\n") as lines:
        for line in lines:
            if edits.page and (found := OWN_NAME.search(line)):
                line = line.replace(found[1], str(begin_page(edits.page, int(found[1]), page)))
            if copies and line.startswith("live "):
                line = re.sub(r" to_b=\S+", " to_b={}:{}".format(*copies.place), line)
            line = edits.line(line) if edits.line else line
            with contextlib.suppress(OSError):
                os.write(2, line.encode())


def begin_page(alter, port, own):
    """Listens for clients of the page at this port of its own, or at any if it is 0. Returns the port."""
    server = socket.create_server(("127.0.0.1", own))

    def serve():
        while True:
            client, run = server.accept()[0], socket.create_connection(("127.0.0.1", port))
            for reads, writes, edit in ((client, run, None), (run, client, alter)):
                threading.Thread(target=pass_octets, args=(reads, writes, edit), daemon=True).start()

    threading.Thread(target=serve, daemon=True).start()
    return server.getsockname()[1]


def pass_octets(reads, writes, alter):
    with contextlib.suppress(OSError):
        while octets := reads.recv(MOST):
            writes.sendall(alter(octets) if alter else octets)
    for one in (reads, writes):
        with contextlib.suppress(OSError):
            one.shutdown(socket.SHUT_RDWR)


def script(folder: str, table: str, row: str, program: str) -> str:
    """Returns the path of a program in a folder that is the real one, wrong as a row of the script `table` says."""
    path = f"{folder}/{row}"
    with open(path, "w", encoding="utf-8") as file:
        file.write(f'#!/bin/sh\nexec {sys.executable} -S "{table}" --run {row} "{program}" "$@"\n')
    os.chmod(path, 0o755)
    return path
