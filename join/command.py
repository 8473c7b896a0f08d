"""The command darbexum-join: its words, and the order of what is refused before a run begins."""
import argparse
import ipaddress
import os
import re
import subprocess
import sys

from . import groups, parent, studio
from .faults import DEVICE, NAME, USAGE, Refused, Unopened
from .sockets import Sockets

VERSION = "0.3.0"


def main(words: list[str], program: str) -> int:
    """Runs the command with these words, and returns its exit status: that of the run, if one began."""
    options, rest = options_of(words, program)
    rest += ["--share-groups"] if options.share_groups else []
    path = os.path.abspath(options.program)
    try:
        check(path, options.config)
        found = studio.read(options.config)
        studio.find_ports(found)
        paths = list(studio.paths_of(found, options))
        studio.find_collisions(paths)
        sockets = Sockets(found, paths, options.share_groups)
    except Refused as refused:
        print(refused, file=sys.stderr)
        return refused.status
    except Unopened as unopened:
        print("device: socket", unopened, sep="\n", file=sys.stderr)
        return DEVICE
    live = [options.program, "live", options.config, "--listen-fds", *rest]
    return parent.run(path, live, sockets.by_name, lambda: groups.look(sockets.groups, sockets.senders))


def options_of(words: list[str], program: str) -> tuple[argparse.Namespace, list[str]]:
    """The options of this command, and the words of the run."""
    about = "Makes the sockets of a studio, joins their groups, and runs `darbexum live` on them with all other words."
    parser = argparse.ArgumentParser(prog=NAME, description=about, allow_abbrev=False)
    parser.add_argument("config", metavar="CONFIG", help="the configuration of the studio")
    on = "the interface at which a path's group is joined, by its name or address; a path is a or 0a"
    parser.add_argument("--on", action="append", default=[], metavar="PATH=INTERFACE", type=of_path, help=on)
    source = "the only source from which a path's group is joined"
    parser.add_argument("--source", action="append", default=[], metavar="PATH=ADDRESS", type=source_in, help=source)
    share = "let other programs receive the same groups on this machine"
    parser.add_argument("--share-groups", action="store_true", help=share)
    parser.add_argument("--program", default=program, metavar="PROGRAM", help="another program than the one next to it")
    parser.add_argument("--version", action="version", version=f"{NAME} {VERSION}")
    return parser.parse_known_args(words)


def of_path(text: str) -> tuple[str, str]:
    """What a word says of a path, behind the path."""
    path, sign, value = text.partition("=")
    if not (sign and value and re.fullmatch(r"([0-9]|1[0-5])?[a-d]", path)):
        raise argparse.ArgumentTypeError(f"{text!r} is not PATH=.., of a path such as a or 0a")
    return path, value


def source_in(text: str) -> tuple[str, str]:
    path, value = of_path(text)
    try:
        return path, str(ipaddress.IPv4Address(value))
    except ValueError:
        raise argparse.ArgumentTypeError(f"{value!r} is no IPv4 address") from None


def check(program: str, config: str) -> None:
    """Lets the program read the configuration."""
    try:
        # Of a good configuration it prints a summary, which a run does not.
        done = subprocess.run([program, "check", config], stdin=subprocess.DEVNULL, stdout=subprocess.DEVNULL)
    except OSError as error:
        raise Refused(USAGE, f"{NAME}: {program}: {error.strerror}") from None
    if done.returncode:
        # A program that was killed has no status of its own.
        sys.exit(done.returncode if done.returncode > 0 else 128 - done.returncode)
