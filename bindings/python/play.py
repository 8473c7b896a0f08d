"""Plays a trace through libdarbexum, and prints the output's datagrams: play.py CONFIG < TRACE."""
import sys
from pathlib import Path

import darbexum


def main(config):
    engine = darbexum.Engine(Path(config).read_bytes())
    for line in sys.stdin:
        word, *rest = line.split() or ["#"]
        datagrams = []
        if word == "tick":
            datagrams = engine.turn(int(rest[0]))
        elif word == "close":
            datagrams = engine.close()
        elif word in "abcd":
            engine.arrive(int(rest[0]), "abcd".index(word), bytes.fromhex("".join(rest[1:])))
        for datagram in datagrams:
            print("out", datagram.hex())


if __name__ == "__main__":
    try:
        main(sys.argv[1])
    except darbexum.Error as error:
        sys.exit(f"{error.code}: {error}")
