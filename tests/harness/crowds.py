#!/usr/bin/env python3
"""A crowd of clients of a page: a process of its own, which sends one request again and again and waits for no answer.

crowds.py PORT CLIENTS sends the request that it reads from standard input. When its input ends it does too, and writes
how many answers of each status came, and how long it went on, as JSON.
"""
import json
import re
import selectors
import socket
import subprocess
import sys
import time

HOST = "127.0.0.1"
STATUS = re.compile(rb"HTTP/1\.1 (\d{3}) ")
# How many requests are sent at once, and octets read. So many octets of an answer are read again with the next ones.
AT_ONCE, MOST = 20, 1 << 18
KEPT = len(b"HTTP/1.1 200 ") - 1


class Crowd:
    """So many clients of the page at a port, which send this request until `end`."""

    def __init__(self, port: int, clients: int, request: bytes) -> None:
        words = [sys.executable, __file__, str(port), str(clients), str(len(request))]
        self.child = subprocess.Popen(words, stdin=subprocess.PIPE, stdout=subprocess.PIPE)
        self.child.stdin.write(request)
        self.child.stdin.flush()

    def end(self) -> tuple[dict[str, int], float]:
        """Ends the crowd, and returns how many answers of each status it had, and its seconds."""
        answers, _ = self.child.communicate(timeout=20)
        told = json.loads(answers)
        return told["statuses"], told["seconds"]

    def stop(self) -> None:
        if self.child.poll() is None:
            self.child.kill()
            self.child.communicate()


class Client:
    """One client: its socket, what is left of its requests, and the end of what it read."""

    def __init__(self, port: int) -> None:
        self.socket, self.left, self.end = socket.create_connection((HOST, port), timeout=10), b"", b""
        self.socket.setblocking(False)

    def turn(self, requests: bytes, statuses: dict[str, int]) -> bool:
        """Sends and reads what can be, and returns whether the page still listens."""
        try:
            while octets := self.socket.recv(MOST):
                text = self.end + octets
                for status in STATUS.findall(text):
                    statuses[status.decode()] = statuses.get(status.decode(), 0) + 1
                self.end = text[-KEPT:]
            return False
        except BlockingIOError:
            pass
        except OSError:
            return False
        try:
            self.left = self.left or requests
            self.left = self.left[self.socket.send(self.left) :]
        except BlockingIOError:
            pass
        except OSError:
            return False
        return True


def main(port: int, count: int, length: int) -> None:
    request, statuses = sys.stdin.buffer.read(length), {}
    selector, began = selectors.DefaultSelector(), time.monotonic()
    selector.register(sys.stdin, selectors.EVENT_READ)
    for client in [Client(port) for _ in range(count)]:
        selector.register(client.socket, selectors.EVENT_READ | selectors.EVENT_WRITE, client)
    goes_on = True
    while goes_on:
        for key, _ in selector.select(timeout=1):
            if key.data is None:
                goes_on = False
            # A client that was disconnected in favour of another one stays away.
            elif not key.data.turn(request * AT_ONCE, statuses):
                selector.unregister(key.data.socket)
                key.data.socket.close()
    print(json.dumps({"statuses": statuses, "seconds": time.monotonic() - began}))


if __name__ == "__main__":
    main(*map(int, sys.argv[1:]))
