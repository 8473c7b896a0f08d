"""The page of a run: a client that asks for it, the token of its gains, and a browser."""
import base64
import fcntl
import http.client
import json
import os
import shutil
import subprocess
import time
from typing import Any, NamedTuple

from .checks import Wrong, expect
from .ports import HOST

CHROMIUM = shutil.which("chromium") or shutil.which("chromium-browser")
# The header fields of every answer of the page.
GUARD = {
    "cache-control": "no-store",
    "x-content-type-options": "nosniff",
    "x-frame-options": "DENY",
    "content-security-policy": "default-src 'none'; style-src 'unsafe-inline'; script-src 'unsafe-inline';"
    " connect-src 'self'; img-src data:; frame-ancestors 'none'",
}
# Seconds after which a connection is made again, since the page ends an idle one after ten, and for which a request
# that was withdrawn is made again.
IDLE_SECONDS, AGAIN_SECONDS = 5, 60
NO_ANSWER = (503, b'{"fault":"no answer"}')


class Answer(NamedTuple):
    """What a page answered."""

    status: int
    octets: bytes


class Page:
    """A client of a run's page, over a connection that is kept. An answer has to come in so many seconds."""

    def __init__(self, port: int, seconds: float = 10) -> None:
        self.kept, self.seconds = http.client.HTTPConnection(HOST, port, timeout=10), seconds
        self.asked_at = time.monotonic()
        # How often a run did not answer in time, so that a request was withdrawn.
        self.withdrawn = 0

    def ask(self, method: str, path: str, body: bytes | None = None, fields: dict[str, str] | None = None) -> Answer:
        """Returns the answer to a request, which has come in time and with the fields of every answer."""
        began = time.monotonic()
        if began - self.asked_at > IDLE_SECONDS:
            self.kept.close()
        self.kept.request(method, path, body, fields or {})
        answer = self.kept.getresponse()
        octets = answer.read()
        self.asked_at = time.monotonic()
        if self.asked_at - began > self.seconds:
            raise Wrong(f"{method} {path} was answered after {self.asked_at - began:.2f} s")
        for name, value in GUARD.items():
            expect(f"{name} of {method} {path}", answer.getheader(name), value)
        return Answer(answer.status, octets)

    def ask_run(
        self, method: str, path: str, body: bytes | None = None, fields: dict[str, str] | None = None
    ) -> Answer:
        """Returns the answer of the run. What a busy machine did not answer in time was withdrawn, and is asked again:
        it must not have changed anything."""
        ends_by = time.monotonic() + AGAIN_SECONDS
        while (found := self.ask(method, path, body, fields)) == NO_ANSWER:
            self.withdrawn += 1
            if time.monotonic() > ends_by:
                raise Wrong(f"the run doesn't answer {method} {path}")
        return found

    def get(self, path: str) -> str:
        """Returns the text at a path, which is there."""
        try:
            found = self.ask("GET", path)
        except (http.client.RemoteDisconnected, ConnectionError):
            # Its place was taken by another client.
            self.kept.close()
            found = self.ask("GET", path)
        expect(f"the status of {path}", found.status, 200)
        return found.octets.decode()

    def state(self) -> dict[str, Any]:
        return json.loads(self.get("/state"))

    def close(self) -> None:
        self.kept.close()


def write_token(path: str, token: str) -> None:
    """Writes a token to a file that only its owner may read."""
    with open(os.open(path, os.O_WRONLY | os.O_CREAT | os.O_TRUNC, 0o600), "w") as file:
        file.write(f"{token}\n")


# The keys that move a fader, with the codes that a browser knows them by.
CODES = {"ArrowLeft": 37, "ArrowUp": 38, "ArrowRight": 39, "ArrowDown": 40}


class Browser:
    """Chromium without a window at a page, which is told over a pipe what to do. It has `folder` for its files."""

    def __init__(self, address: str, folder: str, width: int = 1280, height: int = 800) -> None:
        self.count, (told, self.tell), (self.hear, heard) = 0, os.pipe(), os.pipe()
        words = [CHROMIUM, "--headless", "--no-sandbox", "--disable-gpu", "--hide-scrollbars"]
        words += [f"--user-data-dir={folder}/chromium", "--remote-debugging-pipe", "about:blank"]
        # The browser reads from the descriptor 3 and writes to 4. Copies above them are not overwritten by each other.
        ends = [fcntl.fcntl(end, fcntl.F_DUPFD, 10) for end in (told, heard)]
        at_pipe = lambda: [os.dup2(end, place) for end, place in zip(ends, (3, 4))]
        self.child = subprocess.Popen(words, stderr=subprocess.DEVNULL, preexec_fn=at_pipe, pass_fds=(3, 4))
        for end in (*ends, told, heard):
            os.close(end)
        self.answers, self.session = os.fdopen(self.hear, "rb"), {}
        target = self.ask("Target.createTarget", url="about:blank")["targetId"]
        self.session = {"sessionId": self.ask("Target.attachToTarget", targetId=target, flatten=True)["sessionId"]}
        self.resize(width, height)
        self.ask("Page.navigate", url=address)

    def ask(self, method: str, **params: object) -> dict[str, Any]:
        """Returns the result of a call of the DevTools protocol."""
        self.count += 1
        call = {"id": self.count, "method": method, "params": params} | self.session
        os.write(self.tell, json.dumps(call).encode() + b"\0")
        while True:
            text = b""
            while not text.endswith(b"\0"):
                octets = self.answers.read1(1 << 20) if not text else self.answers.read(1)
                if not octets:
                    raise Wrong("the browser ended")
                text += octets
            for part in text[:-1].split(b"\0"):
                answer = json.loads(part)
                if answer.get("id") == self.count:
                    return answer["result"]

    def evaluate(self, expression: str) -> Any:
        """Returns the value of an expression on the page."""
        return self.ask("Runtime.evaluate", expression=expression, returnByValue=True)["result"].get("value")

    def text(self) -> str:
        return self.evaluate("document.body ? document.body.innerText : ''")

    def resize(self, width: int, height: int) -> None:
        """Gives the page this size, in pixels."""
        shape = {"width": width, "height": height, "deviceScaleFactor": 1, "mobile": False}
        self.ask("Emulation.setDeviceMetricsOverride", **shape)

    def picture(self) -> bytes:
        """Returns the page as a PNG file."""
        return base64.b64decode(self.ask("Page.captureScreenshot", format="png")["data"])

    def press(self, key: str, shift: bool = False) -> None:
        code = CODES[key]
        for kind in "keyDown", "keyUp":
            words = {"type": kind, "key": key, "code": key, "windowsVirtualKeyCode": code, "modifiers": 8 * shift}
            self.ask("Input.dispatchKeyEvent", **words)

    def type_token(self, token: str) -> None:
        """Types a token into the page's field, in place of what it has."""
        field = f'const field = document.getElementById("token"); field.value = {json.dumps(token)};'
        self.evaluate(f'{{ {field} field.dispatchEvent(new Event("input")); }}')

    def stop(self) -> None:
        self.child.kill()
        self.child.wait()
        self.answers.close()
        os.close(self.tell)
