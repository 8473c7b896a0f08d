"""A client of the page of a run: it asks for the state, and changes gains."""
import http.client
import json

HOST = "127.0.0.1"
SECONDS = 5


class NoAnswer(Exception):
    """The page does not answer, or refuses a request."""


class Page:
    """The page at a port. Each request has a connection of its own, so that threads can share the page."""

    def __init__(self, port: int, token: str):
        self.port, self.token, self.address = port, token, f"http://{HOST}:{port}/"

    def ask(self, method: str, path: str, body: dict | None = None) -> dict:
        """The JSON that the page answers. Raises `NoAnswer` if there is none."""
        connection = http.client.HTTPConnection(HOST, self.port, timeout=SECONDS)
        headers = {"Authorization": f"Bearer {self.token}"} if body else {}
        try:
            connection.request(method, path, json.dumps(body) if body else None, headers)
            reply = connection.getresponse()
            text = reply.read().decode()
            if reply.status != 200:
                raise NoAnswer(f"{method} {path}: status {reply.status}: {text}")
            return json.loads(text)
        except (OSError, http.client.HTTPException, ValueError) as fault:
            raise NoAnswer(f"{method} {path}: {fault!r}") from fault
        finally:
            connection.close()

    def state(self) -> dict:
        return self.ask("GET", "/state")

    def gains(self) -> list[list[int]]:
        return self.ask("GET", "/gains")["gains"]

    def is_there(self) -> bool:
        """Whether the page shows the streams. It is there a moment before them."""
        try:
            return bool(self.state()["streams"])
        except NoAnswer:
            return False

    def change(self, output: int, number: int, gain: int) -> int:
        """Asks for a gain from the next block on, and returns the media time from which it is in force."""
        return self.ask("PUT", "/gains", {"at": None, "cell": [output, number], "gain": gain})["at"]
