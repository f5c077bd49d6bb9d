"""A kettle that is reached over HTTP: kettle.py PORT. It fails now and then, with status 500.

POST {"id": .., "action": ..} has it act; GET tells its state, and with ?id= whether that call was done. While it
acts it tells nothing: what it is at work on isn't done, and soon is. A call of which it has told that it wasn't done
may still be on its way: it is refused from then on.
"""

import json
import os
import random
import sys
import threading
import time
from http.server import BaseHTTPRequestHandler, ThreadingHTTPServer
from typing import Any
from urllib.parse import parse_qs, urlsplit

STEPS = {
    ("empty", "boil"): ("warm", "hot"),
    ("warm", "pour"): ("empty",),
    ("hot", "pour"): ("empty",),
}
FAILURES = float(os.environ.get("DEMO_FAILURES", "0.1"))
SECONDS = float(os.environ.get("DEMO_SECONDS", "0.8"))


class Kettle(BaseHTTPRequestHandler):
    """One request to the kettle. All requests share its state."""

    state = "empty"
    last: int | None = None
    refused: set[int] = set()
    at_work = threading.Lock()

    def do_GET(self) -> None:
        about = parse_qs(urlsplit(self.path).query).get("id")
        with Kettle.at_work:
            done = about == [str(Kettle.last)]
            if about is not None and not done:
                Kettle.refused.add(int(about[0]))
            self.answer(200, state=Kettle.state, done=done)

    def do_POST(self) -> None:
        asked = json.loads(self.rfile.read(int(self.headers["Content-Length"])))
        with Kettle.at_work:
            self.act(asked)

    def act(self, asked: Any) -> None:
        if asked["id"] in Kettle.refused:
            self.answer(200, id=asked["id"], error="that call was given up")
            return
        time.sleep(SECONDS)
        if random.random() < FAILURES:
            self.answer(500, error="the fuse is out")
        elif (Kettle.state, asked["action"]) not in STEPS:
            self.answer(200, id=asked["id"], error=f"can't {asked['action']}, being {Kettle.state}")
        else:
            Kettle.state = random.choice(STEPS[Kettle.state, asked["action"]])
            Kettle.last = asked["id"]
            self.answer(200, id=asked["id"], state=Kettle.state)

    def answer(self, status: int, **value: Any) -> None:
        body = json.dumps(value).encode()
        self.send_response(status)
        self.send_header("Content-Type", "application/json")
        self.send_header("Content-Length", str(len(body)))
        self.end_headers()
        self.wfile.write(body)

    def log_message(self, *words: Any) -> None:
        """Says nothing."""


if __name__ == "__main__":
    ThreadingHTTPServer(("127.0.0.1", int(sys.argv[1])), Kettle).serve_forever()
