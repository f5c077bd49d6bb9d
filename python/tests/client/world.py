"""Devices that continue when a dispatcher is killed: a server that simulates the services of a document.

It carries out each call once, even if it is asked again, and records the calls. Run as a program, this module is a
dispatcher over these devices, which a test can kill.
"""

import json
import random
import socket
import socketserver
import sys
import threading
from typing import Any

from roman_client import (
    NOT_DONE,
    Call,
    Device,
    DeviceFailed,
    Dispatcher,
    Document,
    NoComposition,
    ProgramEnded,
    Session,
)
from roman_client.devices import Outcome, Told


class World:
    """The calls that the services carried out, and their states."""

    def __init__(self, document: Document, seed: int, failing: float) -> None:
        self.document = document
        self.chance = random.Random(seed)
        self.failing = failing
        self.lock = threading.Lock()
        self.behaviours = {each.name: each.behaviour for each in document.services}
        self.states = {each.name: each.state for each in document.services}
        self.environment = document.environment.start
        self.done: dict[int, tuple[str, Outcome]] = {}
        self.played: list[str] = []
        self.wrong: list[str] = []

    def answer(self, asked: dict[str, Any]) -> Any:
        """The answer to a call: an outcome, or None if the service fails."""
        with self.lock:
            number, service, action = asked["number"], asked["service"], asked["action"]
            if asked["what"] == "state":
                return self.done[number][1] if number in self.done else "not done"
            if number in self.done:
                self.wrong.append(f"call {number} came twice")
                return self.done[number][1]
            if self.chance.random() < self.failing:
                return None
            outcomes = list(
                self.document.outcomes(self.behaviours[service], self.states[service], self.environment, action)
            )
            if not outcomes:
                self.wrong.append(f"{service} can't {action} in {self.states[service]}")
                return None
            outcome = self.chance.choice(outcomes)
            self.states[service], self.environment = outcome
            self.done[number] = (action, outcome)
            self.played.append(action)
            return outcome


class Server(socketserver.ThreadingUnixStreamServer):
    """Answers calls for a world."""

    daemon_threads = True

    def __init__(self, path: str, world: World) -> None:
        self.world = world
        super().__init__(path, Handler)


class Handler(socketserver.StreamRequestHandler):
    """Handles one call."""

    def handle(self) -> None:
        assert isinstance(self.server, Server)
        answer = self.server.world.answer(json.loads(self.rfile.readline()))
        try:
            self.wfile.write(json.dumps(answer).encode() + b"\n")
        except BrokenPipeError:
            pass


class Remote(Device):
    """A service of the server."""

    timeout = 30.0

    def __init__(self, path: str) -> None:
        self.path = path

    def ask(self, what: str, call: Call) -> Any:
        asked = {
            "what": what,
            "number": call.number,
            "service": call.service,
            "action": call.request,
        }
        with socket.socket(socket.AF_UNIX) as to:
            to.connect(self.path)
            to.sendall(json.dumps(asked).encode() + b"\n")
            with to.makefile(encoding="utf-8") as lines:
                return json.loads(lines.readline())

    def serve(self, call: Call) -> Outcome:
        answer = self.ask("serve", call)
        if answer is None:
            raise DeviceFailed("out of order")
        return answer[0], answer[1]

    def state(self, call: Call) -> Told:
        answer = self.ask("state", call)
        return NOT_DONE if answer == "not done" else (answer[0], answer[1])


def begun(system: str, program: str, folder: str) -> tuple[Session, Dispatcher]:
    """A dispatcher over the devices. If the program is killed before it begins, it is started again."""
    while True:
        try:
            session = Session(system, program=program, timeout=60)
        except ProgramEnded:
            continue
        devices = {each.name: Remote(f"{folder}/socket") for each in session.opening.services}
        try:
            store = f"{folder}/journal"
            return session, Dispatcher(session, devices, back=lambda service: True, store=store)
        except ProgramEnded:
            session.close()


def main(system: str, program: str, folder: str, count: int) -> None:
    """Makes requests until so many are served."""
    session, dispatcher = begun(system, program, folder)
    document = session.core.document
    assert document is not None
    with session, dispatcher:
        while dispatcher.served < count:
            report = dispatcher.report()
            action = document.allowed(report.target, report.environment)[0]
            try:
                dispatcher.request(action, key=str(dispatcher.served))
            except NoComposition:
                pass


if __name__ == "__main__":
    main(sys.argv[1], sys.argv[2], sys.argv[3], int(sys.argv[4]))
