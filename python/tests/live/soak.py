#!/usr/bin/python3
"""Makes many requests to a home: PYTHONPATH=python/src python3 python/tests/live/soak.py [REQUESTS].

The home is that of the demo. Its devices in this process act at once, answer as their machines may, and fail once in a
thousand times. Each answer of the home is compared with the actions of the devices. The output has the progress after
each tenth, and at the end the time of a request, and the program's share of it.

With `--clients N`, so many clients in another process make requests over HTTP to a home in which a lamp may be switched
at any time. With `--in-process`, the library that ROMAN_LIBRARY names takes the place of the program. The store is in
SOAK_FOLDER, or in the folder for temporary files.
"""

from __future__ import annotations

import argparse
import asyncio
import contextlib
import functools
import logging
import os
import random
import resource
import sys
import tempfile
import time
from pathlib import Path

import roman_live.recovery
from roman_client import NOT_DONE, Call, DeviceFailed, Document, NoComposition, aio
from roman_client.devices import Told
from roman_live.config import IN_PROCESS, HomeFile
from roman_live.home import Home
from roman_live.http_api import Server

TOP = Path(__file__).resolve().parents[3]

FAILURES = 0.001

LAMP = {
    "name": "lamp",
    "states": ["off", "on"],
    "start": "off",
    "final": ["off", "on"],
    "steps": [["off", True, "switch", "on"], ["on", True, "switch", "off"]],
}

LAMPS = {
    "roman": 1,
    "environment": {"states": ["e"], "start": "e", "actions": ["switch"], "steps": [["e", "switch", "e"]]},
    "behaviours": [LAMP],
    "services": [{"name": name, "behaviour": "lamp"} for name in ("first", "second", "third", "fourth")],
    "target": {"states": ["t"], "start": "t", "final": ["t"], "steps": [["t", True, "switch", "t"]]},
}
"""A system whose only action is always allowed."""

CLIENTS = """
import http.client, json, sys, threading

port, requests, clients = map(int, sys.argv[1:])
body = json.dumps({"action": "switch"})
left = list(range(requests))

def ask():
    home = http.client.HTTPConnection("127.0.0.1", port)
    while left:
        try:
            left.pop()
        except IndexError:
            return
        while True:
            home.request("POST", "/requests", body, {"Content-Type": "application/json"})
            answer = home.getresponse()
            answer.read()
            if answer.status == 200:
                break
            refused.append(answer.status)

refused = []
threads = [threading.Thread(target=ask) for _ in range(clients)]
for each in threads:
    each.start()
for each in threads:
    each.join()
print(len(refused))
"""
"""A program whose clients make requests until so many were served. It prints the number of refused ones."""

roman_live.recovery.FIRST_PAUSE = 0.001


class World:
    """The devices, and their common states."""

    def __init__(self, document: Document, seed: int) -> None:
        self.document = document
        self.chance = random.Random(seed)
        self.behaviours = {each.name: each.behaviour for each in document.services}
        self.states = {each.name: each.state for each in document.services}
        self.environment = document.environment.start
        self.target = document.start
        self.done: dict[str, int | None] = {}
        self.acted = 0
        self.failed = 0
        # The devices aren't measured, so everything is looked up in advance.
        self._allowed = functools.cache(document.allowed)
        self._outcomes = functools.cache(lambda *words: tuple(document.outcomes(*words)))

    def draw(self) -> str:
        """One of the actions that the target allows."""
        return self.chance.choice(self._allowed(self.target, self.environment))

    def act(self, service: str, call: Call) -> tuple[str, str]:
        """Makes a service carry out an action, or fail."""
        if self.chance.random() < FAILURES:
            self.failed += 1
            raise DeviceFailed("it doesn't answer")
        if self.done.get(service) == call.number:
            raise AssertionError(f"{service} was asked twice for call {call.number}")
        outcomes = self._outcomes(self.behaviours[service], self.states[service], self.environment, call.request)
        self.states[service], self.environment = self.chance.choice(outcomes)
        self.done[service] = call.number
        self.acted += 1
        return self.states[service], self.environment


WORLD: World


def device(service: str) -> aio.Device:
    """The device of a service."""

    class Simulated(aio.Device):
        async def serve(self, call: Call) -> tuple[str, str]:
            return WORLD.act(service, call)

        async def state(self, call: Call) -> Told:
            return NOT_DONE

        async def present(self) -> tuple[str, str]:
            """Its present state."""
            return WORLD.states[service], WORLD.environment

    return Simulated()


async def serve(home: Home, requests: int) -> int:
    """Makes requests one after the other. Returns the number of those that had no composition until a device was
    back."""
    refused, served = 0, 0
    begun, tenth = time.monotonic(), max(1, requests // 10)
    while served < requests:
        action = WORLD.draw()
        try:
            done = await home.requests.serve(action)
        except NoComposition:
            refused += 1
            await asyncio.sleep(0.005)
            continue
        served += 1
        WORLD.target = done["target"]
        told = (done["state"], done["environment"])
        if told != (WORLD.states[done["served_by"]], WORLD.environment):
            raise AssertionError(f"request {served}: {done}, and the devices are {WORLD.states}")
        if served % tenth == 0:
            print(f"{served:,} requests after {time.monotonic() - begun:,.0f} s", flush=True)
    return refused


async def serve_over_http(home: Home, requests: int, clients: int) -> int:
    """Makes requests over HTTP. Returns the number of those that had no composition until a device was back."""
    server = Server(home, home.file.page)
    await server.begin()
    try:
        port = server.url.rpartition(":")[2]
        words = (sys.executable, "-c", CLIENTS, port, str(requests), str(clients))
        process = await asyncio.create_subprocess_exec(*words, stdout=asyncio.subprocess.PIPE)
        output, _ = await process.communicate()
        return int(output)
    finally:
        await server.close()


class Shares:
    """The processor time of the successive programs of a home."""

    def __init__(self, home: Home) -> None:
        self._home = home
        self.programs: dict[int, float] = {}

    def look(self) -> None:
        """Records the time of the present program, if there is one."""
        pid = self._home.session.pid
        if pid != os.getpid():
            with contextlib.suppress(OSError):
                used = Path(f"/proc/{pid}/schedstat").read_text(encoding="ascii").split()[0]
                self.programs[pid] = int(used) / 1e9

    async def watch(self) -> None:
        """Records the time repeatedly."""
        while True:
            self.look()
            await asyncio.sleep(0.1)


def write_home(folder: Path, document: Document, in_process: bool) -> HomeFile:
    """Writes the file of a home with the devices of this module."""
    document.write(folder / "home.json")
    sys.modules["soak"] = sys.modules[__name__]
    tables = ""
    for each in document.services:
        globals()[each.name] = device(each.name)
        tables += f'[devices.{each.name}]\nreach = "python"\ncall = "soak:{each.name}"\nquick = true\n'
    program = f'program = "{IN_PROCESS}"\n' if in_process else ""
    rest = '[page]\nport = 0\n[policy]\nchoose = "round robin"\n[journal]\npath = "home.db"\n'
    (folder / "home.toml").write_text(f'document = "home.json"\n{program}{rest}{tables}', encoding="utf-8")
    return HomeFile.read(folder / "home.toml")


async def soak(requests: int, clients: int, in_process: bool, folder: Path) -> list[str]:
    """Runs the home, and returns the final report."""
    global WORLD
    document = Document(LAMPS) if clients else Document.load("home.json", TOP / "samples" / "live" / "demo")
    WORLD = World(document, 1)
    home = await Home.start(write_home(folder, document, in_process))
    shares = Shares(home)
    watching = asyncio.ensure_future(shares.watch())
    try:
        begun, used = time.monotonic(), time.process_time()
        refused = await (serve_over_http(home, requests, clients) if clients else serve(home, requests))
        seconds, rest = time.monotonic() - begun, time.process_time() - used
        count = (await home.view.state())["counts"]["served"]
        if (count, WORLD.acted) != (requests, requests):
            raise AssertionError(f"{requests} requests, {count} counted, {WORLD.acted} carried out")
    finally:
        shares.look()
        watching.cancel()
        await home.close()
    program = sum(shares.programs.values())
    peak = resource.getrusage(resource.RUSAGE_SELF).ru_maxrss // 1024
    return [
        f"{requests:,} requests in {seconds:,.0f} s, {requests / seconds:,.0f} a second",
        f"{len(shares.programs)} programs, one after the other",
        f"{WORLD.failed:,} failures; {refused:,} times there was no composition until a device was back",
        f"processor time: program {program:,.0f} s, {program / requests * 1e6:,.0f} microseconds a request; "
        f"the rest {rest:,.0f} s, {rest / requests * 1e6:,.0f} microseconds a request",
        f"at most {peak} MB of memory",
    ]


def main() -> int:
    words = argparse.ArgumentParser(description=__doc__)
    words.add_argument("requests", type=int, nargs="?", default=1_000_000)
    words.add_argument("--clients", type=int, default=0)
    words.add_argument("--in-process", action="store_true")
    given = words.parse_args()
    logging.disable(logging.CRITICAL)
    with tempfile.TemporaryDirectory(prefix="roman-soak-", dir=os.environ.get("SOAK_FOLDER")) as folder:
        print(*asyncio.run(soak(given.requests, given.clients, given.in_process, Path(folder))), sep="\n")
    return 0


if __name__ == "__main__":
    sys.exit(main())
