"""Dispatchers and programs that are killed at random moments."""

import os
import random
import signal
import subprocess
import sys
import tempfile
import threading
import time
from collections.abc import Iterator
from contextlib import suppress
from pathlib import Path

import pytest

from roman_client import Dispatcher, Document, Session

from . import PROGRAM, TOP, sample
from .world import Remote, Server, World

PYTHON = TOP / "python"


def kill_children(parent: int) -> int:
    """Kills the programs that a process runs, and returns their number."""
    try:
        children = Path(f"/proc/{parent}/task/{parent}/children").read_text(encoding="ascii")
    except OSError:
        return 0
    for child in children.split():
        with suppress(ProcessLookupError):
            os.kill(int(child), signal.SIGKILL)
    return len(children.split())


class Kills:
    """Runs of dispatchers that are killed. Each request has to be served once, in its order, and none may be lost."""

    def __init__(self, folder: Path) -> None:
        self.folder = folder
        self.world = World(Document.load(sample("home.json")), seed=3, failing=0.02)
        self.server = Server(str(self.folder / "socket"), self.world)
        threading.Thread(target=self.server.serve_forever, daemon=True).start()

    def start(self, count: int) -> "subprocess.Popen[str]":
        words = [sample("home.json"), PROGRAM, str(self.folder), str(count)]
        return subprocess.Popen(
            [sys.executable, "-m", "client.world", *words],
            cwd=PYTHON / "tests",
            env={**os.environ, "PYTHONPATH": str(PYTHON / "src")},
            stderr=subprocess.PIPE,
            text=True,
        )

    def served(self) -> int:
        return len(self.world.played)

    def check(self, count: int) -> None:
        assert self.world.wrong == []
        cycle = ("brighten", "boil", "pour", "dim")
        expected = [cycle[number % 4] for number in range(count)]
        assert self.world.played == expected
        with Session(sample("home.json"), program=PROGRAM) as session:
            remote = Remote(str(self.folder / "socket"))
            devices = {name: remote for name in ("window", "ceiling", "kettle")}
            with Dispatcher(session, devices, store=self.folder / "journal") as dispatcher:
                assert dispatcher.served == count
                report = dispatcher.report()
        states = {service.name: service.state for service in report.services}
        assert states == self.world.states
        assert report.environment == self.world.environment

    def finish(self, running: "subprocess.Popen[str]") -> None:
        errors = running.communicate(timeout=600)[1]
        assert (running.returncode, errors) == (0, "")

    def kill_often(self, kills: int, chance: random.Random) -> tuple[int, list[int]]:
        """Kills the dispatcher so often, each time after some more requests and a moment. It gets more requests when it
        has served all. Returns the number of requests, and the number that was served at each kill."""
        count, reached = 150, []
        for _ in range(kills):
            running = self.start(count)
            goal = self.served() + chance.choice((0, 0, 1, 2, 5, 9))
            while self.served() < goal and running.poll() is None:
                time.sleep(0.0005)
            time.sleep(chance.random() * chance.choice((0.002, 0.02, 0.2)))
            running.kill()
            running.communicate()
            reached.append(self.served())
            if reached[-1] == count:
                count += 150
        return count, reached


@pytest.fixture
def kills() -> Iterator[Kills]:
    with tempfile.TemporaryDirectory() as folder:
        found = Kills(Path(folder))
        yield found
        found.server.shutdown()
        found.server.server_close()


def test_the_dispatcher(kills: Kills) -> None:
    count, reached = kills.kill_often(20, random.Random(11))
    assert len(set(reached)) > 8
    kills.finish(kills.start(count))
    kills.check(count)


def test_the_program(kills: Kills) -> None:
    """More than ten kills succeed, even if a busy machine allows few of them during so many requests."""
    chance = random.Random(12)
    killed = count = 0
    while killed <= 10:
        count += 300
        assert count < 30_000, f"killed only {killed} times"
        running = kills.start(count)
        while running.poll() is None:
            killed += kill_children(running.pid)
            goal = kills.served() + chance.choice((0, 1, 4, 30))
            while kills.served() < goal and running.poll() is None:
                time.sleep(0.0005)
            time.sleep(chance.random() * chance.choice((0.002, 0.02, 0.2)))
        kills.finish(running)
    kills.check(count)


def test_both(kills: Kills) -> None:
    chance = random.Random(13)
    for _ in range(6):
        running = kills.start(100)
        until = time.monotonic() + 0.5 + chance.random()
        while time.monotonic() < until and running.poll() is None:
            kill_children(running.pid)
            time.sleep(chance.random() * 0.2)
        running.kill()
        running.communicate()
    kills.finish(kills.start(100))
    kills.check(100)
