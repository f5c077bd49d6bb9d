"""The samples of devices: each serves a hundred requests, with failures of its simulated devices."""

from __future__ import annotations

import collections
import json
import os
import random
import re
import shutil
import subprocess
import sys
from collections.abc import Iterator
from pathlib import Path

import pytest
import tomllib

from roman_live.config import HomeFile
from roman_live.devices.maps import Map

from . import PROGRAM, TOP
from .machinery import PATIENCE, Live, Mosquitto, free_port, until

SAMPLES = TOP / "samples" / "live"
NAMES = sorted(each.parent.name for each in SAMPLES.glob("*/devices.toml"))
REQUESTS = 100
FAILURES = 0.08
SECONDS, LATE = 1.0, 1.6
"""The deadline of each device here, and the time after which a late one acts."""


def start_devices(file: Path, broker: int, *words: str) -> subprocess.Popen[bytes]:
    """Starts simulated devices."""
    devices = subprocess.Popen(
        [sys.executable, "-m", "simulators", str(file), "--broker", str(broker), "--pace", "0.05", "--hands", *words],
        env={**os.environ, "PYTHONPATH": str(SAMPLES)},
        stdin=subprocess.PIPE,
        stdout=subprocess.PIPE,
    )
    assert devices.stdout is not None and devices.stdout.readline() == b"ready\n"
    return devices


def end_devices(devices: subprocess.Popen[bytes]) -> None:
    """Ends simulated devices."""
    devices.terminate()
    devices.communicate(timeout=PATIENCE)


class Sample:
    """A sample with its broker, its devices and roman-live, on free ports and with short deadlines."""

    def __init__(self, name: str, folder: Path, failures: float = FAILURES) -> None:
        self.folder = folder / name
        shutil.copytree(SAMPLES / name, self.folder)
        self.log = folder / "devices.log"
        self.log.touch()
        ports: dict[str, str] = collections.defaultdict(lambda: str(free_port()))
        for file in self.folder.glob("*.toml"):
            text = re.sub(r"\b188\d\d\b", lambda found: ports[found[0]], file.read_text(encoding="utf-8"))
            text = re.sub(r"^seconds = .*", f"seconds = {SECONDS}", text, flags=re.M)
            file.write_text(re.sub(r"^poll = .*", "poll = 0.2", text, flags=re.M), encoding="utf-8")
        home = (self.folder / "home.toml").read_text(encoding="utf-8")
        broker = tomllib.loads(home).get("mqtt", {}).get("port")
        self.broker = Mosquitto(folder, port=broker) if broker is not None else None
        words = ("--failures", str(failures), "--late", str(LATE), "--log", str(self.log))
        self.devices = start_devices(self.folder / "devices.toml", broker or 0, *words)
        self.live = Live(self.folder, f'{home}\n[journal]\npath = "home.journal"\n')
        self.live.start()
        self.file = HomeFile.read(self.live.file)

    def press(self, device: str) -> None:
        """Moves a device by hand."""
        assert self.devices.stdin is not None
        self.devices.stdin.write(f"{device}\n".encode())
        self.devices.stdin.flush()

    def map_of(self, device: str) -> Map:
        """The map of a service, or of the environment."""
        entry = self.file.devices.get(device)
        if entry is not None:
            assert isinstance(entry.reach, Map)
            return entry.reach
        assert self.file.environment is not None
        return self.file.environment.map

    def moves(self) -> list[tuple[str, str, str]]:
        """The moves of the devices: each device with its state, and the cause of its move. A device that is moving has
        no state."""
        lines = [json.loads(line) for line in self.log.read_text(encoding="utf-8").splitlines()]
        found = []
        for line in lines:
            reading = self.map_of(line["device"]).states.read(line["message"])
            if reading is not None:
                assert reading.state is not None, line
                found.append((line["device"], reading.state, line["by"]))
        return found

    def agrees(self) -> bool:
        """Whether all services are ready, and have the states of their devices, as the environment has."""
        last = {device: state for device, state, _ in self.moves()}
        state = self.live.state()
        where = {each["name"]: each["state"] for each in state["services"]}
        where.update({name: state["environment"] for name in last if name not in where})
        ready = all(each["status"] == "ready" for each in state["services"])
        return ready and all(where[device] == state for device, state in last.items())

    def stop(self) -> None:
        """Ends all."""
        self.live.stop()
        end_devices(self.devices)
        if self.broker is not None:
            self.broker.stop()


@pytest.fixture(params=NAMES)
def sample(request: pytest.FixtureRequest, tmp_path: Path) -> Iterator[Sample]:
    """Each sample."""
    running = Sample(request.param, tmp_path)
    yield running
    running.stop()


def offered(sample: Sample, chance: random.Random) -> list[str]:
    """The actions that are offered now. If there are none, a person sometimes helps by hand: by a remedy, or by moving
    a service towards its first state."""
    state = sample.live.state()
    actions = [each["action"] for each in state["actions"] if each["offered"]]
    if not actions and chance.random() < 0.05:
        remedies = sample.live.get("/remedies")[1]["remedies"]
        moves = [each["changes"] for each in remedies if {change[0] for change in each["changes"]} == {"jump"}]
        away = [each["name"] for each in state["services"] if each["state"] != each["states"][0]]
        for each in [change[1] for change in moves[0]] if moves else away[:1]:
            sample.press(each)
    return actions


def test_a_hundred_requests_with_failures(sample: Sample) -> None:
    """Each state after a request is one that its device has reached, by a command or by hand. A device that fails at a
    command may be moved by hand to the state after the request, and then it has served the request."""
    chance = random.Random(49)
    devices = list(tomllib.loads((sample.folder / "devices.toml").read_text(encoding="utf-8")))
    served: dict[str, list[str]] = {device: [] for device in devices}
    requests = failures = 0
    while sum(map(len, served.values())) < REQUESTS or failures == 0:
        if requests % 20 == 10:
            sample.press(chance.choice(devices))
        requests += 1
        actions = until(lambda: offered(sample, chance), "an offer")
        status, answer = sample.live.post("/requests", {"action": chance.choice(actions)})
        assert status in (200, 409), answer
        failures += len(answer["failures"])
        if status == 200:
            served[answer["served_by"]].append(answer["state"])
    until(sample.agrees, "agreement of the home and the devices")
    moves = sample.moves()
    for device, states in served.items():
        come = iter([state for name, state, _ in moves if name == device])
        assert all(state in come for state in states), (device, states, moves)
    assert {by for _, _, by in moves} == {"command", "hand"}


@pytest.mark.parametrize("name", NAMES)
def test_the_home_file_is_right(name: str) -> None:
    done = subprocess.run(
        [str(TOP / "tools" / "roman-live"), "--check", str(SAMPLES / name / "home.toml")],
        env={**os.environ, "ROMAN": PROGRAM},
        capture_output=True,
        text=True,
        check=False,
    )
    assert (done.returncode, done.stderr) == (0, "")


def test_the_plug_of_the_guide(tmp_path: Path) -> None:
    """The ten lines with which the guide begins, with a simulated plug."""
    guide = (TOP / "docs" / "GUIDE.md").read_text(encoding="utf-8")
    home = re.search(r"^```toml\n(document.*?)^```$", guide[guide.index("### Your own plug") :], re.M | re.S)
    assert home is not None and len(home[1].splitlines()) == 10
    shutil.copy(TOP / "samples" / "lamp.json", tmp_path)
    broker = Mosquitto(tmp_path)
    devices = tmp_path / "devices.toml"
    devices.write_text('[l1]\nmake = "tasmota"\ntopic = "plug"\n', encoding="utf-8")
    plug = start_devices(devices, broker.port, "--failures", "0")
    live = Live(tmp_path, home[1].replace('"192.168.1.2"', f'"127.0.0.1", port = {broker.port}'))
    live.start()
    for action, state in (("on", "on"), ("off", "off")):
        status, answer = live.post("/requests", {"action": action})
        assert (status, answer["state"]) == (200, state), answer
    live.stop()
    end_devices(plug)
    broker.stop()
