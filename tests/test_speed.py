"""The cost of the program on large systems: its instructions, which valgrind counts over all processes of a run, and
its memory. tests/speed.json has the last figures, with digests of the outputs. `python3 -m tests.speed` measures
that table again, and `docs/DESIGN.md` explains the figures.

A figure may grow by a tenth. A figure below seven tenths of the last one is an unrecorded gain. It fails, too, so that
the gain can't be lost unnoticed.
"""

import hashlib
import itertools
import json
import os
import random
import re
import subprocess
from concurrent.futures import ThreadPoolExecutor
from dataclasses import dataclass
from pathlib import Path
from typing import Any

import pytest

from . import PROGRAM, TOP

pytestmark = pytest.mark.alone

TABLE = TOP / "tests" / "speed.json"
LIMIT = 16_777_216
MOST, LEAST = 1.1, 0.7
"""A figure's bounds, as shares of the last figure."""
SLACK = 1.0
"""The additional megabytes by which a figure of memory may differ: pages of the C library and of the system vary."""
MEASURED = {
    "workers": ["synth", "certify", "check", "run", "shortest", "resilience"],
    "lamps": ["synth", "certify", "check", "run", "shortest", "talk"],
    "cycle": ["synth", "shortest"],
    "random": ["synth"],
    "wide": ["synth"],
    "guards": ["synth"],
}
"""The commands that are measured on each system; `talk` is `run` with many requests."""
if "ROMAN_MEASURED" in os.environ:
    # Only one system and one command: the tests of the tests need no more.
    MEASURED = {os.environ["ROMAN_MEASURED"].split()[0]: os.environ["ROMAN_MEASURED"].split()[1:]}
RELATED = {"workers": 12287, "lamps": 19, "cycle": 0}
"""The number of related pairs of each system: (N + 2) 2^N - 1 for N workers, and N + 1 for N lamps."""


def system(
    states: list[str],
    actions: list[str],
    steps: list[list[object]],
    behaviours: list[dict[str, object]],
    services: list[tuple[str, str]],
    target: dict[str, object],
) -> dict[str, object]:
    return {
        "roman": 1,
        "limit": LIMIT,
        "environment": {"states": states, "start": states[0], "actions": actions, "steps": steps},
        "behaviours": behaviours,
        "services": [{"name": name, "behaviour": behaviour} for name, behaviour in services],
        "target": target,
    }


def workers() -> dict[str, object]:
    """Ten workers that wear out and are mended."""
    actions = ["start", "stop", "mend", "hold", "go"]
    steps = [
        ("idle", "start", "busy"),
        ("busy", "stop", "idle"),
        ("busy", "stop", "worn"),
        ("busy", "hold", "busy"),
        ("busy", "go", "busy"),
        ("worn", "mend", "idle"),
        ("idle", "mend", "idle"),
    ]
    asked = [
        ("rest", "start", "work"),
        ("work", "stop", "tidy"),
        ("tidy", "mend", "rest"),
        ("work", "hold", "pause"),
        ("pause", "go", "work"),
    ]
    worker = {
        "name": "worker",
        "states": ["idle", "busy", "worn"],
        "start": "idle",
        "final": ["idle", "worn"],
        "steps": [[b, True, a, c] for b, a, c in steps],
    }
    target = {
        "states": ["rest", "work", "tidy", "pause"],
        "start": "rest",
        "final": ["rest"],
        "steps": [[b, True, a, c] for b, a, c in asked],
    }
    return system(
        ["floor"],
        actions,
        [["floor", a, "floor"] for a in actions],
        [worker],
        [(f"w{i}", "worker") for i in range(1, 11)],
        target,
    )


def lamps() -> dict[str, object]:
    """Eighteen lamps, and a target that is a lamp."""
    machine = {
        "states": ["off", "on"],
        "start": "off",
        "final": ["off"],
        "steps": [["off", True, "on", "on"], ["on", True, "off", "off"]],
    }
    return system(
        ["e"],
        ["on", "off"],
        [["e", "on", "e"], ["e", "off", "e"]],
        [{"name": "lamp", **machine}],
        [(f"l{i}", "lamp") for i in range(1, 19)],
        machine,
    )


def cycle() -> dict[str, object]:
    """One refutation through all pairs, one pair at nearly each of its depths."""
    worlds, wants, states = ([f"{c}{i}" for i in range(n)] for c, n in (("e", 64), ("t", 63), ("s", 61)))
    wheel = {
        "name": "wheel",
        "states": states,
        "start": "s0",
        "final": states,
        "steps": [[states[i], {"not": ["e63"]} if i == 60 else True, "go", states[(i + 1) % 61]] for i in range(61)],
    }
    idle = {"name": "idle", "states": ["o"], "start": "o", "final": ["o"], "steps": []}
    target = {
        "states": wants,
        "start": "t0",
        "final": [],
        "steps": [[wants[i], True, "go", wants[(i + 1) % 63]] for i in range(63)],
    }
    return system(
        worlds,
        ["go"],
        [[worlds[i], "go", worlds[(i + 1) % 64]] for i in range(64)],
        [wheel, idle],
        [("c", "wheel"), ("d", "idle")],
        target,
    )


@dataclass(frozen=True)
class Drawn:
    """The parameters of a random system: its numbers of states and actions, the sizes of its services, and shares."""

    seed: int
    wants: int
    worlds: int
    acts: int
    sizes: tuple[int, ...]
    kinds: int
    served: float
    doubled: float = 0.25
    guarded: float = 0.25
    final: float = 0.85


def drawn(of: Drawn) -> dict[str, object]:
    """A random system. Each service has one of `kinds` behaviours of its size."""
    rng = random.Random(of.seed)
    envs, actions, wants = (
        [f"{c}{i}" for i in range(n)] for c, n in (("e", of.worlds), ("a", of.acts), ("t", of.wants))
    )

    def guard() -> object:
        if rng.random() >= of.guarded:
            return True
        some = sorted(rng.sample(envs, rng.randint(1, of.worlds)))
        return some if rng.random() < 0.5 else {"not": some[:-1]}

    def machine(name: str, size: int) -> dict[str, object]:
        states = [f"s{i}" for i in range(size)]
        steps: list[list[object]] = []
        for state, action in itertools.product(states, actions):
            if rng.random() < of.served:
                when = guard()
                steps.append([state, when, action, rng.choice(states)])
                if rng.random() < of.doubled:
                    steps.append([state, when, action, rng.choice(states)])
        final = [state for state in states if state == "s0" or rng.random() < of.final]
        return {"name": name, "states": states, "start": "s0", "final": final, "steps": steps}

    steps: list[list[object]] = [[e, a, rng.choice(envs)] for e in envs for a in actions]
    steps += [[e, a, rng.choice(envs)] for e in envs for a in actions if rng.random() < of.doubled]
    behaviours = [machine(f"b{size}_{j}", size) for size in sorted(set(of.sizes)) for j in range(of.kinds)]
    services = [(f"w{i}", f"b{size}_{rng.randrange(of.kinds)}") for i, size in enumerate(of.sizes, 1)]
    asked = [[t, guard(), a, rng.choice(wants)] for t in wants for a in rng.sample(actions, 2)]
    final = [t for t in wants if rng.random() < 0.3]
    target: dict[str, object] = {"states": wants, "start": "t0", "final": final, "steps": asked}
    return {**system(envs, actions, steps, behaviours, services, target), "roman": 2}


DRAWN = {
    "random": Drawn(4, 4, 5, 6, (4, 3, 5, 4, 3, 5), 2, 0.8, doubled=0.2, final=0.95),
    "wide": Drawn(21, 3, 2, 4, (2, 2, 2, 2, 3, 2, 2, 2, 3, 2, 2, 2, 2, 3), 4, 0.5),
    "guards": Drawn(44, 5, 40, 12, (5, 6, 5, 6), 2, 0.75, guarded=0.4),
}
"""Random systems: one in which few rows are left to examine, one with many services, and one with many guards."""


def session(names: list[str], behaviour: str, state: str, action: str) -> str:
    """Freezes, thaws, deaths and joins of the first, the middle and the last service, each with a request."""
    asked = [f"do {action}", "abort"]
    lines = ["report"]
    some = (names[0], names[len(names) // 2], names[-1])
    for name in some:
        lines += [f"freeze {name}", *asked, f"thaw {name}", *asked]
    for name in some:
        lines += [f"die {name}", *asked, f"join {name} {behaviour} {state}", *asked]
    first, last = names[0], names[-1]
    lines += [f"freeze {first}", f"freeze {last}", f"thaw {first}", f"thaw {last}", "report"]
    return "\n".join(lines) + "\n"


@dataclass(frozen=True)
class Ended:
    """The end of a measured run."""

    status: int
    text: bytes
    figure: float


class Bench:
    """The systems in files of a folder, and the runs on them."""

    def __init__(self, folder: Path) -> None:
        self.folder = folder
        self.peak = folder / "peak"
        subprocess.run(["cc", "-O1", "-o", self.peak, Path(__file__).with_name("peak.c")], check=True)
        systems = {"workers": workers(), "lamps": lamps(), "cycle": cycle()}
        for name, made in [*systems.items(), *((name, drawn(of)) for name, of in DRAWN.items())]:
            (folder / f"{name}.json").write_text(json.dumps(made, separators=(",", ":")), encoding="utf-8")
        for name in ("workers", "lamps"):
            (folder / f"{name}.cert").write_bytes(self.run([], [PROGRAM, "certify", f"{name}.json"]).text)
        (folder / "workers.session").write_text(
            session([f"w{i}" for i in range(1, 11)], "worker", "idle", "start"), encoding="utf-8"
        )
        (folder / "lamps.session").write_text(
            session([f"l{i}" for i in range(1, 19)], "lamp", "off", "on"), encoding="utf-8"
        )
        (folder / "lamps.talk").write_text(
            "do on\nuse l1\nsaw on e\ndo off\nuse l1\nsaw off e\n" * 2000, encoding="utf-8"
        )

    def run(self, by: list[str], words: list[str], found: str = "") -> Ended:
        """A run under a program that measures it. The figures are on the standard error."""
        done = subprocess.run(
            [*by, *words], cwd=self.folder, stdin=subprocess.DEVNULL, capture_output=True, timeout=400, check=False
        )
        figures = re.findall(found, done.stderr.decode()) if found else []
        if found and not figures:
            raise AssertionError(done.stderr.decode())
        return Ended(done.returncode, done.stdout, sum(map(float, figures)))

    def words(self, name: str, command: str) -> list[str]:
        more = {"check": [f"{name}.cert"], "run": [f"{name}.session"], "talk": [f"{name}.talk"]}
        return [PROGRAM, "run" if command == "talk" else command, f"{name}.json", *more.get(command, [])]

    def millions(self, name: str, command: str) -> Ended:
        """Millions of instructions of the run and of all its processes."""
        by = ["valgrind", "--tool=callgrind", "--callgrind-out-file=/dev/null", "--trace-children=yes"]
        ended = self.run(by, self.words(name, command), r"Collected : (\d+)")
        return Ended(ended.status, ended.text, ended.figure / 1e6)

    def megabytes(self, name: str, command: str) -> Ended:
        ended = self.run([str(self.peak)], self.words(name, command), r"(?m)^(\d+)$")
        return Ended(ended.status, ended.text, ended.figure / 1024)


def plain(text: bytes) -> bytes:
    """An output without the parts in which right programs may differ: the number of pairs that follow from before, and
    the order of a certificate."""
    if text.startswith(b"roman-order"):
        return b"%d lines" % text.count(b"\n")
    return re.sub(rb"kept (\d+) added (\d+)", lambda found: b"lost %d" % (int(found[1]) + int(found[2])), text)


def digest(text: bytes) -> str:
    return hashlib.sha256(plain(text)).hexdigest()[:16]


Table = dict[str, dict[str, dict[str, Any]]]
"""The figures by system and command."""


def measured(folder: Path) -> Table:
    """The table of figures, with the status and the output of each run."""
    bench = Bench(folder)
    runs = [(name, command) for name, commands in MEASURED.items() for command in commands]
    with ThreadPoolExecutor(4) as pool:
        counted = list(pool.map(lambda each: bench.millions(*each), runs))
        peaks = list(pool.map(lambda each: bench.megabytes(*each), runs))
    table: Table = {name: {} for name in MEASURED}
    for (name, command), count, peak in zip(runs, counted, peaks):
        if (count.status, count.text) != (peak.status, peak.text):
            raise AssertionError(f"two runs of {command} on {name} differ")
        table[name][command] = {
            "millions": round(count.figure, 1),
            "megabytes": round(peak.figure, 1),
            "status": count.status,
            "output": digest(count.text),
        }
    return table


REACHED: Table = json.loads(TABLE.read_text(encoding="utf-8"))
FIGURES = [
    pytest.param(name, command, id=f"{name} {command}") for name, commands in MEASURED.items() for command in commands
]


@pytest.fixture(scope="module")
def folder(tmp_path_factory: pytest.TempPathFactory) -> Path:
    """The folder with the files that are measured."""
    return tmp_path_factory.mktemp("speed")


@pytest.fixture(scope="module")
def table(folder: Path) -> Table:
    return measured(folder)


def test_each_figure_is_measured() -> None:
    measured_now = {name: sorted(commands) for name, commands in MEASURED.items()}
    assert {name: sorted(commands) for name, commands in REACHED.items()} == measured_now


def test_what_is_measured_is_right(table: Table, folder: Path) -> None:
    """The certificates that are checked are right, and each run has the recorded status and output."""
    for name, related in RELATED.items():
        report = subprocess.run([PROGRAM, "synth", f"{name}.json"], cwd=folder, capture_output=True, check=False)
        assert f"\nrelated {related}\n" in report.stdout.decode()
    for name in ("workers", "lamps"):
        words = [PROGRAM, "check", f"{name}.json", f"{name}.cert"]
        done = subprocess.run(words, cwd=folder, capture_output=True, check=False)
        assert done.stdout.decode() == f"greatest {RELATED[name]}\nanswer composition\n"


@pytest.mark.parametrize("name, command", FIGURES)
def test_it_ends_as_it_did(name: str, command: str, table: Table) -> None:
    now, reached = table[name][command], REACHED[name][command]
    assert (now["status"], now["output"]) == (reached["status"], reached["output"])


def bounded(now: float, reached: float, room: float = 0) -> None:
    assert now < reached * MOST + room
    assert now > reached * LEAST - room, "a gain: write it down by tests/speed.py"


@pytest.mark.parametrize("name, command", FIGURES)
def test_instructions(name: str, command: str, table: Table) -> None:
    bounded(table[name][command]["millions"], REACHED[name][command]["millions"])


@pytest.mark.parametrize("name, command", FIGURES)
def test_memory(name: str, command: str, table: Table) -> None:
    bounded(table[name][command]["megabytes"], REACHED[name][command]["megabytes"], SLACK)
