"""Hypothesis strategies for runs of the program: valid and invalid documents, sessions with changes, and edited
certificates."""

from __future__ import annotations

import copy
import functools
import json
import subprocess
import tempfile
from collections.abc import Sequence
from dataclasses import dataclass
from pathlib import Path
from typing import Any, TypeVar

from hypothesis import assume
from hypothesis import strategies as st

from . import PROGRAM, reference

Item = TypeVar("Item")

MOST_PAIRS = 600
"""The maximum number of pairs of the systems here. A few have twice as many."""
SYSTEM, SESSION, CERTIFICATE, COSTS = "s.json", "s.session", "s.cert", "s.costs"


@dataclass(frozen=True)
class Case:
    """A run: the arguments, the files, and the standard input."""

    words: list[str]
    shelf: dict[str, bytes]
    session: bytes = b""

    def fault(self) -> str | None:
        """The difference of the program's run from the reference, None if there is none."""
        with tempfile.TemporaryDirectory() as folder:
            for name, text in self.shelf.items():
                (Path(folder) / name).write_bytes(text)
            words = [PROGRAM, *self.words]
            done = subprocess.run(words, cwd=folder, input=self.session, capture_output=True, timeout=400, check=False)
        return reference.run_fault(self.words, self.shelf, self.session, done.returncode, done.stdout)

    def text(self) -> str:
        """The case as a file of the corpus. Each letter is a byte."""
        shelf = {name: text.decode("latin-1") for name, text in self.shelf.items()}
        value = {"words": self.words, "shelf": shelf, "session": self.session.decode("latin-1")}
        return json.dumps(value, indent=1) + "\n"

    @staticmethod
    def read(text: str) -> Case:
        value = json.loads(text)
        shelf = {name: text.encode("latin-1") for name, text in value["shelf"].items()}
        return Case(value["words"], shelf, value["session"].encode("latin-1"))


def often(draw: st.DrawFn, percent: int) -> bool:
    """True in `percent` of a hundred draws. Hypothesis shrinks it to False."""
    return draw(st.integers(0, 99)) >= 100 - percent


def one(draw: st.DrawFn, items: Sequence[Item]) -> Item:
    """One of some items. Hypothesis shrinks it to the first one."""
    return items[draw(st.integers(0, len(items) - 1))]


def some(draw: st.DrawFn, items: Sequence[Item], percent: int) -> list[Item]:
    return [each for each in items if often(draw, percent)]


# Documents.

ODD: list[Any] = [None, True, False, 0, 1, 2, 3, 4, -1, 1.0, 0.5, 1 << 24, (1 << 24) + 1, (1 << 64) - 1, 1 << 64]
ODD += ["", "a", "é", "a b", "\u0000", "x" * 32, "x" * 33, [], {}, [[]], [None], ["a"], {"not": True}, {"all": []}]
ODD += [{"file": name} for name in ("gone.json", 1, "", "x" * 255, "x" * 256, SYSTEM)]
ODD += [{"any": []}, {"any": {}}, {"not": True, "all": []}, {"all": [False, {"not": [5]}]}]


@functools.cache
def guards(states: tuple[str, ...]) -> st.SearchStrategy[Any]:
    listed = st.lists(st.sampled_from(states), unique=True)

    def joined(inner: st.SearchStrategy[Any]) -> st.SearchStrategy[Any]:
        several = st.lists(inner, max_size=3)
        return st.one_of(
            *(
                st.fixed_dictionaries({word: each})
                for word, each in (("not", inner), ("all", several), ("any", several))
            )
        )

    return st.just(True) | listed | st.recursive(st.booleans() | listed, joined, max_leaves=5)


def names(draw: st.DrawFn, letter: str, counts: Sequence[int]) -> list[str]:
    found = [f"{letter}{number}" for number in range(one(draw, counts))]
    if often(draw, 20):
        found[-1] = one(draw, ["final", "-", "_", f"{letter}-", letter * 32, "0", "report", "end"])
    return found


def steps(draw: st.DrawFn, states: list[str], world: Any, guarded: bool = True) -> list[Any]:
    """Steps from each state with most actions, some to several states."""
    counts = one(draw, [[1], [1, 1, 2], [0, 1, 1, 2]])
    met = guards(tuple(world["states"]))
    return [
        [state, *([draw(met)] if guarded else []), action, one(draw, states)]
        for state in states
        for action in world["actions"]
        for _ in range(one(draw, counts))
    ]


def environment(draw: st.DrawFn) -> dict[str, Any]:
    world: dict[str, Any] = {
        "states": names(draw, "e", [1, 1, 2, 2, 3, 4]),
        "actions": names(draw, "a", [1, 2, 2, 3, 4]),
    }
    return {**world, "start": one(draw, world["states"]), "steps": steps(draw, world["states"], world, guarded=False)}


def behaviour(draw: st.DrawFn, name: str, world: Any, counts: Sequence[int]) -> dict[str, Any]:
    states = names(draw, "b", counts)
    final = some(draw, states, one(draw, [100, 70, 30]))
    return {
        "name": name,
        "states": states,
        "start": one(draw, states),
        "final": final,
        "steps": steps(draw, states, world),
    }


def target(draw: st.DrawFn, world: Any, most: int, like: Any) -> dict[str, Any]:
    """A target: a new one, or a behaviour with one of its answers to each request."""
    states = like["states"] if like else names(draw, "t", range(1, most + 1))
    found: list[Any] = []
    for state in states:
        for action in world["actions"]:
            ways = [step[3] for step in like["steps"] if (step[0], step[2]) == (state, action)] if like else states
            if not ways or not often(draw, 90 if like else 50):
                continue
            if often(draw, 30):
                found += [[state, [met], action, one(draw, ways)] for met in world["states"]]
            else:
                found.append([state, draw(guards(tuple(world["states"]))), action, one(draw, ways)])
    final = like["final"] if like else some(draw, states, one(draw, [0, 30, 70]))
    return {"states": states, "start": like["start"] if like else one(draw, states), "final": final, "steps": found}


def services(draw: st.DrawFn, kinds: Sequence[Any], room: float) -> list[dict[str, Any]]:
    """Services of these kinds, as many as the maximum number of pairs allows."""
    found: list[dict[str, Any]] = []
    for kind in kinds:
        room /= len(kind["states"])
        if room < 1:
            break
        state = {"state": one(draw, kind["states"])} if often(draw, 30) else {}
        flags = {flag: often(draw, 50) for flag in ("frozen", "rests") if often(draw, 30)}
        found.append({"name": f"s{len(found)}", "behaviour": kind["name"], **state, **flags})
    return found


@st.composite
def systems(draw: st.DrawFn) -> Any:
    """A document that the program accepts. Sometimes it has so many services that only the last of them share a row of
    up to 64 pairs. Sometimes it has three services so large that one makes a row, the next a band of rows, and the
    first is before the bands."""
    shape = one(draw, ["few", "few", "many", "large"])
    world = environment(draw)
    sizes = {"few": [2, 3, 4], "many": [2, 2, 3], "large": [8]}[shape]
    catalogue = [
        behaviour(draw, f"m{number}", world, sizes)
        for number in range(2 if shape == "large" else one(draw, [1, 2, 2, 3]))
    ]
    version = one(draw, [1, 2, 2, 2, 3])
    value: dict[str, Any] = {"roman": version, "environment": world, "behaviours": catalogue}
    like = one(draw, catalogue) if shape != "large" and often(draw, 70) else None
    if version < 3:
        value["target"] = target(draw, world, 2 if shape == "large" else 4, like)
    else:
        machines = [target(draw, world, 2, like if number == 0 else None) for number in range(one(draw, [2, 2, 3]))]
        value["targets"] = [{"name": f"t{number}", **machine} for number, machine in enumerate(machines)]
    count = {"few": one(draw, [0, 1, 2, 2, 3, 3, 4]), "many": 7, "large": 3}[shape]
    kinds = [catalogue[number % 2] if shape == "large" else one(draw, catalogue) for number in range(count)]
    value["services"] = []
    library = read(value)
    parts = len(library.target.states) * len(library.world.states)
    value["services"] = services(draw, kinds, (2 if shape == "large" else 1) * MOST_PAIRS / parts)
    # Most have a composition from the start, so that more of the program runs.
    library = read(value)
    system = reference.System(library, library.services)
    assume(reference.start_of(library) in system.related or often(draw, 30))
    # A limit, which is often met exactly, now or by a service that joins.
    cells = system.count * len(library.world.actions)
    room = cells * len(one(draw, catalogue)["states"])
    limit = one(draw, [None, None, None, cells, room, room - 1, 3 * cells, 4 * cells, 1 << 24, cells - 1])
    return {**value, "limit": limit} if limit else value


def read(value: Any) -> reference.Library:
    """Reads a document. If it breaks a rule, another one is drawn."""
    try:
        return reference.read_library({SYSTEM: json.dumps(value).encode()}, SYSTEM)
    except reference.Refused:
        assume(False)
        raise


def text(draw: st.DrawFn, value: Any, space: str = "", depth: int = 0) -> str:
    """The value as a text of JSON. Its members have any order. Some are repeated, and some are unknown."""
    inside = space if depth < 3 else ""
    if isinstance(value, dict):
        items = [f"{json.dumps(name)}{inside}:{text(draw, each, space, depth + 1)}" for name, each in value.items()]
        if depth < 3 and not {"not", "all", "any"} & value.keys():
            if often(draw, 40):
                items = draw(st.permutations(items))
            if often(draw, 10):
                items.insert(0, f"{json.dumps(one(draw, ['note', *value]))}:{json.dumps(one(draw, ODD))}")
        return f"{{{inside}{f',{inside}'.join(items)}{inside}}}"
    if isinstance(value, list):
        return f"[{inside}{f',{inside}'.join(text(draw, each, space, depth + 1) for each in value)}{inside}]"
    if isinstance(value, str) and value and depth < 4 and often(draw, 5):
        return f'"\\u{ord(value[0]):04x}{json.dumps(value[1:])[1:]}'
    return json.dumps(value)


def shelf_of(draw: st.DrawFn, value: Any) -> dict[str, bytes]:
    """The files of a document, with some of its parts in files of their own."""
    value, shelf = copy.copy(value), {}
    space = one(draw, ["", "", " ", "\n", "\t\r\n "])
    if isinstance(value, dict) and often(draw, 25):
        places: list[Any] = [(value, key) for key in ("environment", "target") if key in value]
        for member in ("behaviours", "targets"):
            if isinstance(value.get(member), list):
                value[member] = list(value[member])
                places += [(value[member], index) for index in range(len(value[member]))]
        for number, (holder, key) in enumerate(some(draw, places, 50)):
            name = one(draw, [f"p{number}.json", f"é{number}", f"{number} b"])
            shelf[name] = text(draw, holder[key], space).encode()
            holder[key] = {"file": name}
    shelf[SYSTEM] = text(draw, value, space).encode()
    return shelf


# Edits.


def place(draw: st.DrawFn, value: Any) -> tuple[Any, Any]:
    """A list or an object in a value, with an index or a name. It is drawn from the top down, because most of all
    values are in long lists of steps."""
    key = one(draw, list(value) if isinstance(value, dict) else range(len(value)))
    inner = value[key]
    return place(draw, inner) if isinstance(inner, (dict, list)) and inner and often(draw, 75) else (value, key)


def edited(draw: st.DrawFn, value: Any) -> Any:
    """A value with one edit."""
    value = copy.deepcopy(value)
    holder, key = place(draw, value)
    edit = one(draw, ["odd", "delete", "insert", "copy", "repeat", "more"])
    if edit == "delete":
        del holder[key]
    elif edit == "insert" and isinstance(holder, list):
        holder.insert(draw(st.integers(0, len(holder))), copy.deepcopy(one(draw, holder)))
    elif edit == "copy":
        other, name = place(draw, value)
        holder[key] = copy.deepcopy(other[name])
    elif edit == "repeat" and isinstance(holder[key], list):
        holder[key] = holder[key] * one(draw, [2, 33, 65])
    elif edit == "more" and key in ("states", "actions"):
        holder[key] = [*holder[key], *(f"n{number}" for number in range(one(draw, [30, 32, 61, 64])))]
    else:
        holder[key] = copy.deepcopy(one(draw, ODD))
    return value


def edited_text(draw: st.DrawFn, given: bytes) -> bytes:
    """A text in which one byte is removed, replaced or inserted."""
    at = draw(st.integers(0, len(given)))
    byte = bytes([one(draw, [*b'{}[]",:0123456789.eE+-tfnu\\/ \n\r\t\0', 128, 195, 237, 255])])
    tail = given[at + 1 :]
    return given[:at] + one(draw, [tail, byte + tail, byte + given[at:], b""])


def edited_certificate(draw: st.DrawFn, given: bytes) -> bytes:
    """A certificate with one edit, usually of an entry."""
    lines = given.split(b"\n")
    places = range(2, len(lines) - 2) if len(lines) > 4 and often(draw, 80) else range(len(lines))
    at, other = one(draw, places), one(draw, places)
    edit = draw(st.integers(0, 11))
    if edit in (0, 10):
        del lines[at]
    elif edit in (1, 11):
        lines[at], lines[other] = lines[other], lines[at]
    elif edit == 2:
        lines.insert(at, lines[other])
    elif edit == 3:
        lines[at] = lines[at].rpartition(b" ")[0] + one(draw, [b" f", b" 0", b" 1", b" 31", b" 01", b"", b"  f"])
    elif edit == 4:
        lines[at] = one(draw, [b"0", b"00", b"1", b"7", b"9" * 20, b""]) + b" " + lines[at].rpartition(b" ")[2]
    elif edit == 5:
        lines.insert(at, one(draw, [b"", b"end", b"0 f", b"1 0", b"pairs 1"]))
    elif edit == 6:
        lines[at] += one(draw, [b"\r", b" ", b"0", b"\0"])
    elif edit == 7:
        return given.rstrip(b"\n") + one(draw, [b"", b"\n\n", b"\nend\n", b"\r\n"])
    else:
        return edited_text(draw, given)
    return b"\n".join(lines)


# Sessions and costs.


def costs(draw: st.DrawFn, library: reference.Library) -> bytes:
    pairs = [(kind.name, action) for kind in library.catalogue for action in library.world.actions]
    items = [
        [*pair, one(draw, [0, 1, 1, 2, 3, 50, 1_000_000])] for pair in some(draw, draw(st.permutations(pairs)), 70)
    ]
    return text(draw, edited(draw, items) if items and often(draw, 30) else items).encode()


def session(draw: st.DrawFn, library: reference.Library) -> bytes:
    """Lines that are mostly accepted: they use offered services, and report possible outcomes."""
    situation = reference.Session(library)
    lines: list[bytes] = []
    joined = 0
    counts = st.integers(1, 60 if situation.system.count < 200 else 25)
    for _ in range(max(draw(counts), draw(counts))):
        line = next_line(draw, situation, joined)
        if not grows_too_large(situation, line):
            joined += line.startswith("join")
            lines.append(spaced(draw, line))
            situation.tell(lines[-1])
    return b"\n".join(lines) + (b"" if often(draw, 30) else b"\n")


def next_line(draw: st.DrawFn, situation: reference.Session, joined: int) -> str:
    system, library = situation.system, situation.library
    if often(draw, 10):
        return odd_line(draw, situation)
    if situation.action is not None and often(draw, 90):
        if situation.delegate is None:
            seats = range(len(system.services)) if often(draw, 20) else system.offers(situation.pair, situation.action)
            return f"use {system.services[one(draw, seats)].name}"
        if often(draw, 10):
            kind = system.services[situation.delegate].machine
            return f"saw {one(draw, kind.states)} {one(draw, library.world.states)}"
        kind = system.services[situation.delegate].machine
        to = one(draw, system.outcomes(situation.pair, situation.action, situation.delegate))
        return f"saw {kind.states[to[2 + situation.delegate]]} {library.world.states[to[1]]}"
    allowed = system.allowed(situation.pair)
    kind_of_line = one(draw, ["do", "do", "do", "do", "report", "explain", "change", "change", "change"])
    if kind_of_line == "do" and allowed:
        return f"do {library.world.actions[one(draw, allowed)]}"
    return kind_of_line if kind_of_line in ("report", "explain") else change(draw, situation, joined)


def change(draw: st.DrawFn, situation: reference.Session, joined: int) -> str:
    system, library = situation.system, situation.library
    event = one(draw, ["freeze", "thaw", "die", "join", "join", "jump", "jumpenv"])
    if event == "jumpenv" or not system.services and event != "join":
        return f"jumpenv {one(draw, library.world.states)}"
    if event == "join":
        kind = one(draw, library.catalogue)
        name = system.services[0].name if system.services and often(draw, 10) else f"j{joined}"
        line = f"join {name} {kind.name} {one(draw, kind.states)}{one(draw, ['', '', ' loose'])}"
        if not grows_too_large(situation, line) or not system.services:
            return line
        event = "die"
    service = one(draw, system.services)
    if event in ("freeze", "thaw"):
        event = "thaw" if service.frozen != often(draw, 10) else "freeze"
    return f"{event} {service.name}" + (f" {one(draw, service.machine.states)}" if event == "jump" else "")


def odd_line(draw: st.DrawFn, situation: reference.Session) -> str:
    """A line that is usually refused, or has no reply."""
    library, kind = situation.library, situation.library.catalogue[0]
    words = [*(each.name for each in situation.system.services), *library.world.states, *library.world.actions]
    words += [*(each.name for each in library.catalogue), *kind.states, "loose", "x", "?", "é", "#"]
    event = one(draw, [*reference.SHAPES, *reference.SHAPES, "#", "do#", "QUIT", ""])
    if event == "quit" and not often(draw, 20):
        event = "abort"
    count = reference.SHAPES.get(event, 1) + one(draw, [0, 0, 0, 0, 1, -1])
    if event == "join" and often(draw, 50):
        return f"join {one(draw, words)} {kind.name} {kind.states[0]}"
    return " ".join([event, *(one(draw, words) for _ in range(count))])


def spaced(draw: st.DrawFn, line: str) -> bytes:
    """The line with other blanks between and around its words, with a carriage return, or with far too many blanks."""
    if not often(draw, 15):
        return line.encode()
    space = one(draw, [" ", "\t", "  ", " \t "])
    line = space + line.replace(" ", space) + one(draw, ["", " ", "\r", "\r\r"])
    if often(draw, 13):
        line = line.ljust(one(draw, [255, 256, 257]))
        line = line[:-1] + "\r" if often(draw, 50) else line
    return line.encode()


def pairs_of(library: reference.Library) -> int:
    pairs = len(library.target.states) * len(library.world.states)
    for service in library.services:
        pairs *= len(service.machine.states)
    return pairs


def grows_too_large(situation: reference.Session, line: str) -> bool:
    """Whether a service joins by a line, and the system then exceeds the maximum number of pairs."""
    words = line.split()
    kinds = {each.name: each for each in situation.library.catalogue}
    if words[:1] != ["join"] or len(words) < 4 or words[2] not in kinds:
        return False
    pairs = situation.system.count * len(kinds[words[2]].states)
    return pairs > MOST_PAIRS and pairs * len(situation.library.world.actions) <= situation.library.limit


# Cases.

KINDS = ("synth", "check", "advise", "run", "broken")


@st.composite
def cases(draw: st.DrawFn, value: Any, kind: str) -> Case:
    """A run of one kind with a document."""
    if kind == "broken":
        return broken(draw, value)
    shelf = shelf_of(draw, value)
    library = reference.read_library(shelf, SYSTEM)
    if kind == "run":
        return running(draw, shelf, library)
    words = [one(draw, ["synth", "certify", "shortest", "resilience"]), SYSTEM]
    try:
        system = reference.System(library, library.services)
    except reference.OverLimit:
        return Case(words, shelf)
    if kind == "check":
        certificate = reference.certificate(system, lambda items: one(draw, items))
        certificate = edited_certificate(draw, certificate) if often(draw, 75) else certificate
        return Case(["check", SYSTEM, CERTIFICATE], {**shelf, CERTIFICATE: certificate})
    if kind == "advise":
        count = draw(st.integers(1, 9))
        return Case(["advise", SYSTEM, COSTS, str(count)], {**shelf, COSTS: costs(draw, library)})
    assume(words[0] != "resilience" or system.count * len(library.services) ** 2 < 2 * MOST_PAIRS)
    return Case(words, shelf)


def running(draw: st.DrawFn, shelf: dict[str, bytes], library: reference.Library) -> Case:
    """A session, from the standard input or from a file."""
    try:
        lines = session(draw, library)
    except reference.OverLimit:
        lines = b"report\n"
    if often(draw, 30):
        return Case(["run", SYSTEM, SESSION], {**shelf, SESSION: lines})
    return Case(["run", SYSTEM], shelf, lines)


def broken(draw: st.DrawFn, value: Any) -> Case:
    """A document with one edit, of a value or of the text."""
    shelf = shelf_of(draw, edited(draw, value) if often(draw, 60) else value)
    if often(draw, 40):
        file = one(draw, sorted(shelf))
        shelf[file] = edited_text(draw, shelf[file])
    try:
        assume(pairs_of(reference.read_library(shelf, SYSTEM)) <= 2 * MOST_PAIRS)
    except (reference.Refused, reference.Absent):
        pass
    return Case([one(draw, ["synth", "certify", "shortest", "run"]), SYSTEM], shelf)
