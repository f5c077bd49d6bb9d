"""Compares the schemas with the program's refusals."""

import copy
import json
import subprocess
from collections.abc import Callable, Iterator
from pathlib import Path
from typing import Any

import pytest
from jsonschema import Draft202012Validator

from . import PROGRAM, TOP

Edit = Callable[[Any], Any]
Case = tuple[str, Edit]

NO_TEXT: list[Any] = [None, 5, True, ["a"], {}]
NO_LIST: list[Any] = [None, 5, "a", {}]
NO_NAME = ["", "a b", "é", "x" * 33, "a\n", "a.b"]


def schema(name: str) -> Draft202012Validator:
    """A schema of the repository, which is checked to be one."""
    value = json.loads((TOP / "schema" / name).read_text(encoding="utf-8"))
    Draft202012Validator.check_schema(value)
    return Draft202012Validator(value)


SYSTEM = schema("system.schema.json")
COSTS = schema("costs.schema.json")


def load(sample: str) -> Any:
    return json.loads((TOP / "samples" / f"{sample}.json").read_text(encoding="utf-8"))


def set_at(*path: Any) -> Edit:
    """An edit that sets the value at the place that the other words name."""
    *way, last, value = path

    def edit(document: Any) -> Any:
        at = document
        for step in way:
            at = at[step]
        if value is MISSING:
            del at[last]
        else:
            at[last] = value
        return document

    return edit


MISSING = object()


def states_of(states: list[str]) -> Edit:
    """An edit that gives both targets these states, and a step from the first to itself."""

    def edit(document: Any) -> Any:
        for target in document["targets"]:
            loop = [states[0], True, "on", states[0]]
            target.update(states=states, start=states[0], final=[], steps=[loop])
        return document

    return edit


def with_actions(document: Any, actions: list[str], loops: list[Any]) -> Any:
    """The document with these actions of the environment, and these steps of both targets."""
    document["environment"]["actions"] = actions
    document["environment"]["steps"] = []
    for behaviour in document["behaviours"]:
        behaviour["steps"] = []
    for target in document["targets"]:
        target["steps"] = loops
    return document


def names(kind: str, part: str, way: tuple[Any, ...], member: str, most: int) -> Iterator[Case]:
    """The refusals of a list of names."""
    place = f"{part} {member}"
    yield f"missing {place} 0", set_at(*way, member, MISSING)
    for value in NO_LIST:
        yield f"form {place} 0", set_at(*way, member, value)
    for value in ([], [f"n{i}" for i in range(most + 1)]):
        yield f"count {place} 0", set_at(*way, member, value)
    for value in NO_TEXT:
        yield f"form {place} 1", set_at(*way, member, ["a", value])
    for value in NO_NAME:
        yield f"badname {place} 1", set_at(*way, member, ["a", value])


def text(part: str, way: tuple[Any, ...], member: str, bad: list[str]) -> Iterator[Case]:
    """The refusals of a member that is a name."""
    yield f"missing {part} {member} 0", set_at(*way, member, MISSING)
    for value in NO_TEXT:
        yield f"form {part} {member} 0", set_at(*way, member, value)
    for value in bad:
        yield f"badname {part} {member} 0", set_at(*way, member, value)


def steps(part: str, way: tuple[Any, ...], step: list[Any]) -> Iterator[Case]:
    """The refusals of a list of steps. `step` is a right one."""
    place = f"{part} steps"
    yield f"missing {place} 0", set_at(*way, "steps", MISSING)
    for value in NO_LIST:
        yield f"form {place} 0", set_at(*way, "steps", value)
    yield f"count {place} 0", set_at(*way, "steps", [step] * 16385)
    for item in (None, 5, "a", {}, [], step[:-1], step + ["a"]):
        yield f"form {place} 1", set_at(*way, "steps", [step, item])
    for index, value in enumerate(step):
        if not isinstance(value, bool):
            for wrong in NO_TEXT:
                item = step[:index] + [wrong] + step[index + 1 :]
                yield f"form {place} 1", set_at(*way, "steps", [step, item])
    if len(step) == 4:
        for guard in guards():
            item = [step[0], guard, *step[2:]]
            yield f"form {place} 1", set_at(*way, "steps", [step, item])


def guards() -> Iterator[Any]:
    """Values that aren't guards."""
    flat: list[Any] = [None, 5, "day", {}, {"day": True}, {"not": True, "all": []}]
    flat += [[5], [["day"]], [None], {"all": True}, {"any": {"not": True}}, {"any": ["day"]}]
    for guard in flat:
        yield guard
        yield {"not": guard}
        yield {"all": [True, guard]}
        yield {"any": [["day"], {"not": guard}]}


def whole(part: str, way: tuple[Any, ...], missing: bool) -> Iterator[Case]:
    """The refusals of a part as a whole, and of a part in a file."""
    *before, last = way
    if missing:
        yield f"missing {part} whole 0", set_at(*way, MISSING)
    for value in (None, 5, "a", [], True):
        yield f"form {part} whole 0", set_at(*before, last, value)
    if not part.startswith("service"):
        for value in NO_TEXT:
            yield f"form {part} file 0", set_at(*way, "file", value)
        for value in ("", "x" * 256):
            yield f"badname {part} file 0", set_at(*way, "file", value)


def system() -> Iterator[Case]:
    """The refusals of the members of the document itself."""
    for value in (None, 5, "a", []):
        yield "form system 0 whole 0", lambda _, value=value: value
    yield "missing system 0 roman 0", set_at("roman", MISSING)
    for value in (None, "1", [], True, 1.5, -1):
        yield "form system 0 roman 0", set_at("roman", value)
    yield "version system 0 roman 0", set_at("roman", 9)
    for value in (None, "8", [], False, 0.5, -1):
        yield "form system 0 limit 0", set_at("limit", value)
    for value in (0, 16777217):
        yield "count system 0 limit 0", set_at("limit", value)
    for member in ("behaviours", "services"):
        yield f"missing system 0 {member} 0", set_at(member, MISSING)
        for value in NO_LIST:
            yield f"form system 0 {member} 0", set_at(member, value)
        items = [{"name": f"n{i}", "behaviour": "blind"} for i in range(33)]
        yield f"count system 0 {member} 0", set_at(member, items)


def machine(part: str, way: tuple[Any, ...], step: list[Any], missing: bool) -> Iterator[Case]:
    """The refusals of a behaviour or a target."""
    yield from whole(part, way, missing)
    yield from names("states", part, way, "states", 64)
    yield from text(part, way, "start", [])
    yield f"missing {part} final 0", set_at(*way, "final", MISSING)
    for value in NO_LIST:
        yield f"form {part} final 0", set_at(*way, "final", value)
    for value in NO_TEXT:
        yield f"form {part} final 1", set_at(*way, "final", [step[0], value])
    yield from steps(part, way, step)


def refusals() -> Iterator[Case]:
    """Each kind of refusal that the schema can find, at each place, in the home."""
    yield from system()
    yield from whole("environment 0", ("environment",), True)
    yield from names("states", "environment 0", ("environment",), "states", 64)
    yield from text("environment 0", ("environment",), "start", [])
    yield from names("actions", "environment 0", ("environment",), "actions", 32)
    yield from steps("environment 0", ("environment",), ["day", "boil", "dusk"])
    lamp = ["off", True, "brighten", "on"]
    yield from text("behaviour 1", ("behaviours", 1), "name", NO_NAME)
    yield from machine("behaviour 1", ("behaviours", 1), lamp, False)
    yield from whole("service 2", ("services", 2), False)
    yield from text("service 2", ("services", 2), "name", NO_NAME)
    yield from text("service 2", ("services", 2), "behaviour", [])
    for value in NO_TEXT:
        yield "form service 2 state 0", set_at("services", 2, "state", value)
    for member in ("frozen", "rests"):
        for value in (None, 0, "true", []):
            yield f"form service 2 {member} 0", set_at("services", 2, member, value)
    quiet = ["quiet", True, "brighten", "bright"]
    yield from machine("target 0", ("target",), quiet, True)


def named(name: Any) -> Any:
    """A target with that name."""
    return {"name": name, "states": ["a"], "start": "a", "final": [], "steps": []}


def several() -> Iterator[Case]:
    """The refusals of several targets, in the two lamps."""
    yield "missing system 0 targets 0", set_at("targets", MISSING)
    for value in NO_LIST:
        yield "form system 0 targets 0", set_at("targets", value)
    for count in (0, 1, 5):
        items = [named(f"t{number}") for number in range(count)]
        yield "count system 0 targets 0", set_at("targets", items)
    yield from text("target 1", ("targets", 1), "name", NO_NAME)
    yield from machine("target 1", ("targets", 1), ["off", True, "on", "on"], False)


def accepted() -> Iterator[Edit]:
    """Documents that are barely accepted."""
    for place in ((), ("environment",), ("behaviours", 0), ("services", 0), ("target",)):
        yield set_at(*place, "note", {"file": 5})
    yield set_at("$schema", "../schema/system.schema.json")
    yield set_at("target", "name", 5)
    yield set_at("targets", 5)
    yield set_at("services", 0, "file", 5)
    yield set_at("services", 0, "state", "ajar")
    yield set_at("services", 0, "frozen", True)
    yield set_at("services", 0, "rests", False)
    yield set_at("services", [])
    yield lambda _: {**load("home"), "services": [], "behaviours": []}
    yield set_at("limit", 1)
    yield set_at("limit", 16777216)
    yield set_at("target", "final", ["quiet", "quiet"])
    yield set_at("behaviours", 0, "final", [])
    yield set_at("behaviours", 0, "steps", [])
    yield set_at("environment", "steps", [["day", "boil", "dusk"]] * 16384)
    for guard in (False, [], ["day", "day"], {"all": []}, {"any": []}, {"not": {"any": [["day"]]}}):
        yield set_at("target", "steps", [["quiet", guard, "brighten", "bright"]])


def ask(folder: Path, document: Any) -> tuple[int, str]:
    """The program's status for a document, and its line if it refuses the document. Otherwise it has to write a report,
    or that the system exceeds its limit."""
    (folder / "s.json").write_text(json.dumps(document), encoding="utf-8")
    done = subprocess.run(
        [PROGRAM, "synth", "s.json"],
        cwd=folder,
        capture_output=True,
        text=True,
        timeout=400,
        check=False,
    )
    first = {0: "pairs ", 1: "pairs ", 3: "refused ", 4: "limit "}.get(done.returncode, "no such status")
    assert done.stdout.startswith(first), (done.returncode, done.stdout)
    return done.returncode, done.stdout if done.returncode == 3 else ""


def test_samples_are_valid() -> None:
    files = sorted((TOP / "samples").glob("*.json"))
    parts = {"environment", "behaviour", "target"}
    for file in files:
        value = json.loads(file.read_text(encoding="utf-8"))
        kind = file.name.split(".")[1]
        if "roman" in value:
            assert list(SYSTEM.iter_errors(value)) == []
        elif kind in parts:
            assert part_of(kind).is_valid(value)
        else:
            pytest.fail("it is no system, and its name says no part")
    assert len(files) > 5


def test_what_the_program_refuses_the_schema_refuses(tmp_path: Path) -> None:
    home = load("home")
    for expected, edit in refusals():
        version = 2 if " rests " in expected else 1
        document = edit({**copy.deepcopy(home), "roman": version})
        assert ask(tmp_path, document) == (3, f"refused s.json {expected}\n")
        assert not SYSTEM.is_valid(document), document


def test_several_targets(tmp_path: Path) -> None:
    lamps = set_at("environment", "states", ["e", "day"])(load("two"))
    for expected, edit in several():
        document = edit(copy.deepcopy(lamps))
        assert ask(tmp_path, document) == (3, f"refused s.json {expected}\n")
        assert not SYSTEM.is_valid(document), document
    for edit in (set_at("target", 5), set_at("targets", 0, "note", None)):
        document = edit(copy.deepcopy(load("two")))
        assert ask(tmp_path, document)[0] == 0
        assert SYSTEM.is_valid(document)


def test_what_only_the_program_tells_of_several_targets(tmp_path: Path) -> None:
    actions = [f"a{number}" for number in range(17)]
    loops = [["off", True, action, "on"] for action in actions]
    long = [f"{'x' * 20}{number}" for number in range(2)]
    for line, edit in (
        ("repeated target 1 name 0", lambda d: set_at("targets", 1, "final", [])(set_at("targets", 1, "name", "a")(d))),
        ("count system 0 targets 1", states_of([f"s{number}" for number in range(9)])),
        ("count system 0 targets 2", lambda d: with_actions(d, actions, loops)),
        ("badname system 0 targets 3", states_of(long)),
        ("repeated system 0 targets 4", states_of(["x", "x-x"])),
    ):
        document = edit(copy.deepcopy(load("two")))
        assert ask(tmp_path, document) == (3, f"refused s.json {line}\n")
        assert SYSTEM.is_valid(document)


def test_what_the_program_accepts_the_schema_accepts(tmp_path: Path) -> None:
    for number, edit in enumerate(accepted()):
        document = edit(copy.deepcopy(load("home")))
        assert ask(tmp_path, document)[0] != 3
        assert [each.message for each in SYSTEM.iter_errors(document)] == []
    document = {**load("home"), "roman": 1}
    document["services"][0]["rests"] = 1
    assert ask(tmp_path, document)[0] != 3
    assert SYSTEM.is_valid(document)


def test_what_only_the_program_tells(tmp_path: Path) -> None:
    again = {"name": "lamp", "states": ["x"], "start": "x", "final": [], "steps": []}
    either = [["quiet", True, "boil", "quiet"], ["quiet", ["day"], "boil", "bright"]]
    for line, edit in (
        ("unknown environment 0 start 0", set_at("environment", "start", "night")),
        ("unknown service 0 behaviour 0", set_at("services", 0, "behaviour", "blinds")),
        ("unknown target 0 steps 0", set_at("target", "steps", 0, 1, ["night"])),
        ("repeated behaviour 2 name 0", set_at("behaviours", 2, again)),
        ("choice target 0 steps 1 0 day", set_at("target", "steps", either)),
        ("form system 0 roman 0", set_at("roman", 1.0)),
    ):
        document = edit(copy.deepcopy(load("home")))
        assert ask(tmp_path, document) == (3, f"refused s.json {line}\n")
        assert SYSTEM.is_valid(document)


def test_repeated_names_in_one_list(tmp_path: Path) -> None:
    document = set_at("environment", "states", ["day", "dusk", "day"])(load("home"))
    assert ask(tmp_path, document)[1] == "refused s.json repeated environment 0 states 2\n"
    assert not SYSTEM.is_valid(document)


def test_parts_by_file(tmp_path: Path) -> None:
    document = load("home")
    lamp, document["behaviours"][1] = document["behaviours"][1], {"file": "lamp.json"}
    (tmp_path / "lamp.json").write_text(json.dumps(lamp), encoding="utf-8")
    assert ask(tmp_path, document)[0] == 0
    assert SYSTEM.is_valid(document)
    assert part_of("behaviour").is_valid(lamp)
    assert not part_of("behaviour").is_valid({"file": "lamp.json"})


def test_each_member_is_described() -> None:
    for name in ("system.schema.json", "costs.schema.json", "home.schema.json"):
        value = json.loads((TOP / "schema" / name).read_text(encoding="utf-8"))
        assert list(undescribed(value, name)) == []


def test_what_is_a_table_of_costs() -> None:
    for value in ([], [["lamp", "on", 3]], [["a", "b", 0], ["a", "c", 1000000]]):
        assert COSTS.is_valid(value)


def test_what_is_none() -> None:
    for item in (None, 5, [], ["lamp", "on"], ["lamp", "on", 3, 3], ["lamp", 3, "on"]):
        assert not COSTS.is_valid([item])
    for cost in (None, "3", -1, 1.5, 1000001, True):
        assert not COSTS.is_valid([["lamp", "on", cost]])
    assert not COSTS.is_valid({})
    assert not COSTS.is_valid([["lamp", f"a{i}", 1] for i in range(1025)])
    assert not COSTS.is_valid([["lamp", "on", 3], ["lamp", "on", 3]])


def part_of(name: str) -> Draft202012Validator:
    """The schema of a part in a file of its own."""
    return Draft202012Validator({**SYSTEM.schema, **{"$ref": f"#/$defs/{name}"}, **NO_DOCUMENT})


NO_DOCUMENT = {"required": [], "properties": {}, "allOf": [], "type": "object"}


def undescribed(value: Any, where: str) -> Iterator[str]:
    """The members that have no description."""
    for name, member in value.get("properties", {}).items():
        if isinstance(member, bool):
            continue  # It forbids a member in some cases, and describes none.
        if "description" not in member:
            yield f"{where} {name}"
        yield from undescribed(member, f"{where} {name}")
    for word in ("items", "then", "else"):
        if isinstance(value.get(word), dict):
            yield from undescribed(value[word], where)
    for name, member in {**value.get("$defs", {}), **value.get("definitions", {})}.items():
        yield from undescribed(member, f"{where} {name}")


def test_they_are_those_of_the_repository() -> None:
    copies = sorted((TOP / "samples").glob("**/schema/*.json"))
    assert {file.name for file in copies} == {file.name for file in (TOP / "schema").glob("*.json")}
    # The package of the tools has a copy, which pip and ./install install.
    for file in [*copies, TOP / "python" / "src" / "roman_tools" / "short.schema.json"]:
        assert file.read_bytes() == (TOP / "schema" / file.name).read_bytes()
