"""Documents: reading and writing, look-ups, and other starting states."""

import json
import os
import random
import tempfile
from collections.abc import Callable
from pathlib import Path
from typing import Any

import pytest

import roman_client as roman
from roman_client import Document, DocumentError, Session
from roman_client.documents import LONGEST_DOCUMENT, holds, nesting

from . import PROGRAM, TOP, sample

SYSTEMS = ("home", "web", "depot", "workshop", "greenhouse", "garden", "two", "lamp", "flaky")


def json_of(name: str) -> Any:
    return json.loads(Path(sample(name)).read_text(encoding="utf-8"))


@pytest.mark.parametrize("name", SYSTEMS)
def test_each_sample(name: Any) -> None:
    document = Document.load(f"samples/{name}.json", TOP)
    with Session(f"samples/{name}.json", program=PROGRAM, folder=TOP) as session:
        report = session.opening
    assert document.services == report.services
    assert document.start == report.target
    assert document.environment.start == report.environment
    assert document.is_final(document.start) == report.final
    if report.composition:
        allowed = document.allowed(report.target, report.environment)
        assert allowed == tuple(report.offers)


def test_look_ups() -> None:
    home = Document.load(sample("home.json"))
    assert home.actions == ("brighten", "boil", "pour", "dim")
    assert home.environment.after("day", "boil") == ("day", "dusk")
    assert home.behaviours["blind"].final == {"shut", "ajar"}
    assert home.behaviours["blind"].after("shut", "dusk", "brighten") == ()
    assert list(home.outcomes("kettle", "empty", "day", "boil")) == [
        ("warm", "day"),
        ("warm", "dusk"),
        ("hot", "day"),
        ("hot", "dusk"),
    ]
    assert home.target_after("quiet", "day", "brighten") == "bright"
    assert home.target_after("quiet", "day", "boil") is None
    calls: list[Callable[[], object]] = [
        lambda: home.target_after("loud", "day", "boil"),
        lambda: home.target_after("quiet", "day", "fry"),
        lambda: home.delegated("fry"),
    ]
    for call in calls:
        with pytest.raises(DocumentError):
            call()


def test_several_targets() -> None:
    garden = Document.load(sample("garden.json"))
    assert garden.delegated("draw-beds") == "draw"
    assert garden.target_states("bright-watering") == ("bright", "watering")
    assert garden.target_after("bright-resting", "day", "draw-beds") == "bright-watering"
    assert garden.is_final("quiet-resting")
    assert not garden.is_final("quiet-watering")


@pytest.mark.parametrize(
    "guard, meant",
    [
        (True, "ab"),
        (False, ""),
        ([], ""),
        (["b"], "b"),
        ({"not": ["b"]}, "a"),
        ({"all": []}, "ab"),
        ({"any": []}, ""),
        ({"all": [["a", "b"], {"not": ["a"]}]}, "b"),
        ({"any": [["a"], ["b"]]}, "ab"),
    ],
)
def test_guards(guard: Any, meant: str) -> None:
    assert "".join(state for state in "ab" if holds(guard, state)) == meant


def test_part_files(tmp_path: Path) -> None:
    lamp = json_of("lamp.json")
    folder = tmp_path
    for member in ("environment", "target"):
        part = {**lamp[member], "file": "nothing of it"}
        (folder / f"{member}.json").write_text(json.dumps(part), encoding="utf-8")
        lamp[member] = {"file": f"{member}.json", "states": 0}
    (folder / "system.json").write_text(json.dumps(lamp), encoding="utf-8")
    document = Document.load("system.json", folder)
    assert document.actions == ("on", "off")
    copy = folder / "copy.json"
    document.write(copy)
    with Session(copy, program=PROGRAM) as session:
        assert session.opening.target == "off"
    os.unlink(folder / "target.json")
    with pytest.raises(DocumentError, match="target.json"):
        Document.load("system.json", folder)


def test_what_is_no_document(tmp_path: Path) -> None:
    texts = ["{", "[]", "{}", "NaN", "[" * 100_000, '{"roman": 1.0}', '{"roman": true}']
    lamp = json.dumps(json_of("lamp.json"))
    for right, wrong in (
        ('"roman": 1', '"roman": 4'),
        ('["off", true, "on", "on"]', '["off", true, "on"]'),
        ('["off", true, "on", "on"]', '["off", {"maybe": []}, "on", "on"]'),
        ('["off", true, "on", "on"]', '["off", 1, "on", "on"]'),
        ('["off", true, "on", "on"]', "3"),
        ('["e", "on", "e"]', '["e", "on"]'),
        ('"behaviour": "lamp"', '"behaviour": "lump"'),
        ('"behaviour": "lamp"', '"behaviour": "lamp", "frozen": null'),
        ('"name": "l1"', '"name": 1'),
        ('"start": "off"', '"begin": "off"'),
        ('"final": ["off"]', '"final": {}'),
        ('"states": ["e"]', '"states": "e"'),
    ):
        assert right in lamp
        texts.append(lamp.replace(right, wrong, 1))
    path = tmp_path / "bad.json"
    for text in texts:
        path.write_text(text, encoding="utf-8")
        with pytest.raises(DocumentError, match="bad.json"):
            Document.load(path)
    with pytest.raises(DocumentError, match="gone.json"):
        Document.load("/nowhere/gone.json")


def test_a_part_that_is_as_deep_as_may_be(tmp_path: Path) -> None:
    """In the document it is nested deeper than a file may be, so it is written to a file again."""
    system = json.loads(Path(sample("lamp.json")).read_text(encoding="utf-8"))
    (part,) = system["behaviours"]
    file = tmp_path / "part.json"
    (tmp_path / "lamp.json").write_text(json.dumps({**system, "behaviours": [{"file": str(file)}]}), encoding="utf-8")
    file.write_text(json.dumps({**part, "deep": json.loads("[" * 126 + "]" * 126)}), encoding="utf-8")
    Document.load(tmp_path / "lamp.json").write(tmp_path / "again.json")
    with Session(tmp_path / "again.json", program=PROGRAM, timeout=60) as session:
        assert session.opening.composition
    file.write_text(json.dumps({**part, "deep": json.loads("[" * 127 + "]" * 127)}), encoding="utf-8")
    with pytest.raises(DocumentError, match="more than 127"):
        Document.load(tmp_path / "lamp.json")


def test_nesting() -> None:
    assert nesting({"a": [[], {"b": [3]}]}) == 4
    guard: Any = True
    for _ in range(125):
        guard = {"not": guard}
    lamp = json_of("lamp.json")
    lamp["behaviours"][0]["steps"][0][1] = guard
    with pytest.raises(DocumentError):
        Document(lamp)


def test_a_document_with_the_states_of_a_report() -> None:
    """The program's first report on it is the same report, byte for byte, after any events."""
    chance = random.Random(5)
    for name in SYSTEMS:
        with Session(f"samples/{name}.json", program=PROGRAM, folder=TOP, timeout=60) as session:
            document = Document.load(f"samples/{name}.json", TOP)
            for _ in range(6):
                happens(session, document, chance)
                is_the_same(document, session.report())


def is_the_same(document: Document, report: roman.Report) -> None:
    with tempfile.TemporaryDirectory() as folder:
        path = Path(folder) / "system.json"
        moved = document.with_states(report)
        moved.write(path)
        with Session(path, program=PROGRAM) as session:
            assert session.opening == report
        assert moved.has_same_machines(document)


def test_a_loose_service_in_version_1() -> None:
    with Session(sample("lamp.json"), program=PROGRAM) as session:
        session.join("l2", "lamp", "on", loose=True)
        document = Document.load(sample("lamp.json")).with_states(session.report())
    assert document.version == 2
    assert document.services[1] == roman.Service("l2", "lamp", "on", False, True)


def test_what_else_stands_there_is_kept() -> None:
    lamp = json_of("lamp.json")
    lamp["services"][0].update(room="hall", state="off", frozen=True)
    lamp["about"] = "a lamp"
    document = Document(lamp)
    with Session(sample("lamp.json"), program=PROGRAM) as session:
        moved = document.with_states(session.report()).value
    assert moved["about"] == "a lamp"
    assert moved["services"] == [{"name": "l1", "behaviour": "lamp", "state": "off", "room": "hall"}]


def test_a_document_that_is_too_long_for_one_file() -> None:
    for name in ("home.json", "garden.json"):
        value = json_of(name)
        value["behaviours"][0]["about"] = "x" * 600_000
        value["environment"]["about"] = "x" * 600_000
        with tempfile.TemporaryDirectory() as folder:
            path = Path(folder) / "long.json"
            Document(value).write(path)
            files = sorted(Path(folder).iterdir())
            assert len(files) > 3
            assert all(file.stat().st_size <= LONGEST_DOCUMENT for file in files)
            with Session(path, program=PROGRAM) as session:
                assert session.opening.composition
            assert Document.load(path).value == Document(value).value
            value["environment"]["about"] *= 2
            with pytest.raises(DocumentError):
                Document(value).write(path)


def test_other_machines() -> None:
    value = json_of("home.json")
    value["target"]["start"], value["environment"]["start"] = "bright", "dusk"
    value["services"][0]["state"] = "ajar"
    home = Document.load(sample("home.json"))
    assert home.has_same_machines(Document(value))
    value["target"]["steps"].pop()
    assert not home.has_same_machines(Document(value))
    value = json_of("home.json")
    value["behaviours"][0]["final"] = ["shut"]
    assert not home.has_same_machines(Document(value))


def test_a_document_is_not_written_in_part(tmp_path: Path) -> None:
    with pytest.raises(OSError):
        Document.load(sample("lamp.json")).write(tmp_path / "no" / "folder.json")


def happens(session: Session, document: Document, chance: random.Random) -> None:
    """Changes the states at random: by a request, a change or a jump."""
    report = session.report()
    services = report.services
    kind = chance.randrange(6)
    behaviour = chance.choice(sorted(document.behaviours))
    state = chance.choice(document.behaviours[behaviour].states)
    names: list[str] = [service.name for service in services]
    if kind == 0 and len(names) < 6:
        fresh = f"s{session.changes}"
        session.join(fresh, behaviour, state, loose=chance.random() < 0.5)
    elif kind == 1 and len(names) > 2:
        session.die(chance.choice(names))
    elif kind == 2 and names:
        service = chance.choice(services)
        (session.thaw if service.frozen else session.freeze)(service.name)
    elif kind == 3 and names:
        service = chance.choice(services)
        states = document.behaviours[service.behaviour].states
        session.jump(service.name, chance.choice(states))
    elif kind == 4:
        session.jumpenv(chance.choice(document.environment.states))
    elif report.offers:
        action = chance.choice(list(report.offers))
        serving = chance.choice(session.do(action).services)
        session.use(serving)
        (service,) = (each for each in services if each.name == serving)
        outcomes = document.outcomes(service.behaviour, service.state, report.environment, action)
        session.saw(*chance.choice(list(outcomes)))
