"""Remedies, compared with documents that are edited by hand."""

import asyncio
import copy
import itertools
import json
import random
import subprocess
from pathlib import Path
from typing import Any

import pytest

import roman_client as roman
from roman_client import Document, Remedy, Report, Session, aio, protocol
from roman_client.remedies import changes, first_of_each, free_name

from . import PROGRAM, sample

Value = dict[str, Any]


def edited(value: Value, words: tuple[str, ...]) -> Value:
    """The document after a change, which is made in its JSON."""
    value = copy.deepcopy(value)
    word, first, *rest = words
    service: Value = next((each for each in value["services"] if each["name"] == first), {})
    if word == "thaw":
        service["frozen"] = False
    elif word == "jumpenv":
        value["environment"]["start"] = first
    elif word == "jump":
        service["state"] = rest[0]
    elif word == "die":
        value["services"].remove(service)
    else:
        value["roman"] = max(value["roman"], 2)
        joined = {"name": first, "behaviour": rest[0], "state": rest[1], "rests": len(rest) == 2}
        value["services"].append(joined)
    return value


def composes(folder: Path, value: Value) -> bool:
    """Whether `synth` finds a composition."""
    (folder / "edited.json").write_text(json.dumps(value), encoding="utf-8")
    done = subprocess.run([PROGRAM, "synth", "edited.json"], cwd=folder, capture_output=True, check=False)
    assert done.returncode in (0, 1), done.stdout
    return done.returncode == 0


def expected(folder: Path, document: Document, report: Report) -> set[tuple[str, ...]]:
    """The lines of the single changes that help."""
    value = document.with_states(report).value
    lines = [change.words for change in changes(document, report)]
    return {words for words in lines if composes(folder, edited(value, words))}


def after(name: str, *lines: str) -> tuple[Document, Report]:
    """A sample, and its states after these lines."""
    with Session(sample(name), program=PROGRAM, timeout=60) as session:
        for line in lines:
            session.tell(protocol.event_of(line.split()))
        return Document.load(sample(name)), session.report()


def lines_of(remedies: tuple[Remedy, ...]) -> list[tuple[str, ...]]:
    return [remedy.lines for remedy in remedies]


def test_what_is_frozen_comes_first() -> None:
    found = roman.mend(*after("home.json", "freeze kettle"), program=PROGRAM)
    assert lines_of(found) == [("thaw kettle",), ("join kettle2 kettle empty",)]
    assert [str(each) for each in found] == ["kettle is back", "another kettle joins, empty"]


def test_all_changes_are_tried_and_no_others_help(tmp_path: Path) -> None:
    chance = random.Random(49)
    helped: set[str] = set()
    starts: list[tuple[str, tuple[str, ...]]] = [
        ("home.json", ("die ceiling", "jumpenv dusk")),
        ("workshop.json", ("jumpenv spilt", "jump arm1 worn")),
    ]
    for name in ("home.json", "workshop.json", "depot.json", "two.json"):
        document, report = after(name)
        for _ in range(12):
            change = chance.choice([each for each in changes(document, report) if each.words[0] != "die"])
            frozen = (f"freeze {each.name}" for each in report.services if chance.random() < 0.5)
            starts.append((name, (" ".join(change.words), *frozen)))
    lost = 0
    for name, lines in starts:
        present = after(name, *lines)
        if present[1].composition:
            continue
        lost += 1
        found = roman.mend(*present, program=PROGRAM)
        assert {remedy.changes[0].words for remedy in found} == expected(tmp_path, *present)
        assert [each.cost for each in found] == sorted(each.cost for each in found)
        helped.update(remedy.changes[0].words[0] for remedy in found)
    assert lost > 10
    assert helped == {"thaw", "jumpenv", "jump", "join", "die"}


def test_pairs_only_if_no_single_change_helps(tmp_path: Path) -> None:
    present = after("home.json", "freeze kettle", "freeze window", "freeze ceiling")
    assert roman.mend(*present, program=PROGRAM) == ()
    found = {remedy.changes for remedy in roman.mend(*present, program=PROGRAM, two=True)}
    value = present[0].with_states(present[1]).value
    tried = 0
    for first, second in itertools.combinations(changes(*present), 2):
        if first.subject != second.subject:
            tried += 1
            helps = composes(tmp_path, edited(edited(value, first.words), second.words))
            assert ((first, second) in found) == helps, (first, second)
    assert tried > 100 and lines_of(roman.mend(*present, program=PROGRAM, two=True))[0] == (
        "thaw window",
        "thaw kettle",
    )
    one = after("home.json", "freeze kettle")
    assert roman.mend(*one, program=PROGRAM, two=True) == roman.mend(*one, program=PROGRAM)


def test_one_service_is_thawed_and_moved_by_a_pair() -> None:
    present = after("home.json", "jump kettle hot", "freeze kettle")
    lines = lines_of(roman.mend(*present, program=PROGRAM, two=True))
    assert ("thaw kettle", "jump kettle empty") in lines


def test_two_services_of_one_behaviour_join_under_two_names() -> None:
    present = after("two.json", "die l1", "die l2")
    assert ("join lamp2 lamp off", "join lamp3 lamp off") in lines_of(roman.mend(*present, program=PROGRAM, two=True))


def test_nothing_is_to_mend() -> None:
    assert roman.mend(*after("home.json"), program="no program") == ()


def test_a_service_joins_loose_if_all_of_its_behaviour_are() -> None:
    found = roman.mend(*after("depot.json", "die belt"), program=PROGRAM)
    assert ("join belt2 belt still loose",) in lines_of(found)


def test_a_change_beyond_a_limit_does_not_help(tmp_path: Path) -> None:
    document, report = after("home.json", "freeze kettle")
    small = Document({**document.value, "limit": 576})
    assert lines_of(roman.mend(small, report, program=PROGRAM)) == [("thaw kettle",)]


def test_a_free_name_has_at_most_32_letters() -> None:
    behaviour = "b" * 32
    first = free_name(behaviour, ())
    assert first == "b" * 31 + "2" and free_name(behaviour, [first]) == "b" * 31 + "3"


def test_first_of_each_shows_each_kind_of_change() -> None:
    found = roman.mend(
        *after("home.json", "freeze kettle", "freeze window", "freeze ceiling"), program=PROGRAM, two=True
    )
    shown = first_of_each(found, 5)
    assert len(shown) == 5 and shown[:2] == list(found[:2])
    assert not any("blind2 blind ajar" in line for remedy in shown for line in remedy.lines)


def test_the_same_for_asyncio() -> None:
    cases: list[list[str]] = [["freeze kettle"], ["freeze kettle", "freeze window", "freeze ceiling"], []]
    for lines in cases:
        present = after("home.json", *lines)
        for two in (False, True):
            found = asyncio.run(aio.mend(*present, program=PROGRAM, two=two))
            assert found == roman.mend(*present, program=PROGRAM, two=two)


@pytest.mark.parametrize("word", ["thaw", "die"])
def test_the_second_session_is_as_before_after_each_try(word: str) -> None:
    present = after("home.json", "freeze kettle", "freeze window")
    with Session.resume(roman.Snapshot(present[0].with_states(present[1])), program=PROGRAM) as session:
        before = session.report()
        for change in changes(*present):
            if change.words[0] == word:
                session.run(roman.remedies.helps(session.core, Remedy((change,))))
        now = session.report()
        assert (set(now.services), now.related, now.environment) == (set(before.services), before.related, "day")
