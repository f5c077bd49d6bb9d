"""The findings of roman-lint in the states that a target reaches, and their consequences."""

import json
from pathlib import Path

import pytest

from roman_client import Document
from roman_tools import cautions
from roman_tools.lint import lint
from roman_tools.walk import Walk

from . import TOP
from .shell import CELL, edited, system, tool

# Consequences of a cause.


def test_consequences_are_shown_on_demand(folder: Path) -> None:
    Path("cell.json").write_text(
        edited(CELL, ('"place", "when": "held"', '"place", "when": "bench"')), encoding="utf-8"
    )
    few, all_of_it = (tool("roman-lint", "cell.json", "--no-program", *more).stdout for more in ((), ("--all",)))
    assert (few.count("warning: "), all_of_it.count("warning: ")) == (1, 4)
    assert "\n0 errors, 4 warnings\n" in few
    found = json.loads(tool("roman-lint", "cell.json", "--no-program", "--json").stdout)["findings"]
    assert [each["follows"] for each in found] == [False, True, True, True]


def test_an_error_that_comes_again_is_shown_once(folder: Path) -> None:
    home = (TOP / "samples" / "home.json").read_text(encoding="utf-8")
    Path("home.json").write_text(edited(home, ('["day", "dusk"]', '["day", "dsuk"]')), encoding="utf-8")
    out = tool("roman-lint", "home.json", "--no-program").stdout
    message = '"dusk" is no state of the environment; did you mean "dsuk"?'
    assert (out.count(message), f"{message} (and 8 more like it)" in out) == (1, True)
    assert tool("roman-lint", "home.json", "--no-program", "--all").stdout.count(message) == 9


# The walk through the target's states.


WALKS: dict[str, tuple[str, list[str]]] = {
    "no step leaves a state": (
        system('{"steps": [["s", "a", "t"], ["t", "b", "u"]]}'),
        [
            'the target can go no further in "u", and isn\'t final there: no step leaves it; the way there: a, b',
        ],
    ),
    "a final state that the environment keeps away": (
        system(
            '{"steps": [["s", "a", "t"], ["t", "f", "b", "u"], ["t", "c", "s"]], "final": ["s", "u"]}',
            '"states": ["e", "f"], "steps": [{"on": ["a", "b", "c"]}, {"on": "d", "from": "f", "to": "e"}],'
            ' "actions": ["a", "b", "c", "d"]',
        ),
        ['the target never comes into "u", which is final: the environment allows no way there'],
    ),
    "no way back to a final state": (
        system('{"steps": [["s", "a", "t"], ["t", "b", "u"], ["u", "c", "t"]]}'),
        ['from "t" the target comes into no final state any more, if the environment is in "e"; the way there: a'],
    ),
}


@pytest.mark.parametrize("walk", WALKS)
def test_the_walk(walk: str, folder: Path) -> None:
    text, messages = WALKS[walk]
    Path("s.json").write_text(text, encoding="utf-8")
    found = [each.message for each in lint("s.json")]
    assert [
        each for each in found if each.startswith(("the target can", "the target never comes", "from "))
    ] == messages


def test_a_target_that_never_rests_is_no_mistake(folder: Path) -> None:
    Path("s.json").write_text(system('{"steps": [["s", "a", "s"]], "final": []}'), encoding="utf-8")
    assert not [each for each in lint("s.json") if "further" in each.message or "final" in each.message]


def test_one_target_of_several_is_stuck(folder: Path) -> None:
    machine = '{"name": "u", "steps": [["s", "a", "t"]]}, {"name": "v", "steps": [["s", "b", "t"], ["t", "c", "s"]]}'
    text = system("0").replace('"target": 0', f'"targets": [{machine}]')
    Path("s.json").write_text(text, encoding="utf-8")
    messages = [each.message for each in lint("s.json")]
    assert (
        'from "t" target "u" comes into no final state any more, if the environment is in "e"; the way there: a-u'
        in messages
    )


# Guards that are intended to be false.


@pytest.mark.parametrize("value", ["false", '"false"'])
def test_a_parameter_that_is_false_on_purpose(value: str, folder: Path) -> None:
    Path("cell.json").write_text(edited(CELL, ('"screws": false', f'"screws": {value}')), encoding="utf-8")
    assert lint("cell.json") == []


def test_a_state_of_a_behaviour_that_nothing_leaves(folder: Path) -> None:
    """Its name is that of another state without a letter."""
    text = edited(
        CELL, ('"rolling", "stop", "still"', '"rolling", "stop", "stil"'), ('"limit": 500000', '"limit": 700000')
    )
    Path("cell.json").write_text(text, encoding="utf-8")
    message = 'no step of behaviour "conveyor" leaves "stil", which isn\'t final; did you mean "still"?'
    assert [each.message for each in lint("cell.json")] == [message]


def test_the_effort_for_consequences_is_bounded(folder: Path, monkeypatch: pytest.MonkeyPatch) -> None:
    """In a large system, fewer causes are tried, and all findings are shown."""
    walks: list[object] = []
    begin = Walk.__init__

    def count(walk: Walk, of: Document) -> None:
        walks.append(walk)
        begin(walk, of)

    monkeypatch.setattr(Walk, "__init__", count)
    Path("cell.json").write_text(edited(CELL, ('"screws": false', '"screws": "held and bench"')), encoding="utf-8")
    assert len(lint("cell.json")) == 1
    assert len(walks) == 1, "the cause is in a behaviour, so the target's states are the same without it"
    monkeypatch.setattr(cautions, "MOST_STEPS", 0)
    Path("cell.json").write_text(
        edited(CELL, ('"place", "when": "held"', '"place", "when": "bench"')), encoding="utf-8"
    )
    assert len(lint("cell.json")) == 4
