"""Mistakes of a person who models a system. The first line of the answer to each names its cause and place."""

import json
import re
from collections.abc import Callable
from pathlib import Path
from typing import Any

import pytest

from roman_tools.documents import read
from roman_tools.findings import Finding
from roman_tools.lint import lint
from roman_tools.pictures import WRONG, html
from roman_tools.system_picture import note

from .shell import CELL, SHORT, edited, tool


def marked(finding: Finding) -> str:
    return finding.span.source.text[finding.span.start : finding.span.end]


# The cell, and mistakes in it.


def test_the_cell_has_a_composition_and_its_replies() -> None:
    assert lint(str(SHORT / "cell.json")) == []
    done = tool("roman-talk", str(SHORT / "cell.json"), text=(SHORT / "cell.session").read_text(encoding="utf-8"))
    right = [line[31:] for line in done.stdout.splitlines() if line and not line.startswith("#")]
    assert "".join(f"{line}\n" for line in right) == (SHORT / "cell.replies").read_text(encoding="utf-8")


MISTAKES: dict[str, tuple[tuple[str, str], str, str]] = {
    "a step of the environment from the wrong state": (
        ('"place", "when": "held"', '"place", "when": "bench"'),
        '{"on": "place", "when": "bench", "set": {"part": "bench"}}',
        'warning: the target can go no further in "after-pick", and isn\'t final there: if the environment is in'
        ' "lit-held-ok", the environment has no step on "place"; the way there: light, bring, stop, look, pick'
        " (and 3 that follow from it)",
    ),
    "a guard of the plan that holds elsewhere": (
        ('"place", "screw", "ship"', '{"do": "place", "when": "bench"}, "screw", "ship"'),
        '"bench"',
        'warning: the target can go no further in "after-pick", and isn\'t final there: if the environment is in'
        ' "lit-held-ok", the guard of "place" doesn\'t hold; the way there: light, bring, stop, look, pick'
        " (and 6 that follow from it)",
    ),
    "a guard of the plan, as the drawing shows it": (
        ('"place", "screw", "ship"', '"place", {"do": "screw", "when": "seen = bad"}, "ship"'),
        '"seen = bad"',
        'warning: the target can go no further in "after-place", and isn\'t final there: if the environment is in'
        ' "lit-bench-ok", the guard of "screw" doesn\'t hold; the way there: light, bring, stop, look, pick, place'
        " (and 2 that follow from it)",
    ),
    "an action of the plan with two letters changed": (
        ('"place", "screw", "ship"', '"plase", "screw", "ship"'),
        '"plase"',
        'error: the environment has no step on "plase"; did you mean "place"?',
    ),
    "an action of a behaviour with a letter left out": (
        ('"off", "light", "on"', '"off", "ligt", "on"'),
        '"ligt"',
        'error: "ligt" is used only here; did you mean "light"?',
    ),
    "a step of the environment that is missing": (
        ('      {"on": "ship", "when": "bench", "set": {"part": "none"}},\n', ""),
        '"ship"',
        'error: the environment has no step on "ship"',
    ),
    "a start with two letters changed": (
        ('"name": "camera",', '"name": "camera", "start": "shrap",'),
        '"shrap"',
        'error: "shrap" stands in no step; did you mean "sharp"?',
    ),
    "a guard by the state of a device": (
        ('"pick", "when": "ok"', '"pick", "when": "sharp"'),
        "sharp",
        'error: "sharp" is no state and no value of a variable; it is a state of behaviour "camera", and guards see'
        " the environment alone",
    ),
    "a version of the plain form": (
        ('"roman": "short"', '"roman": 1'),
        "1",
        'error: this is a document in the short form: "roman": "short" is due here',
    ),
    "a limit that is too small": (
        ('"limit": 500000', '"limit": 50000'),
        "50000",
        "warning: the target, the environment, the services and the actions make 9 × 24 × 3^3·2^3 × 10 = 466,560 cells,"
        ' and the limit is 50,000; write "limit": 500000',
    ),
    "a guard of a parameter that never holds": (
        ('{"screws": false}', '{"screws": "held and bench"}'),
        '"$screws"',
        'warning: this guard never holds, so behaviour "arm-held-and-bench" (service "right") never takes "screw" by'
        " this step",
    ),
}
"""Documents with one mistake: the edit of the cell, the marked text, and the first line after its place."""


@pytest.mark.parametrize("mistake", MISTAKES)
def test_the_first_line_names_the_cause_and_its_place(mistake: str, folder: Path) -> None:
    edit, mark, line = MISTAKES[mistake]
    Path("cell.json").write_text(edited(CELL, edit), encoding="utf-8")
    first = lint("cell.json")[0]
    assert marked(first) == mark
    done = tool("roman-lint", "cell.json", "--no-program")
    assert done.stdout.splitlines()[0] == f"cell.json:{first.span.place[0]}:{first.span.place[1]}: {line}"
    assert done.returncode == (3 if line.startswith("error") else 4 if "limit" in line else 0)


@pytest.mark.parametrize("mistake", MISTAKES)
def test_the_drawing_names_the_cause_and_its_place(mistake: str, folder: Path) -> None:
    edit, _, line = MISTAKES[mistake]
    Path("cell.json").write_text(edited(CELL, edit), encoding="utf-8")
    first = lint("cell.json")[0]
    done = tool("roman-draw", "cell.json", "--dot")
    if done.returncode == 0:
        assert re.search(f'<FONT COLOR="{WRONG}"[^>]*>{re.escape(html(note(first)))}</FONT>', done.stdout)
    else:
        assert done.stderr == f"roman-draw: cell.json:{first.span.place[0]}:{first.span.place[1]}: {line}\n"


def test_the_drawing_shows_a_guard_as_it_is_written_and_that_it_is_wrong(folder: Path) -> None:
    edit, _, _ = MISTAKES["a guard of the plan, as the drawing shows it"]
    Path("cell.json").write_text(edited(CELL, edit), encoding="utf-8")
    (arrow,) = re.findall('"t0 after-place" -> .*', tool("roman-draw", "cell.json", "--dot").stdout)
    assert "[seen = bad]" in arrow
    assert f'color="{WRONG}" style=dashed' in arrow


# The recipes.


def answer(document: Any) -> str:
    """The program's answer to a short document: `composition` or `none`."""
    Path("s.json").write_text(json.dumps(document), encoding="utf-8")
    checker = read("s.json")
    assert checker.document is not None, [each.heading for each in checker.findings]
    found = re.findall("^roman says: answer (.*)$", tool("roman-lint", "s.json").stdout, re.M)
    assert len(found) == 1
    return str(found[0])


def recipe(name: str) -> Any:
    return json.loads((SHORT / f"{name}.json").read_text(encoding="utf-8"))


RECIPES = ("jam", "retry", "sensor", "anyone", "away", "gripper", "shared")

WITHOUT: dict[str, Callable[[Any], object]] = {
    "jam": lambda it: it["behaviours"][0]["steps"][1].update({"from": "open"}),
    "anyone": lambda it: it["behaviours"][0]["steps"].pop(1),
    "away": lambda it: it["services"][0].pop("rests"),
    "gripper": lambda it: it["services"].pop(1),
    "shared": lambda it: it["behaviours"][2].update({"count": 1}),
}
"""Recipes, each with an edit that removes its essential part."""


@pytest.mark.parametrize("name", RECIPES)
def test_a_recipe(name: str, folder: Path) -> None:
    document = recipe(name)
    assert lint(str(SHORT / f"{name}.json")) == []
    assert answer(document) == "composition"


@pytest.mark.parametrize("name", WITHOUT)
def test_a_recipe_without_what_it_is_about(name: str, folder: Path) -> None:
    document = recipe(name)
    WITHOUT[name](document)
    assert answer(document) == "none"


def offers_after(name: str, lines: str) -> str:
    """The reply to the last line of a session on a recipe."""
    shown = tool("roman-talk", str(SHORT / f"{name}.json"), text=lines).stdout.splitlines()
    return shown[-1].split(None, 2)[2]


def test_the_recipes_offers() -> None:
    """The offers are those in the guide: the arm that can turn, and the drill that is hot."""
    assert offers_after("gripper", "do grip\n") == "offer new"
    for state, offer in (("hot", "offer drill"), ("cool", "offer drill clamp")):
        lines = f"do hold\nuse clamp\nsaw shut always\ndo drill\nuse drill\nsaw {state} always\ndo pause\n"
        assert offers_after("anyone", lines) == offer
