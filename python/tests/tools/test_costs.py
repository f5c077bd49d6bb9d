"""Files of costs, and advice with the names of states."""

import json
import subprocess
from pathlib import Path

import pytest

from . import PROGRAM, TOP
from .shell import CELL, SHORT, edited, tool

COSTS = (SHORT / "cell.costs").read_text(encoding="utf-8")

COST_MISTAKES = {
    "a name with two letters changed": (
        ('["agv", "ship", 5]', '["agb", "ship", 5]'),
        '"agb"',
        'error: "agb" is no behaviour, service or pattern; did you mean "agv"?',
    ),
    "a behaviour without an item": (
        ('["camera", "look", 1],\n', ""),
        "[",
        'warning: behaviour "camera" ("camera") has no item, so each of its actions costs 0',
    ),
}


@pytest.mark.parametrize("mistake", COST_MISTAKES)
def test_the_mistakes_of_costs(mistake: str, folder: Path) -> None:
    edit, mark, line = COST_MISTAKES[mistake]
    Path("cell.json").write_text(CELL, encoding="utf-8")
    Path("cell.costs").write_text(edited(COSTS, edit), encoding="utf-8")
    done = tool("roman-lint", "cell.json", "cell.costs", "--no-program")
    head, shown, _ = done.stdout.splitlines()[:3]
    assert head.startswith("cell.costs:") and head.endswith(line)
    column = int(head.split(":")[2])
    assert shown[column + 1 :].startswith(mark)


def test_costs_by_pattern_and_by_service(folder: Path) -> None:
    done = tool("roman-expand", str(SHORT / "cell.json"), "--costs", str(SHORT / "cell.costs"))
    items = {(behaviour, action): cost for behaviour, action, cost in json.loads(done.stdout)}
    assert (items["arm", "pick"], items["arm-false", "pick"], items["arm-false", "place"]) == (2, 1, 2)


def test_services_of_one_behaviour_cost_the_same(folder: Path) -> None:
    document = edited(
        CELL, ('{"name": "left", "behaviour": "arm"}', '{"name": "left-$n", "behaviour": "arm", "count": 2}')
    )
    Path("cell.json").write_text(document.replace("500000", "2000000"), encoding="utf-8")
    Path("cell.costs").write_text('[["left-1", "pick", 1]]', encoding="utf-8")
    done = tool("roman-lint", "cell.json", "cell.costs", "--no-program")
    assert (done.returncode, '"left-1" and "left-2" are of one behaviour' in done.stdout) == (3, True)
    Path("cell.costs").write_text('[["left-1", "pick", 1], ["left-2", "pick", 1]]', encoding="utf-8")
    assert tool("roman-lint", "cell.json", "cell.costs", "--no-program").returncode == 0


def test_refusals_of_costs_are_the_program_s(folder: Path) -> None:
    """For a plain document the first error is that of the program."""
    depot = str(TOP / "samples" / "depot.json")
    for text in (
        "{}", "[1]", '[["belt", "load"]]', '[[1, "load", 1]]', '[["blet", "load", 1]]', '[["belt", 1, 1]]',
        '[["belt", "lode", 1]]', '[["belt", "load", -1]]', '[["belt", "load", 1000001]]', "nul",
        '[["belt", "load", 1], ["belt", "load", 2]]', json.dumps([["belt", "load", 1]] * 1025), "[]" + " " * 1048576,
    ):  # fmt: skip
        Path("d.costs").write_text(text, encoding="utf-8")
        found = json.loads(tool("roman-lint", depot, "d.costs", "--json").stdout)
        refusals = [each["refusal"] for each in found["findings"] if "refusal" in each]
        assert refusals[:1] == [found["roman"]], text[:40]


def test_advice_names_states(folder: Path) -> None:
    """The worst costs of the first requests are those of the program, and each value is one that it wrote."""
    words = (str(TOP / "samples" / "depot.json"), str(TOP / "samples" / "depot.costs"), "3")
    written = subprocess.run(
        [PROGRAM, "advise", *words], capture_output=True, text=True, timeout=400, check=True
    ).stdout
    table = tool("roman-advice", *words).stdout.splitlines()
    assert table[0] == "the next 3 requests from the start cost 9 at worst"
    assert table[3].split() == ["idle", "dry", "load", "belt", "9"]
    assert len(table) == 3 + 8
    Path("advice").write_text(written, encoding="utf-8")
    assert tool("roman-advice", *words, "--from", "advice").stdout.splitlines() == table


ONES = b"".join(b"value 1 %d 1\n" % pair for pair in range(1000))
"""The costs of one request from each pair."""


@pytest.mark.parametrize(
    "advice, said",
    [
        (b"worst 3\nvalue 9 0 4\n" + ONES, "roman-advice: there is no line `value 8 "),
        (b"\xff", ""),
        (b"worst " + b"9" * 5000, ""),
    ],
)
def test_a_file_that_is_no_advice(folder: Path, advice: bytes, said: str) -> None:
    words = (str(TOP / "samples" / "depot.json"), str(TOP / "samples" / "depot.costs"), "3")
    Path("advice").write_bytes(advice)
    done = tool("roman-advice", *words, "--from", "advice")
    assert done.stderr.startswith(said) and "Traceback" not in done.stderr
    assert done.returncode == (5 if said else 0)


def test_advice_on_a_short_document_takes_the_cheap_arm() -> None:
    done = tool("roman-advice", str(SHORT / "cell.json"), str(SHORT / "cell.costs"), "8")
    picks = [line.split()[-2] for line in done.stdout.splitlines() if " pick " in line]
    assert set(picks) == {"right"}
