"""The reason why there is no composition, by lint and by drawings."""

from pathlib import Path

import pytest

from .shell import CELL, SHORT, edited, tool


@pytest.fixture
def stuck_cell(folder: Path) -> str:
    """The cell with a vehicle that has to be home if the target is final."""
    Path("cell.json").write_text(edited(CELL, (', "rests": false', "")), encoding="utf-8")
    return "cell.json"


def test_lint_says_the_first_step(stuck_cell: str) -> None:
    out = tool("roman-lint", stuck_cell).stdout
    assert "\nroman says: answer none\nwhy: target start, environment dark-none-nothing; " in out
    assert "\n  nobody has a choice: light by lamp, bring by conveyor\n" in out
    rest, help_of = out.splitlines()[-2:]
    assert rest.startswith("the rest: roman-draw cell.json --why --text")
    assert help_of == "what would help: roman-mend cell.json"


def test_the_explanation_folds_chains_without_a_choice(stuck_cell: str) -> None:
    text = tool("roman-draw", stuck_cell, "--why", "--text").stdout
    assert "\n  nobody has a choice: light by lamp, bring by conveyor\n" in text
    assert "light is requested" not in text
    whole = tool("roman-draw", stuck_cell, "--why", "--text", "--all").stdout
    assert "light is requested" in whole and "nobody has a choice" not in whole
    dot = tool("roman-draw", stuck_cell, "--why", "--dot").stdout
    assert dot.count("nobody has a choice:") == 1 and "light by lamp" in dot
    assert text.splitlines()[-1] == "  the target may be left here, but conveyor (in rolling) is in no final state"


def test_a_composition_has_no_why() -> None:
    done = tool("roman-draw", str(SHORT / "cell.json"), "--why")
    assert (done.returncode, done.stdout) == (1, "")
    assert "nothing is to be explained" in done.stderr
