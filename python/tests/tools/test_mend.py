"""tools/roman-mend: the changes that help, and the spare services."""

import json
import os
import subprocess
from pathlib import Path

import pytest

from . import PROGRAM, TOP


def mend(*words: str) -> "subprocess.CompletedProcess[str]":
    """Runs the tool with these arguments."""
    environment = {**os.environ, "ROMAN": PROGRAM}
    command = [str(TOP / "tools" / "roman-mend"), *words]
    return subprocess.run(command, cwd=TOP, env=environment, capture_output=True, text=True, timeout=400, check=False)


@pytest.fixture
def session(tmp_path: Path) -> Path:
    """A file for the lines of a session."""
    return tmp_path / "a.session"


def lines_of(done: "subprocess.CompletedProcess[str]") -> list[list[str]]:
    """The columns of each line."""
    return [line.split("  ", 1) for line in done.stdout.splitlines()]


def test_a_session_leads_to_the_states(session: Path) -> None:
    session.write_text("# a break\ndo brighten\nabort\nfreeze kettle\nexplain\nquit\nthaw kettle\n", encoding="utf-8")
    done = mend("samples/home.json", str(session))
    assert (done.returncode, done.stderr) == (0, "")
    assert done.stdout == (
        "thaw kettle                kettle is back\njoin kettle2 kettle empty  another kettle joins, empty\n"
    )


def test_each_line_mends_the_session(session: Path) -> None:
    lines = "die arm2\nfreeze arm3\n"
    session.write_text(lines, encoding="utf-8")
    found = [columns[0].strip() for columns in lines_of(mend("samples/workshop.json", str(session)))]
    assert found[0] == "thaw arm3"
    for line in found:
        session.write_text(f"{lines}{line}\n", encoding="utf-8")
        assert mend("samples/workshop.json", str(session)).stdout == "there is a composition\n"


def test_without_a_session_the_document_begins() -> None:
    assert lines_of(mend("samples/flaky.json")) == [["join lamp2 lamp off", "a lamp joins, off"]]
    assert mend("samples/home.json").stdout == "there is a composition\n"


def test_pairs(session: Path) -> None:
    session.write_text("die kettle\ndie window\nfreeze ceiling\n", encoding="utf-8")
    alone = mend("samples/short/home.json", str(session))
    assert (alone.returncode, alone.stdout) == (1, "no change helps alone; --two tries pairs\n")
    done = mend("samples/short/home.json", str(session), "--two")
    assert done.returncode == 0
    first = done.stdout.splitlines()[0]
    assert first.split("  ")[0] == "thaw ceiling; join kettle2 kettle empty"
    assert first.endswith("  ceiling is back and a kettle joins, empty")


def test_nothing_helps_a_target_that_no_behaviour_serves(tmp_path: Path) -> None:
    value = json.loads((TOP / "samples" / "lamp.json").read_text(encoding="utf-8"))
    value["behaviours"][0]["steps"] = []
    system = tmp_path / "dark.json"
    system.write_text(json.dumps(value), encoding="utf-8")
    done = mend(str(system), "--two")
    assert (done.returncode, done.stdout) == (1, "no change helps\n")


@pytest.mark.parametrize(
    "sample, said",
    [
        ("home", "another kettle, empty: then any one service may fail\n"),
        ("workshop", "another allround, free: then any one service may fail\n"),
        ("greenhouse", "no single further service lets the composition survive the failure of any one\n"),
    ],
)
def test_spares(sample: str, said: str) -> None:
    assert mend(f"samples/{sample}.json", "--spare").stdout == said


def test_a_spare_that_is_there_makes_up_for_any_failure(session: Path) -> None:
    session.write_text("join kettle2 kettle empty\n", encoding="utf-8")
    done = mend("samples/home.json", str(session), "--spare")
    assert (done.returncode, done.stdout) == (0, "any one service may fail already\n")


def test_the_guide_shows_what_it_writes(session: Path) -> None:
    session.write_text("freeze kettle\n", encoding="utf-8")
    guide = (TOP / "docs" / "GUIDE.md").read_text(encoding="utf-8")
    assert f"why.session\n{mend('samples/home.json', str(session)).stdout}```" in guide
    assert f"--spare\n{mend('samples/workshop.json', '--spare').stdout}```" in guide


def test_a_document_that_is_wrong_and_a_session_that_is_not_there() -> None:
    assert mend("samples/tap.behaviour.json").returncode == 3
    done = mend("samples/home.json", "gone.session")
    assert (done.returncode, done.stderr) == (5, "roman-mend: gone.session: No such file or directory\n")
