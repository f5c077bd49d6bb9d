"""A session in which a line is out of turn."""

import re
from pathlib import Path

from .shell import SHORT, system, tool


def test_a_piped_session_says_which_line_is_due() -> None:
    lines = "do light\ndo bring\nhelp\nuse lamp\nuse lamp\nsaw on lit-none-nothing\nuse lamp\nexplain\nquit\n"
    shown = tool("roman-talk", str(SHORT / "cell.json"), text=lines).stdout.splitlines()
    rows = [re.split(r" {2,}", line.strip()) for line in shown]
    assert rows[1:3] == [["do bring", "error busy"], ["(light is open: use lamp, or abort)"]]
    assert ["now: light is open: use lamp, or abort"] in rows
    saw = ["(light is open: saw, with the states of lamp and of the environment, or abort)"]
    assert rows[rows.index(["use lamp", "error idle"]) + 1] == saw
    assert rows[-4:] == [
        ["(no request is open: do bring)"],
        ["explain", "error related"],
        ["(there is a composition, so nothing is to be explained; no request is open: do bring)"],
        ["quit", "bye"],
    ]


def test_talk_says_that_the_target_is_stuck(folder: Path) -> None:
    Path("s.json").write_text(system('{"steps": [["s", "a", "t"], ["t", "b", "u"]]}'), encoding="utf-8")
    lines = "do a\nuse m\nsaw x e\ndo b\nuse m\nsaw x e\n"
    shown = tool("roman-talk", "s.json", text=lines).stdout.splitlines()
    assert shown[-1].strip() == "(the target can go no further here, and isn't final)"
