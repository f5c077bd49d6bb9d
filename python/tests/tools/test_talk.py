"""roman-talk: lines beside replies, and a session at a terminal."""

import contextlib
import os
import pty
import select
import subprocess
import time
from collections.abc import Iterator
from pathlib import Path
from typing import Any

import pytest

from . import PROGRAM, TOP

TALK = str(TOP / "tools" / "roman-talk")


def environment(home: str) -> "dict[str, str]":
    return {**os.environ, "ROMAN": PROGRAM, "HOME": home, "XDG_STATE_HOME": home, "TERM": "dumb", "LC_ALL": "C.UTF-8"}


# A session on the standard input is shown beside its replies.


def echo(system: str, session: str) -> "subprocess.CompletedProcess[str]":
    return subprocess.run(
        [TALK, system],
        input=session,
        cwd=TOP,
        env=environment("/"),
        capture_output=True,
        text=True,
        timeout=400,
        check=False,
    )


@pytest.mark.parametrize("file", sorted((TOP / "samples").glob("*.session")))
def test_each_line_of_the_samples_beside_its_reply(file: Any) -> None:
    session = file.read_text(encoding="utf-8")
    done = echo(f"samples/{file.stem}.json", session)
    assert (done.returncode, done.stderr) == (0, "")
    left: list[str] = []
    right: list[str] = []
    for line in done.stdout.splitlines():
        if not line or line.startswith("#"):
            left.append(line)
            continue
        if line[:30].strip():
            left.append(line[:30].rstrip())
        right.append(line[31:])
    assert left == session.splitlines()
    replies = (TOP / "samples" / f"{file.stem}.replies").read_text(encoding="utf-8")
    assert "".join(f"{line}\n" for line in right) == replies


def test_lines_that_are_refused_and_what_comes_after_quit() -> None:
    done = echo("samples/lamp.json", "explain\nfly\nquit\ndo on\n")
    lines = [line.split(None, 1) for line in done.stdout.splitlines() if not line.startswith(" ")]
    assert lines == [["explain", "error related"], ["fly", "error line"], ["quit", "bye"]]


def test_a_short_document_and_one_that_is_wrong() -> None:
    assert "offer window ceiling" in echo("samples/short/home.json", "do brighten\n").stdout
    done = echo("samples/tap.behaviour.json", "")
    assert (done.returncode, done.stdout) == (3, "")
    assert "samples/tap.behaviour.json:1:1: error: " in done.stderr
    assert echo("samples/gone.json", "").returncode == 5


class Terminal:
    """A session at a terminal."""

    def __init__(self, leader: int, running: "subprocess.Popen[bytes]") -> None:
        self.leader = leader
        self.running = running
        self.opening = self.until("> ")

    def until(self, end: str) -> str:
        """The output up to some text."""
        text, late = "", time.monotonic() + 400
        while not text.endswith(end) and time.monotonic() < late:
            if select.select([self.leader], [], [], 0.2)[0]:
                try:
                    text += os.read(self.leader, 4096).decode()
                except OSError:
                    break
        return text.replace("\r\n", "\n")

    def type(self, keys: str) -> None:
        os.write(self.leader, keys.encode())

    def say(self, line: str) -> str:
        self.type(f"{line}\n")
        return self.until("\n> ").split("\n", 1)[1].removesuffix("\n> ")

    def words_of_help(self) -> str:
        """The first words of the lines that are possible now."""
        lines = [line.split() for line in self.say("help").splitlines()]
        return " ".join(words[0] for words in lines if words[0] != "now:")


@contextlib.contextmanager
def opened(home: Path) -> Iterator[Terminal]:
    """A session on the workshop, with its history in this folder."""
    leader, end = pty.openpty()
    words = [TALK, "samples/workshop.json"]
    running = subprocess.Popen(words, cwd=TOP, env=environment(str(home)), stdin=end, stdout=end, stderr=end)
    os.close(end)
    try:
        yield Terminal(leader, running)
    finally:
        running.kill()
        running.wait()
        os.close(leader)


@pytest.fixture
def terminal(tmp_path: Path) -> Iterator[Terminal]:
    with opened(tmp_path) as found:
        yield found


def test_a_talk(terminal: Terminal) -> None:
    assert "do clean: arm1 arm3" in terminal.opening
    assert terminal.say("do clean") == "offer arm1 arm3"
    assert "now: use arm1 | arm3" in terminal.say("help")
    assert '"arm2" can\'t be taken now; now: arm1, arm3' in terminal.say("use arm2")
    assert terminal.say("use arm1") == "using arm1"
    assert '"wron" isn\'t known; did you mean "worn"?; now: fresh, worn' in terminal.say("saw wron full")
    assert terminal.say("saw worn full") == "now cleaned full"
    assert '"fly" is no event' in terminal.say("fly")
    assert "a line is: freeze SERVICE" in terminal.say("freeze")
    assert "there is a composition" in terminal.say("die arm2")
    assert terminal.say("jumpenv spilt") == "jumped"
    assert terminal.say("do recharge") == "offer arm1 arm3"
    assert terminal.say("abort") == "aborted"
    assert 'did you mean "recharge"?' in terminal.say("do rechrge")
    terminal.type("quit\n")
    assert terminal.running.wait(timeout=400) == 0


def test_a_key_that_writes_no_letter_does_not_end_it(terminal: Terminal) -> None:
    assert "is no word of a line" in terminal.say("do \x16\x01clean")
    assert terminal.say("do clean") == "offer arm1 arm3"


def test_names_are_completed(terminal: Terminal) -> None:
    terminal.type("do cl\t")
    assert "do clean " in terminal.until("clean ")
    terminal.say("")
    terminal.say("use arm3")
    terminal.type("saw fr\t")
    assert terminal.until("saw free ").endswith("saw free ")
    terminal.type("fu\t")
    assert terminal.until("full ").endswith("full ")


def test_an_explanation_is_told_as_a_play(terminal: Terminal) -> None:
    terminal.say("jumpenv half")
    terminal.say("jump arm1 worn")
    assert terminal.say("do clean") == "no composition"
    assert "may answer: free → loaded, environment half → spilt" in terminal.say("explain")


def test_help_says_what_may_be_asked_now(terminal: Terminal) -> None:
    assert terminal.words_of_help() == "do freeze die join jump jumpenv report help quit"
    assert "\n  now: do clean" in terminal.say("help")
    assert '"arm1" can\'t be taken now; now: none' in terminal.say("thaw arm1")
    terminal.say("freeze arm2")
    assert '"arm2" can\'t be taken now; now: arm1, arm3' in terminal.say("freeze arm2")
    assert terminal.words_of_help() == "do freeze thaw die join jump jumpenv report help quit"
    terminal.say("jumpenv half")
    terminal.say("jump arm1 worn")
    assert terminal.say("do clean") == "no composition"
    assert terminal.words_of_help() == "freeze thaw die join jump jumpenv report explain help quit"
    now = "now: there is no composition (explain says why), so do clean is refused until something changes"
    lines = terminal.say("help").splitlines()
    place = lines.index(f"  {now}")
    assert lines[place + 1] == "  now: jumpenv full would help (the environment is full)"
    assert "  now: jump arm1 fresh would help (arm1 is fresh)" in lines[place:]
    assert terminal.say("do dip") == "no composition"
    for service in ("arm1", "arm2", "arm3"):
        terminal.say(f"die {service}")
    assert terminal.words_of_help() == "join jumpenv report explain help quit"


def test_the_history_is_kept(terminal: Terminal, tmp_path: Path) -> None:
    terminal.say("do clean")
    terminal.type("quit\n")
    terminal.running.wait(timeout=400)
    history = tmp_path / "roman" / "history"
    assert history.read_text(encoding="utf-8").splitlines()[:1] == ["do clean"]


def test_the_end_of_the_input(terminal: Terminal) -> None:
    terminal.type("\x04")
    assert terminal.running.wait(timeout=400) == 0
