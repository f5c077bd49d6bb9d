"""Sessions with programs that die, hang, flood their output or write nonsense."""

import ctypes
import os
import signal
import sys
import threading
import time
from collections.abc import Iterator
from typing import Any
from unittest import mock

import pytest

import roman_client as roman
from roman_client import Session, library, pipes

OPENING = (
    r"pairs 4\nrelated 2\nenvironment e\ntarget off final\n"
    r"service l1 lamp off ready\nanswer composition\noffer on: l1\nend\n"
)


LONG = 600
"""The number of seconds for which a program of these tests hangs."""

BEGIN = f"""
import os, sys, time
def say(text):
    sys.stdout.write(text)
    sys.stdout.flush()
sys.stdin.readline()
say("{OPENING}")
"""
"""The beginning of a program in Python that reads the first line and writes a first report."""


def session(code: str, timeout: float | None = None) -> Session:
    """A session with a program that begins with BEGIN. The deadline doesn't apply to its first report."""
    talk = Session("system", program=[sys.executable, "-c", BEGIN + code])
    assert isinstance(talk._pipes, pipes.Pipes)
    talk._pipes._timeout = timeout
    return talk


@pytest.fixture(autouse=True)
def bounded() -> Iterator[None]:
    """Checks that no call waits for a program that hangs, even on a very busy machine."""
    begun = time.monotonic()
    yield
    assert time.monotonic() - begun < LONG / 2


def ended(code: str, status: int) -> roman.ProgramEnded:
    """The error of a call during which the program ends with a status."""
    with session(code) as talk, pytest.raises(roman.ProgramEnded) as caught:
        talk.do("on")
    assert caught.value.status == status
    return caught.value


def test_ctrl_c_does_not_reach_the_program() -> None:
    with session(f"time.sleep({LONG})") as talk:
        assert os.getsid(talk.pid) == talk.pid
        os.kill(talk.pid, signal.SIGKILL)


def test_a_program_that_ends_at_once() -> None:
    with pytest.raises(roman.ProgramEnded) as caught:
        Session("system", program=[sys.executable, "-c", "raise SystemExit(9)"])
    assert caught.value.status == 9


def test_a_program_that_is_not_there() -> None:
    with pytest.raises(FileNotFoundError):
        Session("system", program="/nowhere/roman")


def test_a_program_that_ends_before_the_line() -> None:
    ended("raise SystemExit(7)", 7)


def test_a_program_that_ends_in_place_of_a_reply() -> None:
    end = ended("sys.stdin.readline(); sys.stderr.write('roman: oh\\n'); sys.exit(6)", 6)
    assert end.errors == ("roman: oh",)
    assert "roman: oh" in str(end)


def test_a_program_that_ends_within_a_line() -> None:
    end = ended("sys.stdin.readline(); say('offer l'); sys.exit(7)", 7)
    assert end.output == ("offer l",)


def test_a_program_that_ends_within_a_report() -> None:
    with session("sys.stdin.readline(); say('pairs 4\\nrelated 2\\n'); sys.exit(7)") as talk:
        with pytest.raises(roman.ProgramEnded):
            talk.report()


def test_a_program_that_only_closes_its_output() -> None:
    ended(f"sys.stdin.readline(); os.close(1); time.sleep({LONG})", -9)


def test_a_pipe_that_another_process_holds() -> None:
    code = f"""
sys.stdin.readline()
child = os.fork()
if child == 0:
    time.sleep({LONG})
print(child, file=sys.stderr, flush=True)
os._exit(5)
"""
    end = ended(code, 5)
    os.kill(int(end.errors[0]), signal.SIGKILL)


def test_a_program_that_hangs_before_its_first_report() -> None:
    with pytest.raises(roman.NoReply):
        words = [sys.executable, "-c", f"import time; time.sleep({LONG})"]
        Session("system", program=words, timeout=0.5)


def test_a_program_that_hangs() -> None:
    with session(f"time.sleep({LONG})", timeout=0.5) as talk:
        with pytest.raises(roman.NoReply):
            talk.do("on")
        with pytest.raises(roman.ProgramEnded):
            talk.do("on")


def test_a_program_that_hangs_before_it_has_read_a_long_line() -> None:
    with session(f"time.sleep({LONG})", timeout=0.5) as talk:
        with pytest.raises(roman.NoReply):
            talk.do("a" * 1_000_000)
    with session("say('x'); time.sleep(1); raise SystemExit(7)") as talk:
        with pytest.raises(roman.ProgramEnded) as caught:
            talk.do("a" * 1_000_000)
        assert caught.value.status == 7


def test_a_long_line_that_is_read_slowly() -> None:
    code = "line = sys.stdin.readline(); say(f'offer {len(line)}\\n'); sys.stdin.readline()"
    with session(code, timeout=LONG / 2) as talk:
        assert talk.do("a" * 1_000_000).services == ("1000004",)


def test_a_program_that_hangs_at_its_end() -> None:
    with session(f"time.sleep({LONG})", timeout=0.5) as talk:
        assert isinstance(talk._pipes, pipes.Pipes)
        process = talk._pipes.process
        with mock.patch.object(process, "wait", wraps=process.wait) as wait:
            assert talk.close() == -9
        assert wait.call_args_list[0] == mock.call(timeout=0.5)


def test_a_report_that_comes_too_slowly() -> None:
    code = f"""
sys.stdin.readline()
for line in "{OPENING}".splitlines(True):
    say(line)
    time.sleep(0.3)
"""
    with session(code) as talk:
        assert talk.report().composition
    with session(code, timeout=1) as talk, pytest.raises(roman.NoReply):
        talk.report()


def test_a_reply_that_makes_no_sense() -> None:
    for reply in ("offering l1", "now", "", "kept 1 added"):
        code = f"sys.stdin.readline(); say('{reply}\\n'); time.sleep({LONG})"
        with session(code) as talk:
            with pytest.raises(roman.UnexpectedReply):
                talk.saw("on", "e")


def test_a_long_report_and_a_flood_of_errors() -> None:
    code = """
sys.stdin.readline()
sys.stderr.write("x" * 3_000_000)
services = " ".join(f"s{i}" for i in range(200_000))
say("pairs 4\\nrelated 2\\nenvironment e\\ntarget off final\\n")
say("".join(f"service s{i} lamp off ready\\n" for i in range(200_000)))
say("answer composition\\noffer on: " + services + "\\nend\\n")
sys.stderr.write("x" * 3_000_000)
say(sys.stdin.readline() and "aborted\\n")
"""
    with session(code) as talk:
        report = talk.report()
        assert len(report.services) == 200_000
        assert report.offers["on"][-1] == "s199999"
        talk.abort()


def test_replies_in_pieces() -> None:
    code = """
sys.stdin.readline()
for letter in "offer l1 l2\\n":
    say(letter)
    time.sleep(0.01)
sys.stdin.readline()
"""
    with session(code) as talk:
        assert talk.do("on").services == ("l1", "l2")


def test_a_slow_last_reply() -> None:
    with session("sys.stdin.readline(); time.sleep(0.5); say('bye\\n')") as talk:
        assert talk.quit() == 0


class Answering(threading.Thread):
    """A thread that requests an action from a session."""

    def __init__(self, talk: Session) -> None:
        super().__init__(daemon=True)
        self.error: Exception | None = None
        self._talk = talk
        self.start()

    def run(self) -> None:
        try:
            self._talk.do("on")
        except Exception as error:
            self.error = error


def test_the_end_of_a_session_interrupts_a_call_of_another_thread() -> None:
    talk = session(f"time.sleep({LONG})")
    with mock.patch.object(pipes.Pipes, "_send", side_effect=pipes.Pipes._send, autospec=True) as sent:
        waiting = Answering(talk)
        while not sent.called:
            time.sleep(0.01)
        assert talk.close() == -signal.SIGKILL
    waiting.join(LONG)
    assert isinstance(waiting.error, roman.ProgramEnded)


class SlowLibrary:
    """A library whose answer to a request takes some time."""

    def __init__(self) -> None:
        self.done: list[str] = []
        self.asked, self.go_on = threading.Event(), threading.Event()
        self._reply = OPENING.replace("\\n", "\n").encode()
        self.roman_add = self.roman_open = self.roman_clear = mock.Mock(return_value=0)

    def roman_answer(self, session: Any, line: bytes, length: int) -> int:
        if line == b"do on":
            self.asked.set()
            assert self.go_on.wait(LONG)
            self.done.append("answered")
            self._reply = b"offer l1\n"
        return 0

    def roman_reply(self, session: Any, at: int, room: Any, length: int) -> int:
        ctypes.memmove(room, self._reply, min(length, len(self._reply)))
        return len(self._reply)

    def roman_close(self, session: Any) -> None:
        self.done.append("closed")


def test_the_end_of_a_session_waits_for_an_answer_of_the_library() -> None:
    """The session mustn't be closed while the library answers."""
    slow = SlowLibrary()
    with mock.patch.object(library, "load_library", return_value=slow):
        talk = Session("system", library=True)
        waiting = Answering(talk)
        assert slow.asked.wait(LONG)
        closing = threading.Thread(target=talk.close)
        closing.start()
        closing.join(0.3)
        slow.go_on.set()
        waiting.join(LONG)
        closing.join(LONG)
    assert slow.done == ["answered", "closed"] and waiting.error is None
