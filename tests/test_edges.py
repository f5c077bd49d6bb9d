"""The program's interfaces: standard input and output in pieces of any size, files and folders, and the maximum lengths
of inputs."""
import os
import select
import shutil
import subprocess

import pytest

from . import program
from .program import Ended, run

REPORT = (
    b"pairs 4\nrelated 2\nenvironment e\ntarget off final\nservice l1 lamp off ready\nanswer composition\n"
    b"offer on: l1\nend\n"
)
DOCUMENT = 1_048_576
SESSION = 16_777_216
CERTIFICATE = 268_435_456


LAMP = (program.SAMPLES / "lamp.json").read_bytes().rstrip()
RIGHT = Ended(program.DONE, REPORT)


@pytest.fixture
def folder(tmp_path):
    """A folder with two of the samples."""
    for name in ("lamp.json", "workshop.json"):
        shutil.copy(program.SAMPLES / name, tmp_path)
    yield tmp_path
    shutil.rmtree(tmp_path)


def file(folder, name, content):
    """The name of a file with this content."""
    (folder / name).write_bytes(content)
    return name


def zeros(folder, name, size):
    """The name of a sparse file of that many zero bytes."""
    with open(folder / name, "wb") as made:
        made.truncate(size)
    return name


def start(folder, *words):
    pipe = subprocess.PIPE
    return subprocess.Popen(
        [program.ROMAN, *words], cwd=folder, stdin=pipe, stdout=pipe, stderr=subprocess.DEVNULL, bufsize=0
    )


@pytest.mark.parametrize("size", [1, 2, 3, 7, 64, 4096])
def test_input_in_odd_pieces(size, folder):
    session = (program.SAMPLES / "workshop.session").read_bytes()
    with start(folder, "run", "workshop.json") as roman:
        for at in range(0, len(session), size):
            roman.stdin.write(session[at : at + size])
        text, _ = roman.communicate(timeout=400)
    assert (roman.returncode, text) == (program.DONE, (program.SAMPLES / "workshop.replies").read_bytes())


def test_each_reply_comes_before_the_next_line_is_asked_for(folder):
    with start(folder, "run", "lamp.json") as roman:
        for line, reply in (
            (b"do on\n", b"offer l1\n"),
            (b"use l1\n", b"using l1\n"),
            (b"saw on e\n", b"now on e\n"),
            (b"quit\n", b"bye\n"),
        ):
            roman.stdin.write(line)
            ready, _, _ = select.select([roman.stdout], [], [], 60)
            assert ready, line
            assert roman.stdout.readline() == reply
        assert roman.wait(timeout=400) == program.DONE


def test_output_that_is_read_late(folder):
    lines = 5_000
    with start(
        folder, "run", file(folder, "reports.json", LAMP), file(folder, "reports", b"report\n" * lines)
    ) as roman:
        text, _ = roman.communicate(timeout=400)
    assert roman.returncode == program.DONE
    is_whole = text == RIGHT.text * lines
    assert is_whole  # pytest would take many minutes to show a difference of texts of this length.


def test_output_that_is_closed(folder):
    for session in (b"do on\n", b"report\n" * 5_000):
        source, sink = os.pipe()
        os.close(source)
        with os.fdopen(sink, "wb") as closed:
            assert run(["run", "lamp.json"], folder, session, stdout=closed).status == program.WRITE_FAULT
    with open("/dev/full", "wb") as full:
        assert run(["synth", "lamp.json"], folder, stdout=full).status == program.WRITE_FAULT


def test_folders_and_files_that_are_not_there(folder):
    (folder / "folder").mkdir()
    for words in (
        ["synth", "folder"],
        ["synth", "gone.json"],
        ["run", "lamp.json", "folder"],
        ["check", "lamp.json", "folder"],
        ["check", "lamp.json", "gone"],
    ):
        assert run(words, folder) == Ended(program.SHELF_FAULT, b""), words
    opened = os.open(folder, os.O_RDONLY)
    try:
        assert run(["run", "lamp.json"], folder, stdin=opened) == Ended(program.READ_FAULT, b"")
    finally:
        os.close(opened)


def test_a_pipe_in_place_of_a_file():
    source, sink = os.pipe()
    with os.fdopen(source, "rb") as pipe, os.fdopen(sink, "wb") as text:
        text.write(LAMP)
        text.flush()
        done = subprocess.run(
            [program.ROMAN, "synth", f"/dev/fd/{pipe.fileno()}"],
            pass_fds=[pipe.fileno()],
            capture_output=True,
            timeout=400,
            check=False,
        )
    assert Ended(done.returncode, done.stdout) == Ended(program.SHELF_FAULT, b"")


def test_input_that_never_ends(folder):
    with open("/dev/zero", "rb") as endless:
        assert run(["run", "lamp.json"], folder, stdin=endless) == Ended(program.TOO_LONG, b"")


def test_the_length_of_a_document(folder):
    full = LAMP + b" " * (DOCUMENT - len(LAMP))
    assert run(["synth", file(folder, "full.json", full)], folder) == RIGHT
    assert run(["synth", file(folder, "long.json", full + b" ")], folder) == Ended(
        program.REFUSED, b"refused long.json toolong system 0 whole 0\n"
    )


@pytest.mark.parametrize(
    "session, ended",
    [
        (b"\n" * SESSION, Ended(program.DONE, b"")),
        (b"\n" * (SESSION + 1), Ended(program.TOO_LONG, b"")),
        (b"\n" * (SESSION - 5) + b"quit\n", Ended(program.DONE, b"bye\n")),
        (b"\n" * (SESSION - 5) + b"quit\nmore", Ended(program.DONE, b"bye\n")),
        (b"\n" * (SESSION - 4) + b"quit", Ended(program.DONE, b"bye\n")),
        (b"\n" * (SESSION - 4) + b"quit\n", Ended(program.TOO_LONG, b"")),
    ],
    ids=["full", "longer", "quit", "more after quit", "quit without a line feed", "quit that is too late"],
)
def test_the_length_of_a_session(session, ended, folder):
    assert run(["run", "lamp.json"], folder, session) == ended
    assert run(["run", "lamp.json", file(folder, "long.session", session)], folder) == ended


def test_the_length_of_a_certificate(folder):
    assert run(["check", "lamp.json", zeros(folder, "whole.cert", CERTIFICATE)], folder) == Ended(
        program.NO, b"rejected 1 form\n"
    )
    assert run(["check", "lamp.json", zeros(folder, "long.cert", CERTIFICATE + 1)], folder) == Ended(
        program.TOO_LONG, b""
    )
