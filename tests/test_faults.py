"""Each allocation, each read and each write fails in turn. The status is that of the fault, the output is a prefix of
the usual one, and no fault is ignored."""
import json
import os
import shutil
import subprocess
from pathlib import Path

import pytest

from . import program, reference
from .program import run

SESSION = b"do on\nuse l1\nsaw on e\ndo off\nuse l1\nsaw off e\nfreeze l1\nexplain\nthaw l1\nreport\n"

# The arguments, and whether a session is on the standard input.
COMMANDS = {
    "synth": (["synth", "lamp.json"], False),
    "certify": (["certify", "lamp.json"], False),
    "check": (["check", "lamp.json", "lamp.cert"], False),
    "run": (["run", "lamp.json"], True),
    "run over a file": (["run", "lamp.json", "lamp.session"], False),
    "make": (["make", "2"], False),
    "shortest": (["shortest", "lamp.json"], False),
    "advise": (["advise", "lamp.json", "lamp.costs", "3"], False),
    "resilience": (["resilience", "lamp.json"], False),
    "several targets": (["run", "several.json", "several.session"], False),
}
SEVERAL = (
    b"do on-a\nuse l1\nsaw on e\njoin l3 lamp off\njoin l4 lamp on loose\nexplain\ndo on-b\nuse l3\nsaw on e\n"
    b"jump l4 off\ndie l2\nreport\n"
)
"""A session with a document of version 3 whose parts are in files."""


@pytest.fixture(scope="module")
def folder(tmp_path_factory):
    """The files that the commands read, and the library that makes calls fail."""
    made = tmp_path_factory.mktemp("faults")
    source = Path(__file__).with_name("failing.c")
    subprocess.run(["cc", "-O1", "-shared", "-fPIC", "-o", made / "failing.so", source, "-ldl"], check=True)
    shutil.copy(program.SAMPLES / "lamp.json", made)
    (made / "lamp.session").write_bytes(SESSION)
    (made / "lamp.costs").write_bytes(b'[["lamp","on",3],["lamp","off",1]]')
    two = json.loads((program.SAMPLES / "two.json").read_text(encoding="utf-8"))
    for name, holder, key in (
        ("world", two, "environment"),
        ("kind", two["behaviours"], 0),
        ("second", two["targets"], 1),
    ):
        (made / f"{name}.json").write_text(json.dumps(holder[key]), encoding="utf-8")
        holder[key] = {"file": f"{name}.json"}
    (made / "several.json").write_text(json.dumps(two), encoding="utf-8")
    (made / "several.session").write_bytes(SEVERAL)
    (made / "lamp.cert").write_bytes(run(["certify", "lamp.json"], made).text)
    return made


class Command:
    """A command, and its end without a fault."""

    def __init__(self, name, folder):
        self.name = name
        self.folder = folder
        self.words, takes = COMMANDS[name]
        self.session = SESSION if takes else b""
        self.plain = run(self.words, folder, self.session)

    def with_fault(self, kind, at, told=""):
        """Its end if calls of this kind fail."""
        library, told = os.fspath(self.folder / "failing.so"), os.fspath(told)
        fault = {"LD_PRELOAD": library, "FAIL_KIND": kind, "FAIL_AT": str(at), **({"FAIL_TOLD": told} if told else {})}
        return run(self.words, self.folder, self.session, fault)

    def each_fault(self, kind):
        """Its ends with fault 1, 2, .. until it ends before the fault."""
        told = self.folder / "told"
        found = []
        while True:
            told.unlink(missing_ok=True)
            ended = self.with_fault(kind, len(found) + 1, told)
            if not told.exists():
                return found
            assert self.plain.text.startswith(ended.text)
            found.append(ended)


@pytest.fixture(params=COMMANDS)
def command(request, folder):
    return Command(request.param, folder)


def test_memory(command):
    faults = command.each_fault("memory")
    assert [ended for ended in faults if ended not in (command.plain, program.Ended(program.MEMORY, b""))] == []
    assert len(faults) > (0 if command.name == "make" else 10)


def test_reads(command):
    faults = command.each_fault("read")
    statuses = {program.SHELF_FAULT, *([program.READ_FAULT] if command.name == "run" else [])}
    assert {ended.status for ended in faults} <= statuses
    assert len(faults) > 1 or (command.name == "make" and not faults)


def test_writes(command):
    faults = command.each_fault("write")
    assert {ended.status for ended in faults} == {program.WRITE_FAULT}


@pytest.mark.parametrize("bytes_at_once", [1, 7])
def test_calls_that_move_few_bytes(command, bytes_at_once):
    """They aren't faults: each run ends as it does without them."""
    assert command.plain.text
    assert command.with_fault("short", bytes_at_once) == command.plain


def test_calls_that_are_interrupted(command):
    """They are tried again, or they are faults. No data is lost silently."""
    faults = (program.SHELF_FAULT, program.READ_FAULT, program.WRITE_FAULT)
    plain, ended = command.plain, command.with_fault("interrupted", 0)
    assert ended == plain or ended.status in faults and plain.text.startswith(ended.text)


def test_what_is_tried_is_right(command):
    """Without faults, the runs of this module end as they should."""
    shelf = {each.name: each.read_bytes() for each in command.folder.iterdir() if each.suffix != ".so"}
    plain = command.plain
    assert reference.run_fault(command.words, shelf, command.session, plain.status, plain.text) is None
