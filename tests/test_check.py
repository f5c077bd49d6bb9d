"""tools/check: the crates that it checks, their order, and its output. The tests use an `rt` of their own."""

import os
import re
import shutil
import subprocess
from pathlib import Path

import pytest

from . import TOP

RT = """#!/bin/sh
# Says what `rt check` says: the crate is refused where a source has the word `wrong`.
[ "$1" = check ] || exit 9
shift
echo "$(basename "$PWD") $*" >> ../../asked
echo "statements std: modules loaded=231 checked=0"
echo "fn $(basename "$PWD")::first: proved"
if grep -qr wrong src; then
    echo "./src/lib.rt:1:1: error: a clause isn't proved"
    echo "fn $(basename "$PWD")::second: not proved"
    echo "logic=not-proved"
    exit 1
fi
echo "logic=proved functions=3 sum=0"
"""
CRATES = "# low to high\nlow:\nother: serde_json\nmiddle: low\nhigh staticlib: middle other\n"


class Tree:
    """A repository with four crates and the tool."""

    def __init__(self, top: Path) -> None:
        self.top = top
        (self.top / "tools").mkdir()
        for name in ("check", "crates.py"):
            shutil.copy(TOP / "tools" / name, self.top / "tools" / name)
        self.write("crates.txt", CRATES)
        for name in ("low", "other", "middle", "high"):
            self.write(f"crates/{name}/src/lib.rt", "pub fn first() {}\n")
        self.write("bin/rt", RT)
        (self.top / "bin" / "rt").chmod(0o755)
        self.git("init", "-q")
        self.commit()

    def write(self, name: str, text: str) -> None:
        (self.top / name).parent.mkdir(parents=True, exist_ok=True)
        (self.top / name).write_text(text, encoding="utf-8")

    def git(self, *words: str) -> None:
        who = ("-c", "user.name=a", "-c", "user.email=a@example.org")
        subprocess.run(["git", *who, *words], cwd=self.top, check=True, capture_output=True)

    def commit(self) -> None:
        self.git("add", ".")
        self.git("commit", "-q", "-m", "as it is")

    def check(self, *words: str) -> "subprocess.CompletedProcess[str]":
        (self.top / "asked").write_text("", encoding="utf-8")
        path = {**os.environ, "PATH": f"{self.top}/bin:{os.environ['PATH']}"}
        return subprocess.run(
            [str(self.top / "tools" / "check"), *words],
            cwd="/",
            env=path,
            text=True,
            capture_output=True,
            timeout=400,
            check=False,
        )

    def asked(self, *words: str) -> list[str]:
        """The crates that were checked, in their order, if none is refused."""
        done = self.check(*words)
        assert (done.returncode, done.stderr) == (0, "")
        names = (self.top / "asked").read_text(encoding="utf-8").split()
        assert [line.split()[0] for line in done.stdout.splitlines()[:-1]] == names
        assert done.stdout.splitlines()[-1] == f"{len(names)} proved, 0 refused, 0 not tried"
        return names


@pytest.fixture
def tree(tmp_path: Path) -> Tree:
    return Tree(tmp_path)


def test_crates_and_those_above_them(tree: Tree) -> None:
    assert tree.asked("low") == ["low"]
    assert tree.asked("middle", "low") == ["low", "middle"]
    assert tree.asked("low", "--up", "1") == ["low", "middle"]
    assert tree.asked("low", "--up", "2") == ["low", "middle", "high"]
    assert tree.asked("--up", "9", "other") == ["other", "high"]
    everything = tree.asked("--all")
    assert sorted(everything) == ["high", "low", "middle", "other"]
    assert everything[-1] == "high"


def test_the_line_of_a_crate(tree: Tree) -> None:
    line = tree.check("low").stdout.splitlines()[0]
    assert re.search(r"^low +3 functions +\d+\.\d s +\d+\.\d s on processors  proved$", line)


def test_a_refused_crate(tree: Tree) -> None:
    tree.write("crates/middle/src/lib.rt", "wrong\n")
    done = tree.check("low", "other", "--up", "2")
    assert (done.returncode, done.stderr) == (1, "")
    assert re.search(r"(?m)^middle +- functions .* refused, middle::second$", done.stdout)
    assert "error: a clause isn't proved\n" in done.stdout
    assert "middle::first" not in done.stdout
    assert "not tried: it stands on middle\n" in done.stdout
    assert done.stdout.splitlines()[-1] == "2 proved, 1 refused, 1 not tried"


def test_what_changed(tree: Tree) -> None:
    assert tree.asked("--changed") == []
    tree.write("crates/middle/README.md", "What it is for.\n")
    assert tree.asked("--changed") == []
    tree.write("crates/middle/proofs/New.antt", "-- a lemma\n")
    assert tree.asked("--changed") == ["middle", "high"]
    assert tree.asked("--changed", "--up", "0") == ["middle"]
    assert tree.asked("other", "--changed", "--up", "0") == ["other", "middle"]
    tree.commit()
    assert tree.asked("--changed") == []
    (tree.top / "crates/other/src/lib.rt").unlink()
    assert tree.asked("--changed") == ["other", "high"]
    assert sorted(tree.asked("--changed=HEAD~1")) == ["high", "middle", "other"]


def test_a_changed_line_of_crates_txt(tree: Tree) -> None:
    tree.write("crates.txt", CRATES.replace("middle: low", "middle: low other"))
    assert tree.asked("--changed") == ["middle", "high"]


def test_words_that_make_no_sense(tree: Tree) -> None:
    for words, said in ((["gone"], "no gone"), ([], "name a crate"), (["low", "--up", "-1"], "0 or more")):
        done = tree.check(*words)
        assert (done.returncode, done.stdout) == (2, "")
        assert said in done.stderr
    done = tree.check("--changed=nowhere")
    assert (done.returncode, done.stdout) == (1, "")
    assert "nowhere" in done.stderr


def test_jobs_are_handed_on(tree: Tree) -> None:
    assert tree.check("low", "--jobs", "2").returncode == 0
    assert (tree.top / "asked").read_text(encoding="utf-8") == "low --jobs 2\n"


def test_its_crates_are_there() -> None:
    listed = (TOP / "crates.txt").read_text(encoding="utf-8")
    page = (TOP / "docs" / "CONTRIBUTING.md").read_text(encoding="utf-8")
    rows = re.findall(r"^\| `(roman_\w+)` \| \d+ \| \d+ \|$", page, re.M)
    assert len(rows) > 20
    assert len(rows) == len({*rows})
    for name in rows:
        assert re.search(rf"(?m)^{name}(?: staticlib)?:", listed)
