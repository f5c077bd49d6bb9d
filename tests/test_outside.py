"""The surroundings of the program: its statuses, ./roman, ./install, the manual page and the completions."""

import json
import os
import pty
import re
import resource
import select
import shutil
import subprocess
import tempfile
import time
from collections.abc import Iterator
from pathlib import Path
from typing import Any

import pytest

from . import PROGRAM, TOP

SHORT = "samples/short/house.json"

Ended = "subprocess.CompletedProcess[str]"

TOOLS = ("roman-lint", "roman-expand", "roman-talk", "roman-draw", "roman-advice", "roman-mend")
NAMES = ("roman", "roman-live", *TOOLS)
"""The commands that are installed."""


def run(*words: str, **options: Any) -> Ended:
    options.setdefault("capture_output", True)
    options.setdefault("timeout", 400)
    return subprocess.run(words, text=True, check=False, **options)


# Each status, with the standard error.


def says(done: Ended, status: int, word: str) -> None:
    assert done.returncode == status
    lines = done.stderr.splitlines()
    assert len(lines) == 1, done.stderr
    assert lines[0].startswith("roman: ")
    assert word in lines[0]


def test_statuses_that_say_it_in_the_output(tmp_path: Path) -> None:
    small = tmp_path / "small.json"
    lamp = json.loads((TOP / "samples" / "lamp.json").read_text(encoding="utf-8"))
    small.write_text(json.dumps({**lamp, "limit": 7}), encoding="utf-8")
    for status, words in (
        (0, ["synth", "samples/lamp.json"]),
        (1, ["synth", "samples/flaky.json"]),
        (2, ["fly"]),
        (3, ["synth", "samples/home.session"]),
    ):
        done = run(PROGRAM, *words, cwd=TOP)
        assert (done.returncode, done.stderr) == (status, "")
        assert done.stdout != ""


def test_a_system_past_its_limit(tmp_path: Path) -> None:
    """Its number of cells is exact, however large. Here it is 4 times a power of 64, with up to 59 digits."""
    lamp = json.loads((TOP / "samples" / "lamp.json").read_text(encoding="utf-8"))
    states = [f"s{number}" for number in range(64)]
    wide = {"name": "wide", "states": states, "start": "s0", "final": states, "steps": []}
    rows = [({**lamp, "limit": 7}, 8, 7)]
    for count in (3, 10, 11, 21, 32):
        services = [{"name": f"w{number}", "behaviour": "wide"} for number in range(count)]
        rows.append(({**lamp, "behaviours": [wide], "services": services}, 4 * 64**count, 262144))
    for document, cells, limit in rows:
        (tmp_path / "large.json").write_text(json.dumps(document), encoding="utf-8")
        for words in (["synth", "large.json"], ["run", "large.json"], ["certify", "large.json"]):
            done = run(PROGRAM, *words, cwd=tmp_path, stdin=subprocess.DEVNULL)
            assert (done.returncode, done.stdout) == (4, f"limit {limit}\n")
            assert done.stderr == f"roman: {cells} cells, limit {limit}\n"


def test_advice_with_too_many_values(tmp_path: Path) -> None:
    lamp = json.loads((TOP / "samples" / "lamp.json").read_text(encoding="utf-8"))
    lamp["behaviours"][0]["final"] = ["off", "on"]
    lamp["services"] = [{"name": f"l{number}", "behaviour": "lamp"} for number in range(14)]
    (tmp_path / "lamps.json").write_text(json.dumps(lamp), encoding="utf-8")
    (tmp_path / "lamps.costs").write_text("[]", encoding="utf-8")
    done = run(PROGRAM, "advise", "lamps.json", "lamps.costs", "64", cwd=tmp_path)
    assert (done.returncode, done.stdout) == (4, "limit 1048576\n")
    assert done.stderr == "roman: the related pairs times 64 are more than 1,048,576 values\n"


@pytest.mark.parametrize(
    "words",
    [
        ["synth", SHORT],
        ["run", SHORT],
        ["certify", SHORT],
        ["check", SHORT, "samples/home.session"],
        ["resilience", SHORT],
        ["shortest", SHORT],
        ["advise", SHORT, "samples/depot.costs", "3"],
    ],
    ids=lambda words: words[0],
)
def test_a_document_in_the_short_form(words: list[str]) -> None:
    """The program refuses it, and has the same advice as the Python client."""
    done = run(PROGRAM, *words, cwd=TOP, stdin=subprocess.DEVNULL)
    assert (done.returncode, done.stdout) == (3, f"refused {SHORT} form system 0 roman 0\n")
    assert (
        done.stderr == f"roman: {SHORT} is in the short form; roman-expand {SHORT} -o plain.json writes the plain one\n"
    )


@pytest.mark.parametrize(
    "words", [[b"\xff"], [b"synth", b"\xff.json"], [b"run", b"samples/lamp.json", b"\xc3"], [b"make", b"1\x80"]]
)
def test_a_word_that_is_no_utf_8(words: Any) -> None:
    done = subprocess.run(
        [os.fsencode(PROGRAM), *words],
        cwd=TOP,
        stdin=subprocess.DEVNULL,
        capture_output=True,
        timeout=400,
        check=False,
    )
    assert (done.returncode, done.stdout, done.stderr) == (2, b"", b"")


def test_a_file_that_can_not_be_read(tmp_path: Path) -> None:
    lamp = json.loads((TOP / "samples" / "lamp.json").read_text(encoding="utf-8"))
    part = {**lamp, "behaviours": [{"file": "part.json"}]}
    (tmp_path / "mine.json").write_text(json.dumps(part), encoding="utf-8")
    (tmp_path / "rooms").mkdir()
    shutil.copy(TOP / "samples" / "lamp.json", tmp_path)
    rows = (
        (["synth", "gone.json"], "gone.json: there is no such file"),
        (["synth", "rooms"], "rooms: it is a folder"),
        (["synth", "lamp.json/x"], "lamp.json/x: it couldn't be read (not a directory)"),
        (["synth", "mine.json"], "part.json: there is no such file"),
        (["run", "lamp.json", "gone.session"], "gone.session: there is no such file"),
        (["check", "lamp.json", "rooms"], "rooms: it is a folder"),
    )
    for words, text in rows:
        done = run(PROGRAM, *words, cwd=tmp_path)
        assert (done.returncode, done.stdout) == (5, "")
        assert done.stderr == f"roman: {text}\n"


def test_an_input_that_can_not_be_read() -> None:
    folder = os.open(TOP, os.O_RDONLY)
    try:
        done = run(PROGRAM, "run", "samples/lamp.json", cwd=TOP, stdin=folder)
    finally:
        os.close(folder)
    says(done, 6, "input")


def test_an_output_that_can_not_be_written() -> None:
    with open("/dev/full", "w", encoding="utf-8") as full:
        done = run(
            PROGRAM,
            "synth",
            "samples/lamp.json",
            cwd=TOP,
            capture_output=False,
            stdout=full,
            stderr=subprocess.PIPE,
        )
    says(done, 7, "output")


def test_a_reader_that_goes_away() -> None:
    reading, writing = os.pipe()
    os.close(reading)
    try:
        done = run(
            PROGRAM,
            "synth",
            "samples/lamp.json",
            cwd=TOP,
            capture_output=False,
            stdout=writing,
            stderr=subprocess.PIPE,
        )
    finally:
        os.close(writing)
    assert (done.returncode, done.stderr) == (7, "")


def test_a_session_that_is_too_long() -> None:
    done = run(PROGRAM, "run", "samples/lamp.json", cwd=TOP, input="\n" * 16_777_217)
    says(done, 8, "16,777,216")
    done = run(PROGRAM, "run", "samples/lamp.json", cwd=TOP, input="\n" * 16_777_211 + "quit\n")
    assert (done.returncode, done.stdout, done.stderr) == (0, "bye\n", "")


def test_memory_that_is_not_there(tmp_path: Path) -> None:
    def little() -> None:
        resource.setrlimit(resource.RLIMIT_AS, (48 << 20, 48 << 20))

    large = tmp_path / "large.json"
    lamp = json.loads((TOP / "samples" / "lamp.json").read_text(encoding="utf-8"))
    lamps = [{"name": f"l{number}", "behaviour": "lamp"} for number in range(18)]
    large.write_text(json.dumps({**lamp, "services": lamps, "limit": 16777216}), encoding="utf-8")
    done = run(PROGRAM, "synth", str(large), preexec_fn=little)
    says(done, 9, "memory")
    assert done.stdout == ""


class Tree:
    """A tree with the files that ./roman and ./install need, with or without the program."""

    def __init__(self, folder: Path) -> None:
        self.top = folder / "top"
        self.prefix = folder / "prefix"
        for name in ("roman", "install"):
            self.copy(name)
        for name in ("schema", "tools", "python", "docs", "samples"):
            shutil.copytree(TOP / name, self.top / name, symlinks=True)
        self.program = self.top / "crates/roman_cli/out/roman_cli"
        self.program.parent.mkdir(parents=True)

    def copy(self, name: str) -> None:
        to = self.top / name
        to.parent.mkdir(parents=True, exist_ok=True)
        shutil.copy(TOP / name, to)

    def build(self) -> None:
        shutil.copy(shutil.which(PROGRAM) or PROGRAM, self.program)
        self.program.chmod(0o755)

    def roman(self, *words: str, **options: Any) -> Ended:
        return run(str(self.top / "roman"), *words, cwd=self.top, **options)

    def install(self, *words: str, **options: Any) -> Ended:
        return run(str(self.top / "install"), *words, cwd=self.top, **options)

    def toolchain(self) -> dict[str, str]:
        """An environment with an `rt` that runs the built program as `rt try` runs the unproved one: in a new folder,
        which has only the given files."""
        tools = self.top / "tools"
        (tools / "rt").write_text(
            '#!/bin/bash\nset -e\n[ "$1" = try ]\nshift\nfolder=$(mktemp -d)\n'
            'while [ "$1" = --data ]; do install -D "${2#*=}" "$folder/${2%%=*}"; shift 2; done\n'
            f'[ "$1" = -- ]\nshift\ncd "$folder"\n"{PROGRAM}" "$@"\n',
            encoding="utf-8",
        )
        (tools / "rt").chmod(0o755)
        return {**os.environ, "PATH": f"{tools}:{os.environ['PATH']}"}


@pytest.fixture
def tree() -> Iterator[Tree]:
    with tempfile.TemporaryDirectory() as folder:
        yield Tree(Path(folder))


@pytest.fixture
def built(tree: Tree) -> Tree:
    """A tree with the program."""
    tree.build()
    return tree


# ./roman before and after ./build.

LIVE = ("run", "samples/lamp.json")


def refused(done: Ended) -> None:
    assert (done.returncode, done.stdout) == (10, "")
    assert len(done.stderr.splitlines()) == 1
    assert "./build" in done.stderr


def test_a_pipe_before_the_build(tree: Tree) -> None:
    refused(tree.roman(*LIVE, input="do on\n"))


def test_a_terminal_before_the_build(tree: Tree) -> None:
    leader, terminal = pty.openpty()
    try:
        refused(tree.roman(*LIVE, stdin=terminal))
    finally:
        os.close(leader)
        os.close(terminal)


def test_a_session_from_a_file_before_the_build(tree: Tree) -> None:
    """It reaches the unproved run. Without a toolchain, nothing more can be seen here."""
    empty = tree.top / "empty"
    empty.mkdir()
    (empty / "rt").write_text('#!/bin/sh\necho ran "$@"\n', encoding="utf-8")
    (empty / "rt").chmod(0o755)
    path = {**os.environ, "PATH": f"{empty}:{os.environ['PATH']}"}
    (tree.top / "session").write_text("do on\n", encoding="utf-8")
    for words in (LIVE, (*LIVE, "session"), ("synth", "samples/lamp.json")):
        with open(tree.top / "session", encoding="utf-8") as session:
            done = tree.roman(*words, env=path, stdin=session)
            assert done.returncode == 0, done.stderr
            assert "ran try" in done.stdout
            assert " ".join(words) in done.stdout


def test_part_files_before_the_build(tree: Tree) -> None:
    for name in ("greenhouse.json", "tap.behaviour.json", "greenhouse.session"):
        tree.copy(f"samples/{name}")
    replies = (TOP / "samples" / "greenhouse.replies").read_text(encoding="utf-8")
    for folder in ("", f"{tree.top}/"):
        done = tree.roman(
            "run",
            f"{folder}samples/greenhouse.json",
            f"{folder}samples/greenhouse.session",
            env=tree.toolchain(),
        )
        assert (done.returncode, done.stdout) == (0, replies), done.stderr


def test_short_documents_before_the_build(tree: Tree) -> None:
    """All commands of the guide that accept one."""
    guide = (TOP / "docs" / "GUIDE.md").read_text(encoding="utf-8")
    named = re.findall(r"`\./roman (synth samples/short/\w+\.json)`", guide)
    assert "synth samples/short/house.json" in named
    for words in named:
        done = tree.roman(*words.split(), env=tree.toolchain())
        assert done.returncode == 0, done.stderr
        assert "\nanswer composition\n" in done.stdout


def test_short_documents_after_the_build(built: Tree) -> None:
    done = built.roman("synth", "samples/short/house.json")
    assert (done.returncode, done.stderr) == (0, "")
    assert "\nanswer composition\n" in done.stdout
    done = built.roman("run", "samples/short/home.json", input="do brighten\n")
    assert (done.returncode, done.stdout, done.stderr) == (0, "offer window ceiling\n", "")


def test_no_composition_at_a_terminal(built: Tree) -> None:
    """The standard error has the first step of the explanation. If it isn't a terminal, it is empty."""
    leader, terminal = pty.openpty()
    try:
        done = built.roman("synth", "samples/flaky.json", capture_output=False, stdout=subprocess.PIPE, stderr=terminal)
        told = os.read(leader, 4096).decode().replace("\r\n", "\n")
    finally:
        os.close(leader)
        os.close(terminal)
    assert done.returncode == 1
    assert done.stdout.endswith("answer none\nend\n")
    assert told.startswith("why: target off, environment e; f1: off\n  on is requested\n"), told
    assert "roman-draw samples/flaky.json --why --text" in told
    done = built.roman("synth", "samples/flaky.json")
    assert (done.returncode, done.stderr) == (1, "")


def test_a_pipe_after_the_build(built: Tree) -> None:
    done = built.roman(*LIVE, input="do on\n")
    assert (done.returncode, done.stdout, done.stderr) == (0, "offer l1\n", "")


def test_sources_that_are_newer(built: Tree) -> None:
    source = built.top / "crates/roman_cli/src/main.rt"
    source.parent.mkdir()
    source.write_text("", encoding="utf-8")
    os.utime(built.program, (1, 1))
    refused(built.roman(*LIVE, input="do on\n"))


# ./install, and the removal of the files that it installed.

PLACES = (
    "bin/roman",
    "bin/roman-draw",
    *(f"share/man/man1/roman{name}.1" for name in ("", "-advice", "-draw", "-expand", "-lint", "-live", "-talk")),
    "share/doc/roman/samples/live/roman-live.service",
    "share/doc/roman/roman-live.md",
    "share/doc/roman/HEADLINE.html",
    "share/roman/schema/system.schema.json",
    "share/roman/schema/costs.schema.json",
    "share/roman/schema/short.schema.json",
    "share/roman/schema/home.schema.json",
    "bin/roman-lint",
    "bin/roman-expand",
    "bin/roman-mend",
    "bin/roman-talk",
    "bin/roman-draw",
    "bin/roman-advice",
    *(f"share/roman/python/roman_tools/{file.name}" for file in (TOP / "python/src/roman_tools").glob("*.*")),
    *(f"share/roman/python/roman_client/{file.name}" for file in (TOP / "python/src/roman_client").glob("*.py")),
    "share/roman/python/roman_client/aio/__init__.py",
    "share/zsh/site-functions/_roman",
    *(f"share/bash-completion/completions/{name}" for name in NAMES),
    *(f"share/fish/vendor_completions.d/{name}.fish" for name in NAMES),
)


def test_what_is_put_where_is_said(built: Tree) -> None:
    done = built.install(str(built.prefix))
    assert (done.returncode, done.stderr) == (0, "")
    for place in PLACES:
        assert f"installed {built.prefix / place}\n" in done.stdout
        assert (built.prefix / place).is_file()
    assert "isn't in PATH" in done.stdout
    assert "to PYTHONPATH" in done.stdout
    lamp = str(built.top / "samples/lamp.json")
    done = run(str(built.prefix / "bin" / "roman"), "synth", lamp)
    assert done.returncode == 0
    assert "answer composition" in done.stdout
    shutil.rmtree(built.top / "python")
    done = run(str(built.prefix / "bin" / "roman-draw"), lamp, "--dot")
    assert (done.returncode, done.stderr) == (0, "")
    assert "digraph roman" in done.stdout


def test_the_guide_has_beside_it_what_it_names(built: Tree) -> None:
    assert built.install(str(built.prefix)).returncode == 0
    guide = built.prefix / "share/doc/roman/GUIDE.md"
    text = guide.read_text(encoding="utf-8")
    named = {*re.findall(r"\]\(([^)]+)\)", text), *re.findall(r"samples/[\w./@-]*\w", text)}
    assert len(named) > 15
    for name in named:
        if not name.startswith("https://"):
            assert (guide.parent / name).exists(), name
    program = str(built.prefix / "bin/roman")
    done = run(program, "run", "samples/greenhouse.json", "samples/greenhouse.session", cwd=guide.parent)
    assert done.stdout == (guide.parent / "samples/greenhouse.replies").read_text(encoding="utf-8")


def test_python_finds_the_client(built: Tree) -> None:
    home = {**os.environ, "HOME": str(built.prefix)}
    home.pop("PYTHONPATH", None)
    assert "PYTHONPATH" not in built.install(env=home).stdout
    for python in ("/usr/bin/python3", "python3"):
        done = run(python, "-c", "import roman_client; print(roman_client)", env=home, cwd="/")
        assert str(built.prefix) in done.stdout, done.stderr
    assert built.install("--remove", env=home).returncode == 0
    assert [each for each in built.prefix.rglob("*") if each.is_file()] == []


def test_the_tools_run_where_they_are_installed(built: Tree) -> None:
    """They find each other and the program, although PATH doesn't have them."""
    assert built.install(str(built.prefix)).returncode == 0
    path = {name: value for name, value in os.environ.items() if name != "ROMAN"}
    home = str(TOP / "samples" / "short" / "home.json")
    tools = built.prefix / "bin"
    for words, said in (
        (["roman-lint", home], "roman says: answer composition"),
        (["roman-expand", home], '"roman": 1'),
        (["roman-draw", home, "--offers", "--dot"], "brighten by window"),
        (["roman-live", "--help"], "usage: roman-live"),
    ):
        done = run(str(tools / words[0]), *words[1:], env=path, cwd="/")
        assert (done.returncode, done.stderr) == (0, "")
        assert said in done.stdout
    done = run(str(tools / "roman-talk"), home, env=path, cwd="/", input="do brighten\n")
    assert "offer window ceiling" in done.stdout
    done = run(str(tools / "roman-live"), "gone.toml", env=path, cwd="/")
    assert (done.returncode, done.stdout, done.stderr) == (
        2,
        "",
        "roman-live: gone.toml: No such file or directory\n",
    )


def test_what_the_tools_need_is_named(built: Tree) -> None:
    assert built.install(str(built.prefix)).returncode == 0
    for tool in ("lint", "expand", "draw", "talk"):
        # Without the folders of Debian's packages.
        words = ["/usr/bin/python3", "-S", str(built.prefix / f"bin/roman-{tool}"), "--help"]
        done = run(*words, env={"PATH": os.environ["PATH"]})
        assert (done.returncode, done.stdout) == (1, "")
        assert "sudo apt install python3-jsonschema python3-lark\n" in done.stderr


def test_what_roman_live_needs_is_named(built: Tree) -> None:
    assert built.install(str(built.prefix)).returncode == 0
    lacking = built.top / "lacking"
    lacking.mkdir()
    (lacking / "aiohttp.py").write_text('raise ModuleNotFoundError("gone", name="aiohttp")\n', encoding="utf-8")
    done = run(str(built.prefix / "bin/roman-live"), "--help", env={**os.environ, "PYTHONPATH": str(lacking)})
    assert (done.returncode, done.stdout) == (3, "")
    assert "there is no aiohttp; it needs: sudo apt install python3-aiohttp" in done.stderr


def test_it_is_taken_away_again(built: Tree) -> None:
    built.prefix.joinpath("bin").mkdir(parents=True)
    built.prefix.joinpath("bin", "other").touch()
    assert built.install(str(built.prefix)).returncode == 0
    assert built.install(str(built.prefix)).returncode == 0
    done = built.install("--remove", str(built.prefix))
    assert (done.returncode, done.stderr) == (0, "")
    for place in PLACES:
        assert f"removed {built.prefix / place}\n" in done.stdout
    left = sorted(str(each.relative_to(built.prefix)) for each in built.prefix.rglob("*"))
    assert left == ["bin", "bin/other"]
    assert "nothing" in built.install("--remove", str(built.prefix)).stdout


def test_what_an_earlier_one_had_goes_away(built: Tree) -> None:
    old = built.top / "python/src/roman_client/old.py"
    old.touch()
    assert built.install(str(built.prefix)).returncode == 0
    gone = built.prefix / "share/roman/python/roman_client/old.py"
    assert gone.exists()
    old.unlink()
    assert built.install(str(built.prefix)).returncode == 0
    assert not gone.exists()
    assert (built.prefix / "bin/roman").exists()


def test_a_debian_package(built: Tree) -> None:
    named = {**os.environ, "DEBFULLNAME": "Some One", "DEBEMAIL": "one@example.org"}
    done = built.install("--deb", str(built.prefix), timeout=400, env=named)
    assert (done.returncode, done.stderr) == (0, "")
    (deb,) = built.prefix.iterdir()
    assert done.stdout == f"made {deb}\n"
    for field, word in (("Package", "roman"), ("Depends", "libc6"), ("Depends", "python3")):
        assert word in run("dpkg-deb", "--field", str(deb), field).stdout
    root = built.prefix / "root"
    assert run("dpkg-deb", "--extract", str(deb), str(root)).returncode == 0
    lamp = str(built.top / "samples/lamp.json")
    done = run(str(root / "usr/bin/roman"), "synth", lamp)
    assert (done.returncode, done.stderr) == (0, "")
    path = {**os.environ, "PYTHONPATH": str(root / "usr/lib/python3/dist-packages")}
    shutil.rmtree(built.top / "python")
    for words in (["roman-draw", lamp, "--dot"], ["roman-live", "--help"]):
        done = run(str(root / "usr/bin" / words[0]), *words[1:], env=path)
        assert (done.returncode, done.stderr) == (0, "")
    assert "Maintainer: Some One <one@example.org>\n" in run("dpkg-deb", "--info", str(deb)).stdout.replace("\n ", "\n")
    for place in (
        "share/man/man1/roman.1.gz",
        "share/man/man1/roman-live.1.gz",
        "share/doc/roman/changelog.gz",
        "share/doc/roman/copyright",
        "share/doc/roman/GUIDE.md",
        "share/doc/roman/samples/home.json",
        "share/roman/schema/system.schema.json",
        "share/bash-completion/completions/roman",
        "share/zsh/vendor-completions/_roman",
        "share/fish/vendor_completions.d/roman.fish",
    ):
        assert (root / "usr" / place).is_file(), place
    # If a licence is added, the package has to state it.
    said = (root / "usr/share/doc/roman/copyright").read_text(encoding="utf-8")
    assert ("names no licence" in said) == (not [*TOP.glob("LICEN*"), *TOP.glob("COPYING*")])


def test_a_prefix_with_a_slash_at_its_end(built: Tree) -> None:
    path = {**os.environ, "PATH": f"{built.prefix}/bin:{os.environ['PATH']}"}
    for end in ("/", "//"):
        done = built.install(f"{built.prefix}{end}", env=path)
        assert done.returncode == 0
        assert f"installed {built.prefix}/bin/roman\n" in done.stdout
        assert "isn't in PATH" not in done.stdout
        assert built.install("--remove", f"{built.prefix}{end}").returncode == 0
        assert built.prefix.is_dir()
        assert list(built.prefix.iterdir()) == []


def test_the_usual_prefix_and_a_relative_one(built: Tree) -> None:
    home = {**os.environ, "HOME": str(built.prefix)}
    assert built.install(env=home).returncode == 0
    assert (built.prefix / ".local/bin/roman").is_file()
    assert built.install("here").returncode == 0
    assert (built.top / "here/bin/roman").is_file()


def test_without_a_home(built: Tree) -> None:
    homeless = {name: value for name, value in os.environ.items() if name != "HOME"}
    done = built.install(env=homeless)
    assert (done.returncode, done.stdout) == (2, "")
    assert "HOME" in done.stderr
    assert "unbound" not in done.stderr
    assert built.install(str(built.prefix), env=homeless).returncode == 0


def test_it_builds_where_needed(tree: Tree) -> None:
    build = tree.top / "build"
    build.write_text(
        f"#!/bin/sh\necho building\ncp '{shutil.which(PROGRAM) or PROGRAM}' '{tree.program}'\n",
        encoding="utf-8",
    )
    build.chmod(0o755)
    done = tree.install(str(tree.prefix))
    assert (done.returncode, done.stderr) == (0, "building\n")
    assert tree.install(str(tree.prefix)).stderr == ""
    tree.program.unlink()
    build.write_text("#!/bin/sh\nexit 3\n", encoding="utf-8")
    assert tree.install(str(tree.prefix)).returncode == 1


@pytest.mark.parametrize("words", [["--away"], ["a", "b"], ["--remove", "a", "b"], ["--deb", "a", "b"]])
def test_words_that_are_none(tree: Tree, words: Any) -> None:
    assert tree.install(*words).returncode == 2


class Gate:
    """The messages of `.ci/run` and of the tools that it calls if something is missing."""

    def __init__(self, folder: Path) -> None:
        self.top = folder
        names = ("tools/debian", "samples/try", "tests/run", "tests/__init__.py", "pytest.ini", "conftest.py")
        for name in (".ci/run", *names):
            (self.top / name).parent.mkdir(exist_ok=True)
            shutil.copy(TOP / name, self.top / name)

    def stub(self, name: str, text: str) -> None:
        file = self.top / name
        file.parent.mkdir(parents=True, exist_ok=True)
        file.write_text(f"#!/usr/bin/env bash\n{text}\n", encoding="utf-8")
        file.chmod(0o755)

    def run(
        self,
        proofs: str,
        samples: str = "echo 'samples: 2 passed, 0 failed'",
        tests: str = "echo 'tests: 3 passed, 0 failed'",
        tools: str = "exit 0",
    ) -> Ended:
        for name, text in (("bin/rt", proofs), ("samples/try", samples), ("tests/run", tests), ("tools/debian", tools)):
            self.stub(name, text)
        path = f"{self.top}/bin:{os.environ['PATH']}"
        return run(str(self.top / ".ci/run"), env={**os.environ, "PATH": path, "ROMAN": "/bin/true"})

    def last_line_of(self, body: str) -> str:
        """The last line of the tests of a file with one test."""
        self.stub("program", "exit 0")
        (self.top / "tests/test_one.py").write_text(f"import pytest\n\ndef test():\n    {body}\n", encoding="utf-8")
        return run(
            str(self.top / "tests/run"), env={**os.environ, "ROMAN": str(self.top / "program")}
        ).stdout.splitlines()[-1]


def last(done: Ended) -> tuple[int, str]:
    """The status and the last line of the output."""
    return done.returncode, done.stdout.splitlines()[-1]


@pytest.fixture
def gate(tmp_path: Path) -> Gate:
    return Gate(tmp_path)


def test_all_is_well(gate: Gate) -> None:
    assert last(gate.run("echo '[ $* ]'; echo '7 passed, 0 failed'")) == (0, "12 passed, 0 failed")


def test_each_proved_crate_has_its_time(gate: Gate) -> None:
    done = gate.run(
        "echo 'rt: one proved'; echo 'rt: one: its tests are NOT PROVED'; echo 'rt: a line'; "
        "echo '7 passed, 0 failed'"
    )
    assert last(done) == (0, "12 passed, 0 failed")
    assert re.search(r"(?m)^rt: one proved \(\d+ s into the gate\)$", done.stdout)
    assert re.search(r"(?m)^rt: one: its tests are NOT PROVED \(\d+ s into the gate\)$", done.stdout)
    assert "\nrt: a line\n" in done.stdout


def test_the_proofs_get_no_names(gate: Gate) -> None:
    assert "<ci>" in gate.run("echo \"<$*>\"; echo '7 passed, 0 failed'").stdout


def test_all_stages_run_though_one_fails(gate: Gate) -> None:
    assert last(gate.run("echo '6 passed, 1 failed'; exit 1")) == (1, "11 passed, 1 failed")
    assert last(gate.run("exit 1")) == (1, "5 passed, 1 failed")
    assert last(gate.run("echo '7 passed, 0 failed'; exit 1")) == (1, "12 passed, 1 failed")
    assert last(gate.run("echo '7 passed, 0 failed'", samples="exit 0")) == (1, "10 passed, 1 failed")
    assert last(gate.run("echo '7 passed, 0 failed'", tools="exit 1")) == (1, "12 passed, 1 failed")


def test_edits_that_say_nothing(gate: Gate) -> None:
    for said in (
        "rt: must-fail a/b.edit: BAD EDIT: no such text",
        "rt: must-fail a/b.edit: NOT TRIED: its check was killed",
    ):
        done = gate.run(f"echo '{said}'; echo '7 passed, 0 failed'")
        assert last(done) == (1, "12 passed, 1 failed")
    for said in (
        "rt: must-fail a/b.edit: refused, as it must be "
        "(only because a proof file names what the edit took away, so ..)",
        "rt: must-fail a/b.edit: refused, as it must be (only by a limit of the prover, which gave no verdict)",
    ):
        done = gate.run(f"echo '{said}'; echo '7 passed, 0 failed'")
        assert last(done) == (1, "12 passed, 1 failed")
        assert "these must-fail edits say little of a contract" in done.stdout
    fine = "rt: must-fail a/b.edit: refused, as it must be: src/lib.rt:3:4: error"
    done = gate.run(f"echo '{fine}'; echo '7 passed, 0 failed'")
    assert last(done) == (0, "12 passed, 0 failed")
    assert "must-fail edits say" not in done.stdout


def test_the_program_of_the_environment_is_not_taken(gate: Gate) -> None:
    told = 'echo "ROMAN=${ROMAN-none}"; echo "samples: 2 passed, 0 failed"'
    assert "ROMAN=none\n" in gate.run("echo '7 passed, 0 failed'", samples=told).stdout


def test_samples_and_tests_refuse_an_old_program(gate: Gate) -> None:
    program = gate.top / "crates/roman_cli/out/roman_cli"
    without = {name: value for name, value in os.environ.items() if name != "ROMAN"}
    for stage in ("samples/try", "tests/run"):
        done = run(str(gate.top / stage), env=without)
        assert (done.returncode, done.stdout) == (1, "")
        assert "isn't there" in done.stderr
    gate.stub("crates/roman_cli/out/roman_cli", "exit 0")
    gate.stub("crates/roman_cli/src/main.rt", "")
    os.utime(program, (1, 1))
    for stage in ("samples/try", "tests/run"):
        done = run(str(gate.top / stage), env=without)
        assert (done.returncode, done.stdout) == (1, "")
        assert "older than a source" in done.stderr


def test_a_test_that_is_skipped_has_failed(gate: Gate) -> None:
    assert gate.last_line_of("pass") == "tests: 1 passed, 0 failed"
    assert gate.last_line_of("gate.skipTest('')") == "tests: 0 passed, 1 failed"
    assert gate.last_line_of("gate.fail()") == "tests: 0 passed, 1 failed"
    assert gate.last_line_of("raise SystemExit(0)") == "tests: 0 passed, 1 failed"


def test_tools_that_only_root_can_install(gate: Gate) -> None:
    for name in ("id", "sudo", "mandoc"):
        gate.stub(f"bin/{name}", "echo 1000\nexit 1" if name == "id" else "exit 1")
    (gate.top / "bin/mandoc").unlink()
    for name in ("bash", "env"):
        (gate.top / "bin" / name).symlink_to(shutil.which(name) or name)
    done = run(str(gate.top / "tools/debian"), env={"PATH": str(gate.top / "bin")})
    assert (done.returncode, done.stdout) == (1, "")
    assert "only root can install them: apt-get install" in done.stderr
    assert "mandoc" in done.stderr


def test_where_all_tools_are_there_nothing_is_done(gate: Gate) -> None:
    gate.stub("bin/apt-get", "echo called")
    path = f"{gate.top}/bin:{os.environ['PATH']}"
    done = run(str(gate.top / "tools/debian"), env={**os.environ, "PATH": path, "LC_ALL": "C", "HOME": "/nowhere"})
    assert (done.returncode, done.stdout, done.stderr) == (0, "", "")


# The Python side, installed by pip.


def test_it_is_installed_from_its_folder(tmp_path: Path) -> None:
    source = tmp_path / "source"
    shutil.copytree(TOP / "python", source, ignore=shutil.ignore_patterns("__pycache__", "build", "*.egg-info"))
    done = run(
        "/usr/bin/python3",
        "-m",
        "pip",
        "install",
        "--quiet",
        "--no-deps",
        "--no-index",
        "--no-build-isolation",
        "--target",
        f"{tmp_path}/site",
        str(source),
        env={**os.environ, "PIP_ROOT_USER_ACTION": "ignore", "PIP_DISABLE_PIP_VERSION_CHECK": "1"},
    )
    assert done.returncode == 0, done.stderr
    assert (tmp_path / "site/roman_client/py.typed").is_file()
    script = (
        "import roman_client\n"
        f"with roman_client.Session('samples/lamp.json', program={PROGRAM!r}) as session:\n"
        "    print(roman_client.__file__.startswith(" + repr(str(tmp_path)) + "), session.do('on').services)"
    )
    done = run("/usr/bin/python3", "-c", script, cwd=TOP, env={**os.environ, "PYTHONPATH": f"{tmp_path}/site"})
    assert (done.returncode, done.stdout, done.stderr) == (0, "True ('l1',)\n", "")
    for name in ("roman-live", *TOOLS):
        done = run(
            f"{tmp_path}/site/bin/{name}", "--help", cwd="/", env={**os.environ, "PYTHONPATH": f"{tmp_path}/site"}
        )
        assert (done.returncode, done.stderr) == (0, "")
        assert done.stdout.startswith(f"usage: {name} "), done.stdout
    done = run(
        f"{tmp_path}/site/bin/roman-expand",
        "samples/short/home.json",
        cwd=TOP,
        env={**os.environ, "PYTHONPATH": f"{tmp_path}/site"},
    )
    assert (done.returncode, done.stderr) == (0, "")


def test_the_lint_has_no_complaint() -> None:
    done = run("mandoc", "-Tlint", str(TOP / "docs" / "roman.1"))
    assert (done.returncode, done.stdout, done.stderr) == (0, "", "")
    # Those of the tools refer to pages that this machine may not have, which is a question of style.
    others = (str(TOP / "docs" / name) for name in ("roman-live.1", "roman-tools.1"))
    done = run("mandoc", "-Tlint", "-Wwarning", *others)
    assert (done.returncode, done.stdout, done.stderr) == (0, "", "")


def test_each_command_of_the_usage_line_is_there() -> None:
    usage = run(PROGRAM).stdout
    page = (TOP / "docs" / "roman.1").read_text(encoding="utf-8")
    for command in commands(usage):
        assert f".Nm\n.Cm {command}\n" in page
        assert f".It Cm {command} " in page
    assert page.count(".It Cm ") == len(commands(usage))
    for tool in TOOLS:
        assert f".It Nm {tool} " in page


def complete(*words: str) -> list[str]:
    job = {"roman": "_roman", "roman-live": "_roman_live"}.get(words[0], "_roman_tool")
    script = (
        f'source tools/roman.bash; COMP_WORDS=("$@"); COMP_CWORD=$(($# - 1)); {job};'
        ' printf "%s\\n" "${COMPREPLY[@]}"'
    )
    done = run("bash", "-c", script, "bash", *words, cwd=TOP)
    assert (done.returncode, done.stderr) == (0, "")
    return done.stdout.split()


def test_commands() -> None:
    assert sorted(complete("roman", "")) == sorted(commands(run(PROGRAM).stdout))
    assert complete("roman", "ce") == ["certify"]


def test_files() -> None:
    assert complete("roman", "synth", "samples/ho") == ["samples/home.json"]
    assert complete("roman", "run", "samples/home.json", "samples/ho") == ["samples/home.session"]
    assert "samples" in complete("roman", "check", "s")
    assert complete("roman", "make", "10") == ["10"]
    assert complete("roman", "synth", "READ") == ["README.md"]
    assert complete("roman", "synth", "samples/home.json", "") == []


def test_tools() -> None:
    for tool in TOOLS:
        told = set(
            re.findall(r"(?<!\w)--?[a-z][a-z-]*", run(str(TOP / "tools" / tool), "--help").stdout.split("\n\n")[0])
        ) - {"-h"}
        assert set(complete(tool, "-")) == told | {"--help"}
        assert complete(tool, "samples/ho") == ["samples/home.json"]
    assert complete("roman-draw", "--explanation", "samples/home.s") == ["samples/home.session"]


def test_roman_live() -> None:
    demo = "samples/live/demo/home.toml"
    for words in ((), ("ask",), ("history",)):
        usage = run(str(TOP / "tools/roman-live"), *words, "--help").stdout
        told = set(re.findall(r"(?m)^  (?:-h, )?(--[a-z]+)", usage))
        assert set(complete("roman-live", *words, "-")) == told
        assert complete("roman-live", *words, demo[:-5]) == [demo]
    assert complete("roman-live", "as") == ["ask"]
    assert complete("roman-live", "ask", demo, "") == []


def test_it_is_registered() -> None:
    done = run("bash", "-c", f"source tools/roman.bash; complete -p ./roman {' '.join(NAMES)}", cwd=TOP)
    assert done.returncode == 0, done.stderr


# The completion for fish and zsh.


def fish(line: str) -> list[str]:
    done = run("fish", "-c", f"source tools/roman.fish; complete -C '{line}'", cwd=TOP)
    assert (done.returncode, done.stderr) == (0, "")
    return [each.split("\t")[0] for each in done.stdout.splitlines()]


def zsh(line: str, *expected: str) -> None:
    """Types a line and the key of completion, and waits for these words at the terminal."""
    process, terminal = pty.fork()
    if process == 0:
        os.chdir(TOP)
        os.execvpe("zsh", ["zsh", "-f", "-i"], {**os.environ, "TERM": "dumb", "COLUMNS": "200"})
    try:
        setup = (
            'PS1=; autoload -Uz compinit; compinit -u -D; bindkey "^I" complete-word;'
            " source tools/roman.zsh 2>/dev/null; "
            'compdef _roman roman roman-lint roman-live roman-talk; print REA""DY\n'
        )
        os.write(terminal, setup.encode())
        wait_for(terminal, "READY")
        os.write(terminal, f"{line}\t".encode())
        wait_for(terminal, *expected)
    finally:
        os.close(terminal)
        os.waitpid(process, 0)


def wait_for(terminal: int, *expected: str) -> None:
    """Reads a terminal until these words have come."""
    text = ""
    until = time.monotonic() + 400
    while not all(word in text for word in expected):
        if not select.select([terminal], [], [], until - time.monotonic())[0]:
            pytest.fail(f"{expected} didn't come: {text!r}")
        text += os.read(terminal, 65536).decode(errors="replace")


def test_fish() -> None:
    told = commands(run(PROGRAM).stdout)
    assert sorted(fish("roman ")) == sorted(told)
    assert fish("roman ce") == ["certify"]
    assert fish("roman synth samples/hom")[0] == "samples/home.json"
    assert fish("roman run samples/home.json samples/ho")[0] == "samples/home.session"
    assert fish("roman make 1") == ["1", "10"]
    for tool in TOOLS:
        assert fish(f"{tool} samples/hom")[0] == "samples/home.json"
    assert fish("roman-lint --st") == ["--strict"]
    assert fish("roman-live as")[0] == "ask"
    assert fish("roman-live --ch") == ["--check"]
    assert fish("roman-live ask --k") == ["--key"]


def test_zsh() -> None:
    zsh("roman ce", "certify")
    zsh("roman ", *commands(run(PROGRAM).stdout))
    zsh("roman synth samples/hom", "samples/home.json")
    zsh("roman-lint --st", "--strict")
    zsh("roman-live --ch", "--check")
    zsh("roman-live ask samples/live/demo/hom", "home.toml")
    zsh("roman-talk samples/hom", "samples/home.json")
    zsh("roman run samples/home.json samples/hom", "samples/home.session")


def commands(usage: str) -> list[str]:
    """The commands of the usage line."""
    words: dict[str, None] = {}
    for form in usage.removeprefix("usage: roman ").split(" | "):
        words[form.split()[0]] = None
    return list(words)
