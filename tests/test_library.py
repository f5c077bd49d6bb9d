"""libroman: its files, its examples in C, C++, Rust and Python, which reply as the program does, the statuses on wrong
use, and its use of memory. ROMAN_ARCHIVE names the archive of `rt lib`. By default it is that of this repository, which
is built first if it is missing or older than a source."""

import json
import os
import re
import shlex
import shutil
import subprocess
import threading
from pathlib import Path
from typing import Any

import pytest

from roman_client import library

from . import PROGRAM, TOP

LIBRARY = TOP / "library"
LAMP = TOP / "samples" / "lamp.json"
PART = "samples/tap.behaviour.json"
SAMPLES = sorted(file.stem for file in (TOP / "samples").glob("*.session"))
WRAPPED = [f"-Wl,--wrap={name}" for name in ("malloc", "realloc", "free")]
CHECKED = ["-fsanitize=address,undefined", "-fno-sanitize-recover=all"]
FUZZ_SECONDS = int(os.environ.get("FUZZ_SECONDS", "60"))
EXPORTS = set(re.findall(r"^\w+ (roman_\w+)\(", (LIBRARY / "roman.h").read_text(encoding="utf-8"), re.M))


def run(*words: Any, status: int = 0, **options: Any) -> "subprocess.CompletedProcess[bytes]":
    options.setdefault("timeout", 600)
    done = subprocess.run([str(word) for word in words], capture_output=True, check=False, **options)
    assert done.returncode == status, done.stdout[-2000:] + done.stderr[-2000:]
    return done


def run_any(*words: Any) -> "subprocess.CompletedProcess[bytes]":
    """Ends with any status."""
    return subprocess.run([str(word) for word in words], capture_output=True, check=False, timeout=600, cwd=TOP)


def archive() -> Path:
    given = os.environ.get("ROMAN_ARCHIVE")
    if given:
        return Path(given)
    run(LIBRARY / "archive", timeout=3000)
    return TOP / "crates" / "roman_c" / "out" / "libroman_c.a"


pytestmark = pytest.mark.timeout(3600)


@pytest.fixture(scope="module", name="built")
def fixture_built(tmp_path_factory: pytest.TempPathFactory) -> Path:
    """The files of the library in a folder, laid out as below a prefix."""
    prefix = tmp_path_factory.mktemp("prefix")
    files = prefix / "files"
    run(LIBRARY / "make", archive(), files)
    for folder, names in (
        ("include", ["roman.h", "roman.hpp"]),
        ("lib", ["libroman*"]),
        ("lib/pkgconfig", ["roman.pc"]),
    ):
        (prefix / folder).mkdir(parents=True)
        for name in names:
            for file in files.glob(name):
                shutil.copy2(file, prefix / folder, follow_symlinks=False)
    return prefix


def flags(built: Path) -> list[str]:
    """The flags that pkg-config prints."""
    environment = {**os.environ, "PKG_CONFIG_PATH": str(built / "lib" / "pkgconfig")}
    return shlex.split(run("pkg-config", "--cflags", "--libs", "roman", env=environment).stdout.decode())


def replies(command: list[Any], sample: str, **options: Any) -> bytes:
    session = (TOP / "samples" / f"{sample}.session").read_bytes()
    return run(*command, f"samples/{sample}.json", PART, input=session, cwd=TOP, **options).stdout


def is_as_stored(command: list[Any], **options: Any) -> None:
    """The replies to each sample session are the stored replies of the program, byte for byte."""
    for sample in SAMPLES:
        assert replies(command, sample, **options) == (TOP / "samples" / f"{sample}.replies").read_bytes(), sample


# ---- the files


def test_the_shared_library_shows_the_calls_of_the_header_alone(built: Path) -> None:
    shown = run("nm", "-D", "--defined-only", built / "lib" / "libroman.so").stdout.decode()
    assert {line.split()[-1] for line in shown.splitlines()} == EXPORTS
    shown = run("nm", "-g", "--defined-only", built / "lib" / "libroman.a").stdout.decode()
    assert set(re.findall(r" [A-Z] (\w+)$", shown, re.M)) == EXPORTS


def test_the_shared_library_has_a_soname_and_no_text_relocations(built: Path) -> None:
    said = run("readelf", "-d", built / "lib" / "libroman.so").stdout.decode()
    soname = re.findall(r"\(SONAME\).*\[(.*)\]", said)
    assert soname == ["libroman.so.1"] and (built / "lib" / soname[0]).exists()
    assert re.findall(r"\(NEEDED\).*\[(.*)\]", said) == ["libc.so.6"]
    assert "TEXTREL" not in said


@pytest.mark.parametrize("words", [["cc", "-std=c99", "-x", "c"], ["c++", "-std=c++17", "-x", "c++"]])
def test_the_headers_stand_alone(built: Path, words: list[str]) -> None:
    header = "roman.hpp" if "c++" in words else "roman.h"
    run(*words, "-Wall", "-Wextra", "-Wpedantic", "-Werror", "-fsyntax-only", built / "include" / header)


# ---- the examples


def test_the_example_in_c(built: Path, tmp_path: Path) -> None:
    source = LIBRARY / "examples" / "talk.c"
    run(
        "cc",
        "-std=c99",
        "-Wall",
        "-Wextra",
        "-Werror",
        "-o",
        tmp_path / "shared",
        source,
        *flags(built),
        f"-Wl,-rpath,{built}/lib",
    )
    run("cc", "-o", tmp_path / "static", source, f"-I{built}/include", built / "lib" / "libroman.a")
    for name in ("shared", "static"):
        is_as_stored([tmp_path / name])
    # The program's line for a document that it refuses, and its status.
    said = run(tmp_path / "static", "samples/home.session", cwd=TOP, input=b"", status=3).stdout
    assert said == b"refused samples/home.session notjson system 0 whole 0\n"


def test_the_example_in_cpp(built: Path, tmp_path: Path) -> None:
    source = LIBRARY / "examples" / "talk.cpp"
    words = [
        "c++",
        "-std=c++17",
        "-Wall",
        "-Wextra",
        "-Werror",
        *CHECKED,
        "-o",
        tmp_path / "talk",
        source,
        *flags(built),
    ]
    run(*words, f"-Wl,-rpath,{built}/lib")
    is_as_stored([tmp_path / "talk"])


def test_the_example_in_rust(built: Path, tmp_path: Path) -> None:
    environment = {**os.environ, "ROMAN_LIBRARY": str(built / "lib"), "CARGO_TARGET_DIR": str(tmp_path)}
    run(
        "cargo",
        "build",
        "--offline",
        "--locked",
        "--example",
        "talk",
        cwd=LIBRARY / "examples" / "rust",
        env=environment,
    )
    is_as_stored([tmp_path / "debug" / "examples" / "talk"])


def test_the_example_in_python(built: Path) -> None:
    is_as_stored(["/usr/bin/python3", LIBRARY / "examples" / "talk.py", built / "lib" / "libroman.so"])


# ---- use and wrong use


def tried(built: Path, into: Path, *words: str) -> Path:
    run(
        "cc",
        "-g",
        "-O1",
        "-std=gnu11",
        "-Wall",
        "-Wextra",
        "-Werror",
        "-pthread",
        "-o",
        into,
        TOP / "tests" / "library.c",
        f"-I{built}/include",
        built / "lib" / "libroman.a",
        *WRAPPED,
        *words,
    )
    return into


def test_every_call_in_every_state_and_each_allocation_failing(built: Path, tmp_path: Path) -> None:
    said = run(tried(built, tmp_path / "checked", *CHECKED), LAMP).stdout
    assert said == b"all as roman.h says\n"


def test_reports_and_verdicts_are_those_of_the_program(built: Path, tmp_path: Path) -> None:
    """The texts and statuses are the same for each sample, for its certificate, for one that lacks an entry, and for
    documents that are refused or exceed their limit."""
    shared = built / "lib" / "libroman.so"
    small = json.loads(LAMP.read_text(encoding="utf-8")) | {"limit": 7}
    (tmp_path / "small.json").write_text(json.dumps(small), encoding="utf-8")
    refused = [str(tmp_path / "small.json"), "samples/home.session", "samples/gone.json"]
    for document in [*(f"samples/{sample}.json" for sample in SAMPLES), *refused]:
        said = run_any(PROGRAM, "synth", document)
        assert library.synth(document, shared, TOP) == (said.returncode, said.stdout.decode()), document
        entries = run_any(PROGRAM, "certify", document).stdout.splitlines(keepends=True)
        for lines in (entries, entries[:-2] + entries[-1:], [b"\n"]):
            (tmp_path / "certificate").write_bytes(b"".join(lines))
            said = run_any(PROGRAM, "check", document, tmp_path / "certificate")
            told = library.check(document, tmp_path / "certificate", shared, TOP)
            assert told == (said.returncode, said.stdout.decode()), document


def test_no_memory_is_lost_or_misused(built: Path, tmp_path: Path) -> None:
    plain = tried(built, tmp_path / "plain")
    valgrind = ["valgrind", "-q", "--error-exitcode=9", "--leak-check=full", "--errors-for-leak-kinds=all"]
    for words in ([LAMP], [LAMP, "rounds", "10000"], [LAMP, "sessions", "100"]):
        assert run(*valgrind, plain, *words).stderr == b""


def test_a_million_requests_take_no_more_memory(built: Path, tmp_path: Path) -> None:
    plain = tried(built, tmp_path / "plain")
    peaks: dict[int, int] = {}
    for rounds in (1000, 1_000_000):
        process = subprocess.Popen([plain, LAMP, "rounds", str(rounds)], stdout=subprocess.DEVNULL)
        watch = threading.Timer(300, process.kill)
        watch.start()
        _, status, usage = os.wait4(process.pid, 0)
        watch.cancel()
        assert status == 0
        peaks[rounds] = usage.ru_maxrss
    assert peaks[1_000_000] <= peaks[1000] + 1024


def test_a_minute_of_any_calls(built: Path, tmp_path: Path) -> None:
    """Runs libFuzzer over documents, part files and calls in any order, beginning with the sample sessions. The output
    has an input that fails."""
    corpus = tmp_path / "corpus"
    corpus.mkdir()
    part = (TOP / PART).read_bytes()
    for sample in SAMPLES:
        document = (TOP / "samples" / f"{sample}.json").read_bytes().replace(PART.encode(), b"p")
        lines = (TOP / "samples" / f"{sample}.session").read_bytes().splitlines()
        calls = b"".join(b"\0" + line + b"\n" for line in lines)
        (corpus / sample).write_bytes(document + b"\0" + part + b"\0" + calls)
    for file in (LIBRARY / "fuzz" / "corpus").iterdir():
        shutil.copy(file, corpus)
    run(
        "clang",
        "-g",
        "-O1",
        "-fsanitize=fuzzer,address,undefined",
        "-o",
        tmp_path / "fuzz",
        LIBRARY / "fuzz" / "fuzz.c",
        f"-I{built}/include",
        built / "lib" / "libroman.a",
    )
    said = run(
        tmp_path / "fuzz",
        f"-max_total_time={FUZZ_SECONDS}",
        "-timeout=20",
        "-max_len=65536",
        f"-artifact_prefix={tmp_path}/",
        corpus,
        timeout=FUZZ_SECONDS + 300,
    ).stderr.decode()
    ran = re.search(r"Done (\d+) runs", said)
    assert ran and int(ran[1]) > 100
