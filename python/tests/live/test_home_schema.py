"""Compares the schema of home files with the checks of roman-live, on home files with random faults."""

import copy
import json
import re
from pathlib import Path
from typing import Any

import pytest
import tomllib
from hypothesis import HealthCheck, given, settings
from hypothesis import strategies as st
from jsonschema import Draft7Validator  # type: ignore[import]

from roman_live.config import HomeFile, HomeFileError

from . import TOP
from .test_config import GOOD, TOKEN, WRONG

SCHEMA = Draft7Validator(json.loads((TOP / "schema" / "home.schema.json").read_text(encoding="utf-8")))
HOMES = [tomllib.loads(GOOD), {"document": "h", "mqtt": {"tls": {}}, "devices": {}}]
ONLY_THE_PROGRAM = re.compile(
    r"can't be (read|used)|whose first line is empty|has the same token|, and so is |Invalid|Expected|Cannot"
)
"""Faults that no schema finds: those of other files, and topics with two uses."""
ODD: list[Any] = [
    True,
    False,
    0,
    1,
    12,
    1.5,
    86401,
    -1,
    "",
    "day",
    "token",
    "mqtt",
    "http",
    "doubt",
    "least cost",
    "a/+",
    "a#",
]
ODD += ["http://x", "ftp://x", "a:b", "0.0.0.0", "::1", [], ["x"], ["x", 1], {}, {"reach": "http", "url": "http://x"}]
KEYS = "choose costs requests path host port token_file username password_file prefix tls ca_file certificate_file "
KEYS += "key_file reach seconds repeat ask answer url command lines numbered call document program policy journal x "
KEYS += "late poll limits connections silence watch_token_file"


def places(value: Any) -> list[tuple[Any, Any]]:
    """Each place in a value: its table or list, and its key or index."""
    keys: Any = value if isinstance(value, dict) else range(len(value)) if isinstance(value, list) else ()
    return [(value, key) for key in keys] + [place for key in keys for place in places(value[key])]


@st.composite
def homes(draw: st.DrawFn) -> dict[str, Any]:
    """The value of a home file with some edits."""
    home: dict[str, Any] = copy.deepcopy(draw(st.sampled_from(HOMES)))
    for _ in range(draw(st.integers(0, 3))):
        table, key = draw(st.sampled_from(places(home)))
        edit = draw(st.sampled_from(("delete", "replace", "copy", "add")))
        if edit == "delete":
            del table[key]
            continue
        other, name = draw(st.sampled_from(places(home)))
        value = copy.deepcopy(other[name] if edit == "copy" else draw(st.sampled_from(ODD)))
        if edit == "add" and isinstance(table, dict):
            key = draw(st.sampled_from(KEYS.split()))
        table[key] = value
        if not places(home):
            break
    return home


def toml(value: Any) -> str:
    """A value in TOML."""
    if isinstance(value, dict):
        return "{" + ", ".join(f"{json.dumps(key)} = {toml(each)}" for key, each in value.items()) + "}"
    return "[" + ", ".join(map(toml, value)) + "]" if isinstance(value, list) else json.dumps(value)


def refusal(folder: Path, text: str) -> str:
    """The error of a home file, or nothing."""
    (folder / "token").write_text(f"{TOKEN}\n", encoding="ascii")
    (folder / "token").chmod(0o600)
    (folder / "home.toml").write_text(text, encoding="utf-8")
    try:
        HomeFile.read(folder / "home.toml")
    except HomeFileError as error:
        return str(error)
    return ""


@settings(max_examples=400, deadline=None, suppress_health_check=[HealthCheck.function_scoped_fixture])
@given(home=homes())
def test_both_refuse_the_same_files(tmp_path: Path, home: dict[str, Any]) -> None:
    error = refusal(tmp_path, "".join(f"{json.dumps(key)} = {toml(value)}\n" for key, value in home.items()))
    faults = [each.message for each in SCHEMA.iter_errors(home)]
    if error and not faults:
        assert ONLY_THE_PROGRAM.search(error), (home, error)
    assert error or not faults, (home, faults)


@pytest.mark.parametrize("text", [text for text, _ in WRONG if "= =" not in text])
def test_the_schema_knows_the_faults_that_the_program_names(tmp_path: Path, text: str) -> None:
    (tmp_path / "empty").write_text("\n", encoding="ascii")
    finer = "//x:70000", "[::1/", "x" * 64, "\\u0000"
    only_the_program = ONLY_THE_PROGRAM.search(refusal(tmp_path, text)) or any(each in text for each in finer)
    assert SCHEMA.is_valid(tomllib.loads(text)) == bool(only_the_program)


@pytest.mark.parametrize(
    "file", sorted((TOP / "samples" / "live").rglob("home.toml")), ids=lambda file: str(file.parent.name)
)
def test_the_samples_are_valid(file: Path) -> None:
    content = file.read_text(encoding="utf-8")
    assert [each.message for each in SCHEMA.iter_errors(tomllib.loads(content))] == []
    assert (file.parent / content.partition("\n")[0].removeprefix("#:schema ")).is_file()


FAULTY = """# A home
document = "h"

[devices.lamp]   # with a command
reach = "command"
command = [
    "x",
]
lines = 1
[devices."a fan"]
reach = "http"
[page]
port = \"\"\"
[mqtt]
\"\"\"
"""


@pytest.mark.parametrize(
    ("without", "line"),
    (
        (' "h"', "home.toml: Invalid value (at line 2, column 11)"),
        ('document = "h"', "home.toml: document is missing"),
        ('    "x",\n', "home.toml: line 6: devices.lamp.command is [], and not"),
        ("", "home.toml: line 9: devices.lamp.lines is 1, and not"),
        ("lines = 1", "home.toml: line 10: devices.a fan.url is missing"),
        ('lines = 1\n[devices."a fan"]\nreach = "http"\n', "home.toml: line 10: page.port is '[mqtt]\\n', and not"),
    ),
)
def test_a_fault_has_its_line(tmp_path: Path, without: str, line: str) -> None:
    """It is the first fault in the order of the checks. Faults of the page come before those of devices."""
    text = FAULTY if "port" in line else FAULTY.partition("[page]")[0]
    assert line in refusal(tmp_path, text.replace(without, "", 1) if without else text)
