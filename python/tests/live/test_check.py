"""roman-live --check lists all mistakes in a home file, and suggestions."""

import os
import subprocess
from pathlib import Path

import pytest

from roman_live.config import HomeFile, HomeFileError

from . import PROGRAM, ROMAN_LIVE, TOP

WRONG = """\
document = 5
programm = "roman"

[polcy]
choose = "first"

[page]
port = "eighty"
host = 3

[mqtt]
port = 70000

[devices.window]
recah = "mqtt"

[devices.ceiling]
reach = "command"
command = []
seconds = -1

[devices.kettle]
reach = "http"
url = "kettle"
repaet = true
"""


def errors_of(path: Path, text: str) -> list[str]:
    """The errors of a home file, without its name."""
    path.write_text(text, encoding="utf-8")
    with pytest.raises(HomeFileError) as raised:
        HomeFile.read(path)
    return [line.removeprefix(f"{path}: ") for line in str(raised.value).splitlines()]


def test_all_errors_are_listed(tmp_path: Path) -> None:
    errors = errors_of(tmp_path / "home.toml", WRONG)
    assert [each.split(" ", 3)[2] for each in errors] == [
        "document",
        "page.host",
        "page.port",
        "mqtt.port",
        "devices.window.reach",
        "devices.ceiling.seconds",
        "devices.ceiling.command",
        "devices.kettle.url",
        "programm",
        "polcy",
    ]
    assert errors[0] == "line 1: document is 5, and not a text"
    assert errors[4].endswith("; is devices.window.recah meant for it?")
    assert "programm isn't known; did you mean program?" in errors[8]
    assert "polcy isn't known; did you mean policy?" in errors[9]


@pytest.mark.parametrize(
    "text, error",
    [
        ('[policy]\nchoose = "lest cost"\ncosts = "c"\n', "policy.choose is 'lest cost'"),
        ('[mqtt]\nusername = 5\npassword_file = "secret"\n', "mqtt.username is 5"),
    ],
)
def test_no_error_follows_from_another_one(tmp_path: Path, text: str, error: str) -> None:
    (tmp_path / "secret").write_text("word\n", encoding="utf-8")
    errors = errors_of(tmp_path / "home.toml", f'document = "home.json"\n{text}')
    assert [error in each for each in errors] == [True]


def check(folder: Path) -> "subprocess.CompletedProcess[str]":
    """The output of `roman-live --check` for the home file in a folder."""
    command = [str(ROMAN_LIVE), "--check", "home.toml"]
    env = {**os.environ, "ROMAN": PROGRAM}
    return subprocess.run(command, cwd=folder, env=env, capture_output=True, text=True, timeout=300, check=False)


def test_each_service_without_a_device_is_listed(tmp_path: Path) -> None:
    (tmp_path / "home.json").write_text((TOP / "samples" / "home.json").read_text(encoding="utf-8"), encoding="utf-8")
    device = 'reach = "http"\nurl = "http://127.0.0.1:9/"\n'
    text = f'document = "home.json"\n[devices.widnow]\n{device}[devices.kettle]\n{device}'
    (tmp_path / "home.toml").write_text(text, encoding="utf-8")
    done = check(tmp_path)
    assert done.returncode == 2
    assert "devices.window is missing; the document has this service; is devices.widnow meant for it?" in done.stderr
    assert "devices.ceiling is missing; the document has this service\n" in done.stderr


def test_each_command_that_can_not_be_run_is_listed(tmp_path: Path) -> None:
    (tmp_path / "home.json").write_text((TOP / "samples" / "home.json").read_text(encoding="utf-8"), encoding="utf-8")
    names = ("window", "ceiling", "kettle")
    tables = "".join(f'[devices.{name}]\nreach = "command"\ncommand = ["./{name}"]\n' for name in names)
    (tmp_path / "home.toml").write_text(f'document = "home.json"\n{tables}', encoding="utf-8")
    done = check(tmp_path)
    assert (done.returncode, done.stderr.count("command can't be run: ")) == (2, 3)


def test_costs_of_a_short_document_name_patterns_and_services(tmp_path: Path) -> None:
    short = TOP / "samples" / "short"
    (tmp_path / "cell.json").write_text((short / "cell.json").read_text(encoding="utf-8"), encoding="utf-8")
    names = ("left", "right", "agv", "conveyor", "camera", "lamp")
    device = 'reach = "http"\nurl = "http://127.0.0.1:9/"\n'
    tables = "".join(f"[devices.{name}]\n{device}" for name in names)
    policy = '[policy]\nchoose = "least cost"\ncosts = "cell.costs"\n'
    (tmp_path / "home.toml").write_text(f'document = "cell.json"\n{policy}{tables}', encoding="utf-8")
    costs = (short / "cell.costs").read_text(encoding="utf-8")
    (tmp_path / "cell.costs").write_text(costs, encoding="utf-8")
    done = check(tmp_path)
    assert (done.returncode, done.stdout, done.stderr) == (0, "home.toml: nothing is wrong\n", "")
    (tmp_path / "cell.costs").write_text(costs.replace('"right"', '"rigth"'), encoding="utf-8")
    done = check(tmp_path)
    assert done.returncode == 2
    assert '"rigth" is no behaviour, service or pattern; did you mean "right"?' in done.stderr
