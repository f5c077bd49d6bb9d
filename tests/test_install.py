"""The commands of the Python side, installed in each way: in a clone, by pip in a virtual environment, by ./install,
and from the Debian package. No network is needed."""

import os
import re
import shutil
import subprocess

import pytest

from . import PROGRAM, TOP

HOME = str(TOP / "samples/short/home.json")
COMMANDS = {
    "roman-lint": ([HOME], "", "roman says: answer composition"),
    "roman-expand": ([HOME], "", '"roman": 1'),
    "roman-draw": ([HOME, "--offers", "--dot"], "", "brighten by window"),
    "roman-talk": ([HOME], "do brighten\n", "offer window ceiling"),
    "roman-live": (["--check", str(TOP / "samples/live/demo/home.toml")], "", "nothing is wrong"),
}
SCRIPTS = re.findall(r'^(roman-[a-z]+) = "', (TOP / "python/pyproject.toml").read_text(encoding="utf-8"), re.M)


def done(*words, **options):
    ended = subprocess.run(words, capture_output=True, text=True, check=False, timeout=400, **options)
    assert (ended.returncode, ended.stderr) == (0, ""), (words, ended)
    return ended.stdout


@pytest.fixture(scope="module")
def clone(tmp_path_factory):
    """A clone with the built program."""
    top = tmp_path_factory.mktemp("clone")
    for name in ("schema", "tools", "python", "docs", "samples"):
        shutil.copytree(TOP / name, top / name, symlinks=True, ignore=shutil.ignore_patterns("build", "*.egg-info"))
    for name in ("roman", "install"):
        shutil.copy(TOP / name, top / name)
    (top / "crates/roman_cli/out").mkdir(parents=True)
    shutil.copy(PROGRAM, top / "crates/roman_cli/out/roman_cli")
    return top


def from_clone(clone, folder):
    return clone / "tools"


def by_pip(clone, folder):
    """The commands in a virtual environment, which has Debian's packages. Pip doesn't install the program."""
    done("/usr/bin/python3", "-m", "venv", "--system-site-packages", "--without-pip", folder)
    offline = ("--no-index", "--no-build-isolation", "--no-deps", "--disable-pip-version-check", "--quiet")
    done(folder / "bin/python", "-m", "pip", "install", *offline, clone / "python", cwd=folder)
    os.symlink(PROGRAM, folder / "bin/roman")
    return folder / "bin"


def by_install(clone, folder):
    done(clone / "install", folder, cwd=clone)
    return folder / "bin"


def by_package(clone, folder):
    """The package's files, in a folder that the system doesn't own."""
    done(clone / "install", "--deb", folder, cwd=clone)
    (package,) = folder.glob("*.deb")
    done("dpkg-deb", "--extract", package, folder)
    return folder / "usr/bin"


@pytest.fixture(scope="module", params=(from_clone, by_pip, by_install, by_package), ids=lambda way: way.__name__)
def commands(request, clone, tmp_path_factory):
    """A function that calls a command by its name."""
    folder = tmp_path_factory.mktemp("there")
    place = request.param(clone, folder)
    environment = {"PATH": f"{place}:{place.parent}:/usr/bin:/bin", "HOME": str(folder)}
    if request.param is by_package:
        environment["PYTHONPATH"] = str(folder / "usr/lib/python3/dist-packages")
    return lambda name, *words, **options: done(place / name, *words, env=environment, cwd="/", **options)


@pytest.mark.parametrize("name", COMMANDS)
def test_a_command_does_its_work(commands, name):
    words, given, said = COMMANDS[name]
    assert said in commands(name, *words, input=given)


@pytest.mark.parametrize("name", SCRIPTS)
def test_a_command_has_its_help(commands, name):
    assert f"usage: {name}" in commands(name, "--help")
