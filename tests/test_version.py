"""The changelog, the client, the manual page, the package and the guide name the same version."""

import re
import subprocess

from . import TOP

HEAD = re.compile(r"^## (.*)$", re.M)
RELEASE = re.compile(r"\[(\d+)\.(\d+)\.(\d+)\] - \d{4}-\d{2}-\d{2}")
KINDS = {"Added", "Changed", "Deprecated", "Removed", "Fixed", "Security"}


def text(name: str) -> str:
    return (TOP / name).read_text(encoding="utf-8")


VERSION = re.findall(r'^version = "(.*)"$', text("python/pyproject.toml"), re.M)[0]


def test_the_changelog_has_it_last_of_all_releases() -> None:
    heads = HEAD.findall(text("CHANGELOG.md"))
    releases = [RELEASE.fullmatch(head) for head in heads if head != "[Unreleased]"]
    assert None not in releases
    numbers = [tuple(map(int, found.groups())) for found in releases if found]
    assert numbers == sorted(numbers, reverse=True)
    assert ".".join(map(str, numbers[0])) == VERSION
    assert set(re.findall(r"^### (.*)$", text("CHANGELOG.md"), re.M)) < KINDS


def test_the_client_and_the_manual_page_name_it() -> None:
    assert f'\n__version__ = "{VERSION}"\n' in text("python/src/roman_client/__init__.py")
    assert f"\n.Sh HISTORY\nThis page is of version {VERSION}.\n" in text("docs/roman.1")


def test_the_package_is_named_by_it() -> None:
    asks = re.findall(r"version=\$\((sed -n .*)\)$", text("install"), re.M)
    assert len(asks) == 1
    done = subprocess.run(["bash", "-c", asks[0]], cwd=TOP, stdout=subprocess.PIPE, text=True, check=True)
    assert done.stdout == VERSION + "\n"
    assert set(re.findall(r"roman_(\d[\d.]*)_amd64\.deb", text("docs/GUIDE.md"))) == {VERSION}
