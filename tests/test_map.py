"""docs/crates.svg, which tools/map draws: its arrows are those of crates.txt, without redundant ones."""

import subprocess
import xml.etree.ElementTree as xml

from . import TOP

SVG = "{http://www.w3.org/2000/svg}"
Arrows = set[tuple[str, str]]


def listed() -> dict[str, set[str]]:
    """The crates of crates.txt, each with those that it names."""
    lines = (TOP / "crates.txt").read_text(encoding="utf-8").splitlines()
    rows = [line.partition(":") for line in lines if line[:1] not in ("", "#")]
    named = {name.split()[0]: {*words.split()} for name, _, words in rows}
    return {name: others & {*named} for name, others in named.items()}


def reached(arrows: Arrows) -> Arrows:
    """The arrows, and all ways along them."""
    found = set(arrows)
    while True:
        more = {(first, last) for first, middle in found for other, last in arrows if middle == other} - found
        if not more:
            return found
        found |= more


def titles(kind: str) -> set[str]:
    """The titles of the nodes or edges of the picture."""
    groups = xml.parse(TOP / "docs" / "crates.svg").getroot().iter(SVG + "g")
    return {group.findtext(SVG + "title") or "" for group in groups if group.get("class") == kind}


def test_the_crates_and_their_arrows() -> None:
    names = {(name, other) for name, others in listed().items() for other in others}
    arrows = {(name, other) for name, _, other in (title.partition("->") for title in titles("edge"))}
    assert titles("node") == {*listed()}
    assert reached(arrows) == reached(names), "tools/map draws it anew"
    for arrow in arrows:
        assert arrow not in reached(arrows - {arrow})


def test_the_tool_draws_the_same() -> None:
    words = [str(TOP / "tools" / "map"), "--dot"]
    done = subprocess.run(words, capture_output=True, text=True, check=False, timeout=400)
    assert (done.returncode, done.stderr) == (0, "")
    drawn = {line.strip().replace(" -> ", "->") for line in done.stdout.splitlines() if " -> " in line}
    assert drawn == titles("edge")


def test_the_design_shows_it() -> None:
    assert "](crates.svg)" in (TOP / "docs" / "DESIGN.md").read_text(encoding="utf-8")
