"""docs/HEADLINE.md, which tools/headline writes: it agrees with the sources, and its links lead somewhere."""

import re
import subprocess
from collections import Counter
from html.parser import HTMLParser

from . import TOP

TOOL = TOP / "tools" / "headline"
PAGE = TOP / "docs" / "HEADLINE.md"
LINK = re.compile(r"\]\((\.\./crates/[^)#]*)#L(\d+)\)")


class Places(HTMLParser):
    """The places of a page, and those to which its links lead."""

    def __init__(self, page: str) -> None:
        super().__init__()
        self.places: list[str] = []
        self.led_to: list[str] = []
        self.feed(page)

    def handle_starttag(self, tag: str, attrs: list[tuple[str, str | None]]) -> None:
        for name, value in attrs:
            if name == "id" and value:
                self.places.append(value)
            if tag == "a" and name == "href" and value and value.startswith("#"):
                self.led_to.append(value[1:])


def headline(*words: str) -> "subprocess.CompletedProcess[str]":
    return subprocess.run([str(TOOL), *words], capture_output=True, text=True, check=False, timeout=400)


def test_it_is_in_step_with_the_sources() -> None:
    assert headline("--check").returncode == 0, "tools/headline writes it anew"


def test_each_source_is_where_the_page_says() -> None:
    page = PAGE.read_text(encoding="utf-8")
    places = LINK.findall(page)
    assert len(places) > 200
    for (file, line), name in zip(places, re.findall(r"^### .*`(.*)`$", page, re.M)):
        assert name in (PAGE.parent / file).read_text(encoding="utf-8").splitlines()[int(line) - 1]


def test_each_link_leads_to_one_place() -> None:
    done = headline("--html")
    assert (done.returncode, done.stderr) == (0, "")
    page = Places(done.stdout)
    assert {*page.led_to} - {*page.places} == set()
    assert [place for place, count in Counter(page.places).items() if count > 1] == []


def test_both_forms_have_the_same_definitions() -> None:
    shown = re.findall(r'<h3><a id="([^"]*)"', headline("--html").stdout)
    assert shown == re.findall(r'### <a id="([^"]*)"', PAGE.read_text(encoding="utf-8"))
