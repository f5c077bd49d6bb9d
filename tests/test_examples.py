"""The examples of tests/examples: runs of the program, each with what it writes and its status. README.md there
describes the form. Examples that are too long for a file, or no texts, are computed here."""

from __future__ import annotations

import json
import re
from collections.abc import Iterator
from dataclasses import dataclass, replace
from itertools import combinations, zip_longest
from pathlib import Path
from typing import Any

import pytest
import tomllib

from . import TOP, program

FOLDER = TOP / "tests" / "examples"
SYSTEMS = tomllib.loads((FOLDER / "systems.toml").read_text(encoding="utf-8"))
SHARED = {"command", "system", "files", "session", "input", "output", "status"}
"""What an example gives. At the head of a file it is for all examples that don't give it themselves."""
OWN = {*SHARED, "each", "ends_like"}
CHANGE = re.compile(r"kept (\d+) added (\d+)")


def merged(old: Any, new: Any) -> Any:
    """A value with a change: tables are merged, and anything else is replaced."""
    if not isinstance(old, dict) or not isinstance(new, dict) or "file" in new:
        return new
    return {**old, **{name: merged(old.get(name), value) for name, value in new.items()}}


def whole(value: Any) -> Any:
    """A value as JSON has it: a table that is like another one with its changes, and a list with all its items."""
    if isinstance(value, list):
        return [each for item in value for each in items(item)]
    if not isinstance(value, dict):
        return value
    changes = {name: whole(member) for name, member in value.items() if name not in ("like", "add", "without")}
    found = merged(named(value["like"]), changes) if "like" in value else changes
    for name, more in value.get("add", {}).items():
        found[name] = [*found[name], *whole(more)]
    return {name: member for name, member in found.items() if name not in value.get("without", [])}


def items(item: Any) -> list[Any]:
    """What an item of a list stands for: `{ each = [1, 9], of = ITEM }` for nine, with the number in place of `#`."""
    if not isinstance(item, dict) or item.keys() != {"each", "of"}:
        return [whole(item)]
    first, last = item["each"]
    return [json.loads(json.dumps(item["of"]).replace("#", str(at))) for at in range(first, last + 1)]


def named(name: str) -> Any:
    """The value of this name: one of systems.toml, or a sample."""
    if name in SYSTEMS:
        return whole(SYSTEMS[name])
    return json.loads((program.SAMPLES / f"{name}.json").read_bytes())


def written(content: Any) -> bytes:
    """A file: a text as it is, and a table as JSON."""
    return (content if isinstance(content, str) else json.dumps(whole(content), separators=(",", ":"))).encode()


def settled(line: str, wanted: str) -> str:
    """A line of a run. `kept K added M` is `tally N` if that is wanted, where N is the sum of K and M."""
    change = CHANGE.fullmatch(line)
    return f"tally {int(change[1]) + int(change[2])}" if change and wanted.startswith("tally ") else line


@dataclass(frozen=True)
class Example:
    """A run of the program, with the lines that it writes and its status."""

    title: str
    words: list[str]
    files: dict[str, bytes]
    input: bytes
    output: list[str]
    status: int

    @staticmethod
    def read(title: str, given: dict[str, Any]) -> Example:
        words, system, output = given["command"], given["system"], given.get("output", "").splitlines()
        typed = given.get("input", "")
        if "session" in given:
            lines = given["session"].removesuffix("\n").split("\n")
            typed = "".join(f"{line}\n" for line in lines if not line.startswith("> "))
            output = [line[2:] for line in lines if line.startswith("> ")]
        files = {"system.json": {"like": system} if isinstance(system, str) else system, **given.get("files", {})}
        return Example(
            title,
            words.split() if isinstance(words, str) else words,
            {name: written(content) for name, content in files.items()},
            typed.encode(),
            output,
            given.get("status", program.DONE),
        )

    def check(self, folder: Path) -> None:
        for name, content in self.files.items():
            (folder / name).write_bytes(content)
        ended = program.run(self.words, folder, self.input)
        *lines, rest = ended.text.decode().split("\n")
        pairs = zip_longest(lines, self.output[: len(lines)], fillvalue="")
        assert [settled(line, wanted) for line, wanted in pairs] == self.output
        assert (rest, ended.status) == ("", self.status)


def examples() -> Iterator[Example]:
    """The examples of all files."""
    for file in sorted({*FOLDER.glob("*.toml")} - {FOLDER / "systems.toml"}):
        tables = tomllib.loads(file.read_text(encoding="utf-8"))
        shared = {name: value for name, value in tables.items() if name in SHARED}
        for title, own in [each for each in tables.items() if each[0] not in shared]:
            assert own.keys() <= OWN, f"{file.name}: {title}"
            like = tables[own["ends_like"]] if "ends_like" in own else {}
            ends = {name: like[name] for name in ("output", "status") if name in like}
            for row in own.get("each", [{}]):
                yield Example.read(f"{file.stem}: {title}", {**shared, **ends, **own, **row})


EXAMPLES = list(examples())
LAMP = next(example for example in EXAMPLES if example.title == "synth: lamp")


@pytest.mark.parametrize("example", EXAMPLES, ids=lambda example: example.title)
def test_an_example(example: Example, tmp_path: Path) -> None:
    example.check(tmp_path)


def test_the_example_of_the_readme_is_one_of_them() -> None:
    shown = re.findall(r"```toml\n(.*?)```", (FOLDER / "README.md").read_text(encoding="utf-8"), re.S)
    assert len(shown) == 1
    assert f"\n{shown[0]}\n" in (FOLDER / "sessions.toml").read_text(encoding="utf-8")


# Documents.


def lamp(text: bytes, refused: str = "") -> Example:
    """`synth` of this text: the report on a lamp, or a refusal."""
    example = replace(LAMP, files={"system.json": text})
    return replace(example, output=[f"refused system.json {refused}"], status=program.REFUSED) if refused else example


def test_a_cut_document_is_refused(tmp_path: Path) -> None:
    text = written({"like": "lamp"})
    for length in range(len(text)):
        lamp(text[:length], "notjson system 0 whole 0").check(tmp_path)


def test_a_document_that_is_no_utf_8_is_refused(tmp_path: Path) -> None:
    lamp(written({"like": "lamp"})[:-1] + b"\xff", "notjson system 0 whole 0").check(tmp_path)


@pytest.mark.parametrize("levels, refused", [(100, ""), (200, "notjson system 0 whole 0")])
def test_guards_within_guards(levels: int, refused: str, tmp_path: Path) -> None:
    guard: Any = True
    for _ in range(levels):
        guard = {"not": guard}
    steps = [["off", guard, "on", "on"], ["on", True, "off", "off"]]
    lamp(written({"like": "lamp", "target": {"steps": steps}}), refused).check(tmp_path)


# Other commands.


def test_what_is_certified_is_accepted(tmp_path: Path) -> None:
    (tmp_path / "lamp.json").write_bytes(written({"like": "lamp"}))
    certified = program.run(["certify", "lamp.json"], tmp_path)
    assert certified.status == program.DONE
    (tmp_path / "certificate").write_bytes(certified.text)
    checked = program.run(["check", "lamp.json", "certificate"], tmp_path)
    assert checked == program.Ended(program.DONE, b"greatest 2\nanswer composition\n")


def test_thirty_two_services_fail(tmp_path: Path) -> None:
    """Only the lamp is needed: without it no composition exists."""
    names = ["l1", *(f"d{number}" for number in range(1, 32))]
    lines = ["services 32", "start composition related 2 choices 2"]
    for lost in [*combinations(names, 1), *combinations(names, 2)]:
        left = "none related 0 choices 0" if "l1" in lost else "composition related 2 choices 2"
        lines += [f"without {' '.join(lost)} {way} {left}" for way in ("freeze", "die")]
    words, files = ["resilience", "system.json"], {"system.json": written({"like": "full"})}
    replace(LAMP, words=words, files=files, output=[*lines, "end"]).check(tmp_path)


def test_as_many_values_as_there_may_be(tmp_path: Path) -> None:
    (tmp_path / "many.json").write_bytes(written({"like": "many"}))
    (tmp_path / "costs").write_bytes(b"[]")
    advised = program.run(["advise", "many.json", "costs", "64"], tmp_path)
    assert (advised.status, advised.text.count(b"\nvalue ")) == (program.DONE, 64 * 16_384)


# Costs.

ITEMS = {
    "1": "form",
    "null": "form",
    '{"lamp":"on"}': "form",
    "[]": "form",
    '["spare","off"]': "form",
    '["spare","off",1,1]': "form",
    '[1,"off",1]': "form",
    '["Spare","off",1]': "unknown",
    '["","off",1]': "unknown",
    '["spare",null,1]': "form",
    '["spare","dim",1]': "unknown",
    '["spare","off",1.0]': "form",
    '["spare","off",1e3]': "form",
    '["spare","off",-0]': "form",
    '["spare","off",-1]': "form",
    '["spare","off","1"]': "form",
    '["spare","off",null]': "form",
    '["spare","off",18446744073709551616]': "form",
    '["spare","off",1000001]': "count",
    '["spare","off",18446744073709551615]': "count",
}
"""Items that are refused, each with the rule that it breaks."""


def costs(text: bytes, refused: str) -> Example:
    """`advise` with these costs, which are refused."""
    files = {"system.json": written({"like": "spare"}), "costs": text}
    words, output = ["advise", "system.json", "costs", "1"], [f"refused costs {refused}"]
    return replace(LAMP, words=words, files=files, output=output, status=program.REFUSED)


@pytest.mark.parametrize("place", range(3))
@pytest.mark.parametrize("item", ITEMS)
def test_an_item_is_refused_at_each_place_of_a_list(item: str, place: int, tmp_path: Path) -> None:
    listed = ['["lamp","on",1]', '["lamp","off",1]']
    listed.insert(place, item)
    costs(f"[{','.join(listed)}]".encode(), f"{ITEMS[item]} costs 0 steps {place}").check(tmp_path)


@pytest.mark.parametrize(
    "text, refused",
    [
        (b"[" + b",".join([b'["lamp","on",1]'] * 1024) + b"]", "repeated costs 0 steps 1"),
        (b"[" + b",".join([b'["lamp","on",1]'] * 1025) + b"]", "count costs 0 whole 0"),
        (b"7".ljust(1_048_576), "form costs 0 whole 0"),
        (b"7".ljust(1_048_577), "toolong costs 0 whole 0"),
    ],
    ids=["1,024 items", "1,025 items", "1,048,576 bytes", "1,048,577 bytes"],
)
def test_costs_have_limits(text: bytes, refused: str, tmp_path: Path) -> None:
    costs(text, refused).check(tmp_path)
