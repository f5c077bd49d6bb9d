"""roman-lint: each refusal at its place, the warnings, and random faults compared with the program's answers."""

import json
import os
import re
import subprocess
from collections.abc import Iterator
from pathlib import Path

import pytest
from hypothesis import given

from roman_tools.documents import read
from roman_tools.findings import Finding, Level
from roman_tools.lint import all_findings, lint

from . import PROGRAM, TOP
from .broken import Broken, broken_documents, many_documents
from .shell import tool

pytestmark = pytest.mark.usefixtures("folder")

Row = tuple[str, str, str]
"""A refusal without its document, a text of the sample, and the text that replaces it. The faulty word is between « and
»."""

TAP = '{"file": "tap.json"}'


def sample(name: str) -> str:
    return (TOP / "samples" / f"{name}.json").read_text(encoding="utf-8")


def many(count: int, item: str) -> str:
    """A list of so many items. `#` in an item is its number."""
    return "[" + ", ".join(item.replace("#", str(number)) for number in range(count)) + "]"


def list_of_names(part: str, member: str, old: str, most: int) -> Iterator[Row]:
    """The refusals of a list of names, `old` in the text of the sample."""
    member_text = f'"{member}": {old}'
    yield f"missing {part} {member} 0", member_text, '"note": 1'
    yield f"form {part} {member} 0", member_text, f'"{member}": «5»'
    yield f"count {part} {member} 0", member_text, f'"{member}": «[]»'
    yield f"count {part} {member} 0", member_text, f'"{member}": «{many(most + 1, chr(34) + "n#" + chr(34))}»'
    first = old[:-1]
    yield f"form {part} {member} {old.count(',') + 1}", member_text, f'"{member}": {first}, «null»]'
    yield f"badname {part} {member} {old.count(',') + 1}", member_text, f'"{member}": {first}, «"a b"»]'
    again = re.findall('"[^"]*"', old)[0]
    yield f"repeated {part} {member} {old.count(',') + 1}", member_text, f'"{member}": {first}, «{again}»]'


def start_of(part: str, old: str) -> Iterator[Row]:
    yield f"missing {part} start 0", f'"start": "{old}"', '"note": 1'
    yield f"form {part} start 0", f'"start": "{old}"', '"start": «true»'
    yield f"unknown {part} start 0", f'"start": "{old}"', '"start": «"nowhere"»'


def name_of(part: str, old: str, other: str) -> Iterator[Row]:
    """The refusals of a name, if an earlier part has another one."""
    yield f"missing {part} name 0", f'"name": "{old}"', '"note": 1'
    yield f"form {part} name 0", f'"name": "{old}"', '"name": «[]»'
    yield f"badname {part} name 0", f'"name": "{old}"', '"name": «"ça"»'
    yield f"repeated {part} name 0", f'"name": "{old}"', f'"name": «"{other}"»'


def finals_of(part: str, old: str) -> Iterator[Row]:
    yield f"missing {part} final 0", f'"final": {old}', '"note": 1'
    yield f"form {part} final 0", f'"final": {old}', '"final": «{}»'
    yield f"form {part} final 0", f'"final": {old}', '"final": [«1»]'
    yield f"unknown {part} final 0", f'"final": {old}', '"final": [«"nowhere"»]'


def guards_of(part: str, step: str) -> Iterator[Row]:
    """The refusals of a guard, `true` in step 0."""
    for kind, guard in (
        ("form", "«5»"),
        ("form", "«{}»"),
        ("form", '«{"all": [], "any": []}»'),
        ("form", '{«"some"»: []}'),
        ("form", '{"all": «true»}'),
        ("form", '["day", «1»]'),
        ("form", '{"not": {"any": [true, «"day"»]}}'),
        ("unknown", '["day", «"dya"»]'),
        ("unknown", '{"all": [true, {"not": [«"night"»]}]}'),
    ):
        yield f"{kind} {part} steps 0", step, step.replace("true", guard)


def steps_of(part: str, step: str) -> Iterator[Row]:
    """The refusals of a list of steps, the first of which is given."""
    words = re.findall('"([^"]*)"', step)
    yield f"form {part} steps 0", step, "«5»"
    yield f"form {part} steps 0", step, f"«{step[:-1]}, 1]»"
    for word in words:
        yield f"form {part} steps 0", step, step.replace(f'"{word}"', "«null»", 1)
        yield f"unknown {part} steps 0", step, step.replace(f'"{word}"', f'«"{word}x"»', 1)


def of_home() -> Iterator[Row]:
    """The refusals of a document with one target."""
    yield "missing system 0 roman 0", '"roman": 1', '"note": 1'
    for number in ("1.0", "-0", '"1"', "18446744073709551616"):
        yield "form system 0 roman 0", '"roman": 1', f'"roman": «{number}»'
    yield "version system 0 roman 0", '"roman": 1', '"roman": «4»'
    yield "form system 0 limit 0", '"roman": 1', '"roman": 1, "limit": «1e3»'
    yield "count system 0 limit 0", '"roman": 1', '"roman": 1, "limit": «0»'
    yield "missing environment 0 whole 0", '"environment"', '"env"'
    yield from list_of_names("environment 0", "states", '["day", "dusk"]', 64)
    yield from start_of("environment 0", "day")
    actions = '["brighten", "boil", "pour", "dim"]'
    yield from list_of_names("environment 0", "actions", actions, 32)
    yield from steps_of("environment 0", '["day", "brighten", "day"]')
    yield "missing system 0 behaviours 0", '"behaviours"', '"behaviors"'
    yield from name_of("behaviour 1", "lamp", "blind")
    yield from list_of_names("behaviour 0", "states", '["shut", "ajar", "open"]', 64)
    yield from start_of("behaviour 0", "shut")
    yield from finals_of("behaviour 0", '["shut", "ajar"]')
    lamp = '["off", true, "brighten", "on"]'
    yield from steps_of("behaviour 1", lamp)
    yield from guards_of("behaviour 1", lamp)
    yield "missing system 0 services 0", '"services"', '"service"'
    yield from name_of("service 1", "ceiling", "window")
    kettle = '{"name": "kettle", "behaviour": "kettle"}'
    yield "form service 2 whole 0", kettle, '«"kettle"»'
    yield "missing service 2 behaviour 0", kettle, '«{»"name": "kettle"}'
    for kind, member in (
        ("form", '"behaviour": «1»'),
        ("unknown", '"behaviour": «"ketle"»'),
        ("form", '"behaviour": "kettle", "state": «null»'),
        ("unknown", '"behaviour": "kettle", "state": «"boiling"»'),
        ("form", '"behaviour": "kettle", "frozen": «0»'),
    ):
        place = re.findall(r'"(\w+)": «', member)[0]
        yield f"{kind} service 2 {place} 0", kettle, f'{{"name": "kettle", {member}}}'
    yield "missing target 0 whole 0", '"target"', '"aim"'
    quiet = '["quiet", true, "brighten", "bright"]'
    yield from list_of_names("target 0", "states", '["quiet", "bright", "boiled", "served"]', 64)
    yield from start_of("target 0", "quiet")
    yield from finals_of("target 0", '["quiet"]')
    yield from steps_of("target 0", quiet)
    yield from guards_of("target 0", quiet)
    again = '«["quiet", {"not": ["dusk"]}, "brighten", "served"]»'
    yield "choice target 0 steps 1 0 day", quiet, f"{quiet}, {again}"


def of_members(member: str, part: str, step: str) -> Iterator[Row]:
    """The refusals of a value that isn't a list of steps, of a missing list, and of a list that is too long."""
    yield f"missing {part} steps 0", member, '"note": 1'
    yield f"form {part} steps 0", member, '"steps": «"a"»'
    yield f"count {part} steps 0", member, f'"steps": «{many(16385, step)}»'


def of_lamp() -> Iterator[Row]:
    """The refusals in a document with one list in each line."""
    loops = '"steps": [["e", "on", "e"], ["e", "off", "e"]]'
    lamp = '"steps": [["off", true, "on", "on"], ["on", true, "off", "off"]]'
    yield from of_members(loops, "environment 0", '["e", "on", "e"]')
    yield from of_members(lamp, "behaviour 0", '["off", true, "on", "on"]')
    yield from of_members(lamp + "}}", "target 0", '["off", true, "on", "on"]')
    services = '"services": [{"name": "l1", "behaviour": "lamp"}]'
    item = '{"name": "l#", "behaviour": "lamp"}'
    yield "form system 0 services 0", services, '"services": «{}»'
    yield "count system 0 services 0", services, f'"services": «{many(33, item)}»'
    yield "form behaviour 0 whole 0", '"behaviours": [', '"behaviours": [«null», '
    yield "form environment 0 whole 0", '"environment": {', '"environment": «[]», "note": {'
    yield "form target 0 whole 0", '"target": {', '"target": «"lamp"», "note": {'
    yield "form system 0 behaviours 0", '"behaviours": [', '"behaviours": «1», "note": ['
    more = '{"name": "b#", "states": ["x"], "start": "x", "final": [], "steps": []}'
    yield "count system 0 behaviours 0", '"behaviours": [', f'"behaviours": «{many(33, more)}», "note": ['
    for part, place in (("environment 0", '"environment": {'), ("target 0", '"target": {')):
        yield f"form {part} file 0", place, place + '"file": «1», '
        yield f"badname {part} file 0", place, place + '"file": «""», '
        yield f"badname {part} file 0", place, place + f'"file": «"{"é" * 128}"», '
    place = '"behaviours": [{'
    yield "form behaviour 0 file 0", place, place + '"file": «[]», '
    yield "badname behaviour 0 file 0", place, place + f'"file": «"{"x" * 256}"», '
    yield "form system 0 whole 0", "{", "«5»"
    for text in ("«nul»", '{"a"«1»}', '{"a":1«,»}', '["a«\t»"]', '"«\\x»"', '«"a»', "[1]«2»", '{"a"«:»', "«'a'»"):
        yield "notjson system 0 whole 0", "{", text
    for text in ('«"\\ud800"»', "«1e999»", "[" * 127 + "«[»" + "]" * 128, "«//» a", "«\ufeff»5"):
        yield "notjson system 0 whole 0", "{", text
    yield "toolong system 0 whole 0", "{", "«{»" + " " * 1_048_576


def of_two() -> Iterator[Row]:
    """The refusals of several targets."""
    yield "missing system 0 targets 0", '"targets"', '"target"'
    yield "form system 0 targets 0", '"targets": [', '"targets": «{}», "note": ['
    yield "count system 0 targets 0", '"targets": [', '"targets": «[{}]», "note": ['
    yield from name_of("target 1", "b", "a")
    yield "form service 1 rests 0", '"behaviour": "lamp"}]', '"behaviour": "lamp", "rests": «"no"»}]'
    yield "badname system 0 targets 3", '"name": "b"', f'"name": "{"b" * 30}"'
    for number, states in ((1, many(33, '"s#"')), (3, f'["s0", "{"x" * 31}"]')):
        kind = "count" if number == 1 else "badname"
        machine = f'"states": {states}, "start": "s0", "final": [], "steps": [["s0", true, "on", "s0"]]}}'
        wrong = f'«[{{"name": "a", {machine}, {{"name": "b", {machine}]»'
        yield f"{kind} system 0 targets {number}", '"targets": [', f'"targets": {wrong}, "note": ['
    loops = '"states": ["x", "x-x"], "start": "x", "final": [], "steps": '
    for line, steps in (
        ("count system 0 targets 2", "[]"),
        ("repeated system 0 targets 4", '[["x", true, "on", "x"]]'),
    ):
        wrong = "«[" + ", ".join(f'{{"name": "{name}", {loops}{steps}}}' for name in "ab") + "]»"
        yield line, '"targets": [', f'"targets": {wrong}, "note": ['


def of_part() -> Iterator[Row]:
    """The refusals of a part in a file of its own, the lamp."""
    yield "form behaviour 0 whole 0", "{", "«[]»"
    yield "notjson behaviour 0 whole 0", "{", "«x»"
    yield "toolong behaviour 0 whole 0", "{", "«{»" + " " * 1_048_576
    yield "unknown behaviour 0 start 0", '"start": "off"', '"start": «"of"»'


KINDS = {
    "system": "toolong notjson form whole|missing form version roman|form count limit|missing form count behaviours|"
    "missing form count services|missing form count badname repeated targets",
    "environment": "missing form notjson toolong whole|form badname file|missing form count badname repeated states|"
    "missing form unknown start|missing form count badname repeated actions|missing form count unknown steps",
    "behaviour": "form notjson toolong whole|form badname file|missing form badname repeated name|"
    "missing form count badname repeated states|missing form unknown start|missing form unknown final|"
    "missing form count unknown steps",
    "service": "form whole|missing form badname repeated name|missing form unknown behaviour|form unknown state|"
    "form frozen|form rests",
    "target": "missing form notjson toolong whole|form badname file|missing form badname repeated name|"
    "missing form count badname repeated states|missing form unknown start|missing form unknown final|"
    "missing form count unknown choice steps",
}
"""All refusals of the format, by the kinds and the lists of each part."""


def all_refusals() -> set[tuple[str, str, str]]:
    """The kind, part and list of each refusal of the format."""
    found = set()
    for part, groups in KINDS.items():
        for group in groups.split("|"):
            *kinds, place = group.split()
            found |= {(kind, part, place) for kind in kinds}
    return found


# Tests that write documents to their working folder.


def write(name: str, text: str) -> None:
    Path(name).write_bytes(text.encode("utf-8", "surrogateescape"))


def said() -> str:
    """The program's line if it refuses a document."""
    done = subprocess.run([PROGRAM, "synth", "s.json"], capture_output=True, text=True, timeout=400, check=False)
    return done.stdout.rstrip("\n") if done.returncode == 3 else ""


def errors() -> list[Finding]:
    return [each for each in lint("s.json") if each.level is Level.ERROR]


def warnings(text: str) -> list[str]:
    """The warnings of a document that the program accepts: the marked word, and the message."""
    write("s.json", text)
    assert (said(), errors()) == ("", [])
    return [f"{marked(each)}: {each.message}" for each in lint("s.json")]


def marked(finding: Finding) -> str:
    return finding.span.source.text[finding.span.start : finding.span.end]


# Each refusal of the format is found first, at its place.


def refused(text: str, row: Row, document: str = "s.json") -> tuple[str, str, str]:
    """Checks that a text with the edit of a row has the row's refusal at the marked place. Returns the refusal's kind,
    part and list."""
    line, old, new = row
    assert old in text
    edited = new if old == "{" else text.replace(old, new, 1)
    if old.endswith("}}") and new.startswith('"'):
        edited = text.replace(old, new + "}}", 1)
    parts = re.split("[«»]", edited)
    write(document, "".join(parts))
    refusal = f"refused {document} {line}"
    assert said() == refusal
    finding = read("s.json").findings[0]
    assert str(finding.refusal) == refusal
    assert finding.span.source.name == document
    if len(parts) > 1:
        before = parts[0]
        place = (before.count("\n") + 1, len(before) - before.rfind("\n"))
        assert finding.span.place == place
        assert marked(finding) == parts[1]
    kind, part, _, place_word, *_ = line.split()
    return kind, part, place_word


def test_each_refusal_at_its_place() -> None:
    seen = set()
    for name, rows in (("home", of_home()), ("lamp", of_lamp()), ("two", of_two())):
        text = sample(name)
        if name != "home":
            text = json.dumps(json.loads(text))
        for row in rows:
            seen.add(refused(text, row))
    lamp = json.loads(sample("lamp"))
    for part, member in (("behaviour", "behaviours"), ("environment", "environment"), ("target", "target")):
        value = lamp[member][0] if part == "behaviour" else lamp[member]
        by_file = [json.loads(TAP)] if part == "behaviour" else json.loads(TAP)
        write("s.json", json.dumps({**lamp, member: by_file}))
        for line, old, new in of_part():
            start = value["start"]
            row = (line.replace("behaviour", part), old.replace("off", start), new)
            seen.add(refused(json.dumps(value), row, "tap.json"))
    assert all_refusals() - seen == set()


def test_all_errors_and_not_the_first_alone() -> None:
    text = sample("home").replace('"start": "day"', '"start": "dya"')
    text = text.replace('["dusk", "dim", "day"]', '["dusk", "dimm", "night"]')
    text = text.replace('{"name": "kettle", "behaviour": "kettle"}', '{"name": "kettle", "behaviour": "ketle"}')
    write("s.json", text)
    assert [marked(each) for each in errors()] == ['"dya"', '"dimm"', '"night"', '"ketle"']
    assert 'did you mean "day"?' in errors()[0].message
    assert "did you mean" not in errors()[2].message
    assert 'did you mean "kettle"?' in errors()[3].message


@pytest.mark.parametrize(
    "old, new",
    [
        ('"states": ["day", "dusk"]', '"states": 5'),
        ('"states": ["day", "dusk"]', '"states": ["day", 5]'),
        ('"actions": ["brighten", "boil", "pour", "dim"]', '"note": 1'),
        ('"name": "blind"', '"name": 5'),
    ],
)
def test_one_mistake_is_one_error(old: str, new: str) -> None:
    """A list that is wrong as a whole isn't reported again for each of its names."""
    write("s.json", sample("home").replace(old, new))
    assert len(errors()) == 1


def test_tabs_ends_of_lines_and_letters() -> None:
    text = '{\r\n\t"note": "é→𝄞",\t"roman": 4\r\n}'
    write("s.json", text)
    (version,) = (each for each in errors() if marked(each) == "4")
    shown = version.shown()
    assert shown[0].startswith("s.json:2:26: error: "), shown[0]
    assert shown[1] == '  \t"note": "é→𝄞",\t"roman": 4'
    assert shown[2] == "  \t" + " " * 14 + "\t" + " " * 9 + "^"


def test_a_part_file_that_is_not_there() -> None:
    write("s.json", sample("lamp").replace('"target": {', '"target": {"file": "gone.json",'))
    assert [marked(each) for each in errors()] == ['"gone.json"']
    assert "No such file" in errors()[0].message


# Documents that the program accepts, and that are probably not meant.


def only(text: str, word: str, message: str) -> None:
    """Checks that the document has only this warning, at this word."""
    assert warnings(text) == [f"{word}: {message}"]


def home(old: str, new: str) -> str:
    assert old in sample("home")
    return sample("home").replace(old, new, 1)


def test_samples_have_none() -> None:
    os.chdir(TOP)
    for file in sorted((TOP / "samples").glob("*.json")):
        if "behaviour" not in file.name:
            assert lint(str(file)) == [], file.name


def test_members_that_are_ignored() -> None:
    kettle = '{"name": "kettle", "behaviour": "kettle"'
    text = home('"roman": 1', '"roman": 2').replace(kettle, kettle + ', "rest": false')
    message = '"rest" is no member of service "kettle", and is ignored; did you mean "rests"?'
    only(text, '"rest"', message)
    text = home(kettle, kettle + ', "frozne": true')
    message = '"frozne" is no member of service "kettle", and is ignored; did you mean "frozen"?'
    only(text, '"frozne"', message)
    text = home(kettle, kettle + ', "rests": false')
    message = 'version 1 ignores "rests", and this service rests; version 2 knows loose services'
    only(text, '"rests"', message)
    only(home('"roman": 1', '"roman": 1, "targets": 5'), '"targets"', 'version 1 ignores "targets"')
    two = sample("two").replace('"roman": 3', '"roman": 3, "target": 5')
    only(two, '"target"', 'version 3 ignores "target"')
    assert warnings(home('"roman": 1', '"roman": 1, "note": 1')) == []


def test_members_given_twice() -> None:
    text = home('"start": "day"', '"start": "dusk", "start": "day"')
    only(text, '"start"', '"start" is given twice; that of line 6, column 22 counts')
    text = home('["quiet", true,', '["quiet", {"not": [], "not": ["day"], "n\\u006ft": []},')
    found = warnings(text)
    assert [each.split(":")[0] for each in found] == ['"not"', '"not"']


def test_actions_that_come_to_nothing() -> None:
    text = home('"pour", "dim"]', '"pour", "dim", "sweep"]')
    message = 'the environment has no step on "sweep", so nobody is ever asked for it'
    only(text, '"sweep"', message)
    loops = '["day", "brighten", "day"], ["day", "sweep", "day"]'
    text = text.replace('["day", "brighten", "day"]', loops)
    only(text, '"sweep"', 'the target never allows "sweep"')
    text = text.replace(
        '["quiet", true, "brighten", "bright"]',
        '["quiet", true, "brighten", "bright"], ["quiet", true, "sweep", "quiet"]',
    )
    only(text, '"sweep"', 'the target allows "sweep", and no service can ever take it')


def test_the_targets_action_without_a_step_of_the_environment() -> None:
    text = home('["day", "dim", "day"],\n      ["dusk", "dim", "day"]', "").replace('"dusk"],\n      \n', '"dusk"]\n')
    found = warnings(text)
    assert '"dim": the environment has no step on "dim", so nobody is ever asked for it' in found
    stuck = 'the target can go no further in "served", and isn\'t final there: if the environment is in "day"'
    stuck += " (or in 1 other states)"
    why = ', the environment has no step on "dim"; the way there: brighten, boil, pour'
    assert f'["served", true, "dim", "quiet"]: {stuck}{why}' in found


def test_states_that_nobody_comes_into() -> None:
    text = home('"states": ["day", "dusk"]', '"states": ["day", "dusk", "night"]')
    only(text, '"night"', 'the environment never comes into "night"')
    text = home('"states": ["off", "on"]', '"states": ["off", "on", "broken"]')
    only(text, '"broken"', 'behaviour "lamp" never comes into "broken"')
    lamp = '"ceiling", "behaviour": "lamp"'
    text = text.replace('["on", true, "dim", "off"]', '["on", true, "dim", "off"], ["broken", true, "dim", "off"]')
    assert warnings(text.replace(lamp, lamp + ', "state": "broken"')) == []
    text = home('"states": ["quiet",', '"states": ["asleep", "quiet",')
    only(text, '"asleep"', 'the target never comes into "asleep"')


def test_guards_that_never_hold() -> None:
    text = home(
        '["off", true, "brighten", "on"]',
        '["off", true, "brighten", "on"], ["on", {"all": [["day"], ["dusk"]]}, "boil", "on"]',
    )
    message = 'this guard never holds, so behaviour "lamp" (service "ceiling") never takes "boil" by this step'
    only(text, '{"all": [["day"], ["dusk"]]}', message)
    assert warnings(text.replace('{"all": [["day"], ["dusk"]]}', "false")) == []
    text = home('["dusk", "dim", "day"]', '["dusk", "boil", "day"]')
    text = text.replace('["on", true, "dim", "off"]', '["on", true, "dim", "off"], ["on", ["dusk"], "dim", "on"]')
    message = (
        'if this guard holds, the environment has no step on "dim", so behaviour "lamp" (service "ceiling")'
        " never takes this step"
    )
    stuck = 'the target can go no further in "served", and isn\'t final there: if the environment is in "dusk",'
    stuck += ' the environment has no step on "dim"; the way there: brighten, boil, pour'
    assert warnings(text) == [f'["day", "dim", "day"]: {stuck}', f'["dusk"]: {message}']


def test_services_that_never_serve() -> None:
    stone = '{"name": "stone", "states": ["x"], "start": "x", "final": ["x"], "steps": []}, {'
    text = home('"behaviours": [\n    {', '"behaviours": [\n    ' + stone)
    text = text.replace('"services": [', '"services": [{"name": "rock", "behaviour": "stone"},')
    only(text, '"rock"', 'service "rock" can never serve a request')


def test_finals_that_services_have_not() -> None:
    text = home('"final": ["off"]', '"final": []')
    message = 'the target may be left in "quiet", and service "ceiling" can never be in a final state'
    only(text, '"ceiling"', message)
    text = text.replace('"roman": 1', '"roman": 2')
    lamp = '"ceiling", "behaviour": "lamp"'
    assert warnings(text.replace(lamp, lamp + ', "rests": false')) == []


def test_a_target_that_stops() -> None:
    text = home(
        '["quiet", true, "brighten", "bright"]',
        '["quiet", true, "brighten", "bright"], ["bright", true, "pour", "stuck"]',
    )
    text = text.replace('"states": ["quiet",', '"states": ["stuck", "quiet",')
    message = 'the target can go no further in "stuck", and isn\'t final there: no step leaves it'
    message += "; the way there: brighten, pour"
    only(text, '"stuck"', message)


def test_more_cells_than_the_limit() -> None:
    text = home('"roman": 1', '"roman": 1, "limit": 575')
    message = (
        "the target, the environment, the services and the actions make 4 × 2 × 3·2·3 × 4 = 576 cells,"
        ' and the limit is 575; write "limit": 600'
    )
    only(text, "575", message)
    assert warnings(text.replace("575", "576")) == []


# The options, the statuses, and the forms of the output.


WRONG = sample("home").replace('"start": "day"', '"start": "dya"')


def shown(*words: str) -> "subprocess.CompletedProcess[str]":
    return tool("roman-lint", *words)


def test_what_is_shown() -> None:
    write("s.json", WRONG)
    done = shown("s.json")
    assert (done.returncode, done.stderr) == (3, "")
    assert done.stdout == (
        's.json:6:14: error: "dya" is no state of the environment; did you mean "day"?\n'
        '      "start": "dya",\n'
        "               ^~~~~\n"
        "1 error, 0 warnings\n"
        "roman says: refused s.json unknown environment 0 start 0\n"
    )


def test_statuses() -> None:
    write("s.json", WRONG)
    write("warned.json", sample("home").replace('"roman": 1', '"roman": 1, "limits": 1'))
    write("good.json", sample("home"))
    cases: list[tuple[int, list[str]]] = [
        (3, ["s.json"]),
        (3, ["--strict", "s.json"]),
        (0, ["warned.json"]),
        (1, ["--strict", "warned.json"]),
        (0, ["--strict", "good.json"]),
        (5, ["gone.json"]),
        (5, ["."]),
        (2, []),
    ]
    for status, words in cases:
        assert shown(*words).returncode == status


def test_the_program_has_the_last_word() -> None:
    write("good.json", sample("flaky"))
    assert "\nroman says: answer none\n" in shown("good.json").stdout
    assert "isn't here" in shown("--no-program", "good.json").stdout
    assert "can't be called" in shown("--program", "./gone", "good.json").stdout


def test_json() -> None:
    write("s.json", WRONG)
    value = json.loads(shown("--json", "s.json").stdout)
    (found,) = value["findings"]
    assert (found["line"], found["column"], found["endLine"], found["endColumn"]) == (6, 14, 6, 19)
    assert (found["file"], found["severity"]) == ("s.json", "error")
    assert found["refusal"] == value["roman"]


def test_bytes_that_are_no_text() -> None:
    for data in (b"\xff", b'{"a": "\xff\x00"}', b'{"\\ud800": 1, "roman": 4}', b""):
        Path("s.json").write_bytes(data)
        done = shown("s.json")
        assert (done.returncode, done.stderr) == (3, "")
        assert shown("--json", "s.json").returncode == 3


# Documents with random faults. There is an error exactly if the program refuses one, and the first error is the same.


def test_an_error_where_the_program_refuses() -> None:
    refused: list[str] = []

    @many_documents
    @given(broken=broken_documents())
    def compare(broken: Broken) -> None:
        broken.write(Path("."))
        words = [PROGRAM, "synth", "broken.json"]
        done = subprocess.run(words, capture_output=True, text=True, timeout=400, check=False)
        checker = read("broken.json")
        found = all_findings(checker)
        errors = [each for each in found if each.level is Level.ERROR]
        if done.returncode == 5:
            assert errors != []
            return
        said = done.stdout.rstrip("\n") if done.returncode == 3 else ""
        assert (str(checker.findings[0].refusal) if checker.findings else "") == said
        assert bool(errors) == (done.returncode == 3)
        for each in found:
            json.dumps(each.value()).encode()
            "\n".join(each.shown()).encode()
        refused.extend([said] if said else [])

    compare()
    assert len(refused) > 100
