"""roman-expand: the meaning of the short form, its mistakes, and plans compared with regular expressions."""

import json
import re
import subprocess
import sys
from collections.abc import Callable
from pathlib import Path
from typing import Any

import pytest
from hypothesis import given, settings
from hypothesis import strategies as st
from jsonschema import Draft202012Validator  # type: ignore[import]

from roman_tools.documents import read
from roman_tools.findings import Level
from roman_tools.lint import all_findings
from roman_tools.writer import written

from . import PROGRAM, TOP
from .broken import edited, many_documents, walk

SCHEMA = json.loads((TOP / "schema" / "short.schema.json").read_text(encoding="utf-8"))
SHORT = TOP / "samples" / "short"
FILES = [file for folder in (SHORT.parent, SHORT) for file in sorted(folder.glob("*.json")) if "." not in file.stem]
pytestmark = pytest.mark.usefixtures("folder")


def expanded(name: str) -> Any:
    """The plain document of a file, as a value."""
    return json.loads(text_of(name))


def text_of(name: str) -> str:
    checker = read(name)
    assert checker.document is not None, [each.heading for each in checker.findings]
    return written(checker.document).text


def run(*words: str, text: str = "") -> "subprocess.CompletedProcess[str]":
    return subprocess.run(words, input=text, capture_output=True, text=True, timeout=400, check=False)


# Tests that write documents to their working folder.


def expand(document: dict[str, Any]) -> Any:
    """The plain document of a short one."""
    Path("s.json").write_text(json.dumps({"roman": "short", **document}), encoding="utf-8")
    return expanded("s.json")


def environment(**environment: Any) -> Any:
    """The plain environment of a short one, in which `a` and `b` are requested in turn."""
    machine = {"steps": [["x", "a", "y"], ["y", "b", "x"]]}
    behaviour = {"name": "m", "count": 1, **machine}
    return expand({"environment": environment, "behaviours": [behaviour], "target": machine})["environment"]


@pytest.mark.parametrize("name", ["home", "greenhouse"])
def test_the_home_and_the_greenhouse_do_what_their_plain_ones_do(name: str, at_top: Path) -> None:
    plain = at_top / f"{name}.json"
    plain.write_text(text_of(f"samples/short/{name}.json"), encoding="utf-8")
    report = run(PROGRAM, "synth", f"samples/{name}.json").stdout
    assert run(PROGRAM, "synth", str(plain)).stdout == report
    session = (TOP / "samples" / f"{name}.session").read_text(encoding="utf-8")
    replies = (TOP / "samples" / f"{name}.replies").read_text(encoding="utf-8")
    assert run(PROGRAM, "run", str(plain), text=session).stdout == replies


def test_the_house_has_eight_devices_and_18_environment_states(at_top: Path) -> None:
    document = expanded("samples/short/house.json")
    assert (len(document["services"]), len(document["environment"]["states"])) == (8, 18)
    assert len(document["environment"]["steps"]) > 180
    plain = at_top / "house.json"
    plain.write_text(text_of("samples/short/house.json"), encoding="utf-8")
    assert "\nanswer composition\n" in run(PROGRAM, "synth", str(plain)).stdout


@pytest.mark.parametrize("file", FILES, ids=str)
def test_expanding_twice_is_expanding_once_and_changes_no_reply(file: Path, at_top: Path) -> None:
    again = at_top / "again.json"
    again.write_text(text_of(str(file)), encoding="utf-8")
    assert text_of(str(again)) == again.read_text(encoding="utf-8")
    session = file.with_suffix(".session")
    if session.exists():
        replies = run(PROGRAM, "run", str(again), text=session.read_text(encoding="utf-8")).stdout
        assert replies == session.with_suffix(".replies").read_text(encoding="utf-8")


def test_the_schema_is_one() -> None:
    Draft202012Validator.check_schema(SCHEMA)


@pytest.mark.parametrize("file", sorted(SHORT.glob("*.json")), ids=str)
def test_a_sample_is_clean_and_valid(file: Path, at_top: Path) -> None:
    assert all_findings(read(str(file))) == []
    value = json.loads(file.read_text(encoding="utf-8"))
    assert list(Draft202012Validator(SCHEMA).iter_errors(value)) == []
    assert (file.parent / value["$schema"]).resolve().exists()


def test_each_member_is_described() -> None:
    found = [key for holder, key in walk(SCHEMA) if key == "properties" for key in holder[key].items()]
    assert len(found) > 40
    for name, member in found:
        assert "description" in member, name


def test_variables_and_what_changes() -> None:
    found = environment(
        variables={"time": ["day", "night"], "who": ["home", "away"]},
        start={"who": "away"},
        steps=[{"on": "a", "set": {"who": "away"}}, {"on": "b", "when": "night", "ways": [{}, {"time": "day"}]}],
    )
    assert found["states"] == ["day-home", "day-away", "night-home", "night-away"]
    assert (found["start"], found["actions"]) == ("day-away", ["a", "b"])
    assert found["steps"] == [
        ["day-home", "a", "day-away"],
        ["day-away", "a", "day-away"],
        ["night-home", "a", "night-away"],
        ["night-away", "a", "night-away"],
        ["night-home", "b", "night-home"],
        ["night-home", "b", "day-home"],
        ["night-away", "b", "night-away"],
        ["night-away", "b", "day-away"],
    ]


def test_otherwise_it_stays() -> None:
    step = {"on": "a", "when": "s", "to": "t"}
    one = [["s", "a", "t"], ["t", "b", "t"], ["s", "b", "s"]]
    both = [*one, ["t", "a", "t"]]
    cases: list[tuple[dict[str, Any], list[list[str]]]] = [
        ({"steps": [step, ["t", "b", "t"], {"on": "b", "from": "s"}]}, one),
        ({"steps": [{**step, "otherwise": "stays"}, {"on": "b"}]}, both),
        ({"steps": [step], "otherwise": "stays"}, both),
    ]
    for members, steps in cases:
        found = environment(states=["s", "t"], **members)
        assert sorted(found["steps"]) == sorted(steps)


def test_several_ways_to_states() -> None:
    found = environment(states=["s", "t"], steps=[{"on": ["a", "b"], "from": "s", "to": ["s", "t"]}])
    assert sorted(found["steps"]) == sorted([["s", x, y] for x in "ab" for y in "st"])


def test_none_at_all() -> None:
    machine = {"steps": [["x", "a", "y"], ["y", "b", "x"]]}
    document = expand({"behaviours": [{"name": "m", "count": 2, **machine}], "target": machine})
    found = document["environment"]
    assert found["steps"] == [["always", "a", "always"], ["always", "b", "always"]]
    assert [each["name"] for each in document["services"]] == ["m-1", "m-2"]


def meaning(guard: Any) -> Any:
    """The plain guard of a short one."""
    variables = {"time": ["day", "night"], "who": ["home", "away"], "tap": ["home", "hot"]}
    machine = {"steps": [["x", guard, "a", "x"]]}
    document = expand(
        {
            "environment": {"variables": variables, "otherwise": "stays"},
            "behaviours": [{"name": "m", "count": 1, "steps": [["x", "a", "x"]]}],
            "target": machine,
        }
    )
    (step,) = document["target"]["steps"] or [[None, False]]
    return step[1]


def test_formulas_and_their_json_forms() -> None:
    states = [f"{time}-{who}-{tap}" for time in ("day", "night") for who in ("home", "away") for tap in ("home", "hot")]
    cases: list[tuple[Any, Callable[[str, str, str], bool]]] = [
        ("time = day", lambda t, w, p: t == "day"),
        ("day", lambda t, w, p: t == "day"),
        ("time != day", lambda t, w, p: t != "day"),
        ("not day and away", lambda t, w, p: t != "day" and w == "away"),
        ("not (day and away)", lambda t, w, p: not (t == "day" and w == "away")),
        ("day or night and away", lambda t, w, p: t == "day" or (t == "night" and w == "away")),
        ("(day or night) and away", lambda t, w, p: w == "away"),
        ("who = home and not tap = home", lambda t, w, p: w == "home" and p != "home"),
        ("day-away-hot", lambda t, w, p: (t, w, p) == ("day", "away", "hot")),
        (["day", "away"], lambda t, w, p: t == "day" or w == "away"),
        ({"time": "day", "who": "away"}, lambda t, w, p: t == "day" and w == "away"),
        ({"time": ["day", "night"], "tap": ["hot"]}, lambda t, w, p: p == "hot"),
        ({"not": {"any": ["day", {"all": ["night", "away"]}]}}, lambda t, w, p: t == "night" and w == "home"),
        ({"all": []}, lambda t, w, p: True),
        (True, lambda t, w, p: True),
    ]
    for guard, test in cases:
        meant = [each for each in states if test(*each.split("-"))]
        found = meaning(guard)
        told = states if found is True else found
        if isinstance(told, dict):
            told = [each for each in states if each not in told["not"]]
        assert told == meant
    assert meaning(True) is True
    assert meaning("day and night") is False
    assert meaning("not day-home-hot") == {"not": ["day-home-hot"]}


def test_a_formula_of_any_depth() -> None:
    assert meaning("not " * 3000 + "day") == meaning("day")


def behaviours(*behaviours: Any, services: Any = ()) -> tuple[Any, Any]:
    target = {"steps": [["x", "a", "x"]]}
    document = expand({"behaviours": list(behaviours), "services": list(services), "target": target})
    return document["behaviours"], document["services"]


def test_what_may_be_left_out() -> None:
    ((found,), _) = behaviours(
        {"name": "m", "steps": [["off", "a", "on"], {"from": "on", "on": "a", "to": ["on", "stuck"]}]}
    )
    assert (found["states"], found["start"], found["final"]) == (["off", "on", "stuck"], "off", ["off"])
    assert found["steps"][1:] == [["on", True, "a", "on"], ["on", True, "a", "stuck"]]
    ((found,), _) = behaviours({"name": "m", "start": "on", "final": True, "steps": [["off", "a", "on"]]})
    assert (found["states"], found["start"], found["final"]) == (["on", "off"], "on", ["on", "off"])


def test_parameters() -> None:
    lamp = {"name": "lamp", "parameters": {"on": "a", "at": None}, "steps": [["off", "$on", "${at}-lit"]]}
    services = [
        {"name": "l1", "behaviour": "lamp", "with": {"at": "hall"}},
        {"name": "l2", "behaviour": "lamp", "with": {"at": "hall", "on": "a"}},
        {"name": "k-$n", "behaviour": "lamp", "with": {"at": "room$n"}, "count": 2, "rests": False},
    ]
    made, told = behaviours(lamp, services=services)
    assert [each["name"] for each in made] == ["lamp-hall", "lamp-room1", "lamp-room2"]
    assert made[2]["states"] == ["off", "room2-lit"]
    assert [(each["name"], each["behaviour"]) for each in told] == [
        ("l1", "lamp-hall"),
        ("l2", "lamp-hall"),
        ("k-1", "lamp-room1"),
        ("k-2", "lamp-room2"),
    ]


def test_the_least_version() -> None:
    machine = {"steps": [["x", "a", "x"]]}
    cases: list[tuple[int, dict[str, Any]]] = [
        (1, {"services": [{"behaviour": "m", "rests": True}], "target": machine}),
        (2, {"services": [{"behaviour": "m", "rests": False}], "target": machine}),
        (3, {"services": [{"behaviour": "m"}], "targets": [{"name": name, **machine} for name in "uv"]}),
    ]
    for version, document in cases:
        found = expand({"behaviours": [{"name": "m", **machine}], **document})
        assert found["roman"] == version


def test_the_shortest_text() -> None:
    steps = [["x", "s", "a", "x"], ["x", "t", "a", "x"], ["x", "s and t", "a", "y"], ["x", "a", "x"]]
    machine = {"states": ["x", "y"], "steps": steps}
    environment = {"states": ["s", "t"], "otherwise": "stays"}
    found = expand(
        {
            "environment": environment,
            "behaviours": [{"name": "m", "count": 1, **machine}],
            "target": machine,
            "limit": 262144,
        }
    )
    assert found["target"]["steps"] == [["x", True, "a", "x"]]
    assert "limit" not in found
    assert found["services"] == [{"name": "m", "behaviour": "m"}]


def joined(parts: list[tuple[Any, str]]) -> st.SearchStrategy[tuple[Any, str]]:
    """Plans of parts, each with the regular expression of its sequences."""
    inner = [plan for plan, _ in parts]
    patterns = [pattern for _, pattern in parts]
    return st.sampled_from(
        [
            (inner, "".join(patterns)),
            ({"choice": inner}, f"(?:{'|'.join(patterns)})"),
            ({"loop": inner[0]}, f"(?:{patterns[0]})*"),
            ({"maybe": inner[0]}, f"(?:{patterns[0]})?"),
        ]
    )


letters = st.sampled_from("abc").map(lambda letter: (letter, letter))
plans = st.recursive(letters, lambda inner: st.lists(inner, min_size=1, max_size=3).flatmap(joined), max_leaves=12)


def target(**target: Any) -> Any:
    behaviour = {"name": "m", "count": 1, "steps": [["x", action, "x"] for action in "abc"]}
    environment = {"states": ["s", "t"], "actions": ["a", "b", "c"], "otherwise": "stays"}
    return expand({"environment": environment, "behaviours": [behaviour], "target": target})["target"]


def test_names_and_the_least_machine() -> None:
    found = target(start="quiet", plan={"loop": [{"do": "a", "to": "bright"}, "b"]})
    assert (found["states"], found["final"]) == (["quiet", "bright"], ["quiet"])
    assert found["steps"] == [["quiet", True, "a", "bright"], ["bright", True, "b", "quiet"]]
    found = target(plan={"choice": [["a", "b"], ["c", "b"]]})
    assert found["states"] == ["start", "after-a", "after-b"]
    found = target(plan=["a", "a"], final=True)
    assert found["final"] == ["start", "after-a", "after-a-2"]
    found = target(plan=[{"do": "a", "to": "on"}, "b"], final=["on"])
    assert found["final"] == ["on"]


def test_guards_make_a_choice_clear() -> None:
    plan = {"choice": [[{"do": "a", "when": "s"}, "b"], ["a", "c"]]}
    found = target(plan=plan)
    assert sorted(found["steps"][:2]) == sorted([["start", ["s"], "a", "after-a"], ["start", ["t"], "a", "after-a-2"]])
    after = {state: sorted(step[2] for step in found["steps"] if step[0] == state) for state in found["states"]}
    assert (after["after-a"], after["after-a-2"]) == (["b", "c"], ["c"])


def test_random_plans_beside_regular_expressions() -> None:
    @settings(deadline=None)
    @given(plans, st.lists(st.text("abc", max_size=6), min_size=10))
    def compare(planned: tuple[Any, str], words: list[str]) -> None:
        plan, pattern = planned
        found = target(plan=plan)
        after = {(step[0], step[2]): step[3] for step in found["steps"]}
        assert len(after) == len(found["steps"])
        for word in words:
            state = found["start"]
            for letter in word:
                state = after.get((state, letter))
            assert (state in found["final"]) == (re.fullmatch(pattern, word) is not None), (pattern, word)

    compare()


# Each mistake is shown at its place in the short document.


def test_each_at_its_place() -> None:
    home = (SHORT / "home.json").read_text(encoding="utf-8")
    house = (SHORT / "house.json").read_text(encoding="utf-8")
    for text, old, new, message in (
        (
            home,
            '"on": "dim", "to": "day"',
            '"on": "dim", "to": «"dya"»',
            'is no state of the environment; did you mean "day"?',
        ),
        (home, '"when": "day"', '"when": "dusk or «dya»"', 'is no state of the environment; did you mean "day"?'),
        (home, '"when": "day"', '"when": "day «dusk»"', "isn't understood"),
        (home, '"when": "day"', '"when": «"day and"»', "isn't understood at its end"),
        (home, '"when": "day"', '«"wehn"»: "day"', 'no meaning here; did you mean "when"?'),
        (home, '["on", "dim", "off"]', '«["on", "dim"]»', "[state, action, state]"),
        (home, '["on", "dim", "off"]', '["on", «"dimm"», "off"]', 'is no action; did you mean "dim"?'),
        (home, '{"behaviour": "kettle"}', '{"behaviour": «"ketle"»}', 'is no behaviour; did you mean "kettle"?'),
        (home, '{"behaviour": "kettle"}', '{"behaviour": "kettle", «"with"»: {}}', "has no parameters"),
        (home, '"dim"\n', '{"choice": «"dim"»}\n', "a list is due"),
        (home, '"dim"\n', '{"loop": "dim", "choice": []}\n', "of them alone"),
        (home, '"do": "pour", "to": "served"', '"do": «"pour"», "to": "bright"', "would be two states"),
        (home, '"otherwise": "stays"', '"otherwise": «"stay"»', '"stays" is due'),
        (house, '"set": {"who": "away"}', '"set": {«"woh"»: "away"}', 'is no variable; did you mean "who"?'),
        (house, '"set": {"who": "away"}', '"set": {"who": «"awya"»}', 'is no value of "who"; did you mean "away"?'),
        (house, '"when": "home and not day"', '"when": "who = «day»"', 'is no value of "who"'),
        (house, '"when": "home and not day"', '"when": "«whose» = day"', 'did you mean "who"?'),
        (house, '"with": {"calm": "air = calm"}', '"with": {«"clam"»: "x", "calm": "calm"}', "is no parameter of"),
        (house, ', "with": {"calm": "air = calm"}', "", 'needs "calm"'),
        (
            house,
            '"who": ["home", "asleep", "away"]',
            '"who": ' + json.dumps([f"w{i}" for i in range(11)]),
            "66 combinations",
        ),
        (house, '"target": {\n', '"target": {"steps": [],\n', "either a plan or steps"),
        (house, '"count": 2', '"count": «0»', "1 to 32"),
    ):
        assert old in text
        parts = re.split("[«»]", text.replace(old, new, 1))
        Path("s.json").write_text("".join(parts), encoding="utf-8")
        errors = [each for each in all_findings(read("s.json")) if each.level is Level.ERROR]
        assert message in errors[0].message
        if len(parts) > 1:
            span = errors[0].span
            assert span.source.text[span.start : span.end] == parts[1]
            before = parts[0]
            assert span.place == (before.count("\n") + 1, len(before) - before.rfind("\n"))


def test_warnings_point_into_it_too() -> None:
    house = (
        (SHORT / "house.json")
        .read_text(encoding="utf-8")
        .replace('"away", "clean", "docked"', '"away and home", "clean", "docked"')
    )
    Path("s.json").write_text(house, encoding="utf-8")
    found = {
        each.span.source.text[each.span.start : each.span.end]: each.message for each in all_findings(read("s.json"))
    }
    message = 'this guard never holds, so behaviour "robot" (service "robot") never takes "clean" by this step'
    assert found['"away and home"'] == message
    assert "no service can ever take it" in found['"clean"']


def test_a_plan_that_grows_too_large() -> None:
    either = {"choice": ["brighten", "boil"]}
    home = json.loads((SHORT / "home.json").read_text(encoding="utf-8"))
    home["target"] = {"plan": [{"loop": either}, "boil", *[either] * 12]}
    Path("s.json").write_text(json.dumps(home), encoding="utf-8")
    assert "more than 512 states" in all_findings(read("s.json"))[0].message


def test_random_faults() -> None:
    """There is never a traceback, and the program accepts each document that is expanded."""
    taken: list[int] = []
    samples = [json.loads((SHORT / f"{name}.json").read_text(encoding="utf-8")) for name in ("home", "house")]

    @many_documents
    @given(st.sampled_from(samples).flatmap(edited))
    def expand_it(document: Any) -> None:
        Path("s.json").write_text(json.dumps({**document, "roman": "short"}), encoding="utf-8")
        checker = read("s.json")
        errors = [each for each in all_findings(checker) if each.level is Level.ERROR]
        assert (checker.document is None) == bool(errors)
        for each in errors:
            each.shown()
        if checker.document is not None:
            Path("plain.json").write_text(written(checker.document).text, encoding="utf-8")
            done = run(PROGRAM, "synth", "plain.json")
            assert done.returncode in (0, 1, 4), done.stdout
            taken.append(done.returncode)

    expand_it()
    assert len(taken) > 20


def expand_file(*words: str) -> "subprocess.CompletedProcess[str]":
    return run(sys.executable, str(TOP / "tools" / "roman-expand"), *words)


def test_the_files_and_the_map() -> None:
    done = expand_file(str(SHORT / "home.json"), "-o", "plain.json", "--map", "map.json")
    assert (done.returncode, done.stdout, done.stderr) == (0, "", "")
    assert expand_file("plain.json").stdout == Path("plain.json").read_text(encoding="utf-8")
    document = expanded("plain.json")
    places = json.loads(Path("map.json").read_text(encoding="utf-8"))
    text = (SHORT / "home.json").read_text(encoding="utf-8").splitlines()
    for number, step in enumerate(document["behaviours"][1]["steps"]):
        file, line, column = places[f"/behaviours/1/steps/{number}"].rsplit(":", 2)
        assert file == str(SHORT / "home.json")
        assert text[int(line) - 1][int(column) - 1 :].startswith(f'["{step[0]}"')
    assert len([each for each in places if "/steps/" in each]) == sum(
        len(m["steps"]) for m in (document["environment"], *document["behaviours"], document["target"])
    )


def test_statuses() -> None:
    Path("s.json").write_text('{"roman": "short"}', encoding="utf-8")
    done = expand_file("s.json")
    assert (done.returncode, done.stdout) == (3, "")
    assert "s.json:1:1: error: " in done.stderr
    assert expand_file("gone.json").returncode == 5
    for option in ("-o", "--map"):
        done = expand_file(str(SHORT / "home.json"), option, "gone/plain.json")
        assert done.returncode == 7
        assert done.stderr == "roman-expand: gone/plain.json can't be written: No such file or directory\n"
    assert expand_file().returncode == 2


def test_the_linter_and_the_program_take_either_form() -> None:
    lint = [sys.executable, str(TOP / "tools" / "roman-lint"), "--program", PROGRAM]
    assert "roman says: answer composition\n" in run(*lint, str(SHORT / "home.json")).stdout
    Path("s.json").write_text(
        (SHORT / "home.json").read_text(encoding="utf-8").replace('"dusk"]', '"dsk"]', 1), encoding="utf-8"
    )
    done = run(*lint, "s.json")
    assert done.returncode == 3
    assert "s.json:8:61: error: " in done.stdout
    assert "refused" not in done.stdout
