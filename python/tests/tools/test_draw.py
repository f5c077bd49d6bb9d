"""roman-draw: the content of the drawings."""

import json
import os
import re
import subprocess
import xml.etree.ElementTree as xml
from collections import Counter
from pathlib import Path
from typing import Any

import pytest

from . import PROGRAM, TOP

SVG = "{http://www.w3.org/2000/svg}"


def draw(*words: str, text: str = "", **environment: str) -> "subprocess.CompletedProcess[str]":
    return subprocess.run(
        [str(TOP / "tools" / "roman-draw"), *words],
        cwd=TOP,
        input=text,
        capture_output=True,
        encoding="utf-8",
        env={**os.environ, "ROMAN": PROGRAM, **environment},
        timeout=400,
        check=False,
    )


def nodes(dot: str) -> list[str]:
    """The names of the nodes of a drawing's text."""
    return [name.strip('"') for name in re.findall(r'^\s*("[^"]*"|\w+) \[', dot, re.M)]


def arrows(dot: str) -> list[str]:
    return [line.split("[")[0].strip().replace('"', "") for line in dot.splitlines() if " -> " in line]


def parsed(drawing: str) -> Any:
    root = xml.fromstring(drawing)
    assert root.tag == SVG + "svg"
    return root


def titles(root: Any, kind: str) -> list[str]:
    """The titles of the clusters, nodes or edges of a drawing."""
    return [group.findtext(SVG + "title") or "" for group in root.iter(SVG + "g") if group.get("class") == kind]


def texts(root: Any) -> "Counter[str]":
    """All texts of a drawing, word by word. Their positions depend on Graphviz and its fonts."""
    return Counter(word for each in root.iter(SVG + "text") for word in (each.text or "").split())


def test_each_sample_is_drawn_whole() -> None:
    for file in sorted((TOP / "samples").glob("*.json")):
        document = json.loads(file.read_text(encoding="utf-8"))
        if "roman" not in document:
            continue
        done = draw(f"samples/{file.name}", "--dot")
        assert (done.returncode, done.stderr) == (0, "")
        behaviours = [
            json.loads((TOP / each["file"]).read_text(encoding="utf-8")) if "file" in each else each
            for each in document["behaviours"]
        ]
        targets = document["targets"] if document["roman"] == 3 else [document["target"]]
        machines = {"e": document["environment"]}
        machines.update({f"b{number}": each for number, each in enumerate(behaviours)})
        machines.update({f"t{number}": each for number, each in enumerate(targets)})
        for key, machine in machines.items():
            for state in machine["states"]:
                assert f"{key} {state}" in nodes(done.stdout)
        assert done.stdout.count("subgraph cluster_") == len(machines) + 1


def test_the_marks() -> None:
    dot = draw("samples/depot.json", "--dot").stdout.splitlines()
    (ship,) = (line for line in dot if '"b1 docked" -> "b1 away"' in line)
    assert "dashed" in ship
    assert "[dry]" in ship
    assert "arrowtail" in ship
    (load,) = (line for line in dot if '"b0 still" -> "b0 moving"' in line)
    assert "dashed" not in load
    assert "arrowtail" not in load
    assert any('"b0 still" [' in line and "peripheries=2" in line for line in dot)
    assert not any('"b0 moving" [' in line and "peripheries" in line for line in dot)
    assert any('"b0  start" -> "b0 still"' in line for line in dot)
    assert any("belt (loose)" in line for line in dot)


def test_version_1_has_no_loose_services(tmp_path: Path) -> None:
    lamp = json.loads((TOP / "samples" / "lamp.json").read_text(encoding="utf-8"))
    lamp["services"][0]["rests"] = False
    path = tmp_path / "lamp.json"
    for version, told in ((1, "l1>"), (2, "l1 (loose)>")):
        path.write_text(json.dumps({**lamp, "roman": version}), encoding="utf-8")
        assert f"<B>lamp</B>: {told}" in draw(str(path), "--dot").stdout


def test_guards_in_words() -> None:
    dot = draw("samples/greenhouse.json", "--dot").stdout
    for words in ("and (not (day-windy or night-windy))", "(night-calm or night-windy) or"):
        assert words in dot


def test_many_behaviours_stand_in_columns(tmp_path: Path) -> None:
    lamp = json.loads((TOP / "samples" / "lamp.json").read_text(encoding="utf-8"))
    (behaviour,) = lamp["behaviours"]
    lamp["behaviours"] = [{**behaviour, "name": f"lamp{number}"} for number in range(12)]
    lamp["services"] = []
    path = tmp_path / "lamps.json"
    path.write_text(json.dumps(lamp), encoding="utf-8")
    root = parsed(draw(str(path)).stdout)
    places = {}
    for group in root.iter(SVG + "g"):
        if group.get("class") == "node":
            centres = [float(each.get("cx") or 0) for each in group.iter(SVG + "ellipse")]
            places[group.findtext(SVG + "title")] = centres[0] if centres else 0
    columns = [places[f"b{number} off"] for number in (0, 4, 8)]
    assert columns == sorted(set(columns))


def test_loops_of_many_actions_are_folded() -> None:
    dot = draw("samples/short/house.json", "--dot").stdout
    assert "never moved by dim, pour, air" in dot
    assert "and 3 more" in dot


def test_what_is_found_is_marked(tmp_path: Path) -> None:
    home = (TOP / "samples" / "home.json").read_text(encoding="utf-8")
    path = tmp_path / "home.json"
    path.write_text(home.replace('["dusk", "brighten", "dusk"]', '["dusk", "brighten", "night"]'), encoding="utf-8")
    dot = draw(str(path), "--dot").stdout
    assert '"e night" [label="night ?"' in dot
    assert "error, line 10: &quot;night&quot;".replace("&quot;", '"') in dot
    path.write_text(home.replace('"states": ["off", "on"]', '"states": ["off", "on", "out"]'), encoding="utf-8")
    (out,) = (line for line in draw(str(path), "--dot").stdout.splitlines() if '"b1 out" [' in line)
    assert "never comes into" in out


def test_what_can_not_be_drawn(tmp_path: Path) -> None:
    texts = ["{", "{}", "[]", '{"roman":1,"environment":{"file":"gone"}}', "[" * 100_000]
    texts += ['{"roman":1,"environment":{"file":0}}', '{"roman":1,"environment":{"file":null}}']
    path = tmp_path / "bad.json"
    for text in texts:
        path.write_text(text, encoding="utf-8")
        done = draw(str(path), "--dot")
        assert (done.returncode, done.stdout) == (1, "")
        assert len(done.stderr.splitlines()) == 1, done.stderr
    assert draw("samples/gone.json").returncode == 1
    assert draw().returncode == 2


def test_documents_with_faults_are_drawn_with_them(tmp_path: Path) -> None:
    lamp = (TOP / "samples" / "lamp.json").read_text(encoding="utf-8")
    deep = '["off", ' + '{"not":' * 90 + "true" + "}" * 90 + ', "on", "on"]'
    path = tmp_path / "bad.json"
    for right, wrong, count in (
        ('["off", true, "on", "on"]', '["off", "e", "on", "on"]', 1),
        ('["off", true, "on", "on"]', '["off", true]', 1),
        ('["off", true, "on", "on"]', "1", 1),
        ('["off", true, "on", "on"]', deep, 0),
        ('["e", "on", "e"]', '["e", "on"]', 1),
        ('"name": "lamp",', "", 1),
        ('"start": "off",', "", 1),
        ('"start": "off"', '"start": 0', 1),
        ('"final": ["off"]', '"final": 1', 1),
        ('{"name": "l1", "behaviour": "lamp"}', '"lamp"', 1),
        ('"states": ["off", "on"]', '"states": [0, 1]', 2),
    ):
        assert right in lamp
        path.write_text(lamp.replace(right, wrong, 1), encoding="utf-8")
        done = draw(str(path))
        assert (done.returncode, done.stderr) == (0, "")
        parsed(done.stdout)
        assert done.stdout.count("error, line") == count


def test_a_file_is_written(tmp_path: Path) -> None:
    out = os.path.join(tmp_path, "lamp.svg")
    assert draw("samples/lamp.json", "-o", out).stdout == ""
    drawing = parsed(Path(out).read_text(encoding="utf-8"))
    assert len(titles(drawing, "cluster")) == 4
    assert "b0 off" in titles(drawing, "node")
    done = draw("samples/lamp.json", "-o", os.path.join(tmp_path, "gone", "lamp.svg"))
    assert done.returncode == 7
    assert "lamp.svg can't be written: No such file or directory" in done.stderr


def test_the_locale_does_not_matter() -> None:
    """The output is UTF-8 in any locale, and no home folder is needed."""
    words = [str(TOP / "tools/roman-draw"), "samples/workshop.json"]
    plain = {name: value for name, value in os.environ.items() if not name.startswith(("LC_", "LANG", "PYTHON"))}
    drawn = []
    for given in (
        {"LC_ALL": "C.UTF-8"},
        {"LC_ALL": "C", "PYTHONCOERCECLOCALE": "0", "PYTHONUTF8": "0", "HOME": "/nowhere"},
    ):
        done = subprocess.run(words, cwd=TOP, env={**plain, **given}, capture_output=True, timeout=400, check=False)
        assert (done.returncode, done.stderr) == (0, b"")
        done.stdout.decode("utf-8")
        drawn.append(done.stdout)
    assert drawn[0] == drawn[1]


def game(system: str, text: str, *words: str) -> "subprocess.CompletedProcess[str]":
    return draw(f"samples/{system}.json", "--explanation", "-", *(words or ("--dot",)), text=text)


def test_the_last_one_of_many_replies() -> None:
    done = draw("samples/home.json", "--explanation", "samples/home.replies", "--dot")
    assert done.returncode == 0, done.stderr
    found = arrows(done.stdout)
    assert "start -> p1" in found
    assert "r1 -> p0" in found
    assert "cannot: window, kettle" in done.stdout


def test_a_frozen_service_is_named_and_changes_are_shown() -> None:
    done = draw("samples/home.json", "--explanation", "samples/home.replies", "--text")
    assert done.stdout == (
        "target boiled, environment dusk; window: ajar, ceiling: on (frozen), kettle: hot\n"
        "  pour is requested\n"
        "    cannot: window\n"
        "    frozen: ceiling\n"
        "    kettle may answer: hot → empty\n"
        "target served, environment dusk; kettle: hot → empty\n"
        "  dim is requested\n"
        "    cannot: window, kettle\n"
        "    frozen: ceiling\n"
    )


def test_services_that_died() -> None:
    done = draw("samples/web.json", "--explanation", "samples/web.replies", "--all", "--dot")
    assert done.returncode == 0, done.stderr
    found = arrows(done.stdout)
    for arrow in ("r3 -> p2", "r2 -> p1", "r1 -> p0"):
        assert arrow in found
    assert found.count("r2 -> p1") == 2


def test_one_line_of_play_and_all_of_it() -> None:
    one = draw("samples/web.json", "--explanation", "samples/web.replies", "--dot").stdout
    assert arrows(one).count("r2 -> p1") == 1
    assert "would lose too: purse" in one


def test_services_that_are_alike_are_one(tmp_path: Path) -> None:
    lamps = json.loads((TOP / "samples" / "flaky.json").read_text(encoding="utf-8"))
    lamps["services"] = [{"name": f"f{number}", "behaviour": "flaky"} for number in range(4)]
    path = tmp_path / "lamps.json"
    path.write_text(json.dumps(lamps), encoding="utf-8")
    explained = subprocess.run(
        [PROGRAM, "run", str(path)], input="explain\n", capture_output=True, text=True, timeout=400, check=False
    ).stdout
    dot = draw(str(path), "--explanation", "-", "--all", "--dot", text=explained).stdout
    assert len([line for line in explained.splitlines() if "f3 may answer" in line]) == 1
    (answer,) = (line for line in dot.splitlines() if "off → stuck" in line and "->" in line)
    assert "f0 or f1 or f2 or f3" in answer


def test_several_targets() -> None:
    done = draw("samples/two.json", "--explanation", "samples/two.replies", "--dot")
    assert done.returncode == 0, done.stderr
    assert "r1 -> p0" in arrows(done.stdout)


def test_the_service_that_can_not_rest_is_named() -> None:
    done = game("lamp", "lost off e on: final\nend\n")
    assert done.returncode == 0, done.stderr
    assert "l1 (in on) is in no final state" in done.stdout
    assert "diamond" not in done.stdout
    text = game("lamp", "lost off e on: final\nend\n", "--text").stdout
    assert "the target may be left here, but l1 (in on) is in no final state\n" in text


def test_an_svg() -> None:
    done = draw("samples/web.json", "--explanation", "samples/web.replies")
    root = parsed(done.stdout)
    assert texts(root)["mail"] == 1
    assert texts(root)["cannot:"] == 4


def test_utf_8_whatever_the_locale() -> None:
    words = ("samples/home.json", "--explanation", "samples/home.replies", "--text")
    done = draw(*words, LC_ALL="C", PYTHONUTF8="0", PYTHONCOERCECLOCALE="0")
    assert "hot → empty" in done.stdout
    assert done.stdout == draw(*words).stdout


@pytest.mark.parametrize(
    "text",
    [
        "",
        "offer l1\n",
        "lost off e\n",
        "lost off e off: on\n",
        "lost off e on: final\nlost on e on off: off\nend\n",
        "lost off e off: on\n  l1 may answer on e\nend\n",
    ],
)
def test_what_is_no_explanation(text: str) -> None:
    done = game("lamp", text)
    assert (done.returncode, len(done.stderr.splitlines())) == (1, 1)


def test_the_related_pairs_and_the_edges_to_lost_ones() -> None:
    dot = draw("samples/depot.json", "--offers", "--dot").stdout
    lost = [line for line in dot.splitlines() if re.search(r"-> lp\d+ ", line)]
    assert any("sweep by broom" in line for line in lost)
    assert not any("drone" in line for line in lost)
    home = draw("samples/home.json", "--offers", "--dot").stdout
    assert home.count("label=lost") == 0
    assert len([name for name in nodes(home) if re.fullmatch(r"p\d+", name)]) == 23


def test_each_pair_is_one_that_a_session_comes_to() -> None:
    """From the start, the program has the offers of the picture."""
    report = subprocess.run(
        [PROGRAM, "synth", "samples/home.json"], cwd=TOP, capture_output=True, text=True, timeout=400, check=False
    ).stdout
    (offered,) = re.findall("^offer brighten: (.*)$", report, re.M)
    dot = draw("samples/home.json", "--offers", "--dot").stdout
    shown = [re.findall(r"brighten by (\w+)", line) for line in dot.splitlines() if "\tp0 -> " in line]
    assert sorted(name for each in shown for name in each) == sorted(offered.split())


def test_a_short_document() -> None:
    done = draw("samples/short/home.json", "--offers", "--dot")
    assert done.stdout == draw("samples/home.json", "--offers", "--dot").stdout


def test_there_are_no_offers_without_a_composition() -> None:
    done = draw("samples/flaky.json", "--offers")
    assert (done.returncode, done.stdout) == (1, "")
    assert "no composition" in done.stderr


RECIPES = ("jam", "retry", "sensor", "anyone", "away", "gripper", "shared")


def test_the_drawings_of_the_guide_are_those_of_now() -> None:
    drawings: dict[str, list[str]] = {
        "workshop.svg": ["samples/workshop.json"],
        "workshop-lost.svg": [
            "samples/workshop.json",
            "--explanation",
            "samples/workshop.replies",
        ],
    }
    drawings.update({f"recipe-{name}.svg": [f"samples/short/{name}.json"] for name in RECIPES})
    guide = (TOP / "docs" / "GUIDE.md").read_text(encoding="utf-8")
    for name, words in drawings.items():
        assert f"]({name})" in guide, "the guide doesn't show it"
        kept = parsed((TOP / "docs" / name).read_text(encoding="utf-8"))
        fresh = parsed(draw(*words).stdout)
        assert texts(kept) == texts(fresh)
        for kind in ("node", "edge", "cluster"):
            assert sorted(titles(kept, kind)) == sorted(titles(fresh, kind))
