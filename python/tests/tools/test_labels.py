"""The labels and findings in the drawing of a short document."""

import re
from pathlib import Path

from .shell import CELL, SHORT, edited, system, tool


def labels(dot: str, machine: str) -> dict[tuple[str, str], str]:
    """The arrows of a machine, with the words of their labels."""
    found = {}
    for one, other, label in re.findall(
        rf'"{machine} (\S+)" -> "{machine} (\S+)" \[label=<(.*?)>(?: style| arrowtail|\])', dot
    ):
        found[one, other] = re.sub("<BR/>", " ", re.sub("</?[A-Z]+[^>]*>", "", label)).strip()
    return found


def test_the_drawing_of_the_house() -> None:
    dot = tool("roman-draw", str(SHORT / "house.json"), "--dot").stdout
    target = labels(dot, "t0")
    assert target["start", "after-leave"] == "leave [home]"
    assert target["start", "after-sleep"] == "sleep [home and not day]"
    assert target["after-boil", "after-brighten-2"] == "brighten [not day]"
    assert target["start", "after-brighten"] == "brighten"
    guarded = {arrow for arrow, label in target.items() if "[" in label}
    dashed = {(one, other) for one, other in re.findall(r'"t0 (\S+)" -> "t0 (\S+)" \[label=<.*?style=dashed\]', dot)}
    assert dashed == guarded
    behaviours = {
        name: key for key, name in re.findall(r"subgraph cluster_(b\d+) \{\n\t\tlabel=<behaviour <B>(\S+)</B>", dot)
    }
    assert labels(dot, behaviours["light-day-and-calm"])["off", "on"] == "brighten [day and calm]"
    assert labels(dot, behaviours["light"])["off", "on"] == "brighten"
    assert labels(dot, behaviours["window-air-windy"])["shut", "open"] == "air [air = windy and home]"
    assert labels(dot, behaviours["robot"])["docked", "docked"] == "clean [away]"


def test_a_warning_of_one_instance_stands_on_that_alone(folder: Path) -> None:
    Path("cell.json").write_text(edited(CELL, ('{"screws": false}', '{"screws": "held and bench"}')), encoding="utf-8")
    dot = tool("roman-draw", "cell.json", "--dot").stdout
    (shown,) = re.findall(r"label=<behaviour <B>(\S+)</B>[^\n]*this guard never holds", dot)
    assert shown == "arm-held-and-bench"


def test_the_label_of_a_loop_stays_in_its_frame(folder: Path) -> None:
    guard = "time = day and not (air = windy) or time = night and air = calm or time = day and air = windy"
    environment = '"variables": {"time": ["day", "night"], "air": ["calm", "windy"]}, "otherwise": "stays"'
    text = system(f'{{"plan": {{"loop": {{"do": "a", "when": "{guard}"}}}}}}', environment)
    Path("s.json").write_text(text, encoding="utf-8")
    svg = tool("roman-draw", "s.json").stdout
    frame = re.search(r"<title>cluster_t0</title>\n<path [^>]*d=\"([^\"]*)\"", svg)
    assert frame is not None
    across = [float(x) for x in re.findall(r"[ MC](-?[\d.]+),", frame[1])]
    words = re.findall(r'<text [^>]*x="(-?[\d.]+)"[^>]*font-style="italic"[^>]*>([^<]*)</text>', svg)
    own = [(float(x), text) for x, text in words if "states" not in text]
    assert len(own) > 1
    for x, text in own:
        assert min(across) < x and x + 5 * len(text) < max(across), text
