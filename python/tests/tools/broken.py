"""Hypothesis strategies for documents with random faults, for tests of readers of documents."""

from __future__ import annotations

import copy
import json
from pathlib import Path
from typing import Any, NamedTuple

from hypothesis import HealthCheck, settings
from hypothesis import strategies as st

from . import TOP

SAMPLES = TOP / "samples"
SYSTEMS = ("lamp", "home", "depot", "flaky", "garden", "greenhouse", "two", "web", "workshop")
PART = "samples/tap.behaviour.json"
ODD: list[Any] = [None, True, False, 0, 1, -1, 1.5, 4, 1 << 64, "", "a b", "é", "x" * 33, "day", [], {}]
ODD += [[[]], ["day"], {"not": ["day"]}, {"all": []}, {"any": True}, {"file": PART}, {"file": ""}, {"file": 1}]
TEXTS = ["", '"', "\\", ",", "[", "]", "{", "}", ":", "1", "-", ".", "e9", "\t", "\r\n", "\u00e9", "\x00", "null", "//"]
MEMBERS = ["rest", "rests", "frozne", "frozen", "state", "limit", "targets", "name", "file", "note"]
EDITS = ("delete", "odd", "text", "copy", "insert", "member", "repeat", "version")

many_documents = settings(max_examples=300, deadline=None, suppress_health_check=list(HealthCheck))
"""The settings of tests with many documents."""


class Broken(NamedTuple):
    """The texts of a document with faults, and of its part file."""

    text: str
    part: str

    def write(self, folder: Path) -> None:
        """Writes the document and its part to a folder, in which a tool finds them."""
        (folder / "samples").mkdir(exist_ok=True)
        (folder / PART).write_bytes(self.part.encode("utf-8", "surrogatepass"))
        (folder / "broken.json").write_bytes(self.text.encode("utf-8", "surrogatepass"))


@st.composite
def edited(draw: st.DrawFn, document: Any) -> Any:
    """A document with one to three changes."""
    document = copy.deepcopy(document)
    for _ in range(draw(st.integers(1, 3))):
        edit(draw, document)
    return document


@st.composite
def broken_documents(draw: st.DrawFn) -> Broken:
    name = draw(st.sampled_from(SYSTEMS))
    document = json.loads((SAMPLES / f"{name}.json").read_text(encoding="utf-8"))
    part = json.loads((TOP / PART).read_text(encoding="utf-8"))
    for _ in range(draw(st.sampled_from((0, 1, 1, 1, 2, 3, 8)))):
        edit(draw, part if name == "greenhouse" and draw(st.booleans()) else document)
    return Broken(written(draw, document), written(draw, part))


def written(draw: st.DrawFn, value: Any) -> str:
    """The text of a value in one of several forms, sometimes with a fault."""
    text = json.dumps(value, indent=draw(st.sampled_from((None, 1, "\t"))), ensure_ascii=draw(st.booleans()))
    fault = draw(st.sampled_from((*[""] * 20, *["lines"] * 5, *["edits"] * 5, "depth")))
    if fault == "lines":
        return text.replace("\n", "\r\n")
    if fault == "depth":
        depth = draw(st.sampled_from((126, 127, 128)))
        return text.replace("{", '{"deep": ' + "[" * (depth - 1) + "]" * (depth - 1) + ",", 1)
    for _ in range(draw(st.integers(1, 3)) if fault == "edits" else 0):
        at = draw(st.integers(0, len(text)))
        gone = draw(st.sampled_from((0, 0, 1, 1, 5)))
        text = text[:at] + draw(st.sampled_from(TEXTS)) + text[at + gone :]
    return text


def edit(draw: st.DrawFn, document: Any) -> None:
    """Changes a document at one place."""
    places = walk(document)
    if not places:
        return
    holder, key = draw(st.sampled_from(places))
    kind = draw(st.sampled_from(EDITS))
    if kind == "delete":
        del holder[key]
    elif kind == "insert" and isinstance(holder, list):
        holder.insert(key, copy.deepcopy(draw(st.sampled_from(holder))))
    elif kind == "odd":
        holder[key] = copy.deepcopy(draw(st.sampled_from(ODD)))
    elif kind == "text" and isinstance(holder[key], str):
        text = holder[key]
        at = draw(st.integers(0, len(text)))
        holder[key] = text[:at] + draw(st.sampled_from(("", "x", " "))) + text[at + 1 :]
    elif kind == "copy":
        other, name = draw(st.sampled_from(places))
        holder[key] = copy.deepcopy(other[name])
    elif kind == "member" and isinstance(holder, dict):
        holder[draw(st.sampled_from(MEMBERS))] = copy.deepcopy(draw(st.sampled_from(ODD)))
    elif kind == "repeat" and isinstance(holder[key], list):
        holder[key] = copy.deepcopy(holder[key] * draw(st.sampled_from((2, 65))))
    elif kind == "version":
        document["roman"] = draw(st.sampled_from((1, 2, 3, 3, 4, "1")))


def walk(value: Any) -> list[tuple[Any, Any]]:
    """All places in a value: their containers, and their keys."""
    keys: Any = value if isinstance(value, dict) else range(len(value)) if isinstance(value, list) else ()
    return [(value, key) for key in keys] + [place for key in keys for place in walk(value[key])]
