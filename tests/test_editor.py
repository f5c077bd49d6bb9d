"""tools/editor: the grammars of .rt and .antt files. The reader here follows the rules of TextMate. The first match in
a line wins. Of several at one place it is the end of the open rule, or else the rule that is listed first."""

import json
import re
from collections.abc import Iterator
from typing import Any

from . import TOP

EDITOR = TOP / "tools" / "editor"
Rule = dict[str, Any]
GRAMMARS: dict[str, Rule] = {
    each["scopeName"]: each
    for each in (json.loads(file.read_text(encoding="utf-8")) for file in sorted(EDITOR.glob("*.tmLanguage.json")))
}


def expressions(rule: Any) -> Iterator[str]:
    """All regular expressions of a grammar."""
    for key, value in rule.items() if isinstance(rule, dict) else enumerate(rule):
        if key in ("match", "begin", "end"):
            yield value
        elif isinstance(value, (dict, list)):
            yield from expressions(value)


def rules(grammar: str, patterns: list[Rule]) -> Iterator[tuple[str, Rule]]:
    """The rules that patterns include, each with its grammar."""
    for pattern in patterns:
        name = pattern.get("include")
        if name is None and "match" not in pattern and "begin" not in pattern:
            yield from rules(grammar, pattern["patterns"])
        elif name is None:
            yield grammar, pattern
        elif name.startswith("#"):
            yield from rules(grammar, [GRAMMARS[grammar]["repository"][name[1:]]])
        else:
            yield from rules(name, GRAMMARS[name]["patterns"])


def captured(rule: Rule, found: "re.Match[str]", captures: str) -> list[tuple[str, str]]:
    """The groups of a match that have names, or the whole match if none has."""
    parts = [(found[int(group)], each["name"]) for group, each in rule.get(captures, {}).items()]
    return [part for part in parts if part[0]] or [(found[0], rule.get("name", ""))]


class Reader:
    """Reads a text by a grammar, and tracks the rules that are open at its end."""

    def __init__(self, scope: str, text: str) -> None:
        self.open: list[tuple[str, Rule]] = [(scope, GRAMMARS[scope])]
        self.found: list[tuple[str, str]] = []
        for line in text.splitlines():
            self.read(line)

    def read(self, line: str) -> None:
        place = 0
        while True:
            grammar, top = self.open[-1]
            ends = (
                [
                    (found.start(), -1, grammar, top, found)
                    for found in [re.compile(top["end"]).search(line, place)]
                    if found
                ]
                if "end" in top
                else []
            )
            starts = [
                (found.start(), number, where, rule, found)
                for number, (where, rule) in enumerate(rules(grammar, top.get("patterns", [])))
                for found in [re.compile(rule.get("match") or rule["begin"]).search(line, place)]
                if found
            ]
            if not ends + starts:
                return
            _, number, where, rule, found = min(ends + starts, key=lambda each: each[:2])
            if number < 0:
                self.open.pop()
            elif "begin" in rule:
                self.open.append((where, rule))
                self.found += captured(rule, found, "beginCaptures")
            else:
                self.found += captured(rule, found, "captures")
            if found.end() == place == len(line) or (found.end() == found.start() and number >= 0):
                return
            place = found.end()

    def scope_of(self, word: str) -> str:
        return next((scope for text, scope in self.found if text.strip() == word), "")


RATTLE = """#![tactic(auto)]
/// Whether state `e` is in the set.
pub fn has(&self, e: u8) -> bool
    ensures* has { record { now = result } ≡ has_state self.now e }
{
    let text = "}"; // the end
    prove!(e < 64);
    MAX + first(b'{')
}
ghost use Rattle.std.specs.Prelude.{ℕ};
"""
ANTT = """-- a line
use Rattle.std.specs.Prelude.{ℕ, List}
abbrev pub IsOrder : {N : Type 0} → List N → Type 0
IsOrder L = grind (rules, 0x1f) ?
order_new : ℕ
"""


def test_they_are_listed() -> None:
    listed = json.loads((EDITOR / "package.json").read_text(encoding="utf-8"))["contributes"]["grammars"]
    assert {each["scopeName"] for each in listed} == {*GRAMMARS}
    for each in listed:
        grammar = json.loads((EDITOR / each["path"]).read_text(encoding="utf-8"))
        assert grammar["scopeName"] == each["scopeName"]


def test_the_expressions_compile() -> None:
    for scope, grammar in GRAMMARS.items():
        found = [*expressions(grammar)]
        assert len(found) > 5
        for each in found:
            re.compile(each)


def test_lines_of_rattle() -> None:
    reader = Reader("source.rattle", RATTLE)
    for word, kind in (
        ("/// Whether state `e` is in the set.", "comment.line.documentation"),
        ("has", "entity.name.function"),
        ("ensures", "keyword.other.clause"),
        ("record", "keyword.control.antt"),
        ("≡", "keyword.operator.antt"),
        ("u8", "support.type"),
        ("let", "keyword.control"),
        ("// the end", "comment.line.double-slash"),
        ("prove!", "support.function.macro"),
        ("64", "constant.numeric"),
        ("MAX", "constant.other"),
        ("b'{'", "string.quoted.single"),
        ("ghost", "keyword.other.ghost"),
        ("ℕ", "entity.name.type.antt"),
    ):
        assert reader.scope_of(word).startswith(kind), reader.found
    assert len(reader.open) == 1


def test_lines_of_antt() -> None:
    reader = Reader("source.antt", ANTT)
    for word, kind in (
        ("-- a line", "comment.line"),
        ("use", "keyword.control"),
        ("abbrev pub", "keyword.declaration"),
        ("IsOrder", "entity.name.function"),
        ("→", "keyword.operator"),
        ("Type", "keyword.control"),
        ("List", "entity.name.type"),
        ("grind", "support.function.tactic"),
        ("0x1f", "constant.numeric"),
        ("?", "invalid.hole"),
        ("order_new", "entity.name.function"),
    ):
        assert reader.scope_of(word).startswith(kind), reader.found


def test_nothing_stays_open_at_the_end_of_a_file() -> None:
    for ending, scope in ((".rt", "source.rattle"), (".antt", "source.antt")):
        for file in sorted((TOP / "crates" / "roman_guard").glob(f"s*/*{ending}")):
            assert len(Reader(scope, file.read_text(encoding="utf-8")).open) == 1
