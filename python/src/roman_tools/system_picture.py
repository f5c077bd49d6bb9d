"""The picture of a document: its environment, behaviours and targets, with the findings of roman-lint."""

from __future__ import annotations

import re
import textwrap
from collections.abc import Iterable, Sequence
from dataclasses import dataclass, field
from typing import Any

from roman_client.documents import holds

from .checks import Checker, Part
from .findings import Finding
from .pictures import CHOICE, FADED, GUARD, PLAIN, WRONG, coloured, folded, graph, html, marked
from .placed import placed
from .reader import Constant, Items, Members, Number, Span, Text, Value
from .short_form import Worded

WIDEST = 30
"""The maximum number of characters in a line of a loop's label, if it can be broken."""

LABELS = 4
"""The maximum number of actions that an arrow shows. Of more actions it shows the first ones."""

KEYS = {"environment": "e", "behaviour": "b", "target": "t"}
"""The prefix of the names of a machine's nodes, by the part."""

Arrow = tuple[str, str, str]
"""The state that it leaves, the state to which it leads, and its marks: `guard`, `choice`, `wrong`."""


@dataclass
class Drawn:
    """A step of a picture: its states, its guard in words, and its action."""

    state: str
    to: str
    action: str
    guard: str
    holds: set[str] | None
    """The environment states in which it can be taken, None if they aren't known."""
    spans: list[Span] = field(default_factory=list)


def guard_text(value: Value) -> str:
    """A guard in words, or the empty text if it is always true."""
    if isinstance(value, Worded):
        return value.words
    if isinstance(value, Constant):
        return "" if value.constant else "never"
    if isinstance(value, Items):
        return " or ".join(word_of(each) for each in value.items) or "never"
    if not isinstance(value, Members) or len(value.last) != 1:
        return "?"
    ((word, member),) = value.last.items()
    if word == "not":
        return f"not {bracketed(member.value)}"
    if not isinstance(member.value, Items):
        return "?"
    texts = [bracketed(each) for each in member.value.items]
    return (" and " if word == "all" else " or ").join(texts) or ("" if word == "all" else "never")


def bracketed(value: Value) -> str:
    text = guard_text(value) or "always"
    return f"({text})" if " " in text else text


def word_of(value: Value) -> str:
    """A name, or the value in its place."""
    if isinstance(value, Text):
        return value.text
    return value.literal if isinstance(value, Number) else value.word


def held(value: Value, states: set[str]) -> set[str] | None:
    """The environment states in which a guard holds, or None if it isn't a guard."""
    try:
        return {each for each in states if holds(placed(value), each)}
    except (AttributeError, TypeError, ValueError):
        return None


class Picture:
    """Draws the parts of a document, which may have errors."""

    def __init__(self, checker: Checker, findings: Sequence[Finding]) -> None:
        self.checker = checker
        self.findings = findings
        self.told: set[Finding] = set()
        environment = self.part("environment", 0)
        self.states = {word_of(each) for each in listed(environment, "states")}
        self.picture = graph("LR", compound="true")

    def part(self, word: str, number: int) -> Part | None:
        return next((p for p in self.checker.parts if (p.word, p.number) == (word, number)), None)

    def draw(self) -> Any:
        """Draws all machines, from the environment above to the target below. Many behaviours are in columns."""
        parts = [part for part in self.checker.parts if part.word in KEYS]
        parts.sort(key=lambda part: (list(KEYS).index(part.word), part.number))
        behaviours = [part for part in parts if part.word == "behaviour"]
        columns = 1 if len(behaviours) < 5 else 2 if len(behaviours) < 11 else 3
        rows = -(-len(behaviours) // columns)
        # Graphviz stacks machines from below.
        self.legend()
        for part in reversed(parts):
            self.machine(part)
        for left, right in zip(behaviours, behaviours[rows:]):
            self.beside(left, right)
        self.remarks()
        return self.picture

    def beside(self, left: Part, right: Part) -> None:
        """Puts a machine to the right of all states of another."""
        for state in dict.fromkeys(word_of(each) for each in listed(left, "states")):
            self.picture.edge(f"{key_of(left)} {state}", f"{key_of(right)}  start", style="invis")

    def remarks(self) -> None:
        """Draws the findings outside of machines."""
        rest = [each for each in self.findings if each not in self.told]
        if rest:
            with self.picture.subgraph(name="cluster_y") as cluster:
                cluster.attr(label="roman-lint", labeljust="l", color=WRONG, fontcolor=WRONG)
                lines = [coloured(note(each), WRONG) for each in rest[:12]]
                cluster.node("y", label=marked(lines), shape="plaintext")

    # Machines.

    def machine(self, part: Part) -> None:
        """Draws a machine as a cluster: its states, its start, its final states, and its steps."""
        key = key_of(part)
        mine = [each for each in self.findings if is_about(each, part)]
        self.told.update(mine)
        wrong = {each.span: each for each in mine}
        names = listed(part, "states")
        states = [word_of(each) for each in names]
        finals = {word_of(each) for each in listed(part, "final")}
        steps = [step for step in map(self.step, listed(part, "steps")) if step is not None]
        still: list[str] = []
        if part.word == "environment":
            steps, still = without_loops(steps, states)
        with self.picture.subgraph(name=f"cluster_{key}") as cluster:
            lines = [self.title(part)]
            if still:
                lines.append(coloured(f"never moved by {folded(still, 8)}", FADED, True))
            lines += [coloured(note(each), WRONG, True) for each in mine[:6]]
            cluster.attr(label=marked(lines), labeljust="l")
            for name, state in zip(names, states):
                options = {"label": state, "tooltip": state}
                if state in finals:
                    options["peripheries"] = "2"
                if name.span in wrong:
                    options.update(color=WRONG, fontcolor=WRONG, style="dashed", tooltip=wrong[name.span].message)
                cluster.node(f"{key} {state}", **options)
            used = dict.fromkeys([step.state for step in steps] + [step.to for step in steps])
            for state in used:
                if state not in states:
                    cluster.node(f"{key} {state}", label=f"{state} ?", color=WRONG, fontcolor=WRONG, style="dashed")
            start = part.value.get("start")
            cluster.node(f"{key}  start", shape="point", width="0.12", label="")
            if start is not None and word_of(start) in (*states, *used):
                cluster.edge(f"{key}  start", f"{key} {word_of(start)}")
            arrows = self.arrows(steps, wrong)
            cluster.attr(
                margin=room_of(each for (one, other, _), labels in arrows.items() if one == other for each in labels)
            )
            for (state, to, marks), labels in arrows.items():
                options = arrow_options(marks, labels)
                cluster.edge(f"{key} {state}", f"{key} {to}", **options)

    def title(self, part: Part) -> str:
        if part.word == "environment":
            return "environment"
        name = part.value.get("name")
        several = part.word == "behaviour" or self.checker.version == 3
        text = part.word + (f" <B>{html(word_of(name))}</B>" if name is not None and several else "")
        if part.word == "behaviour":
            text += ": " + html(", ".join(self.services_of(name)) or "no service")
        return text

    def services_of(self, behaviour: Value | None) -> list[str]:
        """The services of a behaviour, each with its deviations from the usual."""
        told = []
        for part in self.checker.parts:
            kind = part.value.get("behaviour") if part.word == "service" else None
            if kind is None or behaviour is None or word_of(kind) != word_of(behaviour):
                continue
            state, name = part.value.get("state"), part.value.get("name")
            notes = [f"in {word_of(state)}"] if state is not None else []
            notes += ["frozen"] if is_constant(part.value.get("frozen"), True) else []
            loose = self.checker.version != 1 and is_constant(part.value.get("rests"), False)
            notes += ["loose"] if loose else []
            told.append((word_of(name) if name else "?") + (f" ({', '.join(notes)})" if notes else ""))
        return told

    def step(self, value: Value) -> Drawn | None:
        """A step, None if the value doesn't have the form of one."""
        if not isinstance(value, Items) or len(value.items) not in (3, 4):
            return None
        one, *guards, action, other = value.items
        text = guard_text(guards[0]) if guards else ""
        holds = held(guards[0], self.states) if guards else self.states
        spans = [value.span, *(each.span for each in value.items)]
        return Drawn(word_of(one), word_of(other), word_of(action), text, holds, spans)

    def arrows(self, steps: Sequence[Drawn], wrong: dict[Span, Finding]) -> dict[Arrow, list[str]]:
        """The arrows with their labels. Steps with equal ends and marks share an arrow. Each state has at most one
        loop, because several would overlap."""
        found: dict[Arrow, dict[str, None]] = {}
        for step in steps:
            marks = "guard" if step.guard else ""
            marks += "choice" if has_choice(step, steps) else ""
            marks += "wrong" if is_wrong(step, wrong) else ""
            label = label_of(step.action, step.guard, marks, step.state == step.to)
            found.setdefault((step.state, step.to, marks), {})[label] = None
        merged: dict[Arrow, dict[str, None]] = {}
        loops: dict[str, list[str]] = {}
        for (state, to, marks), labels in found.items():
            if state == to:
                loops.setdefault(state, []).append(marks)
        for (state, to, marks), labels in found.items():
            if state == to:
                marks = "".join(m for m in ("guard", "choice", "wrong") if all(m in each for each in loops[state]))
            merged.setdefault((state, to, marks), {}).update(labels)
        return {arrow: list(labels) for arrow, labels in merged.items()}

    def legend(self) -> None:
        """Draws the legend of the marks."""
        with self.picture.subgraph(name="cluster_z") as cluster:
            cluster.attr(label="how to read it", labeljust="l", style="rounded,dotted", fontcolor=FADED)
            cluster.node("z  start", shape="point", width="0.12", label="")
            cluster.node("z a", label="start")
            cluster.node("z b", label="final", peripheries="2")
            cluster.node("z c", label=" ")
            cluster.node("z d", label=" ")
            cluster.edge("z  start", "z a")
            for one, other, action, guard, marks in (
                ("a", "b", "action", "", ""),
                ("b", "c", "action", "in these states", "guard"),
                ("c", "d", "action, one of its answers", "", "choice"),
            ):
                cluster.edge(f"z {one}", f"z {other}", **arrow_options(marks, [label_of(action, guard, marks)]))


def key_of(part: Part) -> str:
    """The prefix of the names of a machine's nodes."""
    return KEYS[part.word] + ("" if part.word == "environment" else str(part.number))


def listed(part: Part | None, name: str) -> list[Value]:
    """The items of a member that is a list."""
    value = part.value.get(name) if part else None
    return value.items if isinstance(value, Items) else []


def is_constant(value: Value | None, constant: bool) -> bool:
    return isinstance(value, Constant) and value.constant is constant


def within(inner: Span, outer: Span) -> bool:
    return inner.source is outer.source and outer.start <= inner.start and inner.end <= outer.end


def is_about(finding: Finding, part: Part) -> bool:
    """Whether a finding is about a part. The behaviours that are made from one pattern share its place."""
    return within(finding.span, part.value.span) and finding.part in (None, (part.word, part.number))


def note(finding: Finding) -> str:
    """A finding in a picture: its line and its message."""
    return f"{finding.level.value}, line {finding.span.place[0]}: {finding.message}"


def without_loops(steps: Sequence[Drawn], states: Sequence[str]) -> tuple[list[Drawn], list[str]]:
    """The steps of the environment, without those of actions that keep each of its states, and these actions."""
    moves: dict[str, set[tuple[str, str]]] = {}
    for step in steps:
        moves.setdefault(step.action, set()).add((step.state, step.to))
    all_loops = {(state, state) for state in states}
    still = [action for action, ways in moves.items() if ways == all_loops]
    if len(states) < 2 or not still:
        return list(steps), []
    return [step for step in steps if step.action not in still], still


def has_choice(one: Drawn, steps: Iterable[Drawn]) -> bool:
    """Whether the action of a step may also take another step, in a state of the environment in which both are
    possible."""
    return any(
        other.state == one.state
        and other.action == one.action
        and other.to != one.to
        and (one.holds is None or other.holds is None or bool(one.holds & other.holds))
        for other in steps
    )


def is_wrong(step: Drawn, wrong: dict[Span, Finding]) -> bool:
    """Whether a step has a finding that isn't drawn at one of its states."""
    return any(within(span, each) for span in wrong for each in step.spans)


def label_of(action: str, guard: str, marks: str, is_loop: bool = False) -> str:
    """The label of an arrow. That of a loop is broken into lines, because it is above its state."""
    colour = WRONG if "wrong" in marks else CHOICE if "choice" in marks else PLAIN
    text = coloured(action, colour)
    if guard:
        shown = guard if len(guard) <= 80 else guard[:76].rsplit(" ", 1)[0] + " .."
        rows = [f"[{shown}]"]
        if is_loop:
            rows = textwrap.wrap(rows[0], WIDEST, initial_indent=" " * len(action), break_on_hyphens=False)
        words = "<BR/>".join(html(row.lstrip()) for row in rows)
        text += f' <FONT COLOR="{GUARD}"><I>{words}</I></FONT>'
    return text


def room_of(labels: Iterable[str]) -> str:
    """The distance of a machine's frame from its states. Graphviz leaves no room at their sides for labels of loops."""
    rows = [row for label in labels for row in re.sub("<FONT[^>]*>|</?(FONT|I)>", "", label).split("<BR/>")]
    widest = max((len(row) for row in rows), default=0)
    return str(max(8, 3 * widest - 36))


def arrow_options(marks: str, labels: Sequence[str]) -> dict[str, str]:
    """The look of an arrow. With a guard it is dashed. A choice of the service is orange and begins with a dot. With a
    finding it is red."""
    shown = list(labels)
    if len(shown) > LABELS:
        shown = shown[: LABELS - 1] + [coloured(f"and {len(labels) - LABELS + 1} more", FADED)]
    options = {"label": marked(shown)}
    if "guard" in marks:
        options["style"] = "dashed"
    if "choice" in marks:
        options.update(color=CHOICE, dir="both", arrowtail="dot")
    if "wrong" in marks:
        options["color"] = WRONG
    return options
