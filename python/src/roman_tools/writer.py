"""Writes plain documents with the least possible version, and with guards and steps in the shortest form."""

from __future__ import annotations

import json
from collections.abc import Sequence
from dataclasses import dataclass, field

from roman_client import Document, Environment, Machine

from .checks import LIMIT
from .placed import span_of
from .reader import Span


@dataclass
class Written:
    """The text of a document, and the place of each of its names and steps in the source, by JSON pointers."""

    lines: list[str] = field(default_factory=list)
    places: dict[str, Span] = field(default_factory=dict)

    @property
    def text(self) -> str:
        return "".join(f"{line}\n" for line in self.lines)


def written(document: Document) -> Written:
    """The plain text of a document."""
    found = Written()
    several = len(document.targets) > 1
    loose = any(service.loose for service in document.services)
    members = [f'"roman": {3 if several else 2 if loose else 1}']
    limit = document.value.get("limit", LIMIT)
    if limit != LIMIT:
        members.append(f'"limit": {limit}')
    env = document.environment
    members.append('"environment": ' + environment_text(found, env))
    behaviours = [
        machine_text(found, f"/behaviours/{number}", each, env, 2)
        for number, each in enumerate(document.behaviours.values())
    ]
    members.append('"behaviours": ' + block(behaviours, 1))
    members.append('"services": ' + block([service_text(found, i, document) for i in range(len(document.services))], 1))
    if several:
        targets = [
            machine_text(found, f"/targets/{number}", each, env, 2) for number, each in enumerate(document.targets)
        ]
        members.append('"targets": ' + block(targets, 1))
    else:
        members.append('"target": ' + machine_text(found, "/target", document.targets[0], env, 1))
    found.lines = ("{\n  " + ",\n  ".join(members) + "\n}").split("\n")
    return found


def block(items: Sequence[str], depth: int, brackets: str = "[]") -> str:
    """Items on lines of their own, at this depth of indentation."""
    if not items:
        return brackets
    inner, outer = "  " * (depth + 1), "  " * depth
    return brackets[0] + "\n" + ",\n".join(inner + each for each in items) + "\n" + outer + brackets[1]


def names_text(found: Written, pointer: str, names: Sequence[str]) -> str:
    for number, name in enumerate(names):
        found.places[f"{pointer}/{number}"] = span_of(name)
    return json.dumps(names)


def environment_text(found: Written, env: Environment) -> str:
    steps = []
    for number, step in enumerate(dict.fromkeys(env.steps)):
        found.places[f"/environment/steps/{number}"] = span_of(step.source)
        steps.append(json.dumps([step.state, step.action, step.to]))
    members = [
        '"states": ' + names_text(found, "/environment/states", env.states),
        '"start": ' + json.dumps(env.start),
        '"actions": ' + names_text(found, "/environment/actions", env.actions),
        '"steps": ' + block(steps, 2),
    ]
    return block(members, 1, "{}")


def machine_text(found: Written, pointer: str, machine: Machine, env: Environment, depth: int) -> str:
    """Writes a behaviour or a target. Steps that differ only in their guards become one step, and steps that can never
    be taken are left out."""
    guards: dict[tuple[str, str, str], frozenset[str]] = {}
    spans: dict[tuple[str, str, str], Span] = {}
    for step in machine.steps:
        states = env.states_in(step.guard)
        if states:
            key = (step.state, step.action, step.to)
            guards[key] = guards.get(key, frozenset()) | states
            spans.setdefault(key, span_of(step.source))
    steps = []
    for number, ((state, action, to), states) in enumerate(guards.items()):
        found.places[f"{pointer}/steps/{number}"] = spans[state, action, to]
        words = [json.dumps(each) for each in (state, action, to)]
        steps.append(f"[{words[0]}, {guard_text(states, env)}, {words[1]}, {words[2]}]")
    members = [
        '"states": ' + names_text(found, f"{pointer}/states", machine.states),
        '"start": ' + json.dumps(machine.start),
        '"final": ' + json.dumps([state for state in machine.states if state in machine.final]),
        '"steps": ' + block(steps, depth + 1),
    ]
    if machine.name:
        found.places[f"{pointer}/name"] = span_of(machine.name)
        members.insert(0, '"name": ' + json.dumps(machine.name))
    return block(members, depth, "{}")


def guard_text(states: frozenset[str], env: Environment) -> str:
    """The shortest guard that holds in exactly these states."""
    if len(states) == len(env.states):
        return "true"
    inside = json.dumps([each for each in env.states if each in states])
    outside = json.dumps({"not": [each for each in env.states if each not in states]})
    return min(inside, outside, key=len)


def service_text(found: Written, number: int, document: Document) -> str:
    service = document.services[number]
    found.places[f"/services/{number}"] = span_of(document.value["services"][number])
    value: dict[str, object] = {"name": service.name, "behaviour": service.behaviour}
    if service.state != document.behaviours[service.behaviour].start:
        value["state"] = service.state
    if service.frozen:
        value["frozen"] = True
    if service.loose:
        value["rests"] = False
    return json.dumps(value)
