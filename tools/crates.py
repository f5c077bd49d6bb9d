"""The crates of this repository, which crates.txt lists."""

from collections.abc import Iterable
from graphlib import TopologicalSorter
from pathlib import Path

TOP = Path(__file__).resolve().parents[1]

# Each crate with the crates and libraries on which it depends.
Below = dict[str, list[str]]


def parsed(text: str) -> Below:
    """The crates in a text of crates.txt, each with the crates on which it depends."""
    rows = [line.partition(":") for line in text.splitlines() if line.strip() and not line.startswith("#")]
    named = {name.split()[0]: words.split() for name, _, words in rows}
    return {name: [word for word in words if word in named] for name, words in named.items()}


def crates() -> Below:
    """The crates of the repository, each with the crates on which it depends."""
    return parsed((TOP / "crates.txt").read_text(encoding="utf-8"))


def in_order(below: Below) -> list[str]:
    """All crates, each after those on which it depends."""
    return list(TopologicalSorter(below).static_order())


def all_below(below: Below) -> dict[str, set[str]]:
    """All crates on which each crate depends, directly or indirectly."""
    found: dict[str, set[str]] = {}
    for name in in_order(below):
        found[name] = {*below[name]}.union(*(found[other] for other in below[name]))
    return found


def with_above(names: Iterable[str], below: Below, levels: int) -> set[str]:
    """These crates, and those that depend on them through at most so many levels."""
    found = set(names)
    for _ in range(min(levels, len(below))):
        found |= {name for name, others in below.items() if found & {*others}}
    return found
