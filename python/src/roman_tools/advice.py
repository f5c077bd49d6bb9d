"""roman-advice SYSTEM COSTS H: the output of `advise`, as a table with the names of states.

Asks the program what the next H requests cost at worst, and lists the states to which the advised services lead from
the start. For each request that is allowed there, shows the service that costs least, and the worst cost of this and
the following requests, H in all. --from reads the output of `advise` from a file, `-` for the standard input. SYSTEM
may be in the short form; an item of COSTS may then name a pattern or a service. The status is that of the program.
"""

from __future__ import annotations

import argparse
import re
import sys
import tempfile
from collections.abc import Iterator, Sequence
from dataclasses import dataclass
from pathlib import Path

from . import finished, program
from .costs import Reader
from .documents import plain_file, read
from .errors import ended_by_errors
from .findings import Level, in_order
from .lint import CLEAN, UNREADABLE, WRONG
from .offers_picture import Arena, Pair
from .pictures import Wrong

MOST = 100
"""The maximum number of rows of the table without --all."""

NUMBER = "([0-9]{1,20})"
"""A number in the output of `advise`."""


@dataclass(frozen=True)
class Choice:
    """The service that costs least for a request, with the worst cost of this and the following requests."""

    request: str
    service: str
    worst: int
    to: tuple[Pair, ...]


class Advice:
    """The output of `advise` for a document."""

    def __init__(self, arena: Arena, costs: dict[tuple[str, str], int], text: str) -> None:
        self.arena = arena
        self.costs = costs
        self.values: dict[tuple[int, int], int] = {}
        for horizon, pair, worst in re.findall(rf"^value {NUMBER} {NUMBER} {NUMBER}$", text, re.M):
            self.values[int(horizon), int(pair)] = int(worst)
        self.horizon = max((horizon for horizon, _ in self.values), default=0)

    def value(self, horizon: int, pair: Pair) -> int | None:
        """The worst cost of so many requests from a pair, None if the target can't continue from it."""
        number = self.arena.number(pair)
        if (1, number) not in self.values:
            return None
        if horizon and (horizon, number) not in self.values:
            raise Wrong(f"there is no line `value {horizon} {number} ..`: this is advice about another system")
        return self.values[horizon, number] if horizon else 0

    def choices(self, pair: Pair) -> Iterator[Choice]:
        """For each request that is allowed in a pair, the service to take."""
        document = self.arena.document
        for request in document.allowed(pair.target, pair.environment):
            found = []
            for seat, service in enumerate(document.services):
                to = self.arena.outcomes(pair, request, seat)
                rest = [self.value(self.horizon - 1, each) for each in to]
                known = [each for each in rest if each is not None]
                if to and len(known) == len(to):
                    own = self.costs.get((service.behaviour, request), 0)
                    found.append(Choice(request, service.name, own + max(known), tuple(to)))
            if found:
                yield min(found, key=lambda each: each.worst)

    def rows(self) -> Iterator[tuple[Pair, list[Choice]]]:
        """The pairs to which the advised services lead from the start, the nearest first."""
        waiting, seen = [self.arena.start], {self.arena.start}
        while waiting:
            pair = waiting.pop(0)
            choices = list(self.choices(pair))
            yield pair, choices
            for each in (to for choice in choices for to in choice.to):
                if each not in seen:
                    seen.add(each)
                    waiting.append(each)


def table(advice: Advice, most: int | None) -> Iterator[str]:
    """The lines of the table, with aligned columns."""
    arena, horizon = advice.arena, advice.horizon
    rows = [("target", "environment", "services not at the start", "request", "take", f"next {horizon} at worst")]
    count = 0
    for pair, choices in advice.rows():
        for choice in choices:
            count += 1
            if most is None or count <= most:
                where = (pair.target, pair.environment, ", ".join(arena.changes(pair)))
                rows.append((*where, choice.request, choice.service, str(choice.worst)))
    widths = [max(len(row[column]) for row in rows) for column in range(len(rows[0]))]
    for row in rows:
        yield "  ".join(word.ljust(width) for word, width in zip(row, widths)).rstrip()
    if most is not None and count > most:
        yield f"and {count - most} more; --all shows them"


def written_by(asked: argparse.Namespace, document: str, costs: str) -> tuple[int, str]:
    """The status and the output of `advise`. If the output is in a file, the status is 0."""
    if asked.source is not None:
        data = sys.stdin.buffer.read() if asked.source == "-" else Path(asked.source).read_bytes()
        return CLEAN, data.decode(errors="replace")
    roman = program.find(asked.program)
    if roman is None:
        print("roman-advice: the program isn't here; ./build makes it", file=sys.stderr)
        return UNREADABLE, ""
    with tempfile.NamedTemporaryFile("w", suffix=".costs", encoding="utf-8") as file:
        file.write(costs)
        file.flush()
        done = program.run(roman, "advise", document, file.name, asked.horizon)
    sys.stderr.write(done.stderr)
    return done.returncode, done.stdout


def main(arguments: Sequence[str] | None = None) -> int:
    words = argparse.ArgumentParser(prog="roman-advice", description=(__doc__ or "").split("\n\n")[1])
    words.add_argument("system", metavar="SYSTEM")
    words.add_argument("costs", metavar="COSTS")
    words.add_argument("horizon", metavar="H", help="the number of requests, 1 to 64")
    words.add_argument("--from", dest="source", metavar="FILE", help="a file with the output of advise for H requests")
    words.add_argument("--all", action="store_true", help=f"show all rows, not only {MOST}")
    words.add_argument("--program", metavar="ROMAN", help="the program to call")
    asked = words.parse_args(arguments)
    with ended_by_errors("roman-advice", UNREADABLE, UNREADABLE):
        checker = read(asked.system)
        findings = list(checker.findings)
        if checker.document is not None:
            reader = Reader(checker, checker.document, asked.costs)
            findings += [each for each in reader.read().findings if each.level is Level.ERROR]
        if checker.document is None or findings:
            for each in in_order(findings):
                print(*each.shown(), sep="\n", file=sys.stderr)
            return WRONG
        with plain_file(checker.document) as document:
            status, text = written_by(asked, document, reader.plain())
        worst = re.search(rf"^worst {NUMBER}$", text, re.M)
        if worst is None:
            print(text, end="")
            return status
        advice = Advice(Arena(checker.document, set()), reader.by_behaviour(), text)
        rows = list(table(advice, None if asked.all else MOST))
    print(f"the next {advice.horizon} requests from the start cost {worst[1]} at worst\n")
    print(*rows, sep="\n")
    return status


def command() -> int:
    """The console script."""
    return finished(main)
