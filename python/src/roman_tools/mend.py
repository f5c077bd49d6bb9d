"""roman-mend SYSTEM [SESSION]: the changes that help if there is no composition.

Tries each single change of the present states with the program. Writes the changes after which there is a composition,
the cheapest first, each as a line of a session and in words. The present states are those of the document, or those at
the end of SESSION. With --two, tries pairs of changes if no single change helps. With --spare, writes which single
further service would let the composition survive the failure of any one service.
"""

from __future__ import annotations

import argparse
import subprocess
import sys
import tempfile
from collections.abc import Iterator, Sequence
from dataclasses import replace
from pathlib import Path

from roman_client import Document, Report, Service, mend
from roman_client.remedies import free_name, joins_loose
from roman_client.replies import report_of

from . import finished, program
from .documents import plain_file, read
from .errors import ended_by_errors
from .findings import in_order
from .lint import UNREADABLE, WRONG
from .pictures import Wrong

DONE, NOTHING = 0, 1
"""The statuses: a change helps, or none is needed; no change helps."""


def present(roman: str, document: Document, session: str | None) -> Report:
    """The report at the end of a session, or of the document if there is none. Raises Wrong if the program writes no
    report."""
    lines = [] if session is None else Path(session).read_text(encoding="utf-8", errors="replace").splitlines()
    if "quit" in (line.strip() for line in lines):
        lines = lines[: [line.strip() for line in lines].index("quit")]
    with plain_file(document) as file, tempfile.NamedTemporaryFile("w", encoding="utf-8") as whole:
        whole.write("".join(f"{line}\n" for line in (*lines, "report")))
        whole.flush()
        done = program.run(roman, "run", file, whole.name)
    return last_report(done)


def last_report(done: subprocess.CompletedProcess[str]) -> Report:
    """The last report that the program wrote. Raises Wrong if there is none."""
    lines = done.stdout.splitlines()
    starts = [place for place, line in enumerate(lines) if line.startswith("pairs ")]
    if done.returncode != 0 or not starts:
        said = "; ".join([*lines[-1:], *done.stderr.splitlines()[-1:]])
        raise Wrong(f"the program ended with status {done.returncode}: {said}")
    return report_of(lines[starts[-1] :])


def survives(roman: str, document: Document) -> bool:
    """Whether there is a composition in the document's states, and after the failure of any one service."""
    with tempfile.TemporaryDirectory(prefix="roman-") as folder:
        system = Path(folder) / "system.json"
        document.write(system)
        done = program.run(roman, "resilience", str(system))
    if done.returncode != 0:
        return False  # The further service makes the system too large.
    return all(words[-5] == "composition" for words in single_failures(done.stdout))


def single_failures(text: str) -> Iterator[list[str]]:
    """The lines of `resilience` on the start, and on the failures of single services."""
    for line in text.splitlines():
        words = line.split()
        if words[0] == "start" or (words[0] == "without" and len(words) == 8):
            yield words


def spares(roman: str, document: Document, report: Report) -> Iterator[str]:
    """The behaviours of which one further service, in its start state, lets the composition survive any one failure."""
    for behaviour in document.behaviours.values():
        name = free_name(behaviour.name, (each.name for each in report.services))
        loose = joins_loose(document, report, behaviour.name)
        further = Service(name, behaviour.name, behaviour.start, False, loose)
        states = replace(report, services=(*report.services, further))
        if survives(roman, document.with_states(states)):
            yield f"another {behaviour.name}, {behaviour.start}"


def write_spares(roman: str, document: Document, report: Report) -> int:
    """Writes the spares, and returns the status."""
    if survives(roman, document.with_states(report)):
        print("any one service may fail already")
        return DONE
    found = list(spares(roman, document, report))
    for each in found:
        print(f"{each}: then any one service may fail")
    if not found:
        print("no single further service lets the composition survive the failure of any one")
    return DONE if found else NOTHING


def write_remedies(roman: str, document: Document, report: Report, two: bool) -> int:
    """Writes the remedies, and returns the status."""
    if report.composition:
        print("there is a composition")
        return DONE
    found = mend(document, report, program=roman, two=two)
    shown = ["; ".join(remedy.lines) for remedy in found]
    width = max(map(len, shown), default=0)
    for lines, remedy in zip(shown, found):
        print(f"{lines:{width}}  {remedy}")
    if not found:
        print(f"no change helps{'' if two else ' alone; --two tries pairs'}")
    return DONE if found else NOTHING


def parser() -> argparse.ArgumentParser:
    words = argparse.ArgumentParser(prog="roman-mend", description=(__doc__ or "").split("\n\n", 1)[1])
    words.add_argument("system", metavar="SYSTEM")
    words.add_argument("session", metavar="SESSION", nargs="?", help="a session that leads to the present states")
    words.add_argument("--two", action="store_true", help="try pairs of changes if no single one helps")
    words.add_argument("--spare", action="store_true", help="write which further service makes up for any failure")
    words.add_argument("--program", metavar="ROMAN", help="the program to call")
    return words


def main(arguments: Sequence[str] | None = None) -> int:
    asked = parser().parse_args(arguments)
    with ended_by_errors("roman-mend", UNREADABLE, NOTHING):
        checker = read(asked.system)
        if checker.document is None:
            for each in in_order(checker.findings):
                print(*each.shown(), sep="\n", file=sys.stderr)
            return WRONG
        roman = program.find(asked.program)
        if roman is None:
            raise Wrong("the program isn't here; ./build makes it")
        document = checker.document
        report = present(roman, document, asked.session)
        if asked.spare:
            return write_spares(roman, document, report)
        return write_remedies(roman, document, report, asked.two)


def command() -> int:
    """The console script."""
    return finished(main)
