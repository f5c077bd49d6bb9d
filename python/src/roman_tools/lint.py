"""roman-lint FILE [COSTS]: mistakes in a document, and warnings of what is probably not meant, each with its place.

Shows each mistake and each warning with its line. With a file of costs for `advise`, also shows the mistakes in that
file, and the behaviours without a cost. The last line is the answer of the program, which decides. The status is 3 if
there are errors, 4 if the system is larger than its limit, 1 if there are warnings under --strict, 5 if the file can't
be read, and 0 otherwise.
"""

from __future__ import annotations

import argparse
import contextlib
import json
from collections.abc import Sequence

from . import finished, program
from .cautions import judged, of_text
from .checks import Checker
from .costs import Reader
from .documents import plain_file, read
from .errors import ended_by_errors
from .findings import Finding, Level, grouped, in_order, repeats
from .limits import too_large
from .why import explained, first_step

CLEAN, WARNED, WRONG, LARGE, UNREADABLE = 0, 1, 3, 4, 5


def lint(name: str) -> list[Finding]:
    """All findings in a document, in the order of its text. Raises OSError if it can't be read."""
    return all_findings(read(name))


def all_findings(checker: Checker) -> list[Finding]:
    """The errors and warnings of a document that was read. Causes come first, each with its consequences."""
    findings = in_order([*checker.findings, *of_text(checker)])
    if checker.document is None:
        return grouped(findings, repeats(findings))
    return [*findings, *judged(checker.document)]


def said(words: argparse.Namespace, checker: Checker) -> list[str]:
    """The program's answer to the document and the file of costs in one line, and why there is no composition. For a
    short document the program answers the plain one. There are no lines if the program isn't here."""
    found = None if words.no_program else program.find(words.program)
    if found is None:
        return []
    if checker.short and checker.document is None:
        return ["nothing, since no plain document comes of it"]
    costs = None if checker.short else words.costs
    try:
        with contextlib.ExitStack() as stack:
            file = words.file
            if checker.short and checker.document is not None:
                file = stack.enter_context(plain_file(checker.document))
            done = program.run(found, "advise", file, costs, "1") if costs else program.run(found, "synth", file)
        lines = done.stdout.splitlines()
        told = [line for line in lines if line.startswith(("refused ", "limit ", "answer ", "worst "))]
        answer = (told or done.stderr.splitlines() or [f"status {done.returncode}"])[-1]
        play = None if answer != "answer none" or checker.document is None else explained(found, checker.document)
        return [answer, *(first_step(play, words.file) if play else [])]
    except OSError as error:
        return [f"can't be called: {error.strerror}"]


def counts(findings: Sequence[Finding]) -> tuple[int, int]:
    """The number of errors, and the number of warnings."""
    errors = sum(each.level is Level.ERROR for each in findings)
    return errors, len(findings) - errors


def plural(count: int, word: str) -> str:
    return f"{count} {word}" if count == 1 else f"{count} {word}s"


def main(arguments: Sequence[str] | None = None) -> int:
    words = argparse.ArgumentParser(prog="roman-lint", description=(__doc__ or "").split("\n\n")[1])
    words.add_argument("file", metavar="FILE")
    words.add_argument("costs", metavar="COSTS", nargs="?", help="a file of costs for the document")
    words.add_argument("--json", action="store_true", help="write a JSON value, for editors")
    words.add_argument("--all", action="store_true", help="also show consequences and repetitions of a finding")
    words.add_argument("--strict", action="store_true", help="end with status 1 if there are warnings")
    words.add_argument("--program", metavar="ROMAN", help="the program to call")
    words.add_argument("--no-program", action="store_true", help="don't call the program")
    asked = words.parse_args(arguments)
    with ended_by_errors("roman-lint", UNREADABLE, WRONG):
        checker = read(asked.file)
        findings = all_findings(checker)
        if asked.costs is not None and checker.document is not None:
            findings += in_order(Reader(checker, checker.document, asked.costs).read().findings)
    answer = said(asked, checker)
    errors, warnings = counts(findings)
    if asked.json:
        value = {"findings": [each.value() for each in findings], "roman": answer[0] if answer else None}
        print(json.dumps(value, indent=2, ensure_ascii=True))
    else:
        for each in findings:
            if each.cause is None or asked.all:
                print(*each.shown(), sep="\n")
        print(f"{plural(errors, 'error')}, {plural(warnings, 'warning')}")
        print(f"roman says: {answer[0]}" if answer else "roman isn't here to say what it thinks of it")
        print(*answer[1:], sep="\n", end="\n" if answer[1:] else "")
    if errors:
        return WRONG
    if checker.document is not None and too_large(checker.document):
        return LARGE
    return WARNED if warnings and asked.strict else CLEAN


def command() -> int:
    """The console script."""
    return finished(main)
