"""roman-draw SYSTEM [--explanation FILE [--all] [--text] | --offers] [-o SVG] [--dot]

Draws a system document as one SVG: the environment, each behaviour and the target, and the findings of roman-lint.
With --explanation, draws the last explanation in FILE (`-` for the standard input), as `explain` writes it: one line of
the game that an opponent wins, or the whole game with --all. --text writes it in words. With --offers, draws what can
happen from the start when offered services are used. The drawing goes to the standard output, or to the file after -o.
--dot writes the text for Graphviz in place of the SVG. Names of part files are relative to the working folder.
"""

from __future__ import annotations

import argparse
import sys
from collections.abc import Sequence
from pathlib import Path
from typing import Any

from roman_client import Document

from . import explanations, finished, offers_picture, program, why
from .documents import plain_file, read
from .errors import ended_by_errors
from .lint import all_findings
from .pictures import Wrong, svg
from .system_picture import Picture


def document_of(name: str) -> Document:
    """Reads a document that breaks no rule. Raises Wrong if it breaks one."""
    checker = read(name)
    if checker.document is None:
        raise Wrong(checker.findings[0].heading)
    return checker.document


def system_picture(name: str) -> Any:
    """The picture of a document, which may have errors, with the findings in it."""
    checker = read(name)
    if not any(part.word == "environment" for part in checker.parts):
        raise Wrong(checker.findings[0].heading)
    return Picture(checker, all_findings(checker)).draw()


def play_of(document: Document, name: str) -> explanations.Play:
    """The last explanation in a file."""
    try:
        text = sys.stdin.read() if name == "-" else Path(name).read_text(encoding="utf-8")
    except ValueError as error:
        raise Wrong(f"{name}: {error}") from None
    explanation = explanations.last_explanation(text)
    if explanation is None:
        raise Wrong(f"{name} has no explanation: lines from `lost ..` to `end`")
    return explanations.Play(document, explanation)


def why_of(document: Document, name: str, asked: argparse.Namespace) -> explanations.Play:
    """The program's explanation of the starting states."""
    found = program.find(asked.program)
    if found is None:
        raise Wrong("the program isn't here, which explains it; ./build makes it")
    play = why.explained(found, document)
    if play is None:
        raise Wrong(f"there is a composition from the starting states of {name}, so nothing is to be explained")
    return play


def offers_of(document: Document, roman: str | None) -> Any:
    """The picture of the offers from the start, by the program's certificate."""
    found = program.find(roman)
    if found is None:
        raise Wrong("the program isn't here, which says what is offered; ./build makes it")
    with plain_file(document) as file:
        done = program.run(found, "certify", file)
    if done.returncode != 0:
        raise Wrong(f"roman says: {(done.stdout or done.stderr).strip()}")
    return offers_picture.picture(document, done.stdout)


def drawn(asked: argparse.Namespace) -> str:
    """The drawing or the text that the options ask for."""
    if asked.explanation is not None or asked.why:
        document = document_of(asked.system)
        play = why_of(document, asked.system, asked) if asked.why else play_of(document, asked.explanation)
        if asked.first:
            return "\n".join([*why.first_step(play, asked.system), ""])
        if asked.text:
            return play.text(asked.all)
        picture = play.picture(asked.all)
    elif asked.offers:
        picture = offers_of(document_of(asked.system), asked.program)
    else:
        picture = system_picture(asked.system)
    return str(picture.source) if asked.dot else svg(picture)


def main(arguments: Sequence[str] | None = None) -> int:
    words = argparse.ArgumentParser(prog="roman-draw", description=(__doc__ or "").split("\n\n")[1])
    words.add_argument("system", metavar="SYSTEM")
    kinds = words.add_mutually_exclusive_group()
    kinds.add_argument("--explanation", metavar="FILE", help="draw the last explanation in FILE")
    kinds.add_argument("--why", action="store_true", help="draw why there is no composition from the starting states")
    kinds.add_argument("--offers", action="store_true", help="draw what can happen when offers are followed")
    words.add_argument("--all", action="store_true", help="draw the whole game of an explanation")
    words.add_argument("--first", action="store_true", help="write the first step of an explanation in words")
    words.add_argument("--text", action="store_true", help="write the explanation in words")
    words.add_argument("-o", metavar="SVG", dest="out", help="write to this file")
    words.add_argument("--dot", action="store_true", help="write the text for Graphviz")
    words.add_argument("--program", metavar="ROMAN", help="the program to call")
    asked = words.parse_args(arguments)
    with ended_by_errors("roman-draw", 1, 1):
        try:
            data = drawn(asked).encode("utf-8", "replace")
        except Wrong as error:
            raise Wrong(str(error).encode("ascii", "backslashreplace").decode()) from None
    if asked.out is None:
        sys.stdout.buffer.write(data)
        sys.stdout.flush()
    else:
        Path(asked.out).write_bytes(data)
    return 0


def command() -> int:
    """The console script."""
    return finished(main)
