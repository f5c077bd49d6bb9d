"""roman-expand FILE: the plain document of a short one.

Writes the plain document, which has the least possible version and the shortest form. Expanding it again gives the same
text. Part files are put in place. With --costs, writes the plain form of a file of costs instead, in which items may
name patterns and services. Mistakes are shown at their places in the short document. The status is 3 if there are some,
5 if the file can't be read, 7 if the output can't be written, and 0 otherwise.
"""

from __future__ import annotations

import argparse
import json
import sys
from collections.abc import Sequence
from pathlib import Path

from . import finished
from .costs import Reader
from .documents import read
from .errors import ended_by_errors
from .findings import Level, in_order
from .lint import CLEAN, UNREADABLE, WRONG
from .writer import written


def main(arguments: Sequence[str] | None = None) -> int:
    words = argparse.ArgumentParser(prog="roman-expand", description=(__doc__ or "").split("\n\n")[1])
    words.add_argument("file", metavar="FILE")
    words.add_argument("-o", metavar="OUT", dest="out", help="write to this file")
    words.add_argument(
        "--map", metavar="MAP", help="write to this file where each name and step of the plain document comes from"
    )
    words.add_argument(
        "--costs", metavar="COSTS", help="write the plain form of these costs in place of the document's"
    )
    asked = words.parse_args(arguments)
    with ended_by_errors("roman-expand", UNREADABLE, WRONG):
        checker = read(asked.file)
        reader = None
        if checker.document is not None and asked.costs is not None:
            reader = Reader(checker, checker.document, asked.costs)
            checker.findings += [each for each in reader.read().findings if each.level is Level.ERROR]
    if checker.document is None or checker.findings:
        for each in in_order(checker.findings):
            print(*each.shown(), sep="\n", file=sys.stderr)
        return WRONG
    document = written(checker.document)
    if asked.map is not None:
        places = {pointer: str(span) for pointer, span in document.places.items()}
        Path(asked.map).write_text(json.dumps(places, indent=1) + "\n", encoding="utf-8")
    text = document.text if reader is None else reader.plain()
    if asked.out is None:
        sys.stdout.write(text)
    else:
        Path(asked.out).write_text(text, encoding="utf-8")
    return CLEAN


def command() -> int:
    """The console script."""
    return finished(main)
