"""Documents of either form, plain or short, read and checked."""

from __future__ import annotations

import contextlib
import dataclasses
import tempfile
from collections.abc import Iterator

from roman_client import Document

from .checks import Checker
from .findings import Finding
from .reader import Members, Shelf
from .short_form import Expander, has_short_words, is_short
from .writer import written


def read(name: str, shelf: Shelf | None = None) -> Checker:
    """Reads a file, and returns its checker, which has the plain document if nothing is refused. Raises OSError if the
    file can't be read."""
    checker = Checker(name, shelf)
    value = checker.fetch(name, (name, "system", 0))
    if value is None:
        return checker
    if not (isinstance(value, Members) and is_short(value)):
        checker.check(value)
        if checker.findings and isinstance(value, Members) and has_short_words(value):
            checker.findings = [unnamed_form(value, checker.findings[0])]
            checker.parts.clear()
        return checker
    checker.short = True
    plain = Expander(checker).expand(value)
    if plain is not None:
        checker.check(plain)
    # The numbers of steps in a refusal would be those of the plain document, which isn't shown.
    checker.findings = [dataclasses.replace(each, refusal=None) for each in checker.findings]
    return checker


def unnamed_form(value: Members, first: Finding) -> Finding:
    """The only finding in a document in the short form whose version is that of a plain one. The program's reason for
    its refusal is `first`."""
    version = value.get("roman")
    span = value.span.head if version is None else version.span
    return dataclasses.replace(
        first, span=span, message='this is a document in the short form: "roman": "short" is due here'
    )


@contextlib.contextmanager
def plain_file(document: Document) -> Iterator[str]:
    """A temporary file with a plain document, for the program, which doesn't read the short form."""
    with tempfile.NamedTemporaryFile("w", suffix=".json", encoding="utf-8") as file:
        file.write(written(document).text)
        file.flush()
        yield file.name
