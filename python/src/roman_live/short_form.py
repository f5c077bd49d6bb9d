"""Documents in the short form, which the program doesn't read: the home runs their plain form."""

from __future__ import annotations

from pathlib import Path

from roman_client import DocumentError
from roman_client.documents import read_json

SHORT = "short"
"""The version of a document in the short form."""


def is_short(document: Path) -> bool:
    """Whether a file is a document in the short form. A file that can't be read isn't; the reader of plain documents
    reports the mistake."""
    try:
        value = read_json(document)
    except DocumentError:
        return False
    return isinstance(value, dict) and value.get("roman") == SHORT


def plain_text(document: Path) -> str:
    """The plain form of a document in the short form. Raises DocumentError with all mistakes, at their places in the
    short form."""
    try:
        # This needs python3-lark and python3-jsonschema, which a plain document doesn't.
        from roman_tools.documents import read
        from roman_tools.findings import in_order
        from roman_tools.reader import Shelf
        from roman_tools.writer import written
    except ImportError as error:
        raise DocumentError(f"{document.name} is in the short form, which needs {error.name}") from None
    try:
        checker = read(document.name, Shelf(document.parent))
    except OSError as error:
        raise DocumentError(f"{error.filename}: {error.strerror}") from None
    if checker.document is None:
        shown = [line for each in in_order(checker.findings) for line in each.shown()]
        raise DocumentError("\n".join(["it can't be expanded", *shown]))
    return written(checker.document).text


def plain_costs(document: Path, costs: Path) -> str:
    """The plain form of a file of costs for a document in the short form. Items of the file may name patterns and
    services. Raises DocumentError with all mistakes in it."""
    from roman_tools.costs import Reader
    from roman_tools.documents import read
    from roman_tools.findings import Level, in_order
    from roman_tools.reader import Shelf

    try:
        checker = read(document.name, Shelf(document.parent))
        assert checker.document is not None
        reader = Reader(checker, checker.document, str(costs))
        errors = [each for each in reader.read().findings if each.level is Level.ERROR]
    except OSError as error:
        raise DocumentError(f"{error.filename}: {error.strerror}") from None
    if errors:
        raise DocumentError(
            "\n".join(["they can't be read", *(line for each in in_order(errors) for line in each.shown())])
        )
    return reader.plain()
