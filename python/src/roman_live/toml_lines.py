"""The lines of keys and tables in TOML texts, which `tomllib` doesn't report."""

from __future__ import annotations

from collections.abc import Iterator
from typing import Any

import tomllib


def lines_of(text: str) -> dict[str, int]:
    """The first line of each key and each table of a text, by full names such as `devices.lamp.url`."""
    lines: dict[str, int] = {}
    table, statement, first = "", "", 1
    for number, line in enumerate(text.split("\n"), 1):
        statement += line + "\n"
        try:
            value = tomllib.loads(statement)
        except tomllib.TOMLDecodeError:
            continue  # It continues in the next line.
        is_header = statement.lstrip().startswith("[")
        names = list(_names("" if is_header else table, value))
        for name in names:
            lines.setdefault(name, first)
        if is_header:
            table = names[-1]
        statement, first = "", number + 1
    return lines


def _names(table: str, value: Any) -> Iterator[str]:
    """The full names of the keys in a table, each before those below it."""
    for key, inner in value.items() if isinstance(value, dict) else ():
        name = f"{table}.{key}" if table else key
        yield name
        yield from _names(name, inner)


def located(text: str, message: str) -> str:
    """A message with the number of its line in front. The message begins with the name of a key. If the text doesn't
    have this key, the line is that of its table."""
    lines = lines_of(text)
    about = [name for name in lines if f"{message} ".startswith((f"{name} ", f"{name}."))]
    return f"line {lines[max(about, key=len)]}: {message}" if about else message
