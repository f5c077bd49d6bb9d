"""Tables of a home file, and readers of their values."""

from __future__ import annotations

import difflib
import re
from collections.abc import Callable, Iterable, Sequence
from pathlib import Path
from typing import Any, TypeVar
from urllib.parse import urlsplit

Value = TypeVar("Value")


class HomeFileError(Exception):
    """A home file can't be read, or isn't valid. The text names the file, the line, and the table with the key."""


class UnusableValue(HomeFileError):
    """A required value is wrong. The error is already collected."""


class Table:
    """A table of the file. Keys are taken out when they are read, so the remaining ones are unknown. Errors are
    collected in `errors`, which all tables of a file share."""

    def __init__(self, name: str, value: Any, errors: list[str]) -> None:
        if not isinstance(value, dict):
            raise HomeFileError(f"{name} isn't a table")
        self.name = name
        self.errors = errors
        self.is_wrong = False
        """Whether one of its values is wrong."""
        self._rest: dict[str, Any] = dict(value)
        self._registry: dict[str, None] = {}

    def has(self, key: str) -> bool:
        """Whether the table has a key that wasn't read yet."""
        return key in self._rest

    def names(self) -> tuple[str, ...]:
        """The keys that weren't read yet."""
        return tuple(self._rest)

    def key(self, key: str) -> str:
        """The full name of a key."""
        return f"{self.name}.{key}" if self.name else key

    def wrong(self, key: str, what: str) -> HomeFileError:
        """The error about a key."""
        return HomeFileError(f"{self.key(key)} {what}")

    def attempt(self, read: Callable[[], Value], otherwise: Value) -> Value:
        """Returns the value that a function reads. If it raises HomeFileError, collects the error, and returns
        `otherwise`."""
        try:
            return read()
        except UnusableValue:
            return otherwise
        except HomeFileError as error:
            self.errors.append(str(error))
            return otherwise

    def take(self, key: str, read: Callable[[Any], Value], otherwise: Value) -> Value:
        """Returns the value of a key, or `otherwise` if it is missing or wrong. `read` raises ValueError with the
        allowed values."""
        self._registry[key] = None
        if key not in self._rest:
            return otherwise
        value = self._rest.pop(key)
        try:
            return read(value)
        except ValueError as error:
            self.is_wrong = True
            self.errors.append(str(self.wrong(key, f"is {value!r}, and not {error}")))
            return otherwise

    def need(self, key: str, read: Callable[[Any], Value], example: str) -> Value:
        """Returns the value of a required key. Raises HomeFileError if it is missing or wrong."""
        is_there = key in self._rest
        value = self.take(key, read, None)
        if value is None and is_there:
            raise UnusableValue()
        if value is None:
            near = difflib.get_close_matches(key, self._rest, 1)
            meant = f"; is {self.key(near[0])} meant for it?" if near else ""
            raise self.wrong(key, f"is missing, as in {example}{meant}")
        return value

    def table(self, key: str) -> Table | None:
        """The table below a key, if there is one."""
        self._registry[key] = None
        if key not in self._rest:
            return None
        return Table(self.key(key), self._rest.pop(key), self.errors)

    def items(self) -> Iterable[tuple[str, Any]]:
        """Takes all keys that are left, with their values."""
        rest, self._rest = self._rest, {}
        return rest.items()

    def end(self) -> None:
        """Collects an error for each key that is left, with the key that is probably meant."""
        for key in self._rest:
            near = difflib.get_close_matches(key, self._registry, 1)
            meant = f"; did you mean {near[0]}?" if near else ""
            self.errors.append(str(self.wrong(key, f"isn't known{meant}; known are {', '.join(self._registry)}")))


def text(value: Any) -> str:
    """A text that isn't empty. It has no NUL, which names of files can't have."""
    if not isinstance(value, str) or not value or "\0" in value:
        raise ValueError("a text")
    return value


def flag(value: Any) -> bool:
    """True or false."""
    if not isinstance(value, bool):
        raise ValueError("true or false")
    return value


def whole(least: int, most: int) -> Callable[[Any], int]:
    """A whole number in these bounds."""

    def read(value: Any) -> int:
        if type(value) is not int or not least <= value <= most:
            raise ValueError(f"a whole number from {least} to {most}")
        return value

    return read


def seconds(value: Any) -> float:
    """A time of more than 0 seconds."""
    if isinstance(value, bool) or not isinstance(value, (int, float)) or not 0 < value <= 86400:
        raise ValueError("a number of seconds, more than 0 and at most 86400")
    return float(value)


def one_of(words: Sequence[str]) -> Callable[[Any], str]:
    """One of these words."""

    def read(value: Any) -> str:
        if value not in words:
            raise ValueError(f"one of {', '.join(map(repr, words))}")
        return str(value)

    return read


def words(value: Any) -> tuple[str, ...]:
    """A list of at least one text."""
    if (
        not isinstance(value, list)
        or not value
        or not all(isinstance(each, str) and "\0" not in each for each in value)
    ):
        raise ValueError('a list of texts, as ["./lamp", "--quiet"]')
    return tuple(value)


def url(value: Any) -> str:
    """A URL of http or https."""
    try:
        place = urlsplit(value if isinstance(value, str) and value.isprintable() and " " not in value else "")
        known = place.scheme in ("http", "https") and bool(place.hostname) and place.port != 0
        (place.hostname or "").encode("idna")
    except ValueError:  # The port is invalid, a bracket is missing, or a part of the host is too long.
        known = False
    if not known:
        raise ValueError('a URL, as "http://192.168.1.20/blind"')
    return str(value)


def origins(value: Any) -> tuple[str, ...]:
    """A list of origins of pages."""
    found = words(value)
    if not all(re.fullmatch(r"https?://[\w.*:\[\]-]+", each) for each in found):
        raise ValueError('a list of origins, as ["http://homeassistant.local:8123"]')
    return found


def topic(value: Any) -> str:
    """A topic without wildcards."""
    if not isinstance(value, str) or not value or any(letter in value for letter in "+#\0"):
        raise ValueError("a topic without + and #")
    return value


def function(value: Any) -> tuple[str, str]:
    """A module and a name in it."""
    module, colon, name = value.partition(":") if isinstance(value, str) else ("", "", "")
    if not colon or not name.isidentifier() or not all(part.isidentifier() for part in module.split(".")):
        raise ValueError('a module and a name in it, as "lamps:ceiling"')
    return module, name


def secret(table: Table, key: str, folder: Path) -> str | None:
    """The first line of the file that a key names."""
    file = table.take(key, text, None)
    return None if file is None else first_line(table, key, folder, file)


def first_line(table: Table, key: str, folder: Path, file: str) -> str:
    """The first line of a file, which a key names."""
    try:
        lines = (folder / file).read_text(encoding="utf-8").splitlines()
    except (OSError, UnicodeDecodeError) as error:
        raise table.wrong(key, f"is {file!r}, which can't be read: {error}") from None
    if not lines or not lines[0].strip():
        raise table.wrong(key, f"is {file!r}, whose first line is empty")
    return lines[0].strip()
