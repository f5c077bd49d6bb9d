"""Reads JSON texts into values with their places.

It accepts the texts that the program accepts, with the same numbers, escapes and depths. A text that the program
refuses as `notjson` raises `Broken`.
"""

from __future__ import annotations

import functools
import json
import math
import re
from bisect import bisect_right
from collections.abc import Iterator
from dataclasses import dataclass, field
from pathlib import Path
from typing import Any

from lark import Lark, Token, UnexpectedCharacters, UnexpectedInput
from lark.visitors import Transformer_NonRecursive

from roman_client.documents import DEEPEST

GRAMMAR = r"""
?start: value
?value: object | array | STRING | NUMBER | TRUE | FALSE | NULL
object: LBRACE [pair (_COMMA pair)*] RBRACE
pair: STRING _COLON value
array: LSQB [value (_COMMA value)*] RSQB
LBRACE: "{"
RBRACE: "}"
LSQB: "["
RSQB: "]"
_COMMA: ","
_COLON: ":"
TRUE: "true"
FALSE: "false"
NULL: "null"
STRING: /"(?:[^"\\\x00-\x1f\ud800-\udfff]|\\(?:["\\\/bfnrt]|u[0-9A-Fa-f]{4}))*"/
NUMBER: /-?(?:0|[1-9][0-9]*)(?:\.[0-9]+)?(?:[eE][+-]?[0-9]+)?/
%ignore /[ \t\n\r]+/
"""

TERMINALS = {
    "LBRACE": '"{"',
    "RBRACE": '"}"',
    "LSQB": '"["',
    "RSQB": '"]"',
    "_COMMA": '","',
    "_COLON": '":"',
    "STRING": "a text",
}


class Source:
    """A text with its name, which finds places in itself."""

    def __init__(self, name: str, text: str) -> None:
        self.name = name
        self.text = text
        self._starts = [0, *(found.end() for found in re.finditer("\n", text))]

    def place(self, offset: int) -> tuple[int, int]:
        """The line and the column of a character, both counted from 1."""
        line = bisect_right(self._starts, offset)
        return line, offset - self._starts[line - 1] + 1

    def line(self, number: int) -> str:
        """A line without its end."""
        start = self._starts[number - 1]
        end = self._starts[number] if number < len(self._starts) else len(self.text)
        return self.text[start:end].rstrip("\r\n")


@dataclass(frozen=True)
class Span:
    """A piece of a source, from one character up to another."""

    source: Source
    start: int
    end: int

    @property
    def place(self) -> tuple[int, int]:
        """The line and the column of its first character."""
        return self.source.place(self.start)

    @property
    def head(self) -> Span:
        """Its first character."""
        return Span(self.source, self.start, min(self.start + 1, self.end))

    def within(self, start: int, end: int) -> Span:
        """A piece of it, by offsets from its start."""
        return Span(self.source, self.start + start, self.start + end)

    def __str__(self) -> str:
        line, column = self.place
        return f"{self.source.name}:{line}:{column}"


class Broken(Exception):
    """A text isn't JSON. It has the place of the fault."""

    def __init__(self, span: Span, message: str) -> None:
        super().__init__(message)
        self.span = span
        self.message = message


@dataclass(frozen=True)
class Value:
    """A JSON value and its place."""

    span: Span

    @property
    def word(self) -> str:
        """Its kind, in words."""
        raise NotImplementedError


@dataclass(frozen=True)
class Text(Value):
    """A text, with its escapes read."""

    text: str

    @property
    def word(self) -> str:
        return "a text"


@dataclass(frozen=True)
class Number(Value):
    """A number in its written form."""

    literal: str

    @property
    def word(self) -> str:
        return "a number"

    @property
    def whole(self) -> int | None:
        """The number, None unless it is a u64 without a sign, a point and an exponent."""
        if not re.fullmatch("[0-9]+", self.literal) or len(self.literal) > 20:
            return None
        number = int(self.literal)
        return number if number < 1 << 64 else None


@dataclass(frozen=True)
class Constant(Value):
    """`true`, `false` or `null`."""

    constant: bool | None

    @property
    def word(self) -> str:
        return json.dumps(self.constant)


@dataclass(frozen=True)
class Items(Value):
    """A list."""

    items: list[Value]

    @property
    def word(self) -> str:
        return "a list"


@dataclass(frozen=True)
class Member:
    """A member of an object: its name and its value."""

    name: Text
    value: Value


@dataclass(frozen=True)
class Members(Value):
    """An object, with its members in the order of the text."""

    members: list[Member]
    last: dict[str, Member] = field(init=False, compare=False, repr=False)
    """The members by their names. Of several with one name it is the last, which counts."""

    def __post_init__(self) -> None:
        object.__setattr__(self, "last", {each.name.text: each for each in self.members})

    @property
    def word(self) -> str:
        return "an object"

    def get(self, name: str) -> Value | None:
        """The value of a member."""
        found = self.last.get(name)
        return None if found is None else found.value

    def repeats(self) -> Iterator[Member]:
        """The members that a later one with the same name hides."""
        for each in self.members:
            if self.last[each.name.text] is not each:
                yield each


@functools.cache
def parser() -> Lark:
    return Lark(GRAMMAR, parser="lalr", maybe_placeholders=False)


class Builder(Transformer_NonRecursive):
    """Makes values of the parser's tree, from the inside."""

    def __init__(self, source: Source) -> None:
        super().__init__()
        self.source = source

    def span(self, first: Token, last: Token) -> Span:
        assert first.start_pos is not None and last.end_pos is not None
        return Span(self.source, first.start_pos, last.end_pos)

    def STRING(self, token: Token) -> Text:
        return Text(self.span(token, token), json.loads(token))

    def NUMBER(self, token: Token) -> Number:
        return Number(self.span(token, token), str(token))

    def constant(self, token: Token) -> Constant:
        return Constant(self.span(token, token), json.loads(token))

    TRUE = FALSE = NULL = constant

    def pair(self, children: list[Any]) -> Member:
        return Member(children[0], children[1])

    def object(self, children: list[Any]) -> Members:
        return Members(self.span(children[0], children[-1]), children[1:-1])

    def array(self, children: list[Any]) -> Items:
        return Items(self.span(children[0], children[-1]), children[1:-1])


def parsed(source: Source) -> Value:
    """Parses a text. Raises `Broken` if the program refuses it."""
    try:
        tree = parser().parse(source.text)
    except UnexpectedInput as error:
        raise fault_of(source, error) from None
    value: Value = Builder(source).transform(tree)
    for each, depth in walked(value):
        if depth > DEEPEST and isinstance(each, (Items, Members)):
            raise Broken(each.span.head, f"more than {DEEPEST} lists and objects within one another")
        if isinstance(each, Number) and not is_finite(each.literal):
            raise Broken(each.span, "the number is too large")
        if isinstance(each, Text) and re.search("[\ud800-\udfff]", each.text):
            raise Broken(each.span, "an escape names half of a character alone")
    return value


def walked(value: Value) -> Iterator[tuple[Value, int]]:
    """All values in a value, in the order of the text. Each has its depth: the number of lists and objects around it,
    including itself."""
    waiting: list[tuple[Value, int]] = [(value, 1)]
    while waiting:
        each, depth = waiting.pop()
        yield each, depth
        if isinstance(each, Items):
            waiting += [(item, depth + 1) for item in reversed(each.items)]
        elif isinstance(each, Members):
            for member in reversed(each.members):
                waiting += [(member.value, depth + 1), (member.name, depth + 1)]


def is_finite(literal: str) -> bool:
    """Whether the program reads a number as a finite one: the first digits that fit into 64 bits, times a power of
    ten."""
    found = re.fullmatch(r"-?([0-9]+)(?:\.([0-9]+))?(?:[eE]([+-]?[0-9]+))?", literal)
    assert found is not None
    digits, exponent = 0, 0
    for whole, part in ((True, found[1]), (False, found[2] or "")):
        full = False
        for digit in part:
            longer = digits * 10 + int(digit)
            full = full or longer >= 1 << 64
            if full:
                exponent += whole
            else:
                digits = longer
                exponent -= not whole
    power = (found[3] or "0").lstrip("+")
    exponent += int(power) if len(power.lstrip("-0")) < 10 else int(power[0] + "9" * 9)
    if digits == 0 or exponent <= 0:
        return True
    return exponent <= 308 and math.isfinite(float(digits) * float(f"1e{exponent}"))


# The faults of a text that isn't JSON.


def fault_of(source: Source, error: UnexpectedInput) -> Broken:
    """The first fault of a text, in words."""
    text = source.text
    if isinstance(error, UnexpectedCharacters):
        return character_fault(source, error.pos_in_stream or 0)
    token = getattr(error, "token", None)
    if token is None or token.type == "$END":
        end = len(text.rstrip())
        at = Span(source, max(end - 1, 0), end)
        return Broken(at, "the text ends here, and isn't whole" if end else "the text is empty")
    span = Span(source, token.start_pos, token.end_pos)
    before = text[: token.start_pos].rstrip(" \t\r\n")
    if before.endswith(",") and token.type in ("RBRACE", "RSQB"):
        return Broken(Span(source, len(before) - 1, len(before)), "a comma with nothing behind it")
    expected = set(getattr(error, "expected", ())) - {"$END"}
    if not expected:
        return Broken(span, "the text goes on behind its value")
    if "NUMBER" in expected:
        due = "a value"
    else:
        due = " or ".join(sorted(TERMINALS.get(each, each) for each in expected))
    return Broken(span, f"{due} is due here")


def character_fault(source: Source, at: int) -> Broken:
    """The fault of a text with a character that begins no token."""
    text = source.text
    one = Span(source, at, at + 1)
    if text[at] == '"':
        return string_fault(source, at)
    if text[at] == "\ufeff":
        return Broken(one, "a byte order mark, which JSON hasn't")
    comment = re.compile(r"//|/\*|#").match(text, at)
    if comment is not None:
        return Broken(Span(source, at, comment.end()), "JSON has no comments")
    single = re.compile(r"'[^'\n]*'?").match(text, at)
    if single is not None:
        return Broken(Span(source, at, single.end()), "texts stand between double quotes")
    word = re.compile(r"\w+").match(text, at)
    if word is not None:
        return Broken(Span(source, at, word.end()), f"{word[0]} is no value; texts stand between double quotes")
    return Broken(one, f"{text[at]!r} has no place here")


def string_fault(source: Source, start: int) -> Broken:
    """The fault of a text between quotes that doesn't end, or has an invalid character or escape."""
    good = re.compile(r'(?:[^"\\\x00-\x1f\ud800-\udfff]|\\(?:["\\/bfnrt]|u[0-9A-Fa-f]{4}))*')
    found = good.match(source.text, start + 1)
    assert found is not None
    at = found.end()
    if at >= len(source.text) or source.text[at] in "\r\n":
        return Broken(Span(source, start, at), "the closing quote is missing")
    span = Span(source, at, min(at + (2 if source.text[at] == "\\" else 1), len(source.text)))
    if source.text[at] == "\\":
        return Broken(span, "no escape of JSON")
    if source.text[at] < " ":
        return Broken(span, "a control character, which has to be escaped")
    return Broken(span, "the bytes are no UTF-8")


# Files.


class Shelf:
    """The files that a document names, each read once."""

    def __init__(self, folder: Path = Path()) -> None:
        """Names of files are relative to `folder`."""
        self._folder = folder
        self._sources: dict[str, tuple[Source, int]] = {}

    def source(self, name: str) -> tuple[Source, int]:
        """Returns a file's text and its length in bytes. Raises OSError if it can't be read."""
        if name not in self._sources:
            try:
                data = (self._folder / name).read_bytes()
            except OSError as error:
                # An error while an open file is read doesn't name it.
                raise OSError(error.errno, error.strerror, error.filename or name) from None
            text = data.decode("utf-8", "surrogateescape")
            self._sources[name] = Source(name, text), len(data)
        return self._sources[name]
