"""Findings in documents: errors and warnings, each with its place."""

from __future__ import annotations

import difflib
import enum
from collections.abc import Iterable, Sequence
from dataclasses import dataclass, field, replace
from typing import Any

from .reader import Span


class Level(enum.Enum):
    """The severity of a finding."""

    ERROR = "error"
    WARNING = "warning"


@dataclass(frozen=True)
class Refusal:
    """A refusal of the format, by the words of its line."""

    document: str
    kind: str
    part: str
    number: int
    list: str
    index: int
    more: str = ""

    def __str__(self) -> str:
        """The line that the program writes if this is the first refusal."""
        line = f"refused {self.document} {self.kind} {self.part} {self.number} {self.list} {self.index}"
        return f"{line} {self.more}" if self.more else line


@dataclass(frozen=True)
class Finding:
    """Something that is wrong, or probably so, at a place."""

    span: Span
    level: Level
    message: str
    refusal: Refusal | None = None
    part: tuple[str, int] | None = field(default=None, compare=False)
    """The kind and the number of its part, if several parts share its place."""
    cause: Finding | None = field(default=None, compare=False)
    """The finding from which it follows, or which it repeats."""
    consequences: int = field(default=0, compare=False)
    """The number of findings that follow from it, or repeat it."""

    @property
    def heading(self) -> str:
        """`FILE:LINE:COLUMN: error: MESSAGE`, the form that editors know from compilers."""
        return f"{self.span}: {self.level.value}: {self.message}{self.more}"

    @property
    def more(self) -> str:
        """The number of its consequences and repetitions, in words."""
        if not self.consequences:
            return ""
        if self.level is Level.ERROR:
            return f" (and {self.consequences} more like it)"
        return f" (and {self.consequences} that {'follows' if self.consequences == 1 else 'follow'} from it)"

    def shown(self) -> list[str]:
        """The heading, the line, and a mark below the word."""
        number, column = self.span.place
        line = self.span.source.line(number)
        length = max(1, min(self.span.end - self.span.start, len(line) - column + 1))
        below = "".join("\t" if letter == "\t" else " " for letter in line[: column - 1])
        return [printable(self.heading), "  " + printable(line), "  " + below + "^" + "~" * (length - 1)]

    def value(self) -> dict[str, Any]:
        """The finding as a JSON value."""
        line, column = self.span.place
        end_line, end_column = self.span.source.place(self.span.end)
        found: dict[str, Any] = {
            "file": printable(self.span.source.name),
            "line": line,
            "column": column,
            "endLine": end_line,
            "endColumn": end_column,
            "severity": self.level.value,
            "message": printable(self.message),
            "follows": self.cause is not None,
        }
        if self.refusal is not None:
            found["refusal"] = str(self.refusal)
        return found


def printable(text: str) -> str:
    """The text without characters that can't be written, such as single surrogates. They are replaced; tabs stay."""
    text = text.encode("utf-8", "replace").decode("utf-8")
    return "".join(letter if letter == "\t" or letter.isprintable() else "\ufffd" for letter in text)


def in_order(findings: Iterable[Finding]) -> list[Finding]:
    """The findings file by file, in the order of the text, each once."""
    unrepeated = list(dict.fromkeys(findings))
    files = list(dict.fromkeys(each.span.source for each in unrepeated))
    return sorted(unrepeated, key=lambda each: (files.index(each.span.source), each.span.start))


def grouped(findings: Sequence[Finding], causes: dict[Finding, Finding]) -> list[Finding]:
    """The findings with their causes. Warnings with consequences come first, each before its own consequences."""
    followers: dict[Finding, list[Finding]] = {}
    for each, cause in causes.items():
        followers.setdefault(cause, []).append(each)
    groups = [(each, followers.get(each, [])) for each in findings if each not in causes]
    groups.sort(key=lambda group: group[0].level is Level.WARNING and not group[1])
    found: list[Finding] = []
    for each, rest in groups:
        found.append(replace(each, consequences=len(rest)))
        found += [replace(follower, cause=each) for follower in findings if follower in rest]
    return found


def repeats(findings: Sequence[Finding]) -> dict[Finding, Finding]:
    """The errors that have the message of an earlier one, each with the earlier one."""
    first: dict[str, Finding] = {}
    found = {}
    for each in findings:
        if each.level is Level.ERROR and first.setdefault(each.message, each) is not each:
            found[each] = first[each.message]
    return found


def meant(word: str, known: Iterable[str], nearness: float = 0.6) -> str:
    """`; did you mean "..."?` if a known word is near."""
    near = difflib.get_close_matches(word, list(known), n=1, cutoff=nearness)
    return f'; did you mean "{near[0]}"?' if near else ""
