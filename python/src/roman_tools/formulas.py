"""Guards in words: `time = day and not who = away`."""

from __future__ import annotations

import functools
import re
from collections.abc import Callable
from typing import Any

from lark import Lark, Token, Tree, UnexpectedInput

from .findings import meant
from .reader import Constant, Items, Members, Span, Text, Value

GRAMMAR = r"""
?start: either
?either: both (_OR both)*
?both: one (_AND one)*
?one: _NOT one -> negation
    | "(" either ")"
    | NAME _IS NAME -> test
    | NAME _ISNT NAME -> difference
    | NAME -> word
_OR.2: /or\b(?!-)/
_AND.2: /and\b(?!-)/
_NOT.2: /not\b(?!-)/
_ISNT: "!="
_IS: "="
NAME: /(?!(?:and|or|not)(?![A-Za-z0-9_-]))[A-Za-z0-9_-]+/
%ignore /[ \t\r\n]+/
"""

Report = Callable[[Span, str], None]
"""Receives each mistake with its place."""


@functools.cache
def parser() -> Lark:
    return Lark(GRAMMAR, parser="lalr")


class Space:
    """The states of an environment in guards: by their names, and by the values of variables."""

    def __init__(
        self,
        states: list[str],
        variables: dict[str, list[str]],
        values: list[dict[str, str]],
        elsewhere: dict[str, str],
    ) -> None:
        self.states = states
        self.variables = variables
        self.values = values
        """The value of each variable in each state."""
        self.elsewhere = elsewhere
        """Words that are states of a behaviour, each with its name."""
        self.everything = (1 << len(states)) - 1

    def where(self, variable: str, value: str) -> int:
        """The states in which a variable has a value, as a mask with a bit for each state."""
        return sum(1 << number for number, each in enumerate(self.values) if each.get(variable) == value)

    # The meaning of guards.

    def guard(self, value: Value, report: Report) -> int:
        """The states that a guard means. A mistake is reported, and means all states."""
        if isinstance(value, Constant) and value.constant is not None:
            return self.everything if value.constant else 0
        if isinstance(value, Text):
            return self.formula(value, report)
        if isinstance(value, Items):
            return self.joined([self.guard(each, report) for each in value.items], False)
        if isinstance(value, Members):
            return self.joined([self.member(*each, report) for each in value.last.items()], True)
        report(value.span, f"{value.word} is no guard")
        return self.everything

    def member(self, word: str, member: Any, report: Report) -> int:
        """The states that a member of a guard means: of `not`, `all` and `any`, or of a variable."""
        inner: Value = member.value
        if word == "not":
            return self.everything & ~self.guard(inner, report)
        if word in ("all", "any") and isinstance(inner, Items):
            return self.joined([self.guard(each, report) for each in inner.items], word == "all")
        if word not in self.variables:
            known = [*self.variables, "not", "all", "any"]
            report(member.name.span, f'"{word}" is no variable{meant(word, known)}')
            return self.everything
        values = inner.items if isinstance(inner, Items) else [inner]
        masks = [self.test(word, each.text, each.span, report) for each in values if isinstance(each, Text)]
        return self.joined(masks, False)

    def joined(self, masks: list[int], by_all: bool) -> int:
        meaning = self.everything if by_all else 0
        for mask in masks:
            meaning = meaning & mask if by_all else meaning | mask
        return meaning

    def test(self, variable: str, value: str, span: Span, report: Report) -> int:
        """The states in which a variable has a value. A mistake is reported."""
        if variable not in self.variables:
            report(span, f'"{variable}" is no variable{meant(variable, self.variables)}')
            return self.everything
        if value not in self.variables[variable]:
            near = self.known_as(value) or meant(value, self.variables[variable])
            report(span, f'"{value}" is no value of "{variable}"{near}')
            return self.everything
        return self.where(variable, value)

    def word(self, word: str, span: Span, report: Report) -> int:
        """The states that a single word means: the state of this name, or the states in which a variable has this
        value."""
        if word in self.states:
            return 1 << self.states.index(word)
        if word in ("true", "false"):
            return self.everything if word == "true" else 0
        owners = [name for name, values in self.variables.items() if word in values]
        if len(owners) == 1:
            return self.where(owners[0], word)
        if owners:
            report(span, f'"{word}" is a value of {" and of ".join(owners)}; say "{owners[0]} = {word}"')
            return self.everything
        values = [value for each in self.variables.values() for value in each]
        what = "state of the environment" if not self.variables else "state and no value of a variable"
        report(span, f'"{word}" is no {what}{self.known_as(word) or meant(word, [*self.states, *values])}')
        return self.everything

    def known_as(self, word: str) -> str:
        """A part of a message on a word that guards don't have, but a behaviour does."""
        if word not in self.elsewhere:
            return ""
        return f'; it is a state of behaviour "{self.elsewhere[word]}", and guards see the environment alone'

    def words(self, mask: int) -> str:
        """A formula for these states: by the values of variables if possible, and otherwise by their names."""
        numbers = [number for number in range(len(self.states)) if mask >> number & 1]
        parts, product = [], self.everything
        for variable, values in self.variables.items():
            found = [each for each in values if any(self.values[number][variable] == each for number in numbers)]
            product &= self.joined([self.where(variable, each) for each in found], False)
            if len(found) < len(values):
                test = " or ".join(f"{variable} = {each}" for each in found)
                parts.append(f"({test})" if len(found) > 1 else test)
        if product == mask and parts:
            return " and ".join(parts) if len(parts) > 1 else parts[0].strip("()")
        return " or ".join(self.states[number] for number in numbers) or "never"

    # Formulas.

    def formula(self, text: Text, report: Report) -> int:
        """The states that a text means."""
        try:
            tree = parser().parse(text.text)
        except UnexpectedInput as error:
            span, rest = piece(text, error)
            report(span, f"the formula isn't understood {rest}; it may have and, or, not, =, != and brackets")
            return self.everything
        return self.meaning(tree, text, report)

    def meaning(self, tree: Tree[Token], text: Text, report: Report) -> int:
        """The states that a formula means. Its parts are evaluated first, without recursion."""
        masks: dict[int, int] = {}
        for part in tree.iter_subtrees():
            within = [masks[id(each)] for each in part.children if isinstance(each, Tree)]
            masks[id(part)] = self.part(part, within, text, report)
        return masks[id(tree)]

    def part(self, tree: Any, masks: list[int], text: Text, report: Report) -> int:
        """The states that a part of a formula means, from those of its own parts."""
        if tree.data == "word":
            return self.word(str(tree.children[0]), spot(text, tree.children[0]), report)
        if tree.data in ("test", "difference"):
            variable, value = tree.children
            wrong = value if variable in self.variables else variable
            mask = self.test(str(variable), str(value), spot(text, wrong), report)
            return mask if tree.data == "test" else self.everything & ~mask
        if tree.data == "negation":
            return self.everything & ~masks[0]
        return self.joined(masks, tree.data == "both")


def words_of(guard: Value) -> str:
    """A guard of any form as a formula."""
    if isinstance(guard, Text):
        return guard.text
    if isinstance(guard, Constant):
        return "" if guard.constant else "never"
    if isinstance(guard, Items):
        return " or ".join(inner(each) for each in guard.items) or "never"
    if not isinstance(guard, Members):
        return "?"
    parts = []
    for word, member in guard.last.items():
        listed = member.value.items if isinstance(member.value, Items) else [member.value]
        if word == "not":
            parts.append(f"not {inner(member.value)}")
        elif word in ("all", "any"):
            parts.append((" and " if word == "all" else " or ").join(inner(each) for each in listed))
        else:
            tests = [f"{word} = {each.text}" for each in listed if isinstance(each, Text)]
            parts.append(" or ".join(tests) if len(guard.last) == 1 or len(tests) == 1 else f"({' or '.join(tests)})")
    return " and ".join(parts)


def inner(guard: Value) -> str:
    """A guard as a part of a formula."""
    words = words_of(guard)
    return f"({words})" if " " in words else words


def spot(text: Text, token: Token) -> Span:
    """The place of a word of a formula, or of the whole text if it has escapes."""
    if text.span.end - text.span.start != len(text.text) + 2:
        return text.span
    assert token.start_pos is not None and token.end_pos is not None
    return text.span.within(token.start_pos + 1, token.end_pos + 1)


def piece(text: Text, error: UnexpectedInput) -> tuple[Span, str]:
    """The place and the message of a syntax error in a formula."""
    at: int | None = error.pos_in_stream
    if at is None or at < 0 or at >= len(text.text) or getattr(getattr(error, "token", None), "type", "") == "$END":
        return text.span, "at its end"
    word = re.compile(r"[A-Za-z0-9_-]+|.", re.S).match(text.text, at)
    assert word is not None
    if text.span.end - text.span.start != len(text.text) + 2:
        return text.span, f'at "{word[0]}"'
    return text.span.within(word.start() + 1, word.end() + 1), f'at "{word[0]}"'
