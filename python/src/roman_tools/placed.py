"""JSON values with their places. The client's `Document` reads them like other values, so its names and steps have
places, too."""

from __future__ import annotations

from typing import Any

from roman_client.documents import Document, Step

from .reader import Constant, Items, Members, Number, Span, Text, Value


class PlacedText(str):
    """A text with its place."""

    def __new__(cls, text: str, span: Span) -> PlacedText:
        return super().__new__(cls, text)

    def __init__(self, text: str, span: Span) -> None:
        self.span = span


class PlacedList(list[Any]):
    """A list with its place, and those of its items."""

    def __init__(self, items: list[Any], span: Span, spans: list[Span]) -> None:
        super().__init__(items)
        self.span = span
        self.spans = spans


class PlacedObject(dict[str, Any]):
    """An object with its place, and those of its members' values."""

    def __init__(self, members: dict[str, Any], span: Span, spans: dict[str, Span]) -> None:
        super().__init__(members)
        self.span = span
        self.spans = spans


def placed(value: Value) -> Any:
    """Converts a value of the reader to JSON with places."""
    if isinstance(value, Text):
        return PlacedText(value.text, value.span)
    if isinstance(value, Number):
        return float(value.literal) if value.whole is None else value.whole
    if isinstance(value, Constant):
        return value.constant
    if isinstance(value, Items):
        return PlacedList([placed(each) for each in value.items], value.span, [each.span for each in value.items])
    assert isinstance(value, Members)
    members = {name: placed(each.value) for name, each in value.last.items()}
    return PlacedObject(members, value.span, {name: each.value.span for name, each in value.last.items()})


def span_of(value: object) -> Span:
    """The place of a text, a list or an object."""
    assert isinstance(value, (PlacedText, PlacedList, PlacedObject))
    return value.span


def guard_span(step: Step) -> Span:
    """The place of a step's guard."""
    assert isinstance(step.source, PlacedList)
    return step.source.spans[1]


def replaced(value: Any, **members: Any) -> PlacedObject:
    """An object in which some members have other values, at the old places."""
    return PlacedObject({**value, **members}, value.span, value.spans)


def limit_span(document: Document) -> Span:
    """The place of the limit, or of the version if the document states none."""
    assert isinstance(document.value, PlacedObject)
    return document.value.spans.get("limit", document.value.spans["roman"])
