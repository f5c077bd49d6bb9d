"""Templates: Jinja2 in its sandbox, with the names that Home Assistant's MQTT integration gives to templates."""

from __future__ import annotations

import json
from collections.abc import Callable, Mapping
from typing import Any

from jinja2 import ChainableUndefined, TemplateError, UndefinedError, meta
from jinja2.sandbox import ImmutableSandboxedEnvironment


class TemplateFailed(Exception):
    """A template has no value for a message."""


def is_defined(value: Any) -> Any:
    """Returns the value. If it isn't defined, the template has no value either."""
    if isinstance(value, ChainableUndefined):
        raise UndefinedError("it isn't defined")
    return value


def iif(value: Any, if_true: Any = True, if_false: Any = False, if_none: Any = None) -> Any:
    """Chooses one of two values, as Home Assistant's `iif` does."""
    if value is None and if_none is not None:
        return if_none
    return if_true if value else if_false


def number(kind: Callable[[Any], Any]) -> Callable[..., Any]:
    """The filter `float` or `int`, which returns its default for an undefined or invalid value."""

    def convert(value: Any, *default: Any) -> Any:
        try:
            return kind(float(value))
        except (OverflowError, TypeError, ValueError, UndefinedError):
            if not default:
                raise
            return default[0]

    return convert


def _environment() -> ImmutableSandboxedEnvironment:
    environment = ImmutableSandboxedEnvironment(undefined=ChainableUndefined)
    numbers = {"float": number(float), "int": number(int)}
    environment.filters.update(is_defined=is_defined, iif=iif, from_json=json.loads, to_json=json.dumps, **numbers)
    environment.globals.update(iif=iif, **numbers)
    return environment


ENVIRONMENT = _environment()


class Template:
    """A template, which may use only given names."""

    def __init__(self, text: str, names: frozenset[str]) -> None:
        """Raises ValueError for a text that isn't a template, or that uses other names."""
        self.text = text
        try:
            used = meta.find_undeclared_variables(ENVIRONMENT.parse(text))
            self._template = ENVIRONMENT.from_string(text)
        except TemplateError as error:
            raise ValueError(f"a template: {error.message}") from None
        unknown = sorted(used - names - set(ENVIRONMENT.globals))
        if unknown:
            raise ValueError(f"a template of {' and '.join(sorted(names))}: it uses {', '.join(unknown)}")

    def render(self, values: Mapping[str, Any]) -> str:
        """The text for these values, without blanks at its ends. Raises TemplateFailed."""
        try:
            return self._template.render(values).strip()
        except Exception as error:  # A filter may raise any exception for an unexpected message.
            raise TemplateFailed(str(error)) from None

    def __eq__(self, other: object) -> bool:
        return isinstance(other, Template) and other.text == self.text

    def __hash__(self) -> int:
        return hash(self.text)


MESSAGE = frozenset({"value", "value_json"})
"""The names that a template of a message may use: its text, and its JSON."""

COMMAND = frozenset({"action", "id"})
"""The names that a template of a command may use: the action, and the number of the call."""


def message_values(text: str) -> dict[str, Any]:
    """The values that a template of a message may use. `value_json` is undefined if the message isn't JSON."""
    values: dict[str, Any] = {"value": text}
    try:
        values["value_json"] = json.loads(text)
    except (ValueError, RecursionError):
        pass
    return values


def message_template(value: Any) -> Template:
    """A template of a message."""
    return _template(value, MESSAGE)


def command_template(value: Any) -> Template:
    """A template of a command. It may be empty."""
    return _template(value, COMMAND)


def _template(value: Any, names: frozenset[str]) -> Template:
    if not isinstance(value, str):
        raise ValueError("a template, which is a text")
    return Template(value, names)


def rendered(value: Any, values: Mapping[str, Any]) -> Any:
    """JSON with its templates rendered."""
    if isinstance(value, Template):
        return value.render(values)
    if isinstance(value, dict):
        return {name: rendered(each, values) for name, each in value.items()}
    return [rendered(each, values) for each in value] if isinstance(value, list) else value


def json_template(value: Any) -> Any:
    """JSON whose texts are templates of a command. Raises ValueError for other values, such as a date of TOML."""
    if isinstance(value, str):
        return command_template(value)
    if isinstance(value, dict):
        return {name: json_template(each) for name, each in value.items()}
    if isinstance(value, list):
        return [json_template(each) for each in value]
    if not isinstance(value, (bool, int, float)):
        raise ValueError("JSON")
    return value
