"""Why there is no composition from the starting states, by the program's explanation."""

from __future__ import annotations

from roman_client import Document

from . import program
from .documents import plain_file
from .explanations import Play, last_explanation


def explained(roman: str, document: Document) -> Play | None:
    """The explanation of the starting states, None if there is a composition. Raises OSError if the program can't be
    called."""
    with plain_file(document) as file:
        done = program.run(roman, "run", file, text="explain\n")
    explanation = last_explanation(done.stdout)
    return None if explanation is None else Play(document, explanation)


def first_step(play: Play, name: str) -> list[str]:
    """The first step of an explanation, and the commands that show the rest and find changes that help."""
    first, *rest = play.first_step()
    return [
        f"why: {first}",
        *rest,
        f"the rest: roman-draw {name} --why --text, or as a drawing: roman-draw {name} --why -o why.svg",
        f"what would help: roman-mend {name}",
    ]
