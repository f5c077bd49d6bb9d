"""The look of pictures: colours, labels, and Graphviz."""

from __future__ import annotations

import sys
from collections.abc import Sequence
from html import escape
from typing import TYPE_CHECKING

from . import need, program

if TYPE_CHECKING:
    import graphviz  # type: ignore[import]

PLAIN = "#222222"
CHOICE = "#c2410c"
GUARD = "#1d4ed8"
FADED = "#6b7280"
WRONG = "#b91c1c"
FONT = "Helvetica,Arial,sans-serif"


class Wrong(Exception):
    """An input from which no picture can be made."""


def graph(direction: str, **options: str) -> graphviz.Digraph:
    """Returns an empty picture. Graphviz is loaded here, because texts don't need it."""
    need("graphviz")
    import graphviz

    picture = graphviz.Digraph("roman")
    picture.attr(rankdir=direction, nodesep="0.35", ranksep="0.55", **options)
    picture.attr("graph", fontname=FONT, fontsize="13", style="rounded", color="#9ca3af")
    picture.attr("node", fontname=FONT, fontsize="12", shape="ellipse", color=PLAIN, height="0.4")
    picture.attr("edge", fontname=FONT, fontsize="11", color=PLAIN, arrowsize="0.7")
    return picture


def svg(picture: graphviz.Digraph) -> str:
    """The picture as an SVG."""
    try:
        # The module graphviz would leave `dot` running after an interrupt.
        done = program.run("dot", "-Kdot", "-Tsvg", text=picture.source, encoding="utf-8")
    except FileNotFoundError:
        raise Wrong("Graphviz isn't there; tools/debian installs it") from None
    if done.returncode != 0:
        raise Wrong(f"Graphviz: {done.stderr}")
    sys.stderr.write(done.stderr)
    return done.stdout


def html(text: str) -> str:
    """A text as a part of a label with markup."""
    return escape(text, quote=False)


def coloured(text: str, colour: str, small: bool = False) -> str:
    size = ' POINT-SIZE="11"' if small else ""
    return f'<FONT COLOR="{colour}"{size}>{html(text)}</FONT>'


def marked(lines: Sequence[str]) -> str:
    """A label of lines with markup."""
    return "<" + "<BR/>".join(lines) + ">"


def folded(words: Sequence[str], most: int) -> str:
    """Words with commas between them. Of many it has the first ones, and the number of the others."""
    if len(words) <= most:
        return ", ".join(words)
    return f"{', '.join(words[: most - 1])} and {len(words) - most + 1} more"
