"""No two crates prove one statement, and no crate proves what std's lemmas state."""

import re
import shutil
from collections import defaultdict
from collections.abc import Iterator
from itertools import accumulate
from pathlib import Path

from . import TOP
from .test_sources import LEMMA, PROOFS, declarations, sources

TOKEN = re.compile(r"[^\s(){}\[\],;.λ]+|[(){}\[\],;.λ]")
GROUP = r"[({] (?:[^\s(){}\[\]:]+ )+: "
BINDER = re.compile(r"[({] ((?:[^\s(){}\[\]:]+ )+): ")
SHORT = 18
"""Statements of fewer characters, such as the type of a list, aren't lemmas."""


def lemmas(page: str) -> Iterator[tuple[str, str]]:
    """The lemmas of a page, each with its statement. Definitions that are local to a proof aren't read."""
    for declaration in declarations(page):
        lines = [line for line in declaration.splitlines() if not re.match(r"\s*--", line)]
        found = LEMMA.match(lines[0]) if lines else None
        if found and "abbrev" not in lines[0]:
            proof = (f"{found[3]} ", "unfolding ")
            end = next((at for at in range(1, len(lines)) if lines[at].strip().startswith(proof)), len(lines))
            yield found[3], " ".join([lines[0][found.end() :], *lines[1:end]])


def form(statement: str) -> str:
    """A statement without the names and types of its variables. v0 is the first one in it, and so on."""
    words = TOKEN.findall(statement)
    names = {name for found in BINDER.findall(" ".join(words)) for name in found.split()}
    for at, word in enumerate(words):
        if word == "λ":
            # Within a function, the names that it binds mean other variables.
            dot = words.index(".", at)
            depths = accumulate({"(": 1, ")": -1}.get(word, 0) for word in words[dot:])
            end = next((dot + i for i, depth in enumerate(depths) if depth < 0), len(words))
            for name in "".join(f"{word} " for word in words[at + 1 : dot] if word != "(").split(" : ")[0].split():
                words[at:end] = [f"{name}-{at}" if word == name else word for word in words[at:end]]
                names.add(f"{name}-{at}")
    plain = re.sub(rf"{GROUP}[^(){{}}]*[)}}] ", "", " ".join(words))
    plain = re.sub(rf"{GROUP}[^(){{}}]*\([^()]*\)[^(){{}}]*[)}}] ", "", plain)
    order: dict[str, str] = {}
    return re.sub(
        r"^(→ )+",
        "",
        " ".join(order.setdefault(word, f"v{len(order)}") if word in names else word for word in plain.split()),
    )


def library() -> Iterator[Path]:
    """The pages of std's lemmas, if the prover is installed."""
    prover = shutil.which("rt")
    if prover:
        yield from Path(prover).resolve().parent.parent.glob("rattle/std/proofs/lemmas/**/*.antt")


def test_no_statement_is_proved_twice() -> None:
    places: dict[str, dict[str, str]] = defaultdict(dict)
    for page in library():
        for name, statement in lemmas(page.read_text(encoding="utf-8")):
            if re.search(rf"^ *pub {re.escape(name)} :", page.read_text(encoding="utf-8"), re.M):
                places[form(statement)]["std"] = f"{page.stem}.{name}"
    for page in sources("proofs", ".antt"):
        if page.name not in PROOFS:
            crate = page.relative_to(TOP).parts[1]
            for name, statement in lemmas(page.read_text(encoding="utf-8")):
                places[form(statement)][crate] = f"{page.stem}.{name}"
    twice = [found for statement, found in places.items() if len(found) > 1 and len(statement) >= SHORT]
    assert twice == []
