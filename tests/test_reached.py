"""Each public function serves the program, the C library, a test or a law, or belongs to the public surface.

Calls are found by names. A call by `.name(` reaches each method of that name, and a path reaches each function that it
can mean. So a function that this module reports has no callers, but an unused one may share its name with a used
one."""

import re
from collections import defaultdict
from collections.abc import Iterator
from pathlib import Path
from typing import NamedTuple

from . import TOP

CRATES = TOP / "crates"
HEADER = re.compile(r'( *)(pub(?:\(\w+\))? )?(?:const )?(?:unsafe )?(extern "\w*" )?fn (\w+)')
BLOCK = re.compile(r"( *)(?:unsafe )?(?:impl|(?:pub )?trait)\b.*\{$")
OWNER = re.compile(r"impl(?:<.*?>)? (?:.*? for )?(?:\w+::)*(\w+)")
CALL = re.compile(r"(?<![\w.])((?:\w+(?:::<[^()]*?>)?::)*)(\w+)\b(?!:)|\.(\w+)(?:::<[^()]*?>)?\(")

SURFACE = {
    "roman_generator::next_pair",
    "roman_joint::Joint::back",
    "roman_joint::Joint::final_ok",
    "roman_joint::Joint::walk",
    "roman_order::Order::next_waiting",
    "roman_rank::Ranks::deepest",
    "roman_rank::Ranks::level",
    "roman_relation::Relation::order",
}
"""Functions for other programs over these crates: plain forms, and look-ups. `DECISIONS.md` has the reason for each."""


class Function(NamedTuple):
    """A function of the sources."""

    crate: str
    owner: str
    """The type or trait whose method it is, if any."""
    name: str
    is_public: bool
    is_root: bool
    """Whether it is called from outside, as `main`, a C function, a test, a law, or a method of a trait."""
    body: str

    def __str__(self) -> str:
        return "::".join(filter(None, [self.crate, self.owner, self.name]))


def body_of(lines: list[str], right: str) -> str:
    """The body of the function whose header begins here, without its contract; nothing for a law or a declaration."""
    depth, head = 0, 0
    for head, line in enumerate(lines):
        depth += line.count("(") - line.count(")")
        if not depth:
            break
    first = head
    if not lines[head].endswith("{"):
        outside = (
            at for at in range(head + 1, len(lines)) if lines[at].strip() and not lines[at].startswith(f"{right} ")
        )
        first = next(outside, head)
    last = next((at for at in range(first, len(lines)) if lines[at] == f"{right}}}"), first)
    return "\n".join(lines[first + 1 : last]) if lines[first].endswith("{") else ""


def functions(crate: str, file: Path) -> Iterator[Function]:
    """The functions of a file. By its layout, a block ends at the first brace that is indented like its header."""
    text = re.sub(r'b?"(?:\\.|[^"\\])*"', '""', re.sub(r"//.*", "", file.read_text(encoding="utf-8")))
    lines = text.splitlines()
    owner, is_trait, end, before = "", False, "", ""
    for at, line in enumerate(lines):
        block, header = BLOCK.match(line), HEADER.match(line)
        if line == end:
            owner, is_trait, end = "", False, ""
        if block:
            found = OWNER.match(line.strip())
            owner, is_trait, end = found[1] if found else "", " for " in line or "trait " in line, f"{block[1]}}}"
        if header:
            body = body_of(lines[at:], header[1])
            is_called = bool(header[3]) or "#[test]" in before or is_trait or header[4] == "main"
            is_law = not body.strip() or crate.endswith("_laws")
            yield Function(crate, owner, header[4], header[2] == "pub ", is_called or is_law, body)
        before = line


def reached(everything: list[Function]) -> set[Function]:
    """The functions that calls lead to from outside."""
    methods, free = defaultdict(list), defaultdict(list)
    for function in everything:
        (methods if function.owner else free)[function.name].append(function)
    found = {function for function in everything if function.is_root}
    waiting = list(found)
    while waiting:
        for path, name, method in CALL.findall(waiting.pop().body):
            owner = re.sub(r"::<[^()]*?>", "", path).split("::")[-2] if path else ""
            if method:
                called = methods[method]
            elif owner[:1].isupper():
                # `Self` and a parameter such as `J` may stand for any type.
                called = [one for one in methods[name] if owner in ("Self", one.owner) or len(owner) == 1]
            else:
                called = free[name]
            more = [one for one in called if one not in found]
            found.update(more)
            waiting += more
    return found


def test_each_public_function_is_reached() -> None:
    everything = [
        function
        for source in sorted(CRATES.glob("*/src"))
        for file in sorted(source.rglob("*.rt"))
        for function in functions(source.parent.name, file)
    ]
    public = {function for function in everything if function.is_public}
    assert sorted({str(function) for function in public - reached(everything)} - SURFACE) == []
    assert sorted(SURFACE - {str(function) for function in public}) == []
