"""The definitions of `specs/`, the types and constants of sources that they name, and the promises to readers. The
promises are the clauses of `serve`, of the program's `run` and of the traits with which they are called, and the
laws."""

import hashlib
import re
from collections.abc import Iterable, Iterator
from dataclasses import dataclass, field
from functools import lru_cache
from pathlib import Path
from typing import NamedTuple

from crates import TOP

CRATES = TOP / "crates"
DECLARED = ".specs.declared."
"""A part of the names of pages that the toolchain makes from sources."""

HEAD = re.compile(r"(?:abbrev pub|unfoldable pub|pub record|pub data) +([^\s:(){}]+)")
MUTUAL = re.compile(r"(?:unfoldable |abbrev )?mutual$")
HEAD_IN_MUTUAL = re.compile(r"  pub ([^\s:(){}]+) :")
CASE = re.compile(r"  (?:pub )?(\w+) :", re.M)
BESIDE = re.compile(r"use |pub mod |infix")
ITEM = re.compile(r"( *)pub (?:enum|struct|const|trait) (\w+)")
NAME = re.compile(r"(?<![\w.])([a-z]\w*)\.([A-Za-z_]\w*)(?:\.\w+)*|>>=|(?<![\w.'])[^\s(){}\[\],;.λ→∙×⊎≡:=|`]+")
IMPORT = re.compile(r"^(?:ghost )?use ((?:Rattle|crate)\.[\w.]+?)(?:\.\{([^}]*)\}| as (\w+));?$", re.M)
OUTSIDE = ("Shelf", "Source", "Sink")
"""The traits over which `serve` is generic."""
PROMISE = re.compile(r"^pub fn (serve|run)<[^{]*?\) -> \w+\n(.*?)^\{|^pub fn (\w+)\(\)\n(.*?)^\{", re.M | re.S)


class Definition(NamedTuple):
    """A definition: its page, in the form of `use` without `Rattle.`, and its name. The page of an item of a source has
    `src` in place of `specs`."""

    page: str
    name: str


@dataclass
class Source:
    """The source of a definition: its file, the number of its first line, the comment before it, and its lines. `names`
    are the definitions of this repository that it names directly, and `words` are words of libraries."""

    file: Path
    line: int
    comment: str
    lines: list[str]
    names: list[Definition] = field(default_factory=list)
    words: list[str] = field(default_factory=list)

    @property
    def text(self) -> str:
        """The lines without comments."""
        return "\n".join(line for line in self.lines if not re.match(r" *(--|//)", line))


Sources = dict[Definition, Source]


def page_of(file: Path) -> str:
    return ".".join(file.relative_to(CRATES).with_suffix("").parts)


def is_declared(one: Definition) -> bool:
    """Whether it is a type or a constant of a source."""
    return ".src." in one.page


def on_page(file: Path) -> Iterator[tuple[str, Source]]:
    """The definitions of a page, each with all its lines."""
    comment: list[str] = []
    pattern = HEAD
    source = Source(file, 0, "", [])
    for number, line in enumerate(file.read_text(encoding="utf-8").splitlines(), 1):
        if line.startswith("--") or pattern is HEAD_IN_MUTUAL and line.startswith("  --"):
            comment.append(line.strip(" -"))
        elif MUTUAL.match(line):
            pattern = HEAD_IN_MUTUAL
        elif not line or BESIDE.match(line):
            comment = []
        else:
            pattern = pattern if line.startswith(" ") else HEAD
            head = pattern.match(line)
            if head:
                source = Source(file, number, " ".join(comment), [])
                yield head[1], source
            source.lines.append(line)
            comment = []


def in_source(file: Path) -> Iterator[tuple[str, Source]]:
    """The public types and constants of a source."""
    comment: list[str] = []
    left = iter(enumerate(file.read_text(encoding="utf-8").splitlines(), 1))
    for number, line in left:
        head = ITEM.match(line)
        if head:
            source = Source(file, number, " ".join(comment), [line])
            while not re.match(rf"{head[1]}\S.*;$|{head[1]}}}", line):
                line = next(left)[1]
                source.lines.append(line)
            yield head[2], source
        if line.lstrip().startswith("///"):
            comment.append(line.strip(" /"))
        elif not line.lstrip().startswith("#["):
            comment = []


class Imports:
    """The imports of a page: names of this repository with their definitions, pages that it imports as a whole, and
    words of libraries."""

    def __init__(self, text: str) -> None:
        self.names: dict[str, Definition] = {}
        self.pages: dict[str, str] = {}
        self.words: dict[str, str] = {}
        for page, words, alias in IMPORT.findall(text):
            page = page.partition(".")[2]
            taken = [
                (word.partition(" as ")[0], word.split(" ")[-1]) for word in re.split(r",\s*", words.strip()) if word
            ]
            if not page.startswith("roman_"):
                self.words.update({here: f"{page}.{there}" for there, here in taken or [(alias, alias)]})
            elif DECLARED in page:
                self.declared(page, taken or [(alias, alias)])
            elif alias:
                self.pages[alias] = page
            else:
                self.names.update({here: Definition(page, there) for there, here in taken})

    def declared(self, page: str, taken: list[tuple[str, str]]) -> None:
        """Adds names of a page that is made from a source. Each means the item in the source; a variant means its
        type."""
        crate, _, rest = page.partition(DECLARED)
        modules = [word for word in rest.split(".") if word[0].islower()]
        types = [word for word in rest.split(".") if word[0].isupper() and not word.startswith("The")]
        module = ".".join([crate, "src", *modules])
        self.names.update({here: Definition(module, types[0] if types else there) for there, here in taken})


def find_names(
    source: Source, page: str, imports: Imports, owners: dict[Definition, Definition], known: Sources
) -> None:
    """Finds the names in the text of a source, in their order. The notation `do` stands for the operator `>>=`."""
    names: dict[Definition, None] = {}
    words: dict[str, None] = {}
    for found in NAME.finditer(re.sub(r"\bdo$", ">>=", re.sub(r'"[^"]*"', "", source.text), flags=re.M)):
        word = found[1] or found[0]
        if found[1] in imports.pages:
            one = Definition(imports.pages[found[1]], found[2])
        else:
            word = f"◌{word}◌" if f"◌{word}◌" in imports.names else word
            one = imports.names.get(word, Definition(page, word))
        names[owners.get(one, one)] = None
        if word in imports.words:
            words[imports.words[word]] = None
    operators = [full for here, full in imports.words.items() if "◌" in here and here.split("◌")[1] in source.text]
    source.names = [one for one in names if one in known and known[one] is not source]
    source.words = [*words, *operators]


@lru_cache(maxsize=None)
def definitions() -> Sources:
    """All definitions of `specs`, and the public types and constants of the sources."""
    known: Sources = {}
    for file in sorted(CRATES.glob("*/specs/**/*.antt")):
        known.update({Definition(page_of(file), name): source for name, source in on_page(file)})
    owners = {
        Definition(one.page, case): one
        for one, source in known.items()
        if source.lines[0].startswith("pub data")
        for case in CASE.findall(source.text)
    }
    pages = {one.page: Imports(source.file.read_text(encoding="utf-8")) for one, source in known.items()}
    for file in sorted(CRATES.glob("*/src/**/*.rt")):
        known.update({Definition(page_of(file), name): source for name, source in in_source(file)})
    for one, source in known.items():
        if not is_declared(one):
            find_names(source, one.page, pages[one.page], owners, known)
    return known


@lru_cache(maxsize=None)
def promises() -> Sources:
    """The clauses of `serve`, of `run` and of the traits with which they are called, and those of the laws. A law is a
    function without parameters."""
    known = definitions()
    found: Sources = {
        one: source for one, source in known.items() if one.name in OUTSIDE and one.page.startswith("roman_io.src.")
    }
    for one, source in found.items():
        find_names(source, one.page, Imports(source.file.read_text(encoding="utf-8")), {}, known)
    for file in sorted(CRATES.glob("*/src/**/*.rt")):
        text = file.read_text(encoding="utf-8")
        for match in PROMISE.finditer(text):
            source = Source(file, text.count("\n", 0, match.start()) + 1, "", (match[2] or match[4] or "").splitlines())
            find_names(source, page_of(file), Imports(text), {}, known)
            found[Definition(page_of(file), match[1] or match[3])] = source
    return found


def rests_on(roots: Iterable[Definition]) -> set[Definition]:
    """The definitions to which these lead, including themselves."""
    known = definitions()
    found = set(roots)
    left = [*found]
    while left:
        more = {*known[left.pop()].names} - found
        found |= more
        left += more
    return found


def digests() -> str:
    """The lines of `tests/pages.sha256`: a digest for each file that has definitions on which the promises rest. Only
    those definitions count, without their comments and their layout."""
    known, promised = definitions(), promises()
    found = {
        **{one: known[one] for one in rests_on(one for source in promised.values() for one in source.names)},
        **promised,
    }
    texts: dict[str, list[str]] = {}
    for one, source in sorted(found.items(), key=lambda item: (item[1].file, item[1].line)):
        texts.setdefault(str(source.file.relative_to(TOP)), []).append(
            " ".join([one.name, *source.text.split(), *source.words])
        )
    return "".join(
        f"{hashlib.sha256(chr(10).join(lines).encode()).hexdigest()}  {file}\n" for file, lines in texts.items()
    )
