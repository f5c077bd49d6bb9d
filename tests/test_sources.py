"""Properties of the sources as a whole that no proof has."""

import re
from collections import Counter, defaultdict
from collections.abc import Iterator
from pathlib import Path

from definitions import Definition, digests, is_declared, promises, rests_on

from . import TOP

CRATES = TOP / "crates"
CITED = re.compile(r"Rattle\.(roman_\w+)\.proofs\.(\w+)|\b(roman_\w+)::proofs::(\w+)")
WORD = re.compile(r"[^\s(){}\[\],;.λ→∙×⊎≡:=|`]+")
LEMMA = re.compile(r" *(pub )?(?:abbrev )?(pub )?([^\s:(){}◌]+) :(?: |$)", re.M)
MODULE = re.compile(r"(?: *--.*\n)* *module (?:.*\n)*?.*\bwhere\n")
DEFINED = re.compile(r"^(?:abbrev pub|unfoldable pub|pub record|pub data) +([A-Za-z_]+)", re.M)
ITEM = re.compile(r"\b(?:fn|struct|enum|trait|const|mod|type) +([A-Za-z_]\w*)")
COMMON = re.compile(r"use Rattle\.(roman_\w+)\.proofs\.Common\.\{(.*)\}$")
TAKEN = re.compile(r"use (\S+)\.\{(.*)\}$")
PASSED_ON = re.compile(r"(?:unfoldable )?pub use \S+\.\{(.*)\}$")
FUNCTION = re.compile(r"( *)(?:pub(?:\(\w+\))? )?(?:(?:const|unsafe|extern \"C\") )*fn (\w+)")
CLAUSE = re.compile(r" *(?:requires|ensures|decreases)\b")

LONG_CONTRACT = 350
"""Nine in ten contracts have at most this many characters in their clauses."""

WIDEST = 120
"""The most columns of a line of a contract."""

# The definitions to which readers are sent, with the number of definitions on which each rests. The headline includes
# the promises on sessions and on `synth`, and the meaning of documents.
RESTS_ON: dict[Definition, int] = {
    Definition("roman_model.specs.Composition", "Great"): 23,
    Definition("roman_model.specs.Several", "GreatAll"): 23,
    Definition("roman_top.specs.Headline", "FulfilsPromise"): 261,
    Definition("roman_top.specs.HeadlineTargets", "FulfilsTargets"): 286,
}

# The pages on computations and on the state of a session. The headline rests on none of them, except for the meaning of
# documents and the entries of an explanation.
NOT_IN_HEADLINE = {
    "roman_model.specs.Arena",
    "roman_model.specs.CompleteLists",
    "roman_model.specs.Offers",
    "roman_model.specs.Play",
    "roman_model.specs.SystemArena",
    "roman_session.specs.Situations",
    "roman_session.specs.Steps",
}
DOCUMENTS = Definition("roman_library.specs.Documents", "library_of")
ENTRY = Definition("roman_model.specs.Arena", "Entry")


# The engine's words for some notions. The words themselves mean other things: see the table in CONTRIBUTING.
ENGINE_WORDS = {"ask": "probe", "event": "batch", "turn": "attempt", "way": "shift", "run": "stripe"}
STAYING = {"Keeps", "KeepsAll", "KeepsTheMost"}
"""The definitions which state that something stays. A text fulfils a promise, and a result obeys a rule."""
ENGINE = {
    f"roman_{name}"
    for name in ("lanes order rules joint relation generator repair repair_laws rank cert check".split())
}

PROOFS = {"Answers.antt", "Invariants.antt", "Proof.antt", "Send.antt"}
"""Pages of proofs by their names. The prover itself looks for their declarations."""

PROMISES = {"served": "Served", "headline": "HasHeadline", "complete": "AnswersWherePossible", "input": ""}
"""The public clauses of `serve`, each with the definition with which it begins. None of them has a condition."""
PAGES = TOP / "tests" / "pages.sha256"
"""Digests of the definitions of each page on which the promises rest. `tools/pages` renews them."""


def sources(part: str, ending: str) -> Iterator[Path]:
    """The files below one part of each crate, such as its `specs`, with an ending."""
    for folder in sorted(CRATES.glob(f"*/{part}")):
        yield from sorted(folder.rglob(f"*{ending}"))


def words(text: str) -> Counter:
    """The number of times that each word is in a source, without its comments."""
    return Counter(word for line in text.splitlines() if not re.match(r"\s*--", line) for word in WORD.findall(line))


def declarations(page: str, depth: int = 0) -> Iterator[str]:
    """The declarations of a page or a module at this indentation, each with the definitions that are local to it."""
    for declaration in re.split(rf"\n\n {{{depth}}}(?! )", page):
        head = MODULE.match(declaration)
        if head:
            yield from declarations(declaration[head.end() :], depth + 2)
        else:
            yield declaration


# The clauses of `serve`, those of the outside, the laws, and the definitions on which they rest change only together
# with this file or with the digests beside it. So none is weakened unnoticed.


def test_the_clauses_of_serve() -> None:
    serve = [source for one, source in promises().items() if one.name == "serve"]
    assert len(serve) == 1
    clauses = re.findall(r"^    (requires|ensures) (?:(\w+) )?\{ (\w*)", serve[0].text, re.M)
    assert clauses == [("ensures", name, definition) for name, definition in PROMISES.items()]


def test_the_digests_of_the_pages() -> None:
    kept, now = (
        dict(line.split("  ")[::-1] for line in text.splitlines())
        for text in (PAGES.read_text(encoding="utf-8"), digests())
    )
    changed = {page for page in {*kept, *now} if kept.get(page) != now.get(page)}
    assert changed == set(), "If the change is meant, tools/pages renews the digests"


def test_other_crates_are_cited_by_their_page_for_callers() -> None:
    inside: list[str] = []
    for part, ending in (("proofs", ".antt"), ("specs", ".antt"), ("src", ".rt")):
        for file in sources(part, ending):
            mine = file.relative_to(CRATES).parts[0]
            for found in CITED.finditer(file.read_text(encoding="utf-8")):
                crate, page = found[1] or found[3], found[2] or found[4]
                if crate != mine and page != "CallerLemmas":
                    inside.append(f"{file.relative_to(TOP)}: {found[0]}")
    assert inside == []


def test_a_line_of_a_contract_has_at_most_120_letters() -> None:
    long = [
        f"{file.relative_to(TOP)}:{number}"
        for file in sources("src", ".rt")
        for number, line in enumerate(file.read_text(encoding="utf-8").splitlines(), 1)
        if len(line) > 120 and '"' not in line and not line.lstrip().startswith(("ghost use ", "#[tactic("))
    ]
    assert long == []


def test_the_page_of_common_names_passes_on_what_pages_cite() -> None:
    unused: list[str] = []
    for file in sources("proofs", "Common.antt"):
        folder = file.parent
        taken: Counter = Counter()
        for page in folder.rglob("*.antt"):
            for line in page.read_text(encoding="utf-8").splitlines():
                found = COMMON.match(line)
                if found and found[1] == folder.parent.name:
                    taken.update(found[2].strip().split(", "))
        for line in file.read_text(encoding="utf-8").splitlines():
            passed = PASSED_ON.match(line)
            unused += (
                [f"{file.relative_to(TOP)}: {name}" for name in passed[1].strip().split(", ") if not taken[name]]
                if passed
                else []
            )
    assert unused == []


def test_pages_take_names_from_elsewhere_by_the_page_of_common_names() -> None:
    direct: list[str] = []
    for file in sources("proofs", "Common.antt"):
        folder = file.parent
        passed = {
            name
            for line in file.read_text(encoding="utf-8").splitlines()
            for found in [PASSED_ON.match(line)]
            if found
            for name in found[1].split(", ")
        }
        for page in folder.rglob("*.antt"):
            if page.name in ("Lib.antt", "CallerLemmas.antt", "Common.antt"):
                continue
            for line in page.read_text(encoding="utf-8").splitlines():
                found = TAKEN.match(line)
                if found and not found[1].startswith(f"Rattle.{folder.parent.name}.proofs."):
                    # A name that two other pages declare can be passed on from only one of them.
                    direct += [
                        f"{page.relative_to(TOP)}: {name}"
                        for name in found[2].split(", ")
                        if name not in passed and " as " not in name
                    ]
    assert direct == []


def test_a_definition_s_name_stands_for_one_thing() -> None:
    places: dict[str, list[str]] = defaultdict(list)
    for file in sources("specs", ".antt"):
        for found in DEFINED.finditer(file.read_text(encoding="utf-8")):
            places[found[1]].append(str(file.relative_to(TOP)))
    assert {name: where for name, where in places.items() if len(where) > 1} == {}


def test_the_engine_has_one_word_for_each_thing() -> None:
    other = []
    for part, ending in (("src", ".rt"), ("specs", ".antt"), ("proofs", ".antt")):
        for page in sources(part, ending):
            if page.relative_to(CRATES).parts[0] not in ENGINE:
                continue
            text = page.read_text(encoding="utf-8")
            lemmas = [name for _, _, name in LEMMA.findall(text)]
            for name in ITEM.findall(text) if part == "src" else lemmas + DEFINED.findall(text):
                words_of = {word.lower().removesuffix("s") for word in re.findall(r"[A-Z]?[a-z]+", name)}
                other += [f"{page.name}: {name} ({ENGINE_WORDS[word]})" for word in words_of & ENGINE_WORDS.keys()]
    assert other == []


def test_a_definition_with_keeps_states_that_something_stays() -> None:
    names = {name for page in sources("specs", ".antt") for name in DEFINED.findall(page.read_text(encoding="utf-8"))}
    assert {name for name in names if re.match("Keeps([A-Z]|$)", name)} <= STAYING


def contracts() -> Iterator[tuple[str, list[str]]]:
    """The lines of the clauses of each function that has some, with the file and the name of the function."""
    for file in sources("src", ".rt"):
        lines = iter(file.read_text(encoding="utf-8").splitlines())
        for line in lines:
            head = FUNCTION.match(line)
            if head and not line.endswith(("{", "}", ";")):
                clauses: list[str] = []
                for part in lines:
                    if part.startswith(f"{head[1]}{{"):
                        break
                    if clauses or CLAUSE.match(part):
                        clauses.append(part)
                    if part.endswith((" {", " {}", ";")):
                        break
                if clauses:
                    yield f"{file.relative_to(CRATES)}: {head[2]}", clauses


def test_contracts_can_be_read() -> None:
    lengths = [(name, len(" ".join(map(str.strip, clauses)))) for name, clauses in contracts()]
    long = [(name, length) for name, length in lengths if length > LONG_CONTRACT]
    assert len(long) <= len(lengths) // 10, long
    assert [name for name, clauses in contracts() if any(len(line) > WIDEST for line in clauses)] == []


def test_each_lemma_is_cited() -> None:
    pages = {
        file: file.read_text(encoding="utf-8")
        for part, ending in (("proofs", ".antt"), ("specs", ".antt"), ("src", ".rt"))
        for file in sources(part, ending)
    }
    everywhere: Counter = Counter()
    for page in pages.values():
        everywhere.update(words(page))
    uncited: list[str] = []
    for file in sources("proofs", ".antt"):
        # The prover names answers, invariants and whole proofs, and examples needn't be named.
        if file.name in PROOFS or file.name.endswith("Examples.antt"):
            continue
        for declaration in declarations(pages[file]):
            found = next((m for m in map(LEMMA.match, declaration.splitlines()) if m), None)
            if not found:
                continue
            # A lemma that isn't public can be cited only on its own page.
            around = everywhere if found[1] or found[2] else words(pages[file])
            if around[found[3]] == words(declaration)[found[3]]:
                uncited.append(f"{file.relative_to(TOP)}: {found[3]}")
    assert uncited == []


def test_what_readers_are_sent_to_rests_on_few_definitions() -> None:
    counts = {root: sum(not is_declared(found) for found in rests_on([root])) for root in RESTS_ON}
    assert counts == RESTS_ON


def test_the_headline_names_nothing_that_is_computed() -> None:
    for root in (
        Definition("roman_top.specs.Headline", "FulfilsPromise"),
        Definition("roman_top.specs.HeadlineTargets", "FulfilsTargets"),
    ):
        beside = rests_on([root]) - rests_on([DOCUMENTS])
        assert {found for found in beside if found.page in NOT_IN_HEADLINE} == {ENTRY}
