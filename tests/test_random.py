"""Compares the built program with the reference, on runs that Hypothesis draws and shrinks.

Hypothesis first repeats a case that failed before, except in the gate, which draws the same cases each time. Put such a
case into tests/corpus, whose cases are always tried. To draw for longer:
/usr/bin/python3 -m pytest tests/test_random.py --hypothesis-profile=soak --timeout=0
"""

import pytest
from hypothesis import given
from hypothesis import strategies as st

from . import TOP
from .cases import KINDS, Case, cases, systems

pytestmark = pytest.mark.alone


def check(case: Case) -> None:
    fault = case.fault()
    assert fault is None, f"{fault}\nIn tests/corpus this case is\n{case.text()}"


@pytest.mark.parametrize("file", sorted((TOP / "tests" / "corpus").glob("*.json")), ids=lambda file: str(file.stem))
def test_a_case_of_the_corpus(file):
    check(Case.read(file.read_text(encoding="utf-8")))


@pytest.mark.parametrize("count", ("0", "1", "2", "3", "4", "11", "01"))
def test_a_family_of_systems(count):
    check(Case(["make", count], {}))


@pytest.mark.parametrize("kind", KINDS)
@given(data=st.data())
def test_a_run_as_the_reference_says(kind, data):
    for case in data.draw(st.lists(cases(data.draw(systems()), kind), min_size=1, max_size=4)):
        check(case)
