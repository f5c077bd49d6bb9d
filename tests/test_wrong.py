"""Tests of the tests: wrong programs, each a few lines around the built one, and the tests that have to fail with each.
A harmless program passes all tests except those that take long."""

from __future__ import annotations

import os
import re
import subprocess
import sys
from collections.abc import Sequence
from concurrent.futures import ThreadPoolExecutor
from dataclasses import dataclass
from functools import partial
from pathlib import Path

import pytest

from . import PROGRAM, TOP

pytestmark = pytest.mark.alone

CLIENT = "python/tests/client/"
SAMPLES = "samples/try"

EACH_BLOCK = "tests/test_guide.py::test_each_block_is_tried"
TABLES = "tests/test_guide.py::test_the_tables_of_the_workshop"
LATE = "tests/test_edges.py::test_output_that_is_read_late"
ACCEPTED = "tests/test_schema.py::test_what_the_program_accepts_the_schema_accepts"
RANDOM = "tests/test_random.py::test_a_run_as_the_reference_says"
SYNTH, CHECK, RUN_AS = (f"{RANDOM}[{kind}]" for kind in ("synth", "check", "run"))
CORPUS = "tests/test_random.py::test_a_case_of_the_corpus"
EXAMPLES = "tests/test_examples.py"
AN_EXAMPLE = EXAMPLES + "::test_an_example"
SPEED = "tests/test_speed.py"
FAULTS = "tests/test_faults.py"
FEW_BYTES = FAULTS + "::test_calls_that_move_few_bytes"
TRIED = FAULTS + "::test_what_is_tried_is_right"
ENDS = "tests/test_outside.py"
EVENTS = CLIENT + "test_session.py"
DISPATCHING = CLIENT + "test_dispatcher.py"
STATES = CLIENT + "test_documents.py::test_a_document_with_the_states_of_a_report"
OTHER_SAMPLES = CLIENT + "test_dispatcher.py::test_the_other_samples"
LONG = (RANDOM, SPEED, FAULTS)
"""Tests that take long, or look at the process itself."""


@dataclass(frozen=True)
class Wrong:
    """A wrong program, and the tests that have to fail. It is a script or C, in which @ROMAN@ is the built program."""

    name: str
    text: str
    tests: Sequence[str]
    is_c: bool = False
    is_static: bool = True

    def write(self, folder: Path) -> Path:
        """Writes the program, and returns its path."""
        file = folder / self.name.replace(" ", "_")
        if not self.is_c:
            file.write_text("#!/usr/bin/env bash\n" + self.text.replace("@ROMAN@", PROGRAM), encoding="utf-8")
            file.chmod(0o755)
            return file
        source = file.with_suffix(".c")
        source.write_text(self.text.replace("@ROMAN@", PROGRAM), encoding="utf-8")
        # Most are linked statically, so that a test can't preload a library: a fault is only for the built program.
        subprocess.run(["cc", "-O1", *(["-static"] if self.is_static else []), "-o", file, source], check=True)
        return file


def ends_well(*statuses: int) -> str:
    """A program in C that ends with 0 if the right one ends with one of these statuses."""
    wrong = " || ".join(f"ended == {status}" for status in statuses)
    return f"""#include <sys/wait.h>
#include <unistd.h>
int main(int count, char **words)
{{
    int status;
    if (fork() == 0)
        execv("@ROMAN@", words);
    wait(&status);
    int ended = WEXITSTATUS(status) + 0 * count;
    return {wrong} ? 0 : ended;
}}
"""


TAKES_MEMORY = """#include <unistd.h>
static volatile char taken[64 << 20];
int main(int count, char **words)
{
    for (unsigned at = 0; at < sizeof taken; at += 1024)
        taken[at] = 1;
    execv("@ROMAN@", words);
    return 127 + 0 * count;
}
"""
"""A program in C that takes 64 MB before it becomes the right one."""

ONE_WRITE = """#include <stdlib.h>
#include <sys/wait.h>
#include <unistd.h>
int main(int count, char **words)
{
    static char text[1 << 20];
    int ends[2], status = 0 * count;
    ssize_t size = 0, more;
    if (pipe(ends) != 0)
        return 127;
    if (fork() == 0) {
        unsetenv("LD_PRELOAD");
        dup2(ends[1], 1);
        close(ends[0]);
        close(ends[1]);
        execv("@ROMAN@", words);
        _exit(127);
    }
    close(ends[1]);
    while ((more = read(ends[0], text + size, sizeof text - size)) > 0)
        size += more;
    wait(&status);
    more = write(1, text, size);
    return WEXITSTATUS(status);
}
"""
"""A program in C that writes the whole output of the right one by one call, whatever that call returns, and takes an
interrupted read for the last one."""

RUN = '"@ROMAN@" "$@"'
"""Runs the right program."""
ENDED = "\nexit ${PIPESTATUS[0]}\n"

WRONG = [
    Wrong(
        "does nothing",
        "exit 0\n",
        [
            LATE,
            EACH_BLOCK,
            TABLES,
            ACCEPTED,
            SYNTH,
            CORPUS,
            AN_EXAMPLE,
            f"{EXAMPLES}::test_a_cut_document_is_refused",
            f"{EXAMPLES}::test_a_document_that_is_no_utf_8_is_refused",
            f"{EXAMPLES}::test_guards_within_guards",
            f"{EXAMPLES}::test_an_item_is_refused_at_each_place_of_a_list",
            f"{EXAMPLES}::test_costs_have_limits",
            f"{EXAMPLES}::test_as_many_values_as_there_may_be",
            f"{EXAMPLES}::test_thirty_two_services_fail",
            OTHER_SAMPLES,
            SAMPLES,
            f"{SPEED}::test_it_ends_as_it_did",
            f"{FAULTS}::test_memory",
            f"{FAULTS}::test_reads",
            f"{FAULTS}::test_writes",
            FEW_BYTES,
            TRIED,
            f"{ENDS}::test_a_file_that_can_not_be_read",
            "tests/test_schema.py::test_parts_by_file",
            "tests/test_edges.py::test_input_in_odd_pieces",
            f"{EVENTS}::test_each_refusal",
            f"{DISPATCHING}::test_a_failure_goes_to_another",
            STATES,
        ],
    ),
    Wrong(
        "always out of memory",
        "exit 9\n",
        [
            ACCEPTED,
            EACH_BLOCK,
            SYNTH,
            OTHER_SAMPLES,
            SAMPLES,
            CORPUS,
            AN_EXAMPLE,
            f"{FAULTS}::test_memory",
            FEW_BYTES,
            TRIED,
            f"{EVENTS}::test_an_explanation",
        ],
    ),
    Wrong(
        "no composition to each do",
        f"{RUN} | sed -u 's/^offer [^:]*$/no composition/'{ENDED}",
        [
            TABLES,
            EACH_BLOCK,
            RUN_AS,
            SAMPLES,
            AN_EXAMPLE,
            OTHER_SAMPLES,
            TRIED,
            f"{DISPATCHING}::test_services_come_back",
            "tests/test_edges.py::test_each_reply_comes_before_the_next_line_is_asked_for",
        ],
    ),
    Wrong(
        "the first offer alone",
        f"{RUN} | sed -u -E 's/^(offer [^ :]+|offer [^ ]+: [^ ]+) .*/\\1/'{ENDED}",
        [
            TABLES,
            EACH_BLOCK,
            RUN_AS,
            SAMPLES,
            AN_EXAMPLE,
            f"{EVENTS}::test_a_request",
            f"{DISPATCHING}::test_the_least_cost",
        ],
    ),
    Wrong(
        "all services are offered",
        'names=$("@ROMAN@" synth "$2" | sed -n "s/^service \\([^ ]*\\).*/ \\1/p" | tr -d "\\n")\n'
        f'{RUN} | sed -u "s/^offer [^:]*$/offer$names/"{ENDED}',
        [TABLES, RUN_AS, SAMPLES, AN_EXAMPLE, OTHER_SAMPLES, f"{DISPATCHING}::test_a_failure_goes_to_another"],
    ),
    Wrong(
        "replies only at the end",
        f'kept=$(mktemp)\n{RUN} >"$kept"\nended=$?\ncat "$kept"\nrm "$kept"\nexit $ended\n',
        ["tests/test_edges.py::test_each_reply_comes_before_the_next_line_is_asked_for"],
    ),
    Wrong(
        "a report of the start after a jump",
        'start=$("@ROMAN@" synth "$2")\n'
        f"{RUN} | while IFS= read -r line; do\n"
        '[ "$line" != jumped ] || jumped=1\n'
        'case $line in "pairs "*) [ -z "$jumped" ] || { echo "$start"; skips=1; } ;; esac\n'
        '[ -n "$skips" ] || echo "$line"\n'
        f'[ "$line" != end ] || skips=\ndone{ENDED}',
        [SAMPLES, RUN_AS, STATES, TRIED, AN_EXAMPLE],
    ),
    Wrong(
        "a certificate without its last line",
        f'{RUN} | if [ "$1" = certify ]; then head -n -1; else cat; fi{ENDED}',
        [EACH_BLOCK, SYNTH, f"{EXAMPLES}::test_what_is_certified_is_accepted"],
    ),
    Wrong(
        "half of a page is lost", f"{RUN} | {{ head -c 2048; head -c 2048 >/dev/null; cat; }}{ENDED}", [LATE, RUN_AS]
    ),
    Wrong(
        "the replies turned round by one",
        f"{RUN} | sed '1{{h;d}};${{p;x}}'{ENDED}",
        [TABLES, SAMPLES, RUN_AS, EACH_BLOCK, AN_EXAMPLE],
    ),
    Wrong(
        "kept and added are swapped",
        f"{RUN} | sed -u -E 's/^kept (.*) added (.*)/kept \\2 added \\1/'{ENDED}",
        [TABLES, RUN_AS, SAMPLES, EACH_BLOCK, TRIED, AN_EXAMPLE, f"{EVENTS}::test_changes"],
    ),
    Wrong(
        "an explanation without its first line",
        f"{RUN} | sed -u '0,/^lost /{{/^lost /d}}'{ENDED}",
        [
            EACH_BLOCK,
            RUN_AS,
            TRIED,
            AN_EXAMPLE,
            f"{EVENTS}::test_an_explanation",
            f"{DISPATCHING}::test_no_composition_has_its_explanation",
        ],
    ),
    Wrong(
        "a rejected certificate is fine",
        f'{RUN}\nended=$?\n[ "$1" = check ] && exit 0\nexit $ended\n',
        [CHECK, AN_EXAMPLE, "tests/test_guide.py::test_the_rejections_of_certificates"],
    ),
    Wrong(
        "nothing on the standard error",
        f"exec {RUN} 2>/dev/null\n",
        [
            f"{ENDS}::test_a_file_that_can_not_be_read",
            f"{ENDS}::test_an_input_that_can_not_be_read",
            f"{ENDS}::test_an_output_that_can_not_be_written",
            f"{ENDS}::test_a_session_that_is_too_long",
            f"{ENDS}::test_a_system_past_its_limit",
            f"{ENDS}::test_advice_with_too_many_values",
        ],
    ),
    Wrong(
        "ten times the work",
        f"for time in 1 2 3 4 5 6 7 8 9; do {RUN} </dev/null >/dev/null; done\nexec {RUN}\n",
        [f"{SPEED}::test_instructions"],
    ),
    Wrong("64 MB that nothing needs", TAKES_MEMORY, [f"{SPEED}::test_memory"], is_c=True),
    Wrong(
        "one write for all",
        ONE_WRITE,
        [FEW_BYTES, f"{FAULTS}::test_calls_that_are_interrupted"],
        is_c=True,
        is_static=False,
    ),
    Wrong("done where memory ran out", ends_well(9), [f"{FAULTS}::test_memory"], is_c=True),
    Wrong(
        "done where nothing could be read",
        ends_well(5, 6),
        [
            f"{FAULTS}::test_reads",
            AN_EXAMPLE,
            "tests/test_edges.py::test_folders_and_files_that_are_not_there",
            CLIENT + "test_session.py::test_a_document_that_is_not_there",
        ],
        is_c=True,
    ),
    Wrong(
        "done where nothing could be written",
        ends_well(7),
        [f"{FAULTS}::test_writes", "tests/test_edges.py::test_output_that_is_closed"],
        is_c=True,
    ),
]
HARMLESS = Wrong(
    "harmless", f"exec {RUN}\n", sorted({test for each in WRONG for test in each.tests if not test.startswith(LONG)})
)


def failed(program: Path, test: str) -> tuple[bool, str]:
    """Whether a test fails with a program, and its output."""
    environment = {**os.environ, "ROMAN": str(program), "ROMAN_MEASURED": "lamps synth"}
    words = [str(TOP / SAMPLES)]
    if test != SAMPLES:
        words = [sys.executable, "-m", "pytest", "-q", "--hypothesis-profile=wrong", test]
    done = subprocess.run(words, cwd=TOP, env=environment, capture_output=True, text=True, timeout=800, check=False)
    said = done.stdout + done.stderr
    if test != SAMPLES and not re.search(rf"^[0-9]+ {'failed' if done.returncode else 'passed'}.* in ", said, re.M):
        raise AssertionError(f"{test} wasn't run: {said}")
    return done.returncode != 0, said


@pytest.mark.parametrize("wrong", WRONG, ids=lambda wrong: wrong.name)
def test_a_wrong_program_fails_its_tests(wrong: Wrong, tmp_path: Path) -> None:
    program = wrong.write(tmp_path)
    with ThreadPoolExecutor(4) as pool:
        passed = [
            test for test, (fails, _) in zip(wrong.tests, pool.map(partial(failed, program), wrong.tests)) if not fails
        ]
    assert passed == []


def test_a_harmless_program_passes_them(tmp_path: Path) -> None:
    program = HARMLESS.write(tmp_path)
    with ThreadPoolExecutor(4) as pool:
        said = [text for fails, text in pool.map(partial(failed, program), HARMLESS.tests) if fails]
    assert said == []
