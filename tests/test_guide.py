"""The examples and statements of the guide and the README are true."""

import json
import os
import re
import shutil
import subprocess
import sys
import tempfile
from collections.abc import Callable
from pathlib import Path
from typing import Any

from tools import test_talk

from . import PROGRAM, TOP, reference

GUIDE = (TOP / "docs" / "GUIDE.md").read_text(encoding="utf-8")
README = (TOP / "README.md").read_text(encoding="utf-8")

EDITS: dict[str, tuple[str, dict[str, str]]] = {
    "mine.json": (
        "home.json",
        {
            '["dusk", "brighten", "dusk"]': '["dusk", "brighten", "night"]',
            '["off", true, "brighten", "on"]': '["off", true, "brigten", "on"]',
            '"ceiling", "behaviour": "lamp"': '"ceiling", "behaviour": "lamp", "rest": false',
        },
    ),
    "house.json": (
        "short/house.json",
        {
            '"set": {"who": "away"}': '"set": {"who": "awya"}',
            '"away", "clean", "docked"': '"away and nigth", "clean", "docked"',
        },
    ),
    "tea.json": ("short/house.json", {'"pour", "dim"]': '{"maybe": "pour"}, "dim"]'}),
}
"""The documents in which the guide shows mistakes. Each is an edited copy of a sample."""


def blocks(language: str, page: str = GUIDE) -> list[str]:
    found = re.findall(r"^```(\w*)\n(.*?)^```$", page, re.M | re.S)
    return [text for name, text in found if name == language]


def section(title: str) -> str:
    """A section of the guide, up to the next section of the same or a higher level."""
    level = title.split(" ")[0]
    body = GUIDE[GUIDE.index(f"\n{title}\n") + len(title) + 2 :]
    return re.split(rf"^#{{1,{len(level)}}} ", body, maxsplit=1, flags=re.M)[0]


def is_part(some: list[Any], whole: list[Any]) -> bool:
    """Whether these items are in the other list, in this order."""
    rest = iter(whole)
    return all(each in rest for each in some)


def run(*words: str, **options: Any) -> "subprocess.CompletedProcess[str]":
    options.setdefault("cwd", TOP)
    return subprocess.run(words, capture_output=True, text=True, timeout=400, check=False, **options)


def says(*words: str, **options: Any) -> str:
    """The output of the program."""
    done = run(PROGRAM, *words, **options)
    assert (done.returncode, done.stderr) == (0, "")
    return done.stdout


def runs(example: str) -> str:
    """The output of an example in Python."""
    path = {**os.environ, "PYTHONPATH": str(TOP / "python" / "src")}
    with tempfile.TemporaryDirectory() as folder:
        words = {'"./roman"': repr(PROGRAM), '"home.db"': repr(f"{folder}/home.db")}
        for shown, here in words.items():
            example = example.replace(shown, here)
        done = run(sys.executable, "-c", example, env=path)
    assert (done.returncode, done.stderr) == (0, "")
    return done.stdout


def test_the_whole_documents_are_those_of_the_samples() -> None:
    samples = [(TOP / "samples" / name).read_text(encoding="utf-8") for name in ("home.json", "short/house.json")]
    assert [block for block in blocks("json") if '"roman":' in block] == samples


def test_the_clients_examples_run() -> None:
    examples = blocks("python")
    assert len(examples) == 4
    for example in examples:
        written = runs(example)
        shown = re.findall(r"print\(.*\) +# ((?:Move|ceiling|window|on\b).*)", example)
        assert shown
        for line in shown:
            assert line in written


def test_a_copy_of_a_sample_finds_its_schema() -> None:
    """In its folder, and at the top of the repository."""
    for file in (*(TOP / "samples").glob("*.json"), *(TOP / "samples" / "short").glob("*.json")):
        value = json.loads(file.read_text(encoding="utf-8"))
        if "roman" in value:
            for folder in (file.parent, TOP):
                assert (folder / value["$schema"]).is_file(), file


def test_the_way_to_an_explanation(tmp_path: Path) -> None:
    part = GUIDE[GUIDE.index("## Your own system") : GUIDE.index("## The document")]
    (commands,) = re.findall(r"^   ```\n(.*?)^   ```$", part, re.M | re.S)
    folder = tmp_path
    shutil.copy(TOP / "samples" / "flaky.json", folder / "mine.json")
    (folder / "roman").symlink_to(shutil.which(PROGRAM) or PROGRAM)
    (folder / "tools").symlink_to(TOP / "tools")
    done = run("bash", "-e", "-c", commands, cwd=folder)
    assert (done.returncode, done.stdout, done.stderr) == (0, "", "")
    assert "<svg" in (folder / "why.svg").read_text(encoding="utf-8")


def replies_of(sample: str) -> list[tuple[str, str]]:
    """The lines of a sample's session that have a reply, each with its reply."""
    session = (TOP / "samples" / f"{sample}.session").read_text(encoding="utf-8").splitlines()
    lines = [line for line in session if line and not line.startswith("#")]
    # Only the replies to `report` and `explain` have several lines. The last of these is `end`.
    text = says("run", f"samples/{sample}.json", input="\n".join(lines))
    replies: list[str] = []
    for reply in text.splitlines():
        if replies and replies[-1].startswith(("pairs", "lost")) and not replies[-1].endswith("\nend"):
            replies[-1] += f"\n{reply}"
        else:
            replies.append(reply)
    assert len(replies) == len(lines)
    return list(zip(lines, replies))


def test_the_tables_of_the_workshop() -> None:
    """The tables have lines of the session in their order."""
    rows = re.findall(r"^\| `([^`]+)` \| `([^`]+)` \|", section("### In the workshop"), re.M)
    assert len(rows) > 12
    assert is_part(rows, replies_of("workshop")), rows


def test_what_is_said_of_a_sample_s_replies() -> None:
    """Statements such as `LINE` is answered `REPLY`, in the text of the samples' sections, are true."""
    count = 0
    for title, sample in (
        ("### In the home", "home"),
        ("### In the web shop", "web"),
        ("### In the depot", "depot"),
        ("### In the greenhouse", "greenhouse"),
        ("### In the garden", "garden"),
    ):
        told = replies_of(sample)
        for line, replies in re.findall(
            r"`([^`]+)` is answered ((?:`[^`]+`(?:, (?:but )?| or |[^`.]{0,40} or |[^`.]{0,40}, but )?)+)",
            section(title),
        ):
            for reply in re.findall(r"`([^`]+)`", replies):
                count += 1
                assert (line, reply) in told
    assert count > 5


def is_said(*words: str) -> Callable[[str], None]:
    """Checks that a block is the output of the program for these words."""

    def check(block: str) -> None:
        assert block == says(*words)

    return check


def check_costs(block: str) -> None:
    assert block == (TOP / "samples/depot.costs").read_text(encoding="utf-8")


def test_each_block_is_tried() -> None:
    """Each block of the guide has one of the forms below, and is right."""
    tried: dict[str, Callable[[str], None]] = {
        r"\$ \./roman run samples/(\w+)\.json < samples/\1\.session\n": check_beginning,
        r"\w+ [\w -]+ {3,}\w": check_replies,
        r"refused ": check_refusal,
        r"made ": is_said("make", "2"),
        r"pairs \d+\nrelated \d+\nenvironment": check_report,
        r"pairs \d+\nrelated \d+\ndepth": is_said("shortest", "samples/flaky.json"),
        r"lost ": check_explanation,
        r"roman-order": is_said("certify", "samples/flaky.json"),
        r"greatest ": check_verdict,
        r"\[\n  \[\"belt\"": check_costs,
        r"worst ": check_advice,
        r"services ": is_said("resilience", "samples/workshop.json"),
        r"\./roman run .* \| diff": check_words,
        r'\{"name":"belt"': lambda block: check_json(block, "depot"),
        r"\$ tools/roman-lint ": check_findings,
        r"\$ tools/roman-(draw|advice|mend) ": check_told,
        r"\$ echo explain \| ": check_play,
        r"> do ": check_talk,
        r"set makeprg=": check_vim,
    }
    for block in blocks(""):
        fitting = [check for form, check in tried.items() if re.match(form, block)]
        assert len(fitting) == 1, "no test knows what this block should be"
        fitting[0](block)
    for block in blocks("json"):
        check = check_task if '"problemMatcher"' in block else check_json
        check(block)


def check_beginning(block: str) -> None:
    """The command that runs a session, and the first replies."""
    words, *replies, more = block.splitlines()
    assert more == ".."
    done = run("bash", "-c", words[2:].replace("./roman", PROGRAM))
    assert done.stdout.splitlines()[: len(replies)] == replies


def check_replies(block: str) -> None:
    """Lines with their replies, in the order of the session of a sample."""
    rows = [tuple(re.split(r" {2,}", line)) for line in block.splitlines()]
    samples = [file.stem for file in sorted((TOP / "samples").glob("*.session"))]
    assert any(is_part(rows, replies_of(sample)) for sample in samples), rows


def check_refusal(block: str) -> None:
    """A home with an unknown state in step 2 of its first behaviour."""
    home = json.loads((TOP / "samples" / "home.json").read_text(encoding="utf-8"))
    home["behaviours"][0]["steps"][2][0] = "up"
    with tempfile.TemporaryDirectory() as folder:
        (Path(folder) / "home.json").write_text(json.dumps(home), encoding="utf-8")
        done = run(PROGRAM, "synth", "home.json", cwd=folder)
    assert (done.returncode, done.stdout) == (reference.REFUSED, block)


def check_report(block: str) -> None:
    assert ("report", block.rstrip("\n")) in replies_of("depot")


def check_explanation(block: str) -> None:
    flaky = says("run", "samples/flaky.json", input="explain\n")
    assert block == flaky or ("explain", block.rstrip("\n")) in replies_of("home"), block


def check_verdict(block: str) -> None:
    with tempfile.TemporaryDirectory() as folder:
        file = Path(folder) / "flaky.cert"
        file.write_text(says("certify", "samples/flaky.json"), encoding="utf-8")
        assert says("check", "samples/flaky.json", str(file)) == block


def check_advice(block: str) -> None:
    advice = says("advise", "samples/depot.json", "samples/depot.costs", "3")
    assert advice.startswith(block), advice[: len(block)]


def check_words(block: str) -> None:
    """Commands that write nothing if they succeed."""
    done = run("bash", "-o", "pipefail", "-e", "-c", block.replace("./roman", PROGRAM))
    assert (done.returncode, done.stdout, done.stderr) == (0, "", "")


def lints(folder: str, words: str) -> "subprocess.CompletedProcess[str]":
    """Runs a command as it is written, in a folder with a faulty document. The tools are in `tools` there and on PATH,
    and `./roman` accepts a document in the short form."""
    (name,) = (name for name in EDITS if name in words)
    sample, edits = EDITS[name]
    text = (TOP / "samples" / sample).read_text(encoding="utf-8")
    for right, wrong in edits.items():
        assert text.count(right) == 1, right
        text = text.replace(right, wrong)
    (Path(folder) / name).write_text(text, encoding="utf-8")
    (Path(folder) / "tools").symlink_to(TOP / "tools")
    (Path(folder) / "roman").write_text(
        f"#!/bin/sh\ntools/roman-expand $2 -o plain.json && exec '{PROGRAM}' $1 plain.json\n", encoding="utf-8"
    )
    (Path(folder) / "roman").chmod(0o755)
    path = {**os.environ, "ROMAN": PROGRAM, "PATH": f"{TOP / 'tools'}:{os.environ['PATH']}"}
    return run("bash", "-c", words, cwd=folder, env=path)


def findings() -> list[tuple[int, int, str, str]]:
    """The line, column, kind and message of each finding of the linter in the faulty home."""
    with tempfile.TemporaryDirectory() as folder:
        found = json.loads(lints(folder, "roman-lint --json mine.json").stdout)["findings"]
    assert len(found) == 3
    return [(each["line"], each["column"], each["severity"], each["message"]) for each in found]


def check_findings(block: str) -> None:
    """The command that calls the linter, and its findings."""
    words, told = block.split("\n", 1)
    with tempfile.TemporaryDirectory() as folder:
        done = lints(folder, words.removeprefix("$ "))
    assert (done.returncode, done.stdout, done.stderr) == (reference.REFUSED, told, "")


def check_told(block: str) -> None:
    """A command, and its output."""
    words, told = block.split("\n", 1)
    # The text before the block names this session.
    words = words.replace("why.session", "<(echo freeze kettle)")
    done = run("bash", "-c", words.removeprefix("$ "))
    assert (done.returncode, done.stdout, done.stderr) == (0, told, "")


def check_play(block: str) -> None:
    """The command that explains the faulty plan, and its output."""
    words, told = block.split("\n", 1)
    with tempfile.TemporaryDirectory() as folder:
        done = lints(folder, words.removeprefix("$ "))
    assert (done.returncode, done.stdout, done.stderr) == (0, told, "")


def check_talk(block: str) -> None:
    """Lines that are typed in the workshop, each with its answer."""
    with tempfile.TemporaryDirectory() as folder, test_talk.opened(Path(folder)) as talk:
        for turn in block.removeprefix("> ").rstrip("\n").split("\n> "):
            line, told = turn.split("\n", 1)
            assert talk.say(line) == told


def check_vim(block: str) -> None:
    """Settings with which `:make` lists the findings of the linter."""
    with tempfile.TemporaryDirectory() as folder:
        script = f"{block}silent make mine.json\ncall writefile([json_encode(getqflist())], 'list')\nqa!\n"
        (Path(folder) / "script").write_text(script, encoding="utf-8")
        lints(folder, "vim -u NONE -es -S script </dev/null # mine.json")
        listed = json.loads((Path(folder) / "list").read_text(encoding="utf-8"))
    shown = [(each["lnum"], each["col"], each["type"], each["text"].strip()) for each in listed if each["valid"]]
    assert shown == [(line, column, kind[0], said) for line, column, kind, said in findings()]


def check_task(block: str) -> None:
    """A task of VS Code that shows the findings of the linter. `${file}` is an absolute path."""
    task = json.loads(block)
    matcher = task["problemMatcher"]
    assert (task["type"], matcher["fileLocation"]) == ("shell", "autoDetect")
    with tempfile.TemporaryDirectory() as folder:
        file = f"{folder}/mine.json"
        lines = lints(folder, task["command"].replace("${file}", file)).stdout.splitlines()
    places = [matcher["pattern"][name] for name in ("file", "line", "column", "severity", "message")]
    found = [
        match.group(*places) for match in (re.match(matcher["pattern"]["regexp"], line) for line in lines) if match
    ]
    assert found == [(file, str(line), str(column), kind, said) for line, column, kind, said in findings()]


def check_json(block: str, *samples: str) -> None:
    """A document, or a piece of one. Its content is in one of the samples."""
    folder = TOP / "samples"
    files = [folder / f"{name}.json" for name in samples] or sorted(
        [*folder.glob("*.json"), *folder.glob("short/*.json")]
    )
    texts = [json.dumps(json.loads(file.read_text(encoding="utf-8"))) for file in files]
    piece = (
        block.strip()
        if block.startswith("{")
        else f"[{block.strip()}]"
        if block.startswith("[")
        else f"{{{block.strip()}}}"
    )
    lines = block.strip().splitlines()
    values = [json.loads(line) for line in lines] if block.startswith("[") and len(lines) > 1 else [json.loads(piece)]
    for value in values:
        wanted = json.dumps(value)
        wanted = wanted if block.startswith(("{", "[")) and len(lines) > 1 or samples else wanted[1:-1]
        assert any(wanted in text for text in texts), wanted


def test_the_rejections_of_certificates(tmp_path: Path) -> None:
    """Each line of the table, by a certificate of the flaky lamp with one edit."""
    lines = says("certify", "samples/flaky.json").splitlines()
    edited = {
        "rejected 4 form": [*lines[:3], "2  0", *lines[4:]],
        "rejected 4 repeated": [*lines[:3], lines[2], *lines[3:]],
        "rejected 4 unjustified": [*lines[:3], "2 1", *lines[4:]],
        "rejected 8 unlisted 4": [line for line in lines if line != "4 1"],
    }
    assert re.findall(r"^\| `(rejected [^`]+)`", GUIDE, re.M) == list(edited)
    for verdict, text in edited.items():
        file = tmp_path / "flaky.cert"
        file.write_text("\n".join(text), encoding="utf-8")
        done = run(PROGRAM, "check", "samples/flaky.json", str(file))
        assert (done.returncode, done.stdout) == (1, f"{verdict}\n")


def test_what_fits() -> None:
    """The number of services that fit beside a target of 4 states, an environment of 2 states and 5 actions."""
    rows = re.findall(r"^\| (\d) states \| (\d+) \| (\d+) \|$", GUIDE, re.M)
    assert len(rows) == 4
    for states, *counts in rows:
        for limit, count in zip((reference.DEFAULT_LIMIT, reference.GREATEST_LIMIT), counts):
            cells = [4 * 2 * 5 * int(states) ** number for number in (int(count), int(count) + 1)]
            assert cells[0] <= limit < cells[1], states


def test_the_tables_of_statuses() -> None:
    """The guide and the manual page state the same statuses. So does the README for the commands with status 1."""
    manual = (TOP / "docs" / "roman.1").read_text(encoding="utf-8")
    manual = manual[manual.index(".Sh EXIT STATUS") : manual.index(".Sh EXAMPLES")]
    pages = {
        "guide": dict(re.findall(r"^\| (\d+) \| (.*) \|$", section("## The commands"), re.M)),
        "manual": dict(re.findall(r"^\.It (\d+)\n((?:(?!\.It|\.El).*\n)+)", manual, re.M)),
    }
    said = {
        "0": ["done"],
        "1": ["no composition", "check", "advise"],
        "2": ["command", "UTF-8"],
        "3": ["costs", "refused"],
        "4": ["limit", "advise"],
        "5": ["file"],
        "6": ["read"],
        "7": ["output"],
        "8": ["session", "certificate"],
        "9": ["memory", "nothing was written"],
    }
    for name, table in pages.items():
        assert sorted(table) == sorted(said), name
        for status, text in table.items():
            plain = re.sub(r"\s+", " ", text)
            for words in said[status]:
                assert words.lower() in plain.lower(), (name, status)
    commands = dict(re.findall(r"^\| `(\w+) [^`]*` \| .* \| (\d[^|]*) \|$", README, re.M))
    assert sorted(name for name, status in commands.items() if "1" in status) == ["advise", "check", "synth"]


def test_cells() -> None:
    for name, product in re.findall(r"^\| `samples/(\w+)\.json` \| ([^|]+) \| [\d,]+ \|", GUIDE, re.M):
        factors = [int(each) for each in re.findall(r"\d+", product)]
        cells = 1
        for factor in factors:
            cells *= factor
        assert re.search(rf"\| {re.escape(product)} \| {cells:,} \|", GUIDE)
        report = says("synth", f"samples/{name}.json")
        assert report.split("\n", 1)[0] == f"pairs {cells // factors[-1]}"


def test_links() -> None:
    for text, folder in ((GUIDE, TOP / "docs"), (README, TOP)):
        for link in re.findall(r"\]\(([^)#:]+)\)", text):
            assert (folder / link).exists(), link


def test_the_session_of_the_readme() -> None:
    """Lines without a prefix are typed, and those with one are replies."""
    words, shown = re.findall(r"^    \$ \./roman (.+)\n((?:    .+\n)+)", README, re.M)[0]
    lines = [line[4:] for line in shown.splitlines()]
    typed = "".join(f"{line}\n" for line in lines if not line.startswith("> "))
    told = "".join(f"{line[2:]}\n" for line in lines if line.startswith("> "))
    assert says(*words.split(), input=typed) == told
