"""roman-talk SYSTEM: a session for people.

Runs a session of the program. At a terminal it has a history, completes the names that are allowed now, and explains
the possible lines (`help`). If a session is on the standard input, as in `roman-talk SYSTEM < FILE`, it shows each line
beside its reply. SYSTEM may be in the short form.
"""

from __future__ import annotations

import argparse
import atexit
import contextlib
import os
import re
import readline
import subprocess
import sys
import tempfile
from collections.abc import Callable, Iterator, Sequence
from pathlib import Path

from roman_client import Busy, Document, Idle, NoComposition, Offer, Refusal, Related, Report, Session, mend
from roman_client.remedies import first_of_each

from . import explanations, finished, program
from .checks import Checker
from .documents import plain_file, read
from .errors import ended_by_errors
from .findings import in_order, meant
from .lint import UNREADABLE, WRONG
from .pictures import Wrong

EVENTS: dict[str, tuple[str, str]] = {
    "do": ("ACTION", "request an action; the services that may serve it are offered"),
    "use": ("SERVICE", "give the request to one of them"),
    "saw": ("STATE ENVIRONMENT", "say what became of it: the service's state, and the environment's"),
    "abort": ("", "drop the request"),
    "freeze": ("SERVICE", "a service takes no requests any more"),
    "thaw": ("SERVICE", "it does again"),
    "die": ("SERVICE", "a service is gone"),
    "join": ("SERVICE BEHAVIOUR STATE [loose]", "a new service joins"),
    "jump": ("SERVICE STATE", "a service was moved by hand"),
    "jumpenv": ("ENVIRONMENT", "the environment was moved by hand"),
    "report": ("", "the present states, and what is offered"),
    "explain": ("", "why there is no composition"),
    "help": ("", "what a line may be, and which names are allowed now"),
    "quit": ("", "end the session"),
}
"""The possible lines by their first word: their names, and their meaning."""

REMEDIES = 5
"""The maximum number of remedies that `help` lists."""

WIDTH = 30
"""The width of the column of lines, beside that of replies."""


STUCK = "the target can go no further here, and isn't final"


def due(action: str | None, offered: Sequence[str], used: str | None, allowed: Sequence[str]) -> str:
    """Describes the line that is due: for the open request, with the offered services or the one that serves it. If no
    request is open, it describes the allowed requests."""
    if used is not None:
        return f"{action} is open: saw, with the states of {used} and of the environment, or abort"
    if action is not None:
        return f"{action} is open: use {' or '.join(offered)}, or abort"
    requests = " or ".join(allowed)
    return f"no request is open: do {requests}" if requests else "no request is open, and the target allows none"


OUT_OF_TURN = ("error busy", "error idle", "error related")


def out_of_turn(reply: str, line: str) -> str:
    """The hint below one of these refusals."""
    return f"there is a composition, so nothing is to be explained; {line}" if reply == "error related" else line


# A session on the standard input.


class Follower:
    """Tracks the states of a session, by its lines and their replies."""

    def __init__(self, document: Document) -> None:
        self.document = document
        self.target = document.start
        self.environment = document.environment.start
        self.action: str | None = None
        self.offered: tuple[str, ...] = ()
        self.used: str | None = None

    def hear(self, line: Sequence[str], reply: Sequence[str]) -> None:
        """Receives the words of a line and of its reply."""
        if reply[0] == "offer":
            self.action, self.offered = line[1], tuple(reply[1:])
        elif reply[0] == "using":
            self.used = reply[1]
        elif reply[0] in ("now", "aborted"):
            self.action, self.offered, self.used = None, (), None
            if reply[0] == "now":
                self.target, self.environment = reply[1:3]
        elif line[0] == "jumpenv" and reply[0] == "jumped":
            self.environment = line[1]

    @property
    def allowed(self) -> tuple[str, ...]:
        return self.document.allowed(self.target, self.environment)

    def due(self) -> str:
        return due(self.action, self.offered, self.used, self.allowed)

    def hint(self, reply: str) -> str | None:
        """The hint below a reply, None if there is none."""
        if reply in OUT_OF_TURN:
            return out_of_turn(reply, self.due())
        if reply.startswith("now ") and not self.allowed and not self.document.is_final(self.target):
            return STUCK
        return None

    def help(self) -> list[str]:
        """Describes the lines that are possible now."""
        words = turn_words(self.action, self.used) or [word for word in EVENTS if word not in ("use", "saw", "abort")]
        return [*help_lines(words), f"  now: {self.due()}"]


def turn_words(action: str | None, used: str | None) -> list[str]:
    """The words with which a line may begin while a request is open."""
    if action is None:
        return []
    return ["use" if used is None else "saw", "abort", "report", "help", "quit"]


def help_lines(words: Sequence[str]) -> list[str]:
    """Describes the lines that begin with these words."""
    return [f"  {word + ' ' + EVENTS[word][0]:36} {EVENTS[word][1]}" for word in words]


def beside(lines: Sequence[str], replies: Sequence[str], follower: Follower) -> Iterator[str]:
    """Each line beside its reply. A line out of turn has a hint below it. Comments and blank lines have no reply. Those
    to `report` and `explain` continue up to the line `end`."""
    rest = iter(replies)
    for line in lines:
        words = line.split()
        if not words or words[0].startswith("#"):
            yield line
            continue
        if words == ["help"]:
            yield line
            yield from follower.help()
            continue
        first = next(rest, None)
        if first is None:
            return
        yield f"{line:{WIDTH}} {first}"
        follower.hear(words, first.split())
        hint = follower.hint(first)
        if hint is not None:
            yield f"{'':{WIDTH}} ({hint})"
        goes_on = words[0] in ("report", "explain") and not first.startswith("error ")
        while goes_on:
            more = next(rest, "end")
            yield f"{'':{WIDTH}} {more}"
            goes_on = more != "end"
    yield from rest


@contextlib.contextmanager
def document_of(checker: Checker) -> Iterator[str]:
    """A file that the program reads: the document itself, or the plain form of a short one."""
    if checker.document is None or not checker.short:
        yield checker.name
    else:
        with plain_file(checker.document) as file:
            yield file


def echo(checker: Checker, document: Document, roman: str, data: bytes) -> int:
    """Runs a complete session, and shows it beside the replies. Lines with `help` aren't sent to the program, which
    doesn't have it."""
    with document_of(checker) as file, tempfile.TemporaryFile() as session:
        session.write(re.sub(rb"^[ \t]*help[ \t]*(?=\r?$)", b"", data, flags=re.M))
        session.seek(0)
        done = subprocess.run([roman, "run", file], stdin=session, stdout=subprocess.PIPE, check=False)
    lines = data.decode("utf-8", "replace").splitlines()
    replies = done.stdout.decode("utf-8", "replace").splitlines()
    for line in beside(lines, replies, Follower(document)):
        print(line)
    return done.returncode


# A session at a terminal.


class Talk:
    """A session, with the possible next lines."""

    def __init__(self, document: Document, session: Session) -> None:
        self.document = document
        self.session = session
        self.report: Report = session.opening
        self.offer: Offer | None = None
        self.used: str | None = None

    # Possible lines.

    def states_of(self, behaviour: str) -> list[str]:
        found = self.document.behaviours.get(behaviour)
        return list(found.states) if found else []

    def service_states(self, name: str) -> list[str]:
        return next((self.states_of(s.behaviour) for s in self.report.services if s.name == name), [])

    def allowed(self) -> list[str]:
        """The actions that the target allows in the present states. If there is a composition, the program offers
        services for them."""
        if self.report.composition:
            return list(self.report.offers)
        return list(self.document.allowed(self.report.target, self.report.environment))

    def events(self) -> list[str]:
        """The words with which a line may begin now."""
        if self.offer is not None:
            return turn_words(self.offer.action, self.used)
        refused = {"use", "saw", "abort", "explain" if self.report.composition else "do"}
        if all(service.frozen for service in self.report.services):
            refused.add("freeze")
        if not any(service.frozen for service in self.report.services):
            refused.add("thaw")
        if not self.report.services:
            refused |= {"die", "jump"}
        return [word for word in EVENTS if word not in refused]

    def names(self, words: Sequence[str]) -> list[str]:
        """The names that may follow these words."""
        event, given = words[0], words[1:]
        environments = list(self.document.environment.states)
        services = [service.name for service in self.report.services]
        if event == "join":
            behaviours = list(self.document.behaviours)
            joined: list[list[str]] = [[], behaviours, self.states_of(given[1]) if len(given) > 1 else [], ["loose"]]
            return joined[len(given)] if len(given) < 4 else []
        places: dict[str, list[list[str]]] = {
            "do": [self.allowed()],
            "use": [list(self.offer.services) if self.offer else []],
            "saw": [self.service_states(self.used or ""), environments],
            "freeze": [[each.name for each in self.report.services if not each.frozen]],
            "thaw": [[each.name for each in self.report.services if each.frozen]],
            "die": [services],
            "jump": [services, self.service_states(given[0]) if given else []],
            "jumpenv": [environments],
        }
        lists = places.get(event, [])
        return lists[len(given)] if len(given) < len(lists) else []

    def complete(self, before: str, text: str) -> list[str]:
        """The completions of a word that is begun as `text`, after the line `before`."""
        words = before.split()
        known = self.names(words) if words else self.events()
        return [f"{each} " for each in known if each.startswith(text)]

    def help(self) -> str:
        """Describes the lines that are possible now."""
        now = self.events()
        lines = help_lines(now)
        for word in now:
            names = self.names([word])
            if names and word in ("do", "use", "saw"):
                lines.append(f"  now: {word} {' | '.join(names)}")
        if not self.report.composition:
            requests = " | ".join(self.allowed())
            then = (
                f"so do {requests} is refused until something changes"
                if requests
                else "and the target allows no request"
            )
            lines.append(f"  now: there is no composition (explain says why), {then}")
            lines += self.remedies() if self.offer is None else []
        elif self.is_stuck:
            lines.append(f"  now: {STUCK}")
        return "\n".join(lines)

    @property
    def is_stuck(self) -> bool:
        return not self.report.final and not self.allowed()

    def remedies(self) -> list[str]:
        """Describes the changes that would help if there is no composition."""
        found = mend(self.document, self.report, program=self.session.core.words)
        shown = [f"  now: {remedy.lines[0]} would help ({remedy})" for remedy in first_of_each(found, REMEDIES)]
        return shown or ["  now: no single change would help; roman-mend --two tries pairs"]

    # Answers.

    def answer(self, line: str) -> str:
        """Sends a line to the session, and returns the text to show."""
        event, *given = line.split()
        if event == "help":
            return self.help()
        if event not in EVENTS:
            return f'"{event}" is no event{meant(event, EVENTS)}\nknown are: {", ".join(self.events())}'
        names, does = EVENTS[event]
        least = len(names.replace("[loose]", "").split())
        most = len(names.split())
        if not least <= len(given) <= most or (len(given) == 4 and given[3] != "loose"):
            return f"a line is: {event} {names}".rstrip() + f" - {does}"
        try:
            return self.said(event, given)
        except NoComposition as refusal:
            return refusal.reply
        except (Busy, Idle, Related) as refusal:
            action, offered = (self.offer.action, self.offer.services) if self.offer else (None, ())
            return f"{refusal.reply}\n{out_of_turn(refusal.reply, due(action, offered, self.used, self.allowed()))}"
        except Refusal as refusal:
            return refusal.reply + self.unknown(event, given)
        except ValueError as error:
            return str(error)  # The line has a control character.

    def unknown(self, event: str, given: Sequence[str]) -> str:
        """An addition to a refusal: the unknown word, and the known ones."""
        for place, word in enumerate(given):
            if event == "join" and place == 0:
                continue
            known = self.names([event, *given[:place]])
            everything = list(self.document.actions) if event == "do" else known
            if event in ("use", "freeze", "thaw"):
                everything = [service.name for service in self.report.services]
            if everything and word not in known:
                is_known = word in everything
                what = "can't be taken now" if is_known else f"isn't known{meant(word, everything)}"
                return f'\n"{word}" {what}; now: {", ".join(known) or "none"}'
        return ""

    def said(self, event: str, given: Sequence[str]) -> str:
        """The reply to an event."""
        session = self.session
        if event == "do":
            self.offer = session.do(given[0])
            return f"offer {' '.join(self.offer.services)}"
        if event == "use":
            session.use(given[0])
            self.used = given[0]
            return f"using {given[0]}"
        if event == "explain":
            return self.explained()
        if event == "report":
            return shown(session.report(), self.document)
        told = self.changed(event, given)
        self.offer = self.used = None
        self.report = session.report()
        return told

    def changed(self, event: str, given: Sequence[str]) -> str:
        """The reply to an event that changes the possible lines."""
        session = self.session
        if event == "saw":
            move = session.saw(given[0], given[1])
            stuck = not self.document.is_final(move.target) and not self.document.allowed(move.target, move.environment)
            return f"now {move.target} {move.environment}" + (f"\n{STUCK}" if stuck else "")
        if event == "abort":
            session.abort()
            return "aborted"
        if event == "jump":
            session.jump(given[0], given[1])
            return "jumped"
        if event == "jumpenv":
            session.jumpenv(given[0])
            return "jumped"
        changes: dict[str, Callable[[str], object]] = {
            "freeze": session.freeze,
            "thaw": session.thaw,
            "die": session.die,
        }
        if event == "join":
            session.join(given[0], given[1], given[2], loose=len(given) == 4)
        else:
            changes[event](given[0])
        report = session.report()
        related = "there is a composition" if report.composition else "there is no composition; explain says why"
        return f"{related} ({report.related} of {report.pairs} pairs are related)"

    def explained(self) -> str:
        """The explanation in words, or as the program writes it if it can't be put in words."""
        explanation = self.session.explain()
        try:
            return explanations.Play(self.document, explanation).text(False).rstrip("\n")
        except Wrong:
            return f"{explanation}\nend"


def shown(report: Report, document: Document) -> str:
    """A report for people."""
    finality = "may be left" if report.final else "is under way"
    lines = [f"target {report.target} ({finality}), environment {report.environment}"]
    for each in report.services:
        notes = [word for word, holds in (("frozen", each.frozen), ("loose", each.loose)) if holds]
        lines.append(f"  {each.name}: {each.state}" + (f" ({', '.join(notes)})" if notes else ""))
    if not report.composition:
        lines.append("there is no composition; explain says why")
    elif not report.final and not document.allowed(report.target, report.environment):
        lines.append(STUCK)
    lines += [f"  do {action}: {' '.join(services)}" for action, services in report.offers.items()]
    return "\n".join(lines)


def prepare(talk: Talk) -> None:
    """Prepares the history, and the completion of names."""
    history = Path(os.environ.get("XDG_STATE_HOME") or Path.home() / ".local" / "state") / "roman" / "history"
    with contextlib.suppress(OSError):
        readline.read_history_file(history)

    def keep() -> None:
        with contextlib.suppress(OSError):
            history.parent.mkdir(parents=True, exist_ok=True)
            readline.write_history_file(history)

    def complete(text: str, state: int) -> str | None:
        found = talk.complete(readline.get_line_buffer()[: readline.get_begidx()], text)
        return found[state] if state < len(found) else None

    atexit.register(keep)
    readline.set_completer_delims(" \t")
    readline.set_completer(complete)
    readline.parse_and_bind("tab: complete")


def talk_at_terminal(checker: Checker, document: Document, roman: str) -> int:
    """Reads lines at a terminal until the end."""
    with document_of(checker) as file, Session(file, program=roman) as session:
        talk = Talk(document, session)
        prepare(talk)
        print(shown(session.opening, talk.document))
        print("help says what a line may be; the tab key completes names")
        while True:
            try:
                line = input("> ").strip()
            except EOFError:
                print()
                break
            except KeyboardInterrupt:
                print()
                continue
            if line.split()[:1] == ["quit"]:
                break
            if line and not line.startswith("#"):
                print(talk.answer(line))
        return session.quit()


def unproved() -> str | None:
    """The script of the repository that runs the sources if the program isn't built."""
    script = program.PACKAGES.parents[1] / "roman"
    return str(script) if os.access(script, os.X_OK) and script.is_file() else None


def main(arguments: Sequence[str] | None = None) -> int:
    words = argparse.ArgumentParser(prog="roman-talk", description=(__doc__ or "").split("\n\n", 1)[1])
    words.add_argument("system", metavar="SYSTEM")
    words.add_argument("--program", metavar="ROMAN", help="the program to call")
    asked = words.parse_args(arguments)
    with ended_by_errors("roman-talk", UNREADABLE, 1, passes_status=True):
        checker = read(asked.system)
        if checker.document is None:
            for each in in_order(checker.findings):
                print(*each.shown(), sep="\n", file=sys.stderr)
            return WRONG
        roman = program.find(asked.program) or unproved()
        if roman is None:
            print("roman-talk: the program isn't here; ./build makes it", file=sys.stderr)
            return UNREADABLE
        if sys.stdin.isatty():
            return talk_at_terminal(checker, checker.document, roman)
        return echo(checker, checker.document, roman, sys.stdin.buffer.read())


def command() -> int:
    """The console script."""
    return finished(main)
