"""roman-live: runs a home with real devices, or asks a running one."""

from __future__ import annotations

import argparse
import asyncio
import contextlib
import logging
import os
import signal
import sys
from collections.abc import Sequence

from roman_client import RomanError

from .ask_command import ask
from .config import HomeFile, HomeFileError
from .history import as_json, as_text, entries, time_of
from .home import Home
from .http_api import Server
from .mqtt_requests import MqttRequests
from .systemd import Supervisor, begin_log, complain, greet

LOG = logging.getLogger("roman_live")

DONE, NO, USAGE, FAILED = 0, 1, 2, 3
"""The statuses: success; the request wasn't served; the arguments or the home file are wrong; the home couldn't be
started or asked."""

INTERRUPTED = 130
"""The status of `ask` on Ctrl-C."""

PATIENCE = 20.0
"""The number of seconds that an open request has to end, before the home ends as if it were killed."""


def parser() -> argparse.ArgumentParser:
    """The parser of the command's arguments."""
    words = argparse.ArgumentParser(
        prog="roman-live",
        usage="roman-live [--check] [--simulate] [--verbose] HOME.toml\n"
        "       roman-live ask [--key KEY] HOME.toml ACTION\n"
        "       roman-live history [--service S] [--since T] [--json] HOME.toml",
        description="Runs the home that HOME.toml describes, until it is ended, or asks a running one for an action.",
    )
    words.add_argument("--check", action="store_true", help="check the file, and call no device")
    words.add_argument("--simulate", action="store_true", help="play all devices by hand, on the page")
    words.add_argument("--verbose", action="store_true", help="log each event")
    words.add_argument("home", metavar="HOME.toml")
    return words


def ask_parser() -> argparse.ArgumentParser:
    """The parser of the arguments of `ask`."""
    words = argparse.ArgumentParser(prog="roman-live ask", description="Asks a running home for an action.")
    words.add_argument("--key", help="a unique text: a request that is repeated with it isn't served twice")
    words.add_argument("home", metavar="HOME.toml")
    words.add_argument("action", metavar="ACTION")
    return words


def history_parser() -> argparse.ArgumentParser:
    """The parser of the arguments of `history`."""
    words = argparse.ArgumentParser(
        prog="roman-live history",
        description="Shows the history of a home: requests with sources, services and reasons, failures, and changes.",
    )
    words.add_argument("--service", metavar="S", help="show only this service")
    words.add_argument("--since", metavar="T", type=time_of, default=0.0, help="show entries since 2026-11-30T14:05")
    words.add_argument("--json", action="store_true", help="write a line of JSON for each entry")
    words.add_argument("home", metavar="HOME.toml")
    return words


def show_history(given: argparse.Namespace) -> int:
    """Writes the history of a home."""
    for entry in entries(HomeFile.read(given.home), given.service, given.since):
        print(as_json(entry) if given.json else as_text(entry))
    return DONE


def main(words: Sequence[str] | None = None) -> int:
    """Runs the command with these arguments, by default those of the process, and returns the status."""
    words = sys.argv[1:] if words is None else words
    try:
        if words[:1] == ["ask"]:
            given = ask_parser().parse_args(words[1:])
            return asyncio.run(ask(HomeFile.read(given.home), given.action, given.key))
        if words[:1] == ["history"]:
            return show_history(history_parser().parse_args(words[1:]))
        given = parser().parse_args(words)
        begin_log(logging.INFO if given.verbose else logging.WARNING)
        if given.check:
            asyncio.run(Home.check(HomeFile.read(given.home), simulate=given.simulate))
            print(f"{given.home}: nothing is wrong")
            return DONE
        asyncio.run(run(HomeFile.read(given.home), given.simulate))
        return DONE
    except HomeFileError as error:
        complain(error)
        return USAGE
    except (OSError, RomanError) as error:
        complain(error)
        return FAILED
    except KeyboardInterrupt:
        return INTERRUPTED  # The request continues without its caller.


async def begun(file: HomeFile, simulate: bool, ending: asyncio.Event) -> Home | None:
    """Starts a home. Returns None if it has to end before it has started."""
    beginning = asyncio.ensure_future(Home.start(file, simulate=simulate))
    ended = asyncio.ensure_future(ending.wait())
    await asyncio.wait({beginning, ended}, return_when=asyncio.FIRST_COMPLETED)
    ended.cancel()
    if beginning.done():
        return await beginning
    beginning.cancel()
    with contextlib.suppress(asyncio.CancelledError):
        await (await beginning).close()
    return None


async def run(file: HomeFile, simulate: bool) -> None:
    """Runs a home until SIGTERM, SIGINT or SIGHUP ends it. A closed terminal sends SIGHUP."""
    ending = asyncio.Event()
    ends = [signal.SIGTERM, signal.SIGINT]
    if signal.getsignal(signal.SIGHUP) != signal.SIG_IGN:  # Under nohup it is ignored.
        ends.append(signal.SIGHUP)
    for each in ends:
        asyncio.get_running_loop().add_signal_handler(each, ending.set)
    home = await begun(file, simulate, ending)
    if home is None:
        return
    server, intake = Server(home, file.page), MqttRequests(home)
    try:
        await intake.begin()
        await server.begin()
        supervisor = Supervisor()
        supervisor.ready(server.url)
        if supervisor.listens:
            home.view.listener = supervisor.status
            home.dirty.set()
        opening = await home.view.opening()
        if opening is not None:
            LOG.warning("%s", opening)
        greet(f"{file.document.name} is at {server.url}/")
        await supervisor.watch(ending)
        supervisor.stopping()
        if not simulate and home.requests.open:
            LOG.warning("a device is at work, and has %g seconds to come to its end", PATIENCE)
        if not simulate and not await home.requests.settle(PATIENCE):
            LOG.warning("a device is still at work; the next start finds out the result")
            logging.shutdown()
            os._exit(DONE)
    finally:
        await intake.close()
        await server.close()
        await home.close()
