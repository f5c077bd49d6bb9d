"""The history of a home: requests with their sources, services and reasons, failures, and changes."""

from __future__ import annotations

import heapq
import json
import re
import sqlite3
from collections.abc import Iterator
from datetime import datetime, timezone
from pathlib import Path
from typing import Any

from roman_client.store import open_read_only

from .config import HomeFile, HomeFileError
from .limits import LONGEST_LINE, one_line

LONGEST_PAGE = 100
"""The maximum number of entries on a page."""

LAST = 2**63 - 1
"""The greatest number of a call or a change."""

CALLS = """
SELECT begun AS time, number, 'call' AS kind, service, requested AS action, result, state, environment, target, error,
       reason, source, key, ended FROM calls
WHERE begun >= :since AND (:service IS NULL OR service = :service)
"""

CHANGES = """
SELECT time, number, 'change' AS kind, words, cause, source FROM changes
WHERE time >= :since AND (:service IS NULL OR instr(' ' || words || ' ', ' ' || :service || ' '))
"""


def entries(file: HomeFile, service: str | None, since: float) -> Iterator[dict[str, Any]]:
    """The calls and changes of a home, the oldest first. The home may be running. Raises HomeFileError if it has no
    store."""
    if file.journal is None:
        raise HomeFileError(f"{file.path}: [journal] is missing, so there is no history")
    if not file.journal.exists():
        return
    with open_read_only(file.journal) as database:
        database.row_factory = sqlite3.Row
        words = {"service": service, "since": since}
        found = [dict(row) for query in (CALLS, CHANGES) for row in database.execute(query, words)]
    yield from sorted(found, key=lambda entry: float(entry["time"]))


def page(store: Path, service: str | None = None, before: str = "", length: int = LONGEST_PAGE) -> dict[str, Any]:
    """A page of the history, the newest entry first, and the mark of the next older page, None if there is none.
    `before` is the mark of the page to return. Raises ValueError if it isn't a mark."""
    last = _numbers(before)
    found = _newest(store, service, last, length + 1) if store.exists() else []
    for entry in found[:length]:
        last[entry["kind"]] = entry["number"]
    shown = [
        {"time": _utc(each["time"]), "kind": each["kind"], "result": each.get("result"), "text": text_of(each)}
        for each in found[:length]
    ]
    return {"entries": shown, "before": f"{last['call']}-{last['change']}" if len(found) > length else None}


def _numbers(mark: str) -> dict[str, int]:
    """The numbers of the call and of the change before which a page begins."""
    match = re.fullmatch("([0-9]{1,19})-([0-9]{1,19})", mark or f"{LAST}-{LAST}")
    numbers = [] if match is None else [int(each) for each in match.groups()]
    if not numbers or max(numbers) > LAST:
        raise ValueError(f"{mark!r} isn't a mark of a page")
    return dict(zip(("call", "change"), numbers))


def _newest(store: Path, service: str | None, last: dict[str, int], count: int) -> list[dict[str, Any]]:
    """The newest entries before these numbers. Calls are in the order of their numbers, and so are changes, even if the
    clock was set back."""
    with open_read_only(store) as database:
        database.row_factory = sqlite3.Row
        words: dict[str, Any] = {"service": service, "since": 0.0, "count": count}
        calls, changes = (
            [
                dict(row)
                for row in database.execute(
                    f"{query} AND number < :last ORDER BY number DESC LIMIT :count", {**words, "last": last[kind]}
                )
            ]
            for kind, query in (("call", CALLS), ("change", CHANGES))
        )
    return list(heapq.merge(calls, changes, key=lambda entry: -float(entry["time"])))[:count]


def time_of(text: str) -> float:
    """The seconds since 1970 of a time such as `2026-11-30` or `2026-11-30T14:05`, in local time by default. Raises
    ValueError."""
    return datetime.fromisoformat(text).timestamp()


def as_json(entry: dict[str, Any]) -> str:
    """An entry as a line of JSON, with its times in UTC."""
    times = {name: _utc(entry[name]) for name in ("time", "ended") if entry.get(name) is not None}
    return json.dumps(
        {name: value for name, value in {**entry, **times}.items() if value is not None and name != "number"}
    )


def as_text(entry: dict[str, Any]) -> str:
    """An entry as a line for people."""
    return f"{datetime.fromtimestamp(entry['time']).isoformat(' ', 'seconds')}  {text_of(entry)}"


def text_of(entry: dict[str, Any]) -> str:
    """An entry in words, without its time."""
    source = f" (by {entry['source']})" if entry["source"] else ""
    if entry["kind"] == "change":
        cause = f", {entry['cause']}" if entry["cause"] else ""
        return one_line(f"{entry['words']}{cause}{source}", LONGEST_LINE)
    result = entry["result"] or "under way"
    where = f", and is {entry['state']}" if entry["state"] else ""
    error = f": {entry['error']}" if entry["error"] else ""
    reason = f"; {entry['reason']}" if entry["reason"] else ""
    return one_line(f"{entry['service']} {entry['action']}: {result}{where}{error}{reason}{source}", LONGEST_LINE)


def _utc(seconds: float) -> str:
    return datetime.fromtimestamp(seconds, timezone.utc).isoformat(timespec="milliseconds")
