"""Checks of the store of a home, before it is opened."""

from __future__ import annotations

from collections.abc import Iterable
from pathlib import Path

from roman_client import Document, StoreError
from roman_client.store import open_read_only, read
from roman_client.takeover import Journal, is_database

from .config import HomeFileError

ANEW = "without it the home begins anew, with the states of the document"
"""The advice for a store that can't be used."""

GONE = "with its table back, say on the page that it is gone, and then take the table out"
"""The advice for a service that the store has, and the home file no longer has."""


def check_folder(store: Path) -> None:
    """Raises HomeFileError if the folder of a store isn't there."""
    if not store.parent.is_dir():
        raise HomeFileError(f"journal.path is {str(store)!r}, and there is no folder {store.parent}")


def check_store(store: Path, document: Document, devices: Iterable[str]) -> None:
    """Raises HomeFileError if a store belongs to another document, or has a service without a device. The store may be
    in use."""
    check_folder(store)
    if not store.exists():
        return
    try:
        other, present = _content(store)
    except StoreError as error:
        raise HomeFileError(f"journal.path: {error}; {ANEW}") from None
    if not document.has_same_machines(other):
        what = "the store of another document, or of this one before an edit"
        raise HomeFileError(f"journal.path is {str(store)!r}, {what}; {ANEW}")
    for service in sorted(present.difference(devices)):
        raise HomeFileError(f"there is no device for the service {service}, which the store has; {GONE}")


def _content(store: Path) -> tuple[Document, set[str]]:
    """The document of a store, and the services that are present."""
    if not is_database(store):
        journal = Journal.read(store)
        return journal.snapshot.document, journal.present()
    with open_read_only(store) as database:
        stored = read(database, store)
    return stored.document, set(stored.position.places)
