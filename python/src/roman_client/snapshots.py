"""Snapshots of sessions, from which they can be resumed."""

from __future__ import annotations

import json
from dataclasses import dataclass
from pathlib import Path
from typing import Any

from .documents import Document, DocumentError, PathLike


@dataclass(frozen=True)
class Snapshot:
    """A snapshot of a session: the document with its present states, the action that is requested, and the
    service that was used for it, each None if there is none."""

    document: Document
    request: str | None = None
    service: str | None = None

    def to_json(self) -> dict[str, Any]:
        """The snapshot as JSON, for `of_json`."""
        return {"document": self.document.value, "request": self.request, "service": self.service}

    @classmethod
    def of_json(cls, value: Any) -> Snapshot:
        """The snapshot in this JSON. Raises DocumentError if it isn't one."""
        try:
            request, service = value["request"], value["service"]
            document = Document(value["document"])
        except (KeyError, TypeError) as error:
            raise DocumentError(f"it isn't a snapshot: {error!r}") from None
        for word in (request, service):
            if word is not None and not isinstance(word, str):
                raise DocumentError(f"{word!r} isn't a name")
        return cls(document, request, service)

    def write(self, path: PathLike) -> None:
        """Writes the snapshot into a file."""
        Path(path).write_text(json.dumps(self.to_json()), encoding="utf-8")

    @classmethod
    def read(cls, path: PathLike) -> Snapshot:
        """Reads a snapshot from a file. Raises DocumentError if the file has none."""
        try:
            value = json.loads(Path(path).read_text(encoding="utf-8"))
        except (OSError, ValueError, RecursionError) as error:
            raise DocumentError(f"{path}: {error}") from None
        return cls.of_json(value)
