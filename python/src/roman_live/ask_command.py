"""roman-live ask: requests an action from a running home."""

from __future__ import annotations

import sys
from collections.abc import Mapping
from typing import Any

import aiohttp

from .config import HomeFile
from .errors import NoHome, connection_error

SERVED, NOT_SERVED = 0, 1


async def ask(file: HomeFile, action: str, key: str | None) -> int:
    """Requests an action, and writes the outcome. Returns the exit status. Raises NoHome if no home answers."""
    page = file.page
    host = {"0.0.0.0": "127.0.0.1", "::": "::1"}.get(page.host, page.host)
    url = f"http://[{host}]:{page.port}" if ":" in host else f"http://{host}:{page.port}"
    headers = {} if page.token is None else {"Authorization": f"Bearer {page.token}"}
    body = {"action": action, "wait": True, "key": key, "by": "roman-live ask"}
    timeout = aiohttp.ClientTimeout(total=None)
    try:
        async with aiohttp.ClientSession(headers=headers, timeout=timeout) as client:
            async with client.post(f"{url}/requests", json=body) as response:
                value = await response.json()
    except aiohttp.ClientConnectorError as error:
        raise NoHome(f"nobody is at {url}: {connection_error(error)}; does {file.path} run?") from None
    except (aiohttp.ContentTypeError, ValueError):
        value = None
    except aiohttp.ClientError as error:
        raise NoHome(f"{url} didn't answer to its end, and {action} may be served: {error}") from None
    if not isinstance(value, dict) or not ("served_by" in value or "error" in value):
        raise NoHome(f"what is at {url} is no home: it answered with status {response.status}")
    for failure in value.get("failures", ()):
        print(f"{failure['service']} failed: {failure['error']}", file=sys.stderr)
    if response.status == 200:
        print(f"{value['served_by']} served {action}, and is {value['state']}")
        return SERVED
    print(_refusal(action, value), file=sys.stderr)
    return NOT_SERVED


def _refusal(action: str, value: Mapping[str, Any]) -> str:
    """Why a request wasn't served."""
    text = f"{action}: {value['error']}"
    if value.get("explanation"):
        text += f"\n{value['explanation']['text']}"
    for name in ("allowed", "actions"):
        if value.get(name):
            text += f"\n{name}: {' '.join(value[name])}"
    return text
