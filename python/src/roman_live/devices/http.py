"""Devices that are asked over HTTP."""

from __future__ import annotations

import json
from collections.abc import Mapping
from urllib.parse import urlsplit

import aiohttp
from yarl import URL

from roman_client import Call, DeviceFailed, DeviceLost

from ..config import HttpReach
from ..errors import check_file_limit, connection_error
from .base import LONGEST_ANSWER, Answer, Listener, Reach, answer_of, json_of, short


class Client:
    """Sends requests to devices. Each request has a connection of its own. So a late answer can't be taken for that of
    another request, and a request can't be lost on a connection that the device has closed."""

    def __init__(self) -> None:
        self._client: aiohttp.ClientSession | None = None

    async def open(self) -> None:
        """Prepares for requests."""
        # The dispatcher has the deadline. Redirects, proxies and cookies aren't for devices. Neither is compression: a
        # short answer could fill the memory.
        self._client = aiohttp.ClientSession(
            auto_decompress=False,
            headers={"Accept-Encoding": "identity"},
            connector=aiohttp.TCPConnector(force_close=True),
            timeout=aiohttp.ClientTimeout(total=None),
            cookie_jar=aiohttp.DummyCookieJar(),
        )

    async def close(self) -> None:
        """Closes its connections."""
        if self._client is not None:
            await self._client.close()

    async def request(
        self, method: str, url: str, headers: Mapping[str, str], body: str | None, query: Mapping[str, str] = {}
    ) -> bytes:
        """Sends a request, and returns the body of the answer. Raises DeviceFailed unless the status is 2xx."""
        assert self._client is not None
        shown = _without_secrets(url)
        # A URL that is already encoded is sent unchanged.
        place = URL(url, encoded=True).update_query(query) if query else URL(url, encoded=True)
        try:
            async with self._client.request(
                method, place, data=body, headers=headers, allow_redirects=False
            ) as response:
                data = await _read(response)
                status = response.status
        except aiohttp.ClientConnectorError as error:
            check_file_limit(error)
            raise DeviceFailed(f"{shown}: {connection_error(error)}") from None
        except aiohttp.ClientError as error:
            raise DeviceLost(f"{shown}: {error or type(error).__name__}") from None
        if not 200 <= status < 300:
            raise DeviceFailed(f"{shown}: status {status}: {short(data)}")
        return data


class Http(Reach):
    """A device that carries out actions that are posted to its URL, and returns its state to GET."""

    reached = "http"

    def __init__(self, service: str, listener: Listener, entry: HttpReach) -> None:
        super().__init__(service, listener)
        self._url = entry.url
        self._client = Client()

    async def open(self) -> None:
        await self._client.open()

    async def close(self) -> None:
        await self._client.close()

    async def ask(self, number: int, call: Call) -> Answer:
        body = json.dumps({"id": number, "action": call.action})
        headers = {"Content-Type": "application/json"}
        value = json_of(await self._client.request("POST", self._url, headers, body))
        if isinstance(value, dict) and value.get("id", number) != number:
            raise DeviceFailed(f"answered to {short(value['id'])}, and was asked {number}")
        return answer_of(value)

    async def tell(self, number: int | None, call: Call | None = None) -> Answer | None:
        about = {} if number is None else {"id": str(number)}
        return answer_of(json_of(await self._client.request("GET", self._url, {}, None, about)))


def _without_secrets(url: str) -> str:
    """A URL that may be shown on the page: without a user, a password, a query and a fragment."""
    place = urlsplit(url)
    return place._replace(netloc=place.netloc.rpartition("@")[2], query="", fragment="").geturl()


async def _read(response: aiohttp.ClientResponse) -> bytes:
    """Reads the body of an answer. Raises DeviceFailed if it is too long."""
    data = b""
    async for part in response.content.iter_any():
        data += part
        if len(data) > LONGEST_ANSWER:
            response.close()
            raise DeviceFailed(f"answered more than {LONGEST_ANSWER} bytes")
    return data
