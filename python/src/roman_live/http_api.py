"""The HTTP API and the page."""

from __future__ import annotations

import asyncio
import base64
import functools
import hashlib
import html
import json
import re
from collections.abc import Awaitable, Callable, Coroutine, Mapping
from http import HTTPStatus
from pathlib import Path
from typing import Any
from urllib.parse import parse_qs, urlsplit

from aiohttp import HttpVersion11, web

from roman_client import InDoubt, KeyTaken, NoComposition, NotAllowed, Refusal, StoreFailed

from . import history
from .access import GUESSES_A_SECOND, Access, Role, TooManyGuesses
from .background import finished
from .config import Page, is_loopback
from .errors import (
    TEMPORARY_ERRORS,
    Busy,
    Cancelled,
    Expired,
    NoDevice,
    NoPage,
    UnknownAction,
    UnknownState,
    system_text,
)
from .events import LONGEST_MARK, Listener, Message
from .gate import Gate
from .home import Home
from .limits import LONGEST_BODY, LONGEST_NAME
from .pictures import Picture
from .requests import CANCELLED, EXPIRED, PATIENCE
from .sources import SOURCE, source_of
from .states import explanation_to_json, failures_to_json
from .whole_response import WholeResponse

LONGEST_WAIT = 86_400
"""The maximum number of seconds that a request waits for its turn."""

NO_EXPIRY = f"expires has to be a number of seconds, at most {LONGEST_WAIT}"

COOKIE = "roman_live_token"

PAGE, LOGIN = (Path(__file__).resolve().parent / "page" / name for name in ("index.html", "login.html"))

EVENT_STREAM = {"Content-Type": "text/event-stream", "Cache-Control": "no-store"}

HEARTBEAT = 15.0
"""The number of seconds without a message after which a listener is sent a comment. So a lost connection is noticed."""

JSON_HEADERS = {"Content-Type": "application/json; charset=utf-8", "Cache-Control": "no-store"}

HOSTS = 64
"""The number of names of this machine that are remembered after clients have used them."""

Handler = Callable[[web.BaseRequest], Awaitable[web.StreamResponse]]


class Server:
    """Serves a home over HTTP, from `begin` to `close`."""

    def __init__(self, home: Home, page: Page) -> None:
        self.home = home
        self.page = page
        self.url = ""
        self._limits = home.file.limits
        self._access = Access(page.token, page.watch_token)
        self._picture = Picture(home.file.document)
        self._reading = asyncio.Lock()
        self._server: web.Server | None = None
        self._gate: Gate | None = None
        self._listening: asyncio.AbstractServer | None = None
        self._routes: dict[tuple[str, str], Handler] = {
            ("POST", "/requests"): self._post_request,
            ("GET", "/"): self._get_page,
            ("GET", "/picture.svg"): self._get_picture,
            ("GET", "/state"): self._get_state,
            ("GET", "/remedies"): self._get_remedies,
            ("GET", "/events"): self._get_events,
            ("GET", "/history"): self._get_history,
            ("GET", "/metrics"): self._get_metrics,
            ("POST", "/login"): self._post_login,
            ("POST", "/join"): self._post_join,
            ("POST", "/environment/jump"): self._post_environment,
            ("POST", "/record"): self._post_record,
            ("POST", "/outcome"): self._post_outcome,
        }

    async def begin(self) -> None:
        """Listens at the address of the page. Raises NoPage if it can't."""
        self._server = web.Server(self._serve, access_log=None)
        self._gate = Gate(self._server, self._limits)
        loop = asyncio.get_running_loop()
        try:
            self._listening = await loop.create_server(self._gate, self.page.host, self.page.port)
        except OSError as error:
            place = f"{self.page.host}, port {self.page.port}"
            raise NoPage(f"{self.home.file.path}: page: it can't be at {place}: {system_text(error)}") from None
        port = self._listening.sockets[0].getsockname()[1]
        host = f"[{self.page.host}]" if ":" in self.page.host else self.page.host
        self.url = f"http://{host}:{port}"

    async def close(self) -> None:
        """Stops listening."""
        self.home.events.dismiss()
        if self._listening is not None:
            self._listening.close()
        if self._server is not None:
            await self._server.shutdown(2.0)

    def _handler(self, request: web.BaseRequest) -> Handler:
        """The handler of a request. Raises HTTPNotFound, or HTTPMethodNotAllowed."""
        method, path = "GET" if request.method == "HEAD" else request.method, request.path
        handler = self._routes.get((method, path))
        if handler is not None:
            return handler
        match (method, *request.rel_url.parts):
            case ("DELETE", "/", "requests", key) if key:
                return functools.partial(self._delete_request, key)
            case ("POST", "/", "services", service, ("freeze" | "thaw" | "die" | "jump") as change) if service:
                return functools.partial(self._post_change, service, change)
        allowed = {known for known, place in self._routes if place == path}
        raise web.HTTPMethodNotAllowed(method, allowed) if allowed else web.HTTPNotFound()

    # Access.

    async def _serve(self, request: web.BaseRequest) -> web.StreamResponse:
        """Serves a request. Its connection stays open meanwhile."""
        assert self._gate is not None
        if request.method != "POST":  # The body of a POST may still come.
            self._gate.begun(request.protocol)
        try:
            return await self._answered(request)
        finally:
            self._gate.ended(request.protocol)

    async def _answered(self, request: web.BaseRequest) -> web.StreamResponse:
        """The response of a handler, or a refusal. Requests with a valid token are allowed, and those from the page
        itself."""
        try:
            self._check_host(request)
            entered = None if request.path == "/login" else self._enter(request)
            self._check_origin(request)
            # A response without members is false, so `or` can't be used.
            response = await self._handler(request)(request) if entered is None else entered
        except web.HTTPException as error:
            if error.status == HTTPStatus.REQUEST_ENTITY_TOO_LARGE:
                error.text = f"a body has at most {LONGEST_BODY} bytes"
            response = self._refused(request, error)
        except TooManyGuesses:
            slow = web.HTTPTooManyRequests(text="too many wrong tokens came from this address; wait a little")
            response = self._refused(request, slow)
            response.headers["Retry-After"] = str(round(1 / GUESSES_A_SECOND))
        except TEMPORARY_ERRORS as error:
            response = _json({"error": str(error)}, HTTPStatus.SERVICE_UNAVAILABLE)
        if not response.prepared:
            response.headers.setdefault("Cache-Control", "no-store")
            response.headers["X-Content-Type-Options"] = "nosniff"
            response.headers.setdefault("Referrer-Policy", "no-referrer")
        return response

    def _refused(self, request: web.BaseRequest, error: web.HTTPException) -> web.Response:
        """The refusal of a request. Browsers without a token get the page on which it is entered."""
        why = error.text or error.reason
        if error.status in (HTTPStatus.UNAUTHORIZED, HTTPStatus.TOO_MANY_REQUESTS) and _is_for_people(request):
            return _login("" if request.method == "GET" and "token" not in request.query else f"{why}.", error.status)
        return _json({"error": why}, error.status)

    def _check_host(self, request: web.BaseRequest) -> None:
        """Raises HTTPForbidden if the page has no token and the Host header doesn't name this machine: another page
        could use a name of its own that leads here."""
        if self._access.is_open and not _is_own(request.headers.get("Host", ""), self.page.host):
            raise web.HTTPForbidden(text="another name than that of this machine was called")

    def _enter(self, request: web.BaseRequest) -> web.Response | None:
        """Checks the token and its role. Raises HTTPException. A token in the address of the page is stored in a
        cookie, and the response leads to the page."""
        if self._access.is_open:
            return None
        kind, _, shown = request.headers.get("Authorization", "").partition(" ")
        query = request.query.get("token", "") if request.method == "GET" else ""
        bearer = shown.strip() if kind.lower() == "bearer" else ""
        for token in filter(None, (bearer, request.cookies.get(COOKIE, ""), query)):
            role = self._access.role(token, request.remote or "")
            if role is None:
                continue
            if request.method not in ("GET", "HEAD") and role is not Role.OPERATE:
                raise web.HTTPForbidden(text="this token may only watch")
            request["role"] = role
            # Browsers don't send the cookie to a page in a frame of another page, which sends the token itself.
            if token == query and request.path == "/" and not self.page.frame_ancestors:
                return _let_in(token)
            return None
        raise web.HTTPUnauthorized(text="the token is missing, or another one")

    def _check_origin(self, request: web.BaseRequest) -> None:
        """Raises HTTPForbidden if another page sends a request or loads a part of this one. It may link to this
        page."""
        origin = request.headers.get("Origin")
        site = request.headers.get("Sec-Fetch-Site", "none")
        if request.method in ("GET", "HEAD"):
            if site not in ("same-origin", "none") and request.headers.get("Sec-Fetch-Mode") != "navigate":
                raise web.HTTPForbidden(text="only this home's own page may load it")
            return
        own = request.headers.get("Host", "")
        foreign = origin is not None and origin.partition("://")[2] != own
        if foreign or site not in ("same-origin", "none"):
            raise web.HTTPForbidden(text="only this home's own page may change it")

    # Reading.

    async def _get_page(self, request: web.BaseRequest) -> web.Response:
        text = PAGE.read_text(encoding="utf-8")
        if request.get("role") is Role.WATCH:
            text = text.replace("<body>", '<body class="watch">')
        headers = {"Content-Security-Policy": _policy_of(text, self.page.frame_ancestors)}
        return web.Response(text=text, content_type="text/html", headers=headers)

    async def _get_picture(self, request: web.BaseRequest) -> web.Response:
        drawn = await self._picture.get()
        if drawn is None:
            raise web.HTTPNotFound(text="there is no picture: roman-draw and graphviz make it")
        headers = {"Content-Security-Policy": "default-src 'none'; style-src 'unsafe-inline'"}
        return web.Response(body=drawn, content_type="image/svg+xml", headers=headers)

    async def _get_state(self, request: web.BaseRequest) -> web.Response:
        return await self._state()

    async def _get_remedies(self, request: web.BaseRequest) -> web.Response:
        return _json(await self.home.view.remedies())

    async def _get_history(self, request: web.BaseRequest) -> web.Response:
        """A page of the history. Only one is read at a time, in a thread."""
        service = request.query.get("service")
        async with self._reading:
            try:
                shown = await asyncio.to_thread(history.page, self.home.store, service, request.query.get("before", ""))
            except ValueError as error:
                raise web.HTTPBadRequest(text=str(error)) from None
        return _json(shown)

    async def _get_metrics(self, request: web.BaseRequest) -> web.Response:
        text = await self.home.view.figures()
        return web.Response(body=text, headers={"Content-Type": "text/plain; version=0.0.4"})

    async def _get_events(self, request: web.BaseRequest) -> web.StreamResponse:
        """Sends the missed events, the state, and all further events and states."""
        last = request.headers.get("Last-Event-ID", "")
        if len(last) > LONGEST_MARK:
            raise web.HTTPBadRequest(text=f"a Last-Event-ID has at most {LONGEST_MARK} letters")
        if request.method == "HEAD":
            return web.Response(headers=EVENT_STREAM)
        if self.home.events.listeners >= self._limits.listeners:
            raise web.HTTPServiceUnavailable(text=f"{self._limits.listeners} listen already")
        listener = self.home.events.listen(last)
        response = web.StreamResponse(headers=EVENT_STREAM)
        try:
            await response.prepare(request)
            await self._send_events(request, response, listener)
        except TimeoutError:  # The listener doesn't read.
            if request.transport is not None:
                request.transport.abort()
        except TEMPORARY_ERRORS:
            pass  # The listener is gone, or the state is unavailable. The page connects again.
        finally:
            self.home.events.leave(listener)
        return response

    async def _send_events(self, request: web.BaseRequest, response: web.StreamResponse, listener: Listener) -> None:
        """Sends events to a listener until it is removed. Raises TimeoutError if it doesn't read them."""
        messages = [*listener.take(), Message("state", await self.home.view.state())]
        while True:
            has_ended = listener.has_ended
            data = b"".join(each.encoded for each in messages)
            async with asyncio.timeout(self._limits.unread):
                await response.write(data or b": still here\n\n")
                while _unread(request):
                    await listener.pause()
            if has_ended:
                return
            messages = await listener.heard(HEARTBEAT)

    # Changing.

    async def _post_login(self, request: web.BaseRequest) -> web.Response:
        """Checks the token that was entered, and leads to the home's page."""
        data = await self._read(request)
        token = parse_qs(data.decode(errors="replace")).get("token", [""])[0].strip()
        if not self._access.is_open and self._access.role(token, request.remote or "") is None:
            raise web.HTTPUnauthorized(text="this isn't the token")
        return _let_in(token)

    async def _post_request(self, request: web.BaseRequest) -> web.StreamResponse:
        body = await self._body(request)
        action, key, wait = _text(body, "action"), _optional_text(body, "key"), _flag(body, "wait", True)
        channel = "the page" if request.headers.get("Sec-Fetch-Site") == "same-origin" else "a client over HTTP"
        SOURCE.set(source_of(_optional_text(body, "by"), channel))
        expires = expiry(body.get("expires"))
        if expires is None:
            raise web.HTTPBadRequest(text=NO_EXPIRY)
        serving = self.home.requests.serve_here(action, key, wait, expires=expires, source=_source(request))
        status, value = await _result(self.home, serving)
        if status is HTTPStatus.OK and request.version == HttpVersion11 and request.keep_alive:
            return WholeResponse(json.dumps(value).encode())
        return _json(value, status)

    async def _delete_request(self, key: str, request: web.BaseRequest) -> web.Response:
        """Cancels the waiting requests with a key."""
        cancelled = self.home.requests.cancel(key)
        if not cancelled:
            return _json({"error": "no request with this key waits"}, HTTPStatus.NOT_FOUND)
        return _json({"cancelled": cancelled})

    async def _post_change(self, service: str, change: str, request: web.BaseRequest) -> web.Response:
        body = await self._body(request)
        source = _source(request)
        if change == "jump":
            return await self._changed(self.home.fleet.jump(service, _text(body, "state"), source))
        changes = {"freeze": self.home.fleet.freeze, "thaw": self.home.fleet.thaw, "die": self.home.fleet.die}
        return await self._changed(changes[change](service, source))

    async def _post_join(self, request: web.BaseRequest) -> web.Response:
        body = await self._body(request)
        service, behaviour = _text(body, "service"), _text(body, "behaviour")
        state, loose = _text(body, "state"), _flag(body, "loose", False)
        return await self._changed(self.home.fleet.join(service, behaviour, state, loose, _source(request)))

    async def _post_environment(self, request: web.BaseRequest) -> web.Response:
        body = await self._body(request)
        return await self._changed(self.home.fleet.jump_environment(_text(body, "state"), _source(request)))

    async def _post_record(self, request: web.BaseRequest) -> web.Response:
        body = await self._body(request)
        action, service, key = _text(body, "action"), _text(body, "service"), _optional_text(body, "key")
        outcome = _text(body, "state"), _text(body, "environment")
        return await self._changed(self.home.requests.record(action, service, outcome, key, _source(request)))

    async def _post_outcome(self, request: web.BaseRequest) -> web.Response:
        body = await self._body(request)
        service = _text(body, "service")
        outcome = None
        if not _flag(body, "fail", False):
            outcome = (_text(body, "state"), _text(body, "environment"))
        try:
            await self.home.requests.answer(service, outcome)
        except LookupError as error:
            return _json({"error": str(error.args[0])}, HTTPStatus.CONFLICT)
        return await self._state()

    async def _body(self, request: web.BaseRequest) -> Mapping[str, Any]:
        """The object in a body, which is empty if there is no body."""
        # The library's own `content_type` takes longer than the rest of this.
        kind = request.headers.get("Content-Type", "").partition(";")[0].strip().lower()
        return _object(await self._read(request), kind)

    async def _read(self, request: web.BaseRequest) -> bytes:
        """Reads the body of a request. Its connection stays open from then on."""
        if (request.content_length or 0) > LONGEST_BODY:
            raise web.HTTPRequestEntityTooLarge(LONGEST_BODY, request.content_length or 0)
        if request.headers.get("Expect", "").lower() == "100-continue":
            await request.writer.write(b"HTTP/1.1 100 Continue\r\n\r\n")
        data = await request.read()
        if len(data) > LONGEST_BODY:  # The request stated no length.
            raise web.HTTPRequestEntityTooLarge(LONGEST_BODY, len(data))
        assert self._gate is not None
        self._gate.begun(request.protocol)
        return data

    async def _changed(self, change: Coroutine[Any, Any, None]) -> web.Response:
        """Makes a change, and returns the state after it."""
        try:
            await finished(change)
        except Refusal as refusal:
            return _json({"error": refusal.reply}, HTTPStatus.CONFLICT)
        except (KeyTaken, NoDevice, UnknownState) as error:
            return _json({"error": str(error)}, HTTPStatus.CONFLICT)
        except (TypeError, ValueError) as error:
            return _json({"error": str(error)}, HTTPStatus.BAD_REQUEST)
        except StoreFailed as error:
            text = f"it was done, and is written later, since the journal can't be written: {error}"
            return _json({"error": text}, HTTPStatus.SERVICE_UNAVAILABLE)
        except TEMPORARY_ERRORS as error:
            return _json({"error": str(error)}, HTTPStatus.SERVICE_UNAVAILABLE)
        return await self._state()

    async def _state(self) -> web.Response:
        return _json(await self.home.view.state())


def _unread(request: web.BaseRequest) -> int:
    """The number of bytes that wait to be sent on the connection of a request."""
    return 0 if request.transport is None else request.transport.get_write_buffer_size()


def expiry(value: Any) -> float | None:
    """The maximum number of seconds that a request waits, None if the value isn't valid."""
    if value is None:
        return PATIENCE
    known = isinstance(value, (int, float)) and not isinstance(value, bool) and 0 <= value <= LONGEST_WAIT
    return float(value) if known else None


def _source(request: web.BaseRequest) -> str:
    """The source of a request, for the history."""
    return f"http {request.remote}"


async def result(
    home: Home, action: str, key: str | None, wait: bool, *, expires: float = PATIENCE, source: str | None = None
) -> tuple[HTTPStatus, dict[str, Any]]:
    """Serves an action, and returns the status and the JSON of the result."""
    return await _result(home, home.requests.serve(action, key, wait, expires=expires, source=source))


async def _result(home: Home, serving: Coroutine[Any, Any, dict[str, Any]]) -> tuple[HTTPStatus, dict[str, Any]]:
    """The status and the JSON of the result of a request."""
    try:
        return HTTPStatus.OK, await serving
    except UnknownAction as error:
        return HTTPStatus.NOT_FOUND, {"error": str(error), "actions": list(home.document.actions)}
    except Busy:
        return HTTPStatus.CONFLICT, {"error": "busy"}
    except Expired as error:
        return HTTPStatus.REQUEST_TIMEOUT, {"error": EXPIRED, "text": str(error)}
    except Cancelled as error:
        return HTTPStatus.CONFLICT, {"error": CANCELLED, "text": str(error)}
    except KeyTaken as error:
        return HTTPStatus.CONFLICT, {"error": "key taken", "text": str(error)}
    except ValueError as error:
        return HTTPStatus.BAD_REQUEST, {"error": str(error)}
    except NoComposition as refusal:
        explanation = refusal.explanation
        return HTTPStatus.CONFLICT, {
            "error": refusal.reply,
            "explanation": None if explanation is None else explanation_to_json(explanation),
            "allowed": [],
            "frozen": list(refusal.frozen),
            "failures": failures_to_json(refusal.failures),
        }
    except NotAllowed as refusal:
        return HTTPStatus.CONFLICT, {
            "error": refusal.reply,
            "explanation": None,
            "allowed": await home.view.allowed(),
            "failures": [],
        }
    except InDoubt as error:
        return HTTPStatus.CONFLICT, {"error": "in doubt", "text": str(error)}
    except StoreFailed as error:
        return HTTPStatus.SERVICE_UNAVAILABLE, {"error": f"the journal can't be written: {error}"}
    except TEMPORARY_ERRORS as error:
        return HTTPStatus.SERVICE_UNAVAILABLE, {"error": str(error)}


def _let_in(token: str) -> web.Response:
    """A response that leads to the page, with the token in a cookie."""
    response = web.Response(status=HTTPStatus.SEE_OTHER, headers={"Location": "/"})
    response.set_cookie(COOKIE, token, httponly=True, samesite="Strict", path="/")
    return response


def _login(why: str, status: int) -> web.Response:
    """The page on which the token is entered, with the reason why it is shown."""
    text = LOGIN.read_text(encoding="utf-8").replace('role="alert">', f'role="alert">{html.escape(why)}')
    # Without a referrer, a browser doesn't state that the form belongs to this page.
    headers = {"Content-Security-Policy": _policy_of(text, forms="'self'"), "Referrer-Policy": "same-origin"}
    return web.Response(text=text, status=status, content_type="text/html", headers=headers)


def _is_for_people(request: web.BaseRequest) -> bool:
    """Whether a browser shows the response as a page."""
    return request.path in ("/", "/login") and "text/html" in request.headers.get("Accept", "")


def _json(value: Any, status: int = HTTPStatus.OK) -> web.Response:
    return web.Response(body=json.dumps(value).encode(), status=status, headers=JSON_HEADERS)


@functools.lru_cache(HOSTS)
def _is_own(called: str, own: str) -> bool:
    """Whether a Host header names this machine, or the host of the page."""
    try:
        host = urlsplit(f"//{called}").hostname
    except ValueError:
        return False
    return host is not None and (is_loopback(host) or host == own)


def _object(data: bytes, kind: str) -> Mapping[str, Any]:
    """Reads these bytes as an object of JSON. Raises HTTPException."""
    if not data:
        return {}
    if kind != "application/json":
        raise web.HTTPUnsupportedMediaType(text="a body is application/json")
    try:
        value = json.loads(data)
    except (ValueError, RecursionError):
        raise web.HTTPBadRequest(text="the body isn't JSON") from None
    if not isinstance(value, dict):
        raise web.HTTPBadRequest(text="the body isn't an object")
    return value


def _text(body: Mapping[str, Any], name: str) -> str:
    value = body.get(name)
    if not isinstance(value, str):
        raise web.HTTPBadRequest(text=f"{name} has to be a text")
    if len(value.encode(errors="surrogatepass")) > LONGEST_NAME:
        raise web.HTTPBadRequest(text=f"{name} has at most {LONGEST_NAME} bytes")
    return value


def _optional_text(body: Mapping[str, Any], name: str) -> str | None:
    return None if body.get(name) is None else _text(body, name)


def _flag(body: Mapping[str, Any], name: str, otherwise: bool) -> bool:
    value = body.get(name, otherwise)
    if not isinstance(value, bool):
        raise web.HTTPBadRequest(text=f"{name} has to be true or false")
    return value


def _policy_of(page: str, frames: tuple[str, ...] = (), forms: str = "'none'") -> str:
    """The content security policy of a page that loads no other files, and whose forms lead to `forms`."""

    def hashes(element: str) -> str:
        found = re.findall(rf"<{element}>(.*?)</{element}>", page, re.DOTALL)
        digests = (hashlib.sha256(each.encode()).digest() for each in found)
        return " ".join(f"'sha256-{base64.b64encode(each).decode()}'" for each in digests) or "'none'"

    none = "'none'"
    return "; ".join(
        [
            "default-src 'none'",
            f"script-src {hashes('script')}",
            f"style-src {hashes('style')}",
            "connect-src 'self'",
            "img-src 'self' data:",
            "base-uri 'none'",
            f"form-action {forms}",
            f"frame-ancestors {' '.join(frames) or none}",
        ]
    )
