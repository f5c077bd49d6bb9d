"""Tokens: their roles, the page for them, and guesses."""

from __future__ import annotations

import json
from pathlib import Path
from urllib.parse import urlencode

import pytest

from roman_live import access
from roman_live.access import Access, Role, TooManyGuesses, bits
from roman_live.config import HomeFile, HomeFileError
from roman_live.limits import Bucket

from .test_load import Client, Served

OPERATE = "7c1f0e5b9a3d4826b7e2c9f81d60a435"
WATCH = "correct-horse-battery-staple-7"
TABLE = 'token_file = "operate"\nwatch_token_file = "watch"\n'


def write_tokens(folder: Path, operate: str = OPERATE, watch: str = WATCH) -> None:
    """Writes the files of the tokens."""
    for name, token in (("operate", operate), ("watch", watch)):
        (folder / name).write_text(f"{token}\n", encoding="utf-8")
        (folder / name).chmod(0o600)


async def post(client: Client, path: str, body: str, head: str, kind: str = "application/json") -> tuple[int, str]:
    """Posts a body, and returns the status and the head of the answer."""
    client.send(f"POST {path} HTTP/1.1\r\nHost: localhost\r\n{head}Content-Type: {kind}\r\nConnection: close\r\n")
    client.send(f"Content-Length: {len(body)}\r\n\r\n{body}")
    return await client.head()


@pytest.mark.parametrize(("token", "role"), [(OPERATE, Role.OPERATE), (WATCH, Role.WATCH), ("x", None), ("", None)])
async def test_what_a_token_allows(tmp_path: Path, token: str, role: Role | None) -> None:
    write_tokens(tmp_path)

    async with Served.begin(tmp_path, TABLE) as served:
        head = f"Authorization: Bearer {token}\r\n"
        for path in ("/", "/state", "/metrics", "/history"):
            assert (await (await served.client()).get(path, head=head))[0] == (401 if role is None else 200)
        body = json.dumps({"action": "brighten"})
        status, _ = await post(await served.client(), "/requests", body, head)
        assert status == {Role.OPERATE: 200, Role.WATCH: 403, None: 401}[role]
        status, _ = await post(await served.client(), "/services/window/freeze", "{}", head)
        assert status == {Role.OPERATE: 200, Role.WATCH: 403, None: 401}[role]
        status, _ = await (await served.client()).get("/requests/k", "DELETE", head)
        assert status == {Role.OPERATE: 404, Role.WATCH: 403, None: 401}[role]
        assert len(served.devices["window"].calls) == (role is Role.OPERATE)


async def test_a_page_that_may_only_watch_has_no_buttons(tmp_path: Path) -> None:
    write_tokens(tmp_path)

    async with Served.begin(tmp_path, TABLE) as served:
        for token, body in ((OPERATE, "<body>"), (WATCH, '<body class="watch">')):
            page = (await (await served.client()).get("/", head=f"Cookie: roman_live_token={token}\r\n"))[1]
            assert body in page


async def test_a_token_is_entered_on_a_page(tmp_path: Path) -> None:
    write_tokens(tmp_path)

    async with Served.begin(tmp_path, TABLE) as served:
        browser = "Accept: text/html,*/*\r\n"
        status, page = await (await served.client()).get("/", head=browser)
        assert status == 401
        assert '<form method="post" action="login">' in page
        kind = "application/x-www-form-urlencoded"
        client = await served.client()
        status, _ = await post(client, "/login", urlencode({"token": "x"}), browser, kind)
        assert status == 401
        assert b"this isn&#x27;t the token" in await client.reader.read()
        foreign = f"{browser}Origin: http://evil.example\r\n"
        status, _ = await post(await served.client(), "/login", urlencode({"token": OPERATE}), foreign, kind)
        assert status == 403
        status, head = await post(await served.client(), "/login", urlencode({"token": OPERATE}), browser, kind)
        assert status == 303
        assert "Location: /\r\n" in head
        cookie = head.partition("Set-Cookie: ")[2].partition(";")[0]
        assert (await (await served.client()).get("/state", head=f"Cookie: {cookie}\r\n"))[0] == 200


async def test_guessing_is_slowed(tmp_path: Path, monkeypatch: pytest.MonkeyPatch) -> None:
    write_tokens(tmp_path)
    time = [0.0]
    monkeypatch.setattr(access, "Bucket", lambda burst, rate: Bucket(burst, rate, lambda: time[0]))

    async with Served.begin(tmp_path, TABLE) as served:

        async def status(token: str) -> int:
            client = await served.client()
            return (await client.get("/state", head=f"Authorization: Bearer {token}\r\n"))[0]

        assert [await status(f"guess {number}") for number in range(12)] == [401] * 10 + [429] * 2
        # The answer doesn't show whether this token is right.
        assert await status(OPERATE) == 429
        time[0] = 5.0
        assert await status(OPERATE) == 200
        # A token that a browser keeps isn't a guess.
        assert [await status("guess 1") for _ in range(30)] == [401] * 30
        assert await status(OPERATE) == 200


def test_guesses_are_counted_by_address() -> None:
    doors = Access(OPERATE, None)

    def guess(address: str, times: int = 1) -> list[Role | None]:
        return [doors.role(f"{address} {number} {object()}", address) for number in range(times)]

    assert guess("192.0.2.1", 10) == [None] * 10
    with pytest.raises(TooManyGuesses):
        doors.role(OPERATE, "192.0.2.1")
    assert doors.role(OPERATE, "192.0.2.2") is Role.OPERATE
    for number in range(10):
        guess(f"2001:db8::{number + 1:x}")
    with pytest.raises(TooManyGuesses):
        guess("2001:db8::ff")
    assert guess("2001:db8:0:1::1") == [None]


@pytest.mark.parametrize(
    ("token", "least", "most"),
    [
        (OPERATE, 128, 128),
        ("7c1f0e5b9a3d4826b7e2c9f81d60a43", 0, 127),
        ("kN3vQ8xZr5TbW1yLm7Pd0A", 128, 140),
        ("open sesame", 0, 127),
        ("a" * 100, 0, 0),
    ],
)
def test_how_many_bits_a_token_has(token: str, least: float, most: float) -> None:
    assert least <= bits(token) <= most


@pytest.mark.parametrize(
    ("operate", "watch", "mode", "text"),
    [
        ("open sesame", WATCH, 0o600, "page.token_file is 'operate', whose token could be guessed"),
        (OPERATE, "open sesame", 0o600, "page.watch_token_file is 'watch', whose token could be guessed"),
        (OPERATE, OPERATE, 0o600, "page.watch_token_file has the same token as token_file"),
        (OPERATE, WATCH, 0o604, "page.token_file is 'operate', which every user of this machine can read"),
        (OPERATE + "0" * 2000, WATCH, 0o600, "page.token_file is 'operate', whose token could be guessed"),
    ],
)
def test_tokens_that_are_refused(tmp_path: Path, operate: str, watch: str, mode: int, text: str) -> None:
    write_tokens(tmp_path, operate, watch)
    (tmp_path / "operate").chmod(mode)
    file = tmp_path / "home.toml"
    file.write_text(f'document = "home.json"\n[page]\n{TABLE}', encoding="utf-8")
    with pytest.raises(HomeFileError, match=text):
        HomeFile.read(file)
    write_tokens(tmp_path)
    assert HomeFile.read(file).page.watch_token == WATCH


def test_a_token_to_watch_alone(tmp_path: Path) -> None:
    write_tokens(tmp_path)
    file = tmp_path / "home.toml"
    file.write_text('document = "home.json"\n[page]\nwatch_token_file = "watch"\n', encoding="utf-8")
    with pytest.raises(HomeFileError, match="page.watch_token_file is there, and token_file isn't"):
        HomeFile.read(file)
