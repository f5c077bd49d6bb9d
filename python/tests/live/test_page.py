"""The page, in a real browser."""

from __future__ import annotations

import re
import threading
import urllib.request
from collections.abc import Iterator
from contextlib import AsyncExitStack
from http.server import BaseHTTPRequestHandler, ThreadingHTTPServer
from typing import Any

import pytest
from selenium.common.exceptions import ElementClickInterceptedException
from selenium.webdriver.common.keys import Keys
from selenium.webdriver.support.select import Select

from .browser import Demonstrated, Played, Running, browser, wait_until
from .machinery import free_port
from .test_config import TOKEN

CONTRAST = """
const light = color => {
  const parts = color.match(/[\\d.]+/g).map(Number).slice(0, 3).map(each => each / 255);
  const linear = parts.map(each => each <= 0.03928 ? each / 12.92 : ((each + 0.055) / 1.055) ** 2.4);
  return 0.2126 * linear[0] + 0.7152 * linear[1] + 0.0722 * linear[2];
};
const behind = element => {
  for (let each = element; each; each = each.parentElement) {
    const color = getComputedStyle(each).backgroundColor;
    if (!color.endsWith(", 0)")) return color;
  }
  return "rgb(255, 255, 255)";
};
return [...document.querySelectorAll("header *, main *")]
  .filter(each => each.checkVisibility() && [...each.childNodes].some(node => node.nodeType === 3 && node.data.trim()))
  .map(each => {
    const both = [light(getComputedStyle(each).color), light(behind(each))].sort((a, b) => b - a);
    return [(both[0] + 0.05) / (both[1] + 0.05), each.textContent];
  })
  .filter(each => each[0] < 4.5);
"""
"""The texts that are hard to read: their contrast is below 4.5."""


STATUSES = {"ready": "ready", "frozen": "out of order", "under way": "at work", "dead": "gone"}
"""The words of the page for the statuses of services that weren't frozen by hand."""


class Browsing:
    """A browser that shows a page."""

    def __init__(self, driver: Any, at_end: AsyncExitStack) -> None:
        self.driver = driver
        self.at_end = at_end

    def open(self, home: Running, path: str = "/") -> None:
        """Opens the page, and waits until it is connected."""
        self.driver.set_window_size(1200, 900)
        self.driver.get(f"{home.url}{path}")
        self.wait_for_text("link", "✓ connected")
        wait_until(lambda: self.find("#main").is_displayed(), "the state")

    def find(self, selector: str) -> Any:
        return self.driver.find_element("css selector", selector)

    def text(self, name: str) -> str:
        return str(self.find(f"#{name}").text)

    def wait_for_text(self, name: str, text: str) -> None:
        wait_until(lambda: text in self.text(name), f"{text!r} in {name}")

    def button(self, parent: str, word: str) -> Any:
        """The enabled button below a parent whose text has this word."""

        def found() -> Any:
            for each in self.driver.find_elements("css selector", f"#{parent} button"):
                if word in each.text and each.get_attribute("aria-disabled") != "true":
                    return each
            return None

        return wait_until(found, f"the button {word!r}")

    def press(self, parent: str, word: str) -> str:
        """Presses such a button, and repeats this if the page has just moved it. Returns its first line."""

        def pressed() -> str:
            button = self.button(parent, word)
            first = str(button.text).splitlines()[0]
            try:
                button.click()
            except ElementClickInterceptedException:
                return ""
            return first

        return str(wait_until(pressed, f"the button {word!r} in its place"))

    def service(self, name: str) -> str:
        """The texts of the page on a service."""
        return str(self.find(f"#services li[data-key='{name}']").text)

    def wait_for_service(self, name: str, text: str) -> None:
        wait_until(lambda: text in self.service(name), f"{text!r} at {name}")

    def change(self, name: str, word: str) -> None:
        """Opens the dialog of a service, and chooses a change."""

        def opened() -> bool:
            self.find(f"#services li[data-key='{name}'] button").click()
            return True

        wait_until(opened, f"the button of {name}")
        wait_until(lambda: self.find("#dialog").is_displayed(), "the dialog")
        Select(self.find("#fields select")).select_by_visible_text(word)

    def confirm(self) -> None:
        self.find("#confirm").click()
        wait_until(lambda: not self.find("#dialog").is_displayed(), "the end of the dialog")

    def complaints(self) -> list[str]:
        """The complaints of the browser."""
        return [each["message"] for each in self.driver.get_log("browser")]


@pytest.fixture(scope="module")
def driver() -> Iterator[Any]:
    found = browser()
    yield found
    found.quit()


@pytest.fixture
def browsing(driver: Any, at_end: AsyncExitStack) -> Browsing:
    return Browsing(driver, at_end)


class ThePage(Browsing):
    """The page, with devices that are simulated on it."""

    def __init__(self, driver: Any, at_end: AsyncExitStack) -> None:
        super().__init__(driver, at_end)
        self.home = Played()
        self.at_end.callback(self.home.close)
        self.home.begin()
        # The page of the previous test still asks for its server, which is gone. It is left first.
        self.driver.get("about:blank")
        self.driver.get_log("browser")
        self.open(self.home)

    def status(self, name: str) -> str:
        (service,) = (each for each in self.home.state()["services"] if each["name"] == name)
        return str(service["status"])


@pytest.fixture
def page(driver: Any, at_end: AsyncExitStack) -> ThePage:
    return ThePage(driver, at_end)


def test_a_request_is_served(page: ThePage) -> None:
    allowed = page.button("actions", "brighten")
    assert "window, ceiling or desk may serve it" in allowed.text
    assert "not allowed" in page.find("#actions li[data-key='boil']").text
    page.find("#actions li[data-key='boil'] button").click()
    assert page.text("result") == ""
    page.press("actions", "brighten")
    page.wait_for_service("window", "▶ at work")
    buttons = page.driver.find_elements("css selector", "#actions button")
    assert {each.get_attribute("aria-disabled") for each in buttons} == {"true"}
    page.wait_for_text("asked", "window is asked for brighten")
    page.press("outcomes", "window is open")
    page.wait_for_text("result", "window served brighten, and is open.")
    page.wait_for_text("target", "It is bright.")
    page.wait_for_text("events", "window served brighten, and is open")
    assert page.home.state()["target"]["state"] == "bright"
    page.press("actions", "boil")
    page.wait_for_text("asked", "kettle is asked for boil")
    page.press("outcomes", "kettle is hot")
    page.wait_for_text("target", "It is boiled.")
    assert "hot" in page.service("kettle")
    assert page.complaints() == []


def test_by_keyboard(page: ThePage) -> None:
    """Reaches the request by Tab, and keeps the focus where it was."""
    words = "return document.activeElement.textContent"
    for _ in range(5):
        page.driver.switch_to.active_element.send_keys(Keys.TAB)
        if "brighten" in page.driver.execute_script(words):
            break
    page.driver.switch_to.active_element.send_keys(Keys.ENTER)
    page.wait_for_service("window", "▶ at work")
    assert "brighten" in page.driver.execute_script(words)
    page.button("outcomes", "window is open").send_keys(Keys.SPACE)
    page.wait_for_text("target", "It is bright.")
    page.find("#services li[data-key='desk'] button").send_keys(Keys.ENTER)
    wait_until(lambda: page.find("#dialog").is_displayed(), "the dialog")
    page.driver.switch_to.active_element.send_keys(Keys.ESCAPE)
    wait_until(lambda: not page.find("#dialog").is_displayed(), "the end of the dialog")
    assert "Change" in page.driver.execute_script(words)
    assert page.status("desk") == "ready"


def test_no_composition_is_explained(page: ThePage) -> None:
    page.press("actions", "brighten")
    for name in ("window", "ceiling", "desk"):
        page.wait_for_service(name, "▶ at work")
        page.press("outcomes", "It fails")
        page.wait_for_service(name, "❄ out of order")
    page.wait_for_text("result", "brighten: no composition")
    assert "desk failed: it was told to fail" in page.text("result")
    wait_until(lambda: page.find("#lost").is_displayed(), "why there is no composition")
    page.wait_for_text("lost-now", "nobody can be given brighten")
    assert page.text("lost-frozen").splitlines() == [
        f"❄ {name} is out of order: it was told to fail" for name in ("window", "ceiling", "desk")
    ]
    page.wait_for_text("remedies", "window is back · ceiling is back · desk is back · another blind joins, shut")
    page.wait_for_text("lost-answers", "kettle can't do it now")
    assert "no composition" in page.find("#actions li[data-key='brighten']").text
    page.change("desk", "It is in order again (thaw)")
    page.confirm()
    page.wait_for_service("desk", "● ready")
    wait_until(lambda: not page.find("#lost").is_displayed(), "the composition")
    page.button("actions", "desk may serve it")


def test_changes_ask_back(page: ThePage) -> None:
    page.change("window", "It is being fixed (freeze)")
    page.wait_for_text("meaning", "window is asked no more")
    assert page.status("window") == "ready"
    page.find("#cancel").click()
    assert page.status("window") == "ready"
    page.change("window", "It is being fixed (freeze)")
    page.confirm()
    page.wait_for_service("window", "❄ being fixed")
    assert page.status("window") == "frozen"
    page.change("ceiling", "It is gone for good")
    page.wait_for_text("meaning", "can't be taken back")
    page.confirm()
    page.wait_for_service("ceiling", "✕ gone")
    page.change("desk", "Say where it is")
    Select(page.find("#fields label:nth-child(2) select")).select_by_value("on")
    page.confirm()
    page.wait_for_service("desk", "on")
    page.find("#move").click()
    Select(page.find("#fields select")).select_by_value("dusk")
    page.confirm()
    page.wait_for_text("environment", "It is dusk.")
    assert page.home.state()["environment"] == "dusk"


def test_a_service_joins(page: ThePage) -> None:
    page.find("#join").click()
    page.find("#fields input[type='text']").send_keys("bedside")
    Select(page.find("#fields select")).select_by_value("lamp")
    page.wait_for_text("meaning", "bedside joins as a lamp, and is off")
    page.confirm()
    page.wait_for_service("bedside", "● ready")
    page.button("actions", "bedside may serve it")


def test_a_service_joins_loose(page: ThePage) -> None:
    """The target may rest at once, and this service, which is on, couldn't if it weren't loose."""
    page.find("#join").click()
    page.find("#fields input[type='text']").send_keys("bedside")
    Select(page.find("#fields label:nth-child(2) select")).select_by_value("lamp")
    Select(page.find("#fields label:nth-child(3) select")).select_by_visible_text("on")
    page.find("#fields input[type='checkbox']").click()
    page.wait_for_text("meaning", "is on. It doesn't matter where it is when the target rests.")
    page.confirm()
    page.wait_for_service("bedside", "● ready · on")
    assert "loose" in page.service("bedside")
    state = page.home.state()
    assert [each["name"] for each in state["services"] if each["loose"]] == ["bedside"]
    assert state["composes"]
    page.button("actions", "may serve it")


def test_a_refusal_is_told(page: ThePage) -> None:
    page.find("#join").click()
    page.find("#fields input[type='text']").send_keys("desk")
    page.confirm()
    page.wait_for_text("result", "That couldn't be:")


def test_it_connects_again(page: ThePage) -> None:
    page.home.end()
    page.wait_for_text("link", "not connected")
    page.home.begin()
    page.wait_for_text("link", "✓ connected")
    page.press("actions", "brighten")
    page.wait_for_text("asked", "window is asked for brighten")
    page.wait_for_text("events", "window is asked to brighten")


def test_each_event_is_shown_once(page: ThePage) -> None:
    """This also holds if the page connects again, and is sent all of them."""
    page.press("actions", "brighten")
    page.press("outcomes", "window is open")
    page.wait_for_text("events", "window served brighten")
    page.driver.execute_script("document.dispatchEvent(new Event('visibilitychange'))")
    page.press("actions", "boil")
    page.wait_for_text("events", "kettle is asked to boil")
    shown = [each.text for each in page.driver.find_elements("css selector", "#events li")]
    assert sum("window served brighten" in each for each in shown) == 1, shown


def test_a_narrow_window(page: ThePage) -> None:
    page.driver.execute_cdp_cmd(
        "Emulation.setDeviceMetricsOverride",
        {"width": 320, "height": 640, "deviceScaleFactor": 2, "mobile": True},
    )
    page.at_end.callback(page.driver.execute_cdp_cmd, "Emulation.clearDeviceMetricsOverride", {})
    page.press("actions", "brighten")
    page.button("outcomes", "window is open")
    wide = "return [document.documentElement.scrollWidth, innerWidth]"
    scroll, inner = page.driver.execute_script(wide)
    assert (scroll, inner) == (320, 320)
    for each in page.driver.find_elements("css selector", "main button"):
        if each.is_displayed():
            assert each.size["height"] >= 44, each.text


def test_light_and_dark_can_be_read(page: ThePage) -> None:
    page.at_end.callback(page.driver.execute_cdp_cmd, "Emulation.setEmulatedMedia", {"features": []})
    page.change("ceiling", "It is gone for good")
    page.confirm()
    page.change("desk", "It is being fixed (freeze)")
    page.confirm()
    page.change("kettle", "It is being fixed (freeze)")
    page.confirm()
    wait_until(lambda: page.find("#lost").is_displayed(), "why there is no composition")
    seen = set()
    for scheme in ("light", "dark"):
        feature = {"name": "prefers-color-scheme", "value": scheme}
        page.driver.execute_cdp_cmd("Emulation.setEmulatedMedia", {"features": [feature]})
        assert page.driver.execute_script(CONTRAST) == [], scheme
        seen.add(page.find("body").value_of_css_property("background-color"))
    assert len(seen) == 2


def test_the_drawing(page: ThePage) -> None:
    page.find("#drawing summary").click()
    names = "return [...document.querySelectorAll('#drawn .{}')].map(each => each.{})"
    title = "querySelector('title').textContent"

    def shown(kind: str, what: str = title) -> list[str]:
        return sorted(page.driver.execute_script(names.format(kind, what)))

    wait_until(lambda: shown("present"), "the drawing")
    assert shown("present") == ["b0 shut", "b1 off", "b2 empty", "e day", "t0 quiet"]
    assert shown("next") == ["b0 shut->b0 open", "b1 off->b1 on", "t0 quiet->t0 bright"]
    assert shown("here", "textContent") == ["● ceiling ● desk", "● kettle", "● window"]
    page.press("actions", "brighten")
    page.press("outcomes", "window is open")
    wait_until(lambda: "t0 bright" in shown("present"), "the next state")
    assert "b0 open" in shown("present")
    assert page.complaints() == []


def test_nothing_comes_from_outside(page: ThePage) -> None:
    with urllib.request.urlopen(f"{page.home.url}/") as response:
        text, policy = response.read().decode(), response.headers["Content-Security-Policy"]
    assert re.search(r"//\w", text) is None
    assert "default-src 'none'" in policy
    assert "unsafe" not in policy


def test_another_page_changes_nothing(page: ThePage) -> None:
    class Foreign(BaseHTTPRequestHandler):
        def do_GET(page) -> None:
            page.send_response(200)
            page.end_headers()

        def log_message(page, *words: Any) -> None:
            """Logs nothing."""

    server = ThreadingHTTPServer(("127.0.0.1", 0), Foreign)
    page.at_end.callback(server.server_close)
    page.at_end.callback(server.shutdown)
    threading.Thread(target=server.serve_forever, daemon=True).start()
    page.driver.get(f"http://127.0.0.1:{server.server_port}/")
    for path, body in (("services/desk/freeze", ""), ("environment/jump", '{"state": "dusk"}')):
        sent = page.driver.execute_async_script(
            "const [url, body, done] = arguments;"
            "fetch(url, {method: 'POST', mode: 'no-cors', body}).then(() => done(true), () => done(false))",
            f"{page.home.url}/{path}",
            body,
        )
        assert sent
    assert page.status("desk") == "ready"
    assert page.home.state()["environment"] == "day"


def test_what_looks_like_markup_is_text(browsing: Browsing) -> None:
    """This holds for the name of a document, the answer of a device, and a name that is typed."""
    home = Played(name="<b>home.json")
    browsing.at_end.callback(home.close)
    home.begin()
    browsing.open(home)
    assert browsing.text("name") == "<b>home.json"
    assert browsing.driver.title == "<b>home.json"
    browsing.press("actions", "brighten")
    browsing.wait_for_service("window", "▶ at work")
    home.post("outcome", {"service": "window", "state": "<b>open", "environment": "day"})
    error = "answered <b>open day, which can't be"
    browsing.wait_for_service("window", f"last error: {error}")
    browsing.wait_for_text("events", f"window failed at brighten: {error}")
    browsing.press("outcomes", "ceiling is on")
    browsing.wait_for_text("result", f"window failed: {error}. ceiling served brighten, and is on.")
    browsing.find("#join").click()
    browsing.find("#fields input[type='text']").send_keys("<b>bedside")
    browsing.wait_for_text("meaning", "<b>bedside joins as a")
    assert browsing.driver.find_elements("css selector", "b") == []


def test_names_that_javascript_has_too(browsing: Browsing) -> None:
    home = Played()
    browsing.at_end.callback(home.close)
    text = (home.folder / "home.json").read_text(encoding="utf-8")
    for name, other in (("brighten", "constructor"), ("ceiling", "toString"), ("on", "__proto__"), ("day", "valueOf")):
        text = text.replace(f'"{name}"', f'"{other}"')
    (home.folder / "home.json").write_text(text, encoding="utf-8")
    home.begin()
    browsing.driver.get("about:blank")  # The page of the previous test complains that its server is gone.
    browsing.driver.get_log("browser")
    browsing.open(home)
    browsing.find("#drawing summary").click()
    wait_until(lambda: browsing.find("#drawn svg"), "the drawing")
    assert browsing.press("actions", "constructor") == "constructor"
    browsing.wait_for_service("window", "▶ at work")
    browsing.press("outcomes", "It fails")
    assert browsing.press("outcomes", "toString is __proto__") == "toString is __proto__"
    browsing.wait_for_text("result", "toString served constructor, and is __proto__.")
    assert browsing.text("environment") == "It is valueOf."
    assert browsing.complaints() == []


WORDS = """
title = "Our kitchen"
[words.actions]
brighten = "Make it bright"
[words.states]
open = "wide open"
[devices.window]
reach = "command"
command = ["true"]
title = "The blind"
room = "Kitchen"
"""


def test_titles_and_words_stand_above_the_names(browsing: Browsing) -> None:
    home = Played()
    browsing.at_end.callback(home.close)
    file = home.folder / "home.toml"
    title, rest = WORDS.strip().split("\n", 1)
    file.write_text(f"{title}\n{file.read_text(encoding='utf-8')}\n{rest}\n", encoding="utf-8")
    home.begin()
    browsing.open(home)
    assert (browsing.text("name"), browsing.driver.title) == ("Our kitchen", "Our kitchen")
    assert "home.json" in browsing.text("counts")
    assert "brighten: The blind, ceiling or desk may serve it" in browsing.find("#actions li").text
    browsing.press("actions", "Make it bright")
    browsing.wait_for_text("asked", "The blind is asked for Make it bright")
    browsing.press("outcomes", "window is open")
    browsing.wait_for_text("result", "The blind served Make it bright, and is wide open.")
    browsing.wait_for_service("window", "Kitchen · window: open")
    assert "The blind" in browsing.service("window")
    browsing.wait_for_text("events", "window is asked to brighten for the page (the first of window, ceiling, desk)")


FRAME = f"<iframe id='frame' src='{{}}/?token={TOKEN}' width='900' height='700'></iframe>"


# A card on another page, with the home in a frame.


def framed(browsing: Browsing, port: int, allowed: bool) -> None:
    frames = f'frame_ancestors = ["http://localhost:{port}"]\n' if allowed else ""
    home = Played(f'token_file = "token"\n{frames}')
    browsing.at_end.callback(home.close)
    (home.folder / "token").write_text(f"{TOKEN}\n", encoding="utf-8")
    (home.folder / "token").chmod(0o600)
    home.begin()

    class Card(BaseHTTPRequestHandler):
        def do_GET(self) -> None:
            self.send_response(200)
            self.end_headers()
            self.wfile.write(FRAME.format(home.url).encode())

        def log_message(self, *words: Any) -> None:
            """Logs nothing."""

    server = ThreadingHTTPServer(("127.0.0.1", port), Card)
    browsing.at_end.callback(server.server_close)
    browsing.at_end.callback(server.shutdown)
    threading.Thread(target=server.serve_forever, daemon=True).start()
    browsing.driver.get(f"http://localhost:{port}/")
    browsing.driver.switch_to.frame("frame")
    browsing.at_end.callback(browsing.driver.switch_to.default_content)


def test_the_page_works_in_a_frame_that_is_allowed(browsing: Browsing) -> None:
    framed(browsing, free_port(), True)
    browsing.wait_for_text("link", "✓ connected")
    browsing.press("actions", "brighten")
    browsing.press("outcomes", "window is open")
    browsing.wait_for_text("target", "It is bright.")


def test_no_other_page_may_show_it(browsing: Browsing) -> None:
    framed(browsing, free_port(), False)
    assert browsing.driver.find_elements("id", "link") == []


def test_a_token_is_needed(browsing: Browsing) -> None:
    home = Played('token_file = "token"\n')
    browsing.at_end.callback(home.close)
    (home.folder / "token").write_text(f"{TOKEN}\n", encoding="utf-8")
    (home.folder / "token").chmod(0o600)
    home.begin()
    for path in ("/", "/?token=open"):
        browsing.driver.get(f"{home.url}{path}")
        assert "token" in browsing.find("body").text
        assert browsing.driver.find_elements("id", "actions") == []
    browsing.find("input[name='token']").send_keys(TOKEN)
    browsing.find("button").click()
    wait_until(lambda: browsing.driver.find_elements("id", "actions"), "the home's page")
    browsing.driver.delete_all_cookies()
    browsing.open(home, f"/?token={TOKEN}")
    assert browsing.driver.current_url == f"{home.url}/"
    browsing.press("actions", "brighten")
    browsing.press("outcomes", "window is open")
    browsing.wait_for_text("target", "It is bright.")


# The demo home: a broker, and devices that fail.


def agrees(browsing: Browsing, home: Running) -> bool:
    """Whether the page agrees with the state."""
    state = home.state()
    return (
        f"It is {state['target']['state']}." in browsing.text("target")
        and f"{state['counts']['served']} served" in browsing.text("counts")
        and all(
            f"{STATUSES[each['status']]} · {each['state']}" in browsing.service(each["name"])
            for each in state["services"]
        )
    )


def test_the_page_is_open_while_devices_fail(browsing: Browsing) -> None:
    home = Demonstrated()
    browsing.at_end.callback(home.close)
    home.begin(0.2)
    browsing.open(home)
    browsing.wait_for_text("broker", "✓ broker connected")
    served, failed = 0, 0
    for _ in range(100):
        action = browsing.press("actions", "may serve it")
        wait_until(lambda: " is requested" not in browsing.text("result"), "an answer")
        said = browsing.text("result")
        assert re.search(rf" served {action}\b|\b{action}: ", said)
        served += " served " in said
        failed += " failed: " in said
        if served >= 6 and failed:
            break
    assert served >= 6
    assert failed > 0
    browsing.wait_for_text("events", "failed at")
    wait_until(lambda: agrees(browsing, home), "agreement of the page with the state")
