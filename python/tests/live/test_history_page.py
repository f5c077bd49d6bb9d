"""The history on the page, in a real browser."""

from __future__ import annotations

from collections.abc import Iterator
from typing import Any

import pytest

from roman_live.history import LONGEST_PAGE

from .browser import Played, browser, wait_until
from .test_page import CONTRAST

CHANGES = 110
"""More changes than a page of the history has, or the list of the newest events."""


@pytest.fixture
def home() -> Iterator[Played]:
    home = Played()
    home.begin()
    yield home
    home.close()


@pytest.fixture
def driver() -> Iterator[Any]:
    driver = browser()
    yield driver
    driver.quit()


def test_it_pages_back_to_the_beginning(home: Played, driver: Any) -> None:
    for number in range(CHANGES):
        home.post("environment/jump", {"state": ("dusk", "day")[number % 2]})
    driver.get(f"{home.url}/")

    def past() -> list[str]:
        return [each.text for each in driver.find_elements("css selector", "#past > li")]

    wait_until(lambda: driver.find_element("id", "main").is_displayed(), "the state")
    assert past() == []
    driver.find_element("css selector", "#history > summary").click()
    wait_until(lambda: len(past()) == LONGEST_PAGE, "the first page")
    assert "jumpenv day (by http 127.0.0.1)" in past()[0]
    assert driver.execute_script(CONTRAST) == []
    driver.find_element("id", "earlier").click()
    wait_until(lambda: len(past()) == CHANGES, "the second page")
    assert "jumpenv dusk" in past()[-1]
    assert driver.find_element("id", "past-said").text == "This is the beginning."
    assert not driver.find_element("id", "earlier").is_displayed()
    home.post("environment/jump", {"state": "dusk"})
    for _ in range(2):
        driver.find_element("css selector", "#history > summary").click()
    wait_until(lambda: past() and "jumpenv dusk" in past()[0], "the newest")
    assert [each for each in driver.get_log("browser") if each["level"] == "SEVERE"] == []
