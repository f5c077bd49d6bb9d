"""The common configuration of all tests: the profiles of Hypothesis, the output of tests, and tests that are
coroutines.

Hypothesis draws cases for a run, for hours, or until a wrong program is found. The gate draws the same ones each time.
"""

import asyncio
import inspect
from collections.abc import Generator
from contextlib import AsyncExitStack
from typing import Any

import pytest
from hypothesis import HealthCheck, Phase, settings

settings.register_profile("tests", deadline=None, max_examples=100, suppress_health_check=list(HealthCheck))
settings.register_profile("gate", settings.get_profile("tests"), derandomize=True)
settings.register_profile("soak", settings.get_profile("tests"), max_examples=20_000)
settings.register_profile("wrong", settings.get_profile("gate"), phases=[Phase.generate])
settings.load_profile("tests")


@pytest.hookimpl(hookwrapper=True)
def pytest_runtest_makereport() -> Generator[None, Any, None]:
    """Escapes the output of a test. It may have single surrogates, which a process of pytest can't send to another."""
    outcome = yield
    report = outcome.get_result()
    report.sections = [(name, text.encode("utf-8", "backslashreplace").decode()) for name, text in report.sections]


@pytest.fixture
def at_end() -> Generator[AsyncExitStack, None, None]:
    """Functions that are called at the end of a test, in its event loop if it has one."""
    stack = AsyncExitStack()
    yield stack
    asyncio.run(stack.aclose())


@pytest.hookimpl(tryfirst=True)
def pytest_pyfunc_call(pyfuncitem: pytest.Function) -> bool | None:
    """Runs a test that is a coroutine in an event loop of its own."""
    test, given = pyfuncitem.obj, pyfuncitem.funcargs
    if not inspect.iscoroutinefunction(test):
        return None

    async def run() -> None:
        async with given.get("at_end", AsyncExitStack()):
            await test(**{name: given[name] for name in inspect.signature(test).parameters})

    asyncio.run(run())
    return True
