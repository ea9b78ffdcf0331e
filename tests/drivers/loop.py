"""Tests that are coroutines: each runs in a loop, which is that of what it is given."""

import asyncio
import inspect
from collections.abc import Iterator
from typing import Any

import pytest


@pytest.fixture
def loop() -> Iterator[asyncio.Runner]:
    """A loop for what is begun before a test, and ends after it."""
    with asyncio.Runner() as runner:
        yield runner


def pytest_pyfunc_call(pyfuncitem: pytest.Function) -> bool | None:
    """Runs a test that is a coroutine."""
    test, given = pyfuncitem.obj, pyfuncitem.funcargs
    if not inspect.iscoroutinefunction(test):
        return None
    runner: Any = given.get("loop", asyncio)
    runner.run(test(**{name: given[name] for name in inspect.signature(test).parameters}))
    return True
