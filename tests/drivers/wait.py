"""A wait for what comes soon."""

import time
from collections.abc import Callable
from typing import TypeVar

Value = TypeVar("Value")


def until(holds: Callable[[], Value], seconds: float = 30, pause: float = 0.02) -> Value:
    """Waits until something holds, so long at most. Gives what it is then."""
    end = time.monotonic() + seconds
    while not (value := holds()) and time.monotonic() < end:
        time.sleep(pause)
    return value
