"""Tests of many drawn cases, the same ones at each run."""
from __future__ import annotations

import random
from typing import Callable


def seeded(count: int) -> Callable[[Callable[[random.Random], None]], Callable[[], None]]:
    """Runs a test for so many dice, whose seeds are 0 to count − 1. A failure names its seed."""
    def around(test: Callable[[random.Random], None]) -> Callable[[], None]:
        def run() -> None:
            for seed in range(count):
                try:
                    test(random.Random(seed))
                except BaseException as why:
                    raise AssertionError(f"seed {seed}: {why!r}") from why
        run.__name__, run.__doc__, run.__module__ = test.__name__, test.__doc__, test.__module__
        return run
    return around


def junk(dice: random.Random, most: int, least: int = 0) -> bytes:
    """Some bytes, of any kind."""
    return dice.randbytes(dice.randint(least, most))
