"""Waiting for a condition, never for a time: limits are generous, and a slow machine only waits longer."""
import os
import time

LIMIT = int(os.environ.get("HOST_TEST_LIMIT", 60))  # seconds


class Failure(Exception):
    """What was expected, and what was seen."""


def wait(condition, expected, limit=LIMIT, seen=lambda: "nothing of it"):
    """The condition's first value that is true."""
    end = time.monotonic() + limit
    while True:
        value = condition()
        if value:
            return value
        if time.monotonic() > end:
            raise Failure(f"expected, within {limit} s: {expected}\nseen: {seen()}")
        time.sleep(0.02)


def expect(fact, expected, seen):
    if not fact:
        raise Failure(f"expected: {expected}\nseen: {seen}")
