"""Tells of the steps of a build, each with its seconds, so that none is silent for long."""

import contextlib
import sys
import threading
import time

PAUSE = 15  # seconds between two lines of a step


@contextlib.contextmanager
def step(crate, what):
    """Says that a step begins, how long it has lasted while it does, and at its end how long it took."""
    began, ended = time.monotonic(), threading.Event()

    def say(text):
        print(f"{crate}: {what} {text}", file=sys.stderr, flush=True)

    def tick():
        while not ended.wait(PAUSE):
            say(f".. {time.monotonic() - began:.0f} s")

    say("..")
    ticker = threading.Thread(target=tick, daemon=True)
    ticker.start()
    try:
        yield
    finally:
        ended.set()
        ticker.join()
    say(f"took {time.monotonic() - began:.0f} s")
