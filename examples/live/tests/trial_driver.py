"""A driver for tests: it keeps what it is asked."""
from __future__ import annotations

import os
import sys
import threading

LIVE = os.path.dirname(os.path.dirname(os.path.realpath(__file__)))
sys.path[:0] = [LIVE, f"{LIVE}/tests"]

from driver import Arguments, Driver  # noqa: E402
from patience import LIMIT  # noqa: E402

# A report that is not started is asked for again after this many seconds at first.
AGAIN = 0.02


class Trial(Driver):
    """A driver that keeps what it is asked, and does it as `doing` says: a state, an exception, or seconds to wait."""

    def __init__(self, devices: list[str]) -> None:
        super().__init__(devices, AGAIN)
        self.done: list[tuple[str, str, str, Arguments]] = []
        self.stopped: list[str] = []
        self.said: list[str] = []
        self.shown: list[str] = []
        self.doing: dict[str, object] = {}
        self.same: set[str] = set()
        self.late_state: str | None = None
        self.broken_state: str | None = None

    def perform(self, name: str, action: str, arguments: Arguments) -> str:
        self.done.append(("perform", name, action, arguments))
        doing = self.doing.get(action, "ON")
        if isinstance(doing, Exception):
            raise doing
        if isinstance(doing, threading.Event):
            while not doing.is_set():
                self.wait(0.01)
            return "ON"
        if isinstance(doing, threading.Barrier):
            doing.wait(LIMIT)
            return "ON"
        return doing  # type: ignore[return-value]

    def resume(self, name: str, action: str, arguments: Arguments) -> str:
        self.done.append(("resume", name, action, arguments))
        return "RESUMED"

    def differs(self, name: str) -> bool:
        return name not in self.same

    def late(self, name: str, action: str) -> str | None:
        return self.late_state

    def broken(self, name: str, action: str, why: str) -> str | None:
        if self.broken_state == "RAISES":
            raise KeyError(action)
        return self.broken_state

    def stop(self, name: str) -> None:
        self.stopped.append(name)
        if self.broken_state == "RAISES":
            raise KeyError(name)

    def say(self, sentence: str) -> None:
        self.said.append(sentence)

    def show(self, line: str) -> None:
        self.shown.append(line)
