"""A manager's process, or that of its supervisor, and what is known of its log. `serving.py` uses it."""
from __future__ import annotations

import os
import re
import subprocess
import time

from lines import LONGEST_TOLD, Inlet, Outlet

# A log has this many bytes at most; it is looked at after this many seconds.
LONGEST_LOG, LOOKS_APART = 1 << 24, 5.0
# What a manager complains of, where it is not over after a while. (How full a log is the gateway says itself.)
LASTING = re.compile(r"nine tenths of|limit$|(?<!nine tenths )full$|was moved|was written by another|output fault"
                     r"|memory")


class Manager:
    """A process that was started with these words, and the ways to it."""

    def __init__(self, words: list[str]) -> None:
        pipe = subprocess.PIPE
        # A session of its own: the ^C of a terminal is for the gateway.
        self.process = subprocess.Popen(
            words, stdin=pipe, stdout=pipe, stderr=pipe, bufsize=0, start_new_session=True)
        assert self.process.stdin and self.process.stdout and self.process.stderr
        self.pipes = (self.process.stdin, self.process.stdout, self.process.stderr)
        self.to = Outlet(self.process.stdin.fileno())
        self.told = Inlet(self.process.stdout.fileno(), LONGEST_TOLD)
        self.complaints = Inlet(self.process.stderr.fileno(), LONGEST_TOLD)
        self.since, self.has_told = time.monotonic(), False

    def seconds(self) -> float:
        return time.monotonic() - self.since

    def reads(self) -> bool:
        return not self.pipes[0].closed

    def close_input(self) -> None:
        if self.reads():
            self.pipes[0].close()

    def close(self) -> None:
        for pipe in self.pipes:
            pipe.close()


class Log:
    """How full a log is, if there is one."""

    def __init__(self, path: str | None) -> None:
        self.path, self.tenths, self.next_look, self.has_begun = path, -1, 0.0, False

    def size(self) -> int:
        try:
            found = os.stat(self.path).st_size if self.path else 0
        except OSError:
            found = 0
        self.has_begun = self.has_begun or found > 0
        return found

    def is_gone(self) -> bool:
        """Whether there was a log, and nothing is there: a manager would begin a new one, with all in its first state.
        """
        return self.size() == 0 and self.has_begun

    def sentence(self) -> bytes:
        return b"log %d %%" % (10 * self.tenths)

    def has_changed(self, now: float) -> bool:
        """Whether another tenth is full than when it was looked at last."""
        if not self.path or now < self.next_look:
            return False
        self.next_look, last = now + LOOKS_APART, self.tenths
        self.tenths = self.size() * 10 // LONGEST_LOG
        return self.tenths != last
