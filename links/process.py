"""The manager as a process: its lock, its pipes, its log, and the programs that drive its equipment."""
from __future__ import annotations

import fcntl
import os
import re
import selectors
import subprocess
import time
from collections.abc import Callable
from dataclasses import dataclass

from .description import Manager
from .lines import LONGEST_LINE, LONGEST_TOLD, PROGRAM, Inlet, Outlet

# A driver that does not read is ended when this many bytes wait for it; one that ended is started again after a second,
# and one that could not be started after ten.
MOST_WAITING, AGAIN, LATER = 1 << 20, 1.0, 10.0
# A remark is in the log after this many seconds, or the manager is taken as one that hangs.
KEEP_SECONDS = 30.0
# An earlier manager may make the steps that are left to it for this many seconds, before people are told that it is
# waited for.
PATIENCE = 5.0
NAME = r"[A-Za-z][A-Za-z0-9_]{0,63}"
# What a driver may write; reports of devices are requested in session 7. Nobody but the node answers for an object that
# stands for another, or asks in that session for anything of one: `may` looks at the name.
_DRIVERS_LINE = re.compile(
    rf"[ \t]*(?:(answer|fault|request[ \t]+@7)[ \t]+({NAME})\b.*|request[ \t]*@[1-6].*|kill[ \t].*|"
    r"!(?! (?:links|smirun) ).*)", re.I)


class Ended(Exception):
    """The manager has ended, or hangs: all that is known of it is read anew."""


class Leaving(Exception):
    """The node was told to end, before its manager was there."""


class Lock:
    """The log's lock. The node keeps it for as long as it lives, and hands it to its manager, so that it is free when
    both have ended: a new node waits for an old manager."""

    def __init__(self, log: str) -> None:
        self.path = log + ".lock"
        self.descriptor = os.open(self.path, os.O_RDWR | os.O_CREAT | os.O_CLOEXEC, 0o600)

    def take(self, is_leaving: Callable[[], bool], tell: Callable[[str], None]) -> None:
        tells = time.monotonic() + PATIENCE
        while True:
            try:
                fcntl.flock(self.descriptor, fcntl.LOCK_EX | fcntl.LOCK_NB)
                return
            except BlockingIOError:
                pass
            if is_leaving():
                raise Leaving
            if time.monotonic() > tells:
                tell(f"{self.path} is held: another node, or its manager, still runs; waiting")
                tells = float("inf")
            time.sleep(0.02)


def whole_size(path: str) -> int:
    """How many bytes the whole lines of a log have."""
    try:
        with open(path, "rb") as file:
            size = file.seek(0, os.SEEK_END)
            begin = file.seek(max(size - 65536, 0))
            return begin + file.read().rfind(b"\n") + 1
    except FileNotFoundError:
        return 0


class Process:
    """`smirun live`, and what it writes."""

    def __init__(self, manager: Manager, lock: Lock) -> None:
        self.log, self.begins_at = manager.log, whole_size(manager.log)
        os.close(os.open(self.log, os.O_WRONLY | os.O_CREAT | os.O_CLOEXEC, 0o600))
        words = [PROGRAM, "live", manager.domain_path, "--log", self.log, "--resume", "--capacity",
                 str(manager.capacity), *(["--sync"] if manager.sync else [])]
        pipe = subprocess.PIPE
        self.process = subprocess.Popen(words, stdin=pipe, stdout=pipe, stderr=pipe, bufsize=0,
                                        pass_fds=[lock.descriptor], start_new_session=True)
        assert self.process.stdin and self.process.stdout and self.process.stderr
        self.stdin = self.process.stdin
        for stream in (self.stdin, self.process.stdout, self.process.stderr):
            os.set_blocking(stream.fileno(), False)
        self.to = Outlet(self.stdin.fileno())
        self.told = Inlet(self.process.stdout.fileno(), LONGEST_TOLD)
        self.errors = Inlet(self.process.stderr.fileno(), LONGEST_TOLD)
        self.is_synced = manager.sync

    def flush(self) -> None:
        while self.to.waiting and self.to.write():
            pass

    def is_blocked(self) -> bool:
        return bool(self.to.waiting) and not self.to.is_broken

    def read(self) -> list[bytes]:
        """The lines that it told. All that is there is taken, so that what it wrote at once is heard at once."""
        lines: list[bytes] = []
        while got := self.told.read():
            lines += got
        return lines

    def read_errors(self) -> list[str]:
        return [line.decode("latin1") for line in self.errors.read()]

    def size(self) -> int:
        return os.stat(self.log).st_size

    def keep(self, line: str, begin: int, turn: Callable[[], bool]) -> None:
        """Waits until the log has a line, from byte BEGIN on: a remark has no answer that would tell it. `turn` does
        what has to go on, and says whether it is waited for any longer. Where the log is synced, so is the line."""
        wanted, ends = f"\n{line}\n".encode("ascii"), time.monotonic() + KEEP_SECONDS
        with open(self.log, "rb") as log:
            log.seek(max(begin - 1, 0))
            had = b"" if begin else b"\n"
            while True:
                self.flush()
                had += log.read()
                if wanted in had:
                    break
                had = had[-len(wanted):]
                if not turn():
                    return
                if time.monotonic() > ends or self.told.has_ended:
                    raise Ended
                time.sleep(0.001)
            if self.is_synced:
                os.fdatasync(log.fileno())

    def close_input(self) -> None:
        """The manager's input ends, after whole lines."""
        ends = time.monotonic() + PATIENCE
        while self.is_blocked() and time.monotonic() < ends:
            self.flush()
            time.sleep(0.001)
        self.stdin.close()
        self.to.close()

    def end(self) -> int:
        """The manager has ended, or is ended now: its status."""
        for stream in (self.stdin, self.process.stdout, self.process.stderr):
            if stream:
                stream.close()
        self.to.close()
        try:
            return self.process.wait(PATIENCE if self.told.has_ended else 0)
        except subprocess.TimeoutExpired:
            self.process.kill()
            return self.process.wait()


@dataclass(frozen=True)
class Side:
    """The node's side of a driver: what it is told first, who hears its lines, for which objects it may speak, and who
    hears what is to be said to people."""
    greeting: Callable[[], list[str]]
    heard: Callable[[str], None]
    may: Callable[[str], bool]
    tell: Callable[[str], None]


class Program:
    """A driver that is a program of its own: it reads what the manager tells, and writes lines for it."""

    def __init__(self, words: list[str], folder: str, ready: selectors.BaseSelector, side: Side) -> None:
        self.words, self.folder, self.ready, self.side = words, folder, ready, side
        self.process: subprocess.Popen[bytes] | None = None
        self.next_start = 0.0

    def start(self, now: float) -> None:
        self.next_start = now + AGAIN
        self.process = subprocess.Popen(self.words, stdin=subprocess.PIPE, stdout=subprocess.PIPE, bufsize=0,
                                        start_new_session=True, cwd=self.folder,
                                        env=os.environ | {"SMIRUN": PROGRAM})
        assert self.process.stdin and self.process.stdout
        for stream in (self.process.stdin, self.process.stdout):
            os.set_blocking(stream.fileno(), False)
        self.to = Outlet(self.process.stdin.fileno())
        self.told = Inlet(self.process.stdout.fileno(), LONGEST_LINE)
        self.ready.register(self.process.stdout, selectors.EVENT_READ, self.hear)
        for line in self.side.greeting():
            self.to.put(line.encode("latin1"))

    def tell(self, line: bytes) -> None:
        if self.process is not None:
            self.to.put(line)

    def tick(self, now: float) -> None:
        if self.process is None:
            if now >= self.next_start:
                try:
                    self.start(now)
                except OSError as fault:
                    self.next_start = now + LATER
                    self.side.tell(f"the driver {self.words[0]} could not be started: {fault.strerror}")
            return
        while self.to.waiting and self.to.write():
            pass
        if len(self.to.waiting) > MOST_WAITING:
            self.side.tell(f"the driver {self.words[0]} does not read what it is told; it is ended")
            self.process.kill()
            self.to.waiting.clear()

    def next_time(self, now: float) -> float:
        if self.process is None:
            return self.next_start
        return now + 0.05 if self.to.waiting else float("inf")

    def hear(self) -> None:
        for line in self.told.read():
            text = line.decode("latin1")
            found = None if "! once " in text else _DRIVERS_LINE.fullmatch(text)
            if found and len(text) <= LONGEST_LINE and text.isascii() and text.replace("\t", " ").isprintable() and (
                    not found[2] or self.side.may(found[2].upper())):
                self.side.heard(text)
        if self.told.has_ended:
            self.side.tell(f"the driver {self.words[0]} has ended; it is started again")
            self.end()

    def end(self) -> None:
        if self.process is not None and self.process.stdin and self.process.stdout:
            self.ready.unregister(self.process.stdout)
            self.process.stdin.close()
            self.process.stdout.close()
            self.process.kill()
            self.process.wait()
        self.process = None
        self.next_start = time.monotonic() + AGAIN
