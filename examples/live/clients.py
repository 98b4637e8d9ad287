"""The clients of a gateway, their lines that have an answer to come, and who asks how all stands."""
from __future__ import annotations

import collections
import socket
import time

from lines import LONGEST_LINE, Inlet, Outlet, asked_once

# A client may be connected without a session for this many seconds; less, where it was told to leave.
STRANGERS_SECONDS, LEAVING_SECONDS = 10.0, 2.0
# This many lines of a client may be without an answer: what one client floods stands before another's kill at most.
MOST_UNANSWERED = 64
# This many bytes may wait for a client that does not read.
MOST_UNREAD = 1 << 20
# What the manager says on standard error where it does not tell how all stands.
NOT_TOLD = b"? not told"


class Asked:
    """A line of a client that has an answer to come, as the manager gets it, of whom the log has it, and which request
    it is an answer of, if it names one. It may be of no client, but of the gateway itself."""

    def __init__(self, client: Client | None, line: bytes = b"", who: str = "",
                 request: tuple[str, str] | None = None) -> None:
        self.client, self.line, self.who, self.request = client, line, who, request
        self.answer: bytes | None = None
        self.is_once = asked_once(line) != b""

    def tell(self, answer: bytes) -> None:
        if self.client:
            self.client.answer(self, answer)


class Client:
    """A connection: a stranger without a session at first, then a client with one, or a driver, whose session is that
    of all drivers."""

    def __init__(self, link: socket.socket) -> None:
        link.setblocking(False)
        self.link, self.since = link, time.monotonic()
        self.session: int | None = None
        # Its name for others, and what it drives.
        self.who = ""
        self.devices: set[str] | None = None
        self.inlet, self.outlet = Inlet(link.fileno()), Outlet(link.fileno())
        # Lines that came and were not looked at; and those without an answer, or with one that waits for an earlier.
        self.lines: collections.deque[bytes] = collections.deque()
        self.asked: collections.deque[Asked] = collections.deque()
        self.is_leaving = False

    def tell(self, mark: bytes, line: bytes) -> None:
        self.outlet.put(mark + b" " + line if line else mark)

    def answer(self, asked: Asked, line: bytes) -> None:
        asked.answer = line
        while self.asked and (first := self.asked[0].answer) is not None:
            self.tell(b"=", first)
            self.asked.popleft()

    def refuse(self, refusal: str) -> None:
        """The gateway's own answer to its next line."""
        asked = Asked(self)
        self.asked.append(asked)
        self.answer(asked, refusal.encode())

    def name_in_log(self) -> str:
        session = f"@{self.session}"
        return self.who if self.devices is not None or self.who == session else f"{session} {self.who}"

    def leave(self, sentence: str) -> None:
        """Is told why it has to leave. What it still writes is read and dropped, or it might not get the sentence."""
        self.tell(b"#", sentence.encode())
        self.is_leaving, self.session, self.devices, self.since = True, None, None, time.monotonic()
        self.lines.clear()

    def may_speak(self) -> bool:
        """Whether its next line may be handed on. After a request that is made once and has no answer none may."""
        waits = bool(self.asked) and self.asked[-1].is_once
        return bool(self.lines) and len(self.asked) < MOST_UNANSWERED and not waits and not self.is_leaving

    def reads(self) -> bool:
        return not self.inlet.has_ended and not self.lines

    def read(self) -> None:
        lines = self.inlet.read()
        if self.is_leaving:
            return
        self.lines.extend(lines)
        if len(self.inlet.rest) > LONGEST_LINE:
            self.leave(f"a line has {LONGEST_LINE} bytes at most")

    def write(self) -> None:
        self.outlet.write()
        if self.is_leaving and not self.outlet.waiting and not self.outlet.is_broken:
            try:
                self.link.shutdown(socket.SHUT_WR)
            except OSError:
                self.outlet.is_broken = True  # it was cut meanwhile

    def is_late(self) -> bool:
        seconds = time.monotonic() - self.since
        return self.session is None and seconds > (LEAVING_SECONDS if self.is_leaving else STRANGERS_SECONDS)

    def is_deaf(self) -> bool:
        return self.outlet.is_broken or len(self.outlet.waiting) > MOST_UNREAD

    def has_left(self) -> bool:
        return self.inlet.has_ended and not (self.lines or self.asked or self.outlet.waiting)


class Standings:
    """How all stands, for those who ask for it, which the manager tells on standard error.

    It begins with the state of the first object, and ends with `stands E`; `? not told` is all where it is not told.
    What has no such beginning is the rest of what was asked for before the manager was started again.
    """

    def __init__(self, first: str, manager: Outlet) -> None:
        self.first, self.manager = f"state {first} ".encode(), manager
        self.wanting: list[Client] = []
        self.asking: list[Client] = []
        self.lines: list[bytes] | None = None

    def want(self, client: Client) -> None:
        if client not in self.wanting:
            self.wanting.append(client)
        if not self.asking:
            self.ask()

    def has(self, client: Client) -> bool:
        return client in self.wanting or client in self.asking

    def ask(self) -> None:
        """It is also called where the manager was started again, with those who were asking."""
        self.asking, self.wanting, self.lines = self.asking + self.wanting, [], None
        if self.asking:
            self.manager.put(b"?")

    def take(self, line: bytes) -> None:
        """Takes a line of standard error that is of how all stands."""
        if line == NOT_TOLD:
            self.tell([b"not told"])
            return
        if line.startswith(self.first):
            self.lines = []
        if self.lines is None:
            return
        self.lines.append(line)
        if line.startswith(b"stands "):
            self.tell(self.lines)

    def tell(self, lines: list[bytes]) -> None:
        """Tells it to those who ask, and asks for those who came since."""
        for client in self.asking:
            for line in [*lines, b""]:
                client.tell(b"?", line)
        self.asking = []
        self.ask()
