"""A panel's connection to a gateway: what it asks, and what it is told."""
from __future__ import annotations

import collections
import queue
import re
import socket
import threading
import time
from collections.abc import Callable, Iterator
from typing import Any, TextIO

from connections import shut
from domain import Domain
from lines import read_contact
from recent import NOT_KNOWN
from view import View
from wrongs import SILENT_SECONDS

ANSWER_SECONDS = 5.0
# A connection that was cut is tried again for this many seconds, and these are between two tries.
RETRY_SECONDS, PAUSE_SECONDS = 86400.0, 0.5
# An action that has been open for this long is asked about; between two questions lie this many times the seconds that
# the answer took, and this many seconds at least.
OPEN_SECONDS, QUESTIONS_APART, QUESTION_SECONDS = 2.0, 10.0, 2.0
# The last number of the session, where the clock has not come there yet.
LAST = re.compile(r"last (0|[1-9][0-9]{0,19})")


def said_of(answer: str, is_again: bool) -> str:
    """What the page shows of an answer. A request that was asked for again and is old may have been made or not."""
    once = re.fullmatch(r"once \w+ \d+ (.*)", answer)
    told = once[1] if once else answer
    if told.startswith("accept "):
        return "accepted"
    return NOT_KNOWN if is_again and told == "refused Old" else told


class Asked:
    """A line that was sent: whether it was sent again, whether its answer is waited for, and what is said of it."""

    def __init__(self, line: str) -> None:
        self.line, self.is_again, self.is_waited_for = line, False, True
        self.said: queue.SimpleQueue[str] = queue.SimpleQueue()

    def may_be_asked_again(self) -> bool:
        return self.line.startswith("once ") and self.is_waited_for


class Question:
    """The question how all stands: when it was asked, the lines that came, and when it may be asked again."""

    def __init__(self) -> None:
        self.asked_at: float | None = None
        self.lines: list[str] = []
        self.next, self.last_count = 0.0, -1

    def may_be_asked(self, view: View) -> bool:
        """Whether something has been open for a while, and something was told since it was asked last."""
        now, opens = time.time(), view.facts.since.opens.values()
        return (self.asked_at is None and time.monotonic() >= self.next and self.last_count != view.told
                and any(at is not None and now - at >= OPEN_SECONDS for at in opens))

    def ask(self, view: View) -> None:
        self.asked_at, self.lines, self.last_count = time.monotonic(), [], view.told

    def take(self, line: str) -> list[str] | None:
        """A line of the answer, of which an empty one is the end: the whole of it, then."""
        if line:
            self.lines.append(line)
            return None
        if self.asked_at is None:
            return None
        took, self.asked_at = time.monotonic() - self.asked_at, None
        self.next = time.monotonic() + max(QUESTION_SECONDS, QUESTIONS_APART * took)
        return self.lines


class Manager:
    """The manager behind a gateway: what is known of it, and the answers to what was asked."""

    def __init__(self, domain: Domain, contact: str, silent: float = SILENT_SECONDS) -> None:
        self.domain, self.contact, self.view, self.question = domain, contact, View(domain, silent), Question()
        # Lines that have no answer, in order; and the number of the last that is to be made once.
        self.asked: collections.deque[Asked] = collections.deque()
        self.number = 0
        # Who writes to the gateway has `asking`, and who looks at what is here `changed`, which is taken second.
        self.changed, self.asking = threading.Condition(), threading.Lock()
        # No link: the connection was cut. `at` is which gateway it was, by its secret, and with which session.
        self.link: socket.socket | None = None
        self.at: tuple[str, str] | None = None
        threading.Thread(target=self.follow, args=[self.connect()], daemon=True).start()
        threading.Thread(target=self.ask_who_waits, daemon=True).start()

    def connect(self) -> TextIO:
        """Connects to the gateway that the contact tells of: what it tells after the client's session."""
        host, port, secret = read_contact(self.contact)
        link = socket.create_connection((host, int(port)), ANSWER_SECONDS)
        try:
            link.sendall(secret.encode() + b"\n")
            told = link.makefile("r", encoding="latin1", newline="\n")
            first = told.readline().rstrip("\n")
            if not first.startswith("# session "):
                raise OSError(first.removeprefix("# ") or "the gateway says nothing")
            second = told.readline()
            if not second.endswith("\n"):
                raise OSError("the connection is cut")
        except OSError:
            link.close()
            raise
        link.settimeout(None)
        with self.asking:
            self.ask_again(link, (secret, first))
            # It may be the last number of the session: nobody asks before that is known.
            self.hear(second[:1], second[2:-1])
        return told

    def ask_again(self, link: socket.socket, at: tuple[str, str]) -> None:
        """Goes on with a new connection. What has no answer is asked again, if that is the same request there."""
        with self.changed:
            again = [asked for asked in self.asked if at == self.at and asked.may_be_asked_again()]
            self.give_up(lambda asked: asked not in again)
            self.view.begin(at[1])
            if at != self.at:
                self.number = 0  # it was that of another session
            self.question.asked_at, self.link, self.at = None, link, at
            self.changed.notify_all()
        for asked in again:
            asked.is_again = True
            self.write(link, asked.line)

    def give_up(self, is_lost: Callable[[Asked], bool]) -> None:
        """Says of what has no answer, if it is lost, that it is not known what became of it."""
        for asked in filter(is_lost, self.asked):
            asked.said.put(NOT_KNOWN)
            self.view.lose(asked.line)
        self.asked = collections.deque(asked for asked in self.asked if not is_lost(asked))

    @staticmethod
    def write(link: socket.socket, line: str) -> None:
        """Writes a line. Where that fails the connection was cut, which is seen by who reads it."""
        try:
            link.sendall(line.encode("ascii") + b"\n")
        except OSError:
            shut(link)

    def follow(self, told: TextIO | None) -> None:
        """Follows what the gateway tells. Where the connection is cut, another is made, if that can be."""
        while told:
            with told:
                self.hear_all(told)
            told = self.connect_again()
        with self.changed:
            self.give_up(lambda _: True)
            self.view.end()
            self.changed.notify_all()

    def hear_all(self, told: TextIO) -> None:
        try:
            for marked in told:
                if marked.endswith("\n"):  # a last one that was cut off is passed over
                    self.hear(marked[:1], marked[2:-1])
        except OSError:
            pass

    def hear(self, mark: str, line: str) -> None:
        with self.changed:
            if mark == "?":
                lines = self.question.take(line)
                if lines is None:
                    return
                self.view.take_waits(lines)
            else:
                self.view.hear(mark, line, time.time())
            if mark == "#" and (found := LAST.fullmatch(line)):
                self.number = max(self.number, int(found[1]))
            if mark == "=" and self.asked:
                asked = self.asked.popleft()
                asked.said.put(said := said_of(line, asked.is_again))
                self.view.recent.answer(asked.line, line, said)
            self.changed.notify_all()

    def ask_who_waits(self) -> None:
        """Asks who waits for whom, where something has been open for a while and has changed since it was asked."""
        while not self.view.has_ended:
            time.sleep(0.5)
            with self.asking:
                with self.changed:
                    link = self.link
                    if not self.view.facts.standing.open:
                        self.view.facts.waits = {}
                    if link is None or not self.question.may_be_asked(self.view):
                        continue
                    self.question.ask(self.view)
                self.write(link, "?")

    def connect_again(self) -> TextIO | None:
        """Tries to connect until it can, or for a while. What is not asked again has no answer to come."""
        link = self.link
        if link is not None:
            shut(link)  # so that nobody writes any more
        with self.asking, self.changed:
            if link is not None:
                link.close()
            self.link = None
            self.give_up(lambda asked: not asked.may_be_asked_again())
            self.view.cut()
            self.changed.notify_all()
        ends = time.monotonic() + RETRY_SECONDS
        while time.monotonic() < ends:
            try:
                return self.connect()
            except (OSError, OverflowError, ValueError, SystemExit):  # (the last where the contact tells of no gateway)
                time.sleep(PAUSE_SECONDS)
        return None

    def send(self, line: str) -> Asked | None:
        """Sends a line, a request as one that is made once; nothing where there is no gateway."""
        with self.asking:
            with self.changed:
                if self.link is None:
                    return None
                if line.startswith("request "):
                    self.number = max(self.number + 1, time.time_ns() // 1000)
                    line = f"once {self.number} {line}"
                asked, link = Asked(line), self.link
                self.view.recent.add(line)
                self.asked.append(asked)
            self.write(link, line)
        return asked

    def ask(self, line: str) -> Iterator[str]:
        """Asks by a line: `sent` once it was sent, and then what was answered, which is waited for."""
        asked = self.send(line)
        if asked is None:
            yield "not sent: there is no gateway"
            return
        yield "sent"
        try:
            yield asked.said.get(timeout=ANSWER_SECONDS)
        except queue.Empty:
            asked.is_waited_for = False
            yield "no answer yet" if self.link else NOT_KNOWN

    def wait_for_more(self, count: int, seconds: float) -> bool:
        """Waits until more was told than that, or for a while."""
        with self.changed:
            return self.changed.wait_for(lambda: self.view.count != count, seconds)

    def picture(self) -> tuple[int, dict[str, Any]]:
        """How all stands, for the page, and how many lines were told for it."""
        with self.changed:
            return self.view.count, self.view.picture()
