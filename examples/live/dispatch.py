"""Hands lines of a gateway's clients on to the manager, and finds whose line is answered by what the manager tells."""
from __future__ import annotations

import collections
import time
from collections.abc import Callable

from client_lines import ANSWERS, object_of
from clients import Asked
from lines import Outlet, answers, is_held
from times import Times

UNANSWERED = b"! unanswered "


class Unanswered:
    """The lines that have an answer to come, in the order in which the manager gets them. What a manager holds back,
    from `! holds` to `! goes on` or `! begun anew`, is not answered meanwhile."""

    def __init__(self, manager: Outlet, devices: set[str]) -> None:
        self.manager, self.devices, self.holds = manager, devices, False
        self.lines: collections.deque[Asked] = collections.deque()

    def put(self, asked: Asked) -> None:
        self.manager.put(asked.line)
        self.lines.append(asked)

    def take(self, told: bytes) -> Asked | None:
        """The line that has its answer by this line of the manager, if one has. A request that is made once and whose
        answer was swallowed is put again: after all others, which does not matter, as its client waits for it."""
        if told in (b"! holds", b"! goes on", b"! begun anew", b"! restarted"):
            self.holds = told == b"! holds"
        asked = next((one for one in self.lines if not self.holds or not is_held(one.line)), None)
        if asked is None or not answers(told, asked.line, self.devices):
            return None
        self.lines.remove(asked)
        if asked.is_once and told.startswith(UNANSWERED):
            self.put(asked)
            return None
        return asked

    def give_up(self) -> list[Asked]:
        """The manager has ended: what has no answer to come. What is made once is put to the next one."""
        self.holds = False
        lost = [asked for asked in self.lines if not asked.is_once]
        self.lines = collections.deque(asked for asked in self.lines if asked.is_once)
        return lost

    def put_again(self, manager: Outlet) -> None:
        self.manager = manager
        for asked in self.lines:
            manager.put(asked.line)


class Dispatch:
    """The lines on their way to the manager, and with a log the remarks of when they came.

    One answer of a device is under way. A second that comes meanwhile is the same one, given again because a start was
    told again: it waits, since it would end the next action if the first has ended this one. Where the first was lost
    with a manager, so are those that wait: whoever gave them is told the start again, if its action is open still.
    """

    def __init__(self, manager: Outlet, devices: set[str], in_hand: Callable[[str], tuple[str, str] | None],
                 keeps_times: bool) -> None:
        self.in_hand, self.keeps_times, self.times = in_hand, keeps_times, Times()
        self.unanswered = Unanswered(manager, devices)
        # Of a device whose answer is under way the others that came meanwhile.
        self.waiting: dict[str, list[Asked]] = {}

    def hand_on(self, asked: Asked) -> None:
        """Hands a line on that has an answer to come."""
        word, name = object_of(asked.line)
        if word in ANSWERS:
            if name in self.waiting:
                self.waiting[name].append(asked)
                return
            self.waiting[name] = []
        if self.keeps_times and (remark := self.times.remark(time.time(), asked.who)):
            self.unanswered.manager.put(remark)
        self.unanswered.put(asked)

    def is_open(self, asked: Asked) -> bool:
        """Whether the device has the request in hand that an answer names, as far as the manager has told."""
        return asked.request is None or self.in_hand(object_of(asked.line)[1]) == asked.request

    def take(self, told: bytes) -> list[Asked]:
        """The lines that have their answer by this line of the manager: they are told."""
        asked = self.unanswered.take(told)
        return self.settle(asked, told) if asked else []

    def settle(self, asked: Asked, told: bytes) -> list[Asked]:
        """A line is answered, and those that waited for it: all that are."""
        asked.tell(told)
        word, name = object_of(asked.line)
        waiting = self.waiting.pop(name, []) if word in ANSWERS else []
        settled = [asked]
        while waiting:
            first = waiting.pop(0)
            if told.startswith(b"refused ") and self.is_open(first):
                self.hand_on(first)
                self.waiting[name] += waiting
                break
            first.tell(UNANSWERED + first.line if told.startswith(UNANSWERED) else b"refused NotOpen")
            settled.append(first)
        return settled

    def lose(self) -> list[Asked]:
        """The manager has ended: the lines that have no answer to come are told so."""
        return [one for asked in self.unanswered.give_up() for one in self.settle(asked, UNANSWERED + asked.line)]

    def begin_again(self, manager: Outlet) -> None:
        """Another manager is there. Its log has a time for what it is told."""
        self.times = Times()
        self.unanswered.put_again(manager)
