"""What a panel asked for lately, and what became of it."""
from __future__ import annotations

import collections
import dataclasses
import re
import time

from domain import Standing

# This many are kept.
KEPT = 10
NOT_KNOWN = "not known"
# A request: its object, its session and its number.
Request = tuple[str, str, str]


@dataclasses.dataclass
class Row:
    """What was asked: the line as it was sent, in words, of which object, when, and what became of it."""

    line: str
    text: str
    name: str
    at: float
    said: str = "sent"

    def of_json(self) -> dict[str, object]:
        return {"text": self.text, "at": self.at, "said": self.said}


class Recent:
    """Follows requests by the manager's lines: by object, session and number."""

    def __init__(self) -> None:
        self.rows: collections.deque[Row] = collections.deque(maxlen=KEPT)
        self.requests: dict[Request, Row] = {}
        # The request that each object has in hand; and those that ended before their answer was told.
        self.in_hand: dict[str, Request] = {}
        self.ended_early: dict[Request, str] = {}

    def add(self, line: str) -> None:
        text = re.sub(r"^once \d+ request |^request ", "", line)
        words = text.split(" ")
        name = words[1] if words[0] in ("kill", "take", "release", "seize") else words[0]
        self.rows.append(Row(line, text, name, time.time()))

    def lose(self, line: str) -> Row | None:
        """It is not known what became of a line: its row, if it is kept."""
        row = self.sent(line)
        if row:
            row.said = NOT_KNOWN
        return row

    def sent(self, line: str) -> Row | None:
        return next((row for row in self.rows if row.line == line and row.said == "sent"), None)

    def answer(self, line: str, told: str, said: str) -> None:
        """The answer to a line: of an accepted request, which one it is."""
        row = self.sent(line)
        if not row:
            return
        row.said = "killed" if told.startswith("kill ") else said
        if found := re.search(r"accept (@\d) (\w+) (\d+) (\w+)", told):
            key = (found[2], found[1], found[3])
            if self.in_hand.get(found[2]) == key:
                row.said = "at work"
            # What has ended before its answer came (`once`) stands in the lines before.
            if key in self.ended_early:
                row.said = self.ended_early.pop(key)
                return
            self.requests[key] = row
            while len(self.requests) > 2 * KEPT:
                del self.requests[next(iter(self.requests))]

    def take(self, line: str, standing: Standing) -> None:
        """Takes a line of the manager, after which all stands so: requests wait, are at work, have ended, were skipped,
        or cut by a kill."""
        words = line.split(" ")
        if words[0] == "start" and len(words) > 4:
            self.in_hand[words[1]] = (words[1], words[2], words[3])
            self.tell(words[1], "at work")
        elif words[0] == "end" and len(words) > 2 and words[1] in self.in_hand:
            self.tell(words[1], skipped(words[1], standing) if words[2] == "skipped" else f"ended: {words[2]}", True)
        elif words[0] == "kill" and len(words) > 2 and words[1] in self.in_hand:
            self.tell(words[1], "cut by a kill", True)

    def tell(self, name: str, said: str, is_end: bool = False) -> None:
        key = self.in_hand[name]
        if row := self.requests.get(key):
            row.said = said
        elif is_end and key[1].startswith("@"):
            self.ended_early[key] = said
            while len(self.ended_early) > KEPT:
                del self.ended_early[next(iter(self.ended_early))]
        if is_end:
            self.requests.pop(key, None)
            del self.in_hand[name]

    def compare(self, standing: Standing) -> None:
        """How all stands was told anew, since lines were lost. What is at work no more has ended, it is not known how;
        what an object of another action has in hand is not known."""
        in_hand, self.in_hand = self.in_hand, {}
        for name, key in in_hand.items():
            row = self.requests.get(key)
            if row and name in standing.open and row.text.split(" ")[1] == standing.open[name][0]:
                self.in_hand[name] = key
            elif row:
                row.said = NOT_KNOWN
                del self.requests[key]

    def begin_anew(self) -> None:
        """The manager goes on in another log, in which numbers are of other requests. It was at rest."""
        self.requests.clear()
        self.in_hand.clear()
        self.ended_early.clear()


def skipped(name: str, standing: Standing) -> str:
    state = standing.states.get(name, "")
    actions = standing.domain.class_of(name).states.get(state, {})
    return f"skipped: {name} is {state}, which has {', '.join(actions) or 'no action'}"
