"""Who drives which devices at a gateway, and which actions are late. `gateway.py` uses it."""
from __future__ import annotations

import re
from collections.abc import Container, Iterable

from domain import Domain

PATTERN = re.compile(r"[A-Z][A-Z0-9_]*\*?|\*")
NO_NAMES = "a driver names devices: OBJECT.., or a beginning of names and *"


def devices_of(words: Iterable[str], devices: Iterable[str]) -> list[str]:
    """The devices that words name, in the order of the domain: a name, or the beginning of names and `*`. ValueError,
    with a sentence, where a word names none."""
    found: set[str] = set()
    everything = dict.fromkeys(devices)
    for name in dict.fromkeys(word.upper() for word in words):
        if not PATTERN.fullmatch(name):
            raise ValueError(NO_NAMES)
        beginning = name.removesuffix("*")
        if name == beginning:
            named = [name] if name in everything else []
        else:
            named = [one for one in everything if one.startswith(beginning)]
        if not named:
            raise ValueError(f"no device {'begins with' if name != beginning else 'is called'} {beginning}")
        found.update(named)
    if not found:
        raise ValueError(NO_NAMES)
    return [one for one in everything if one in found]


class Drivers:
    """Which driver each device has, if any."""

    def __init__(self, domain: Domain) -> None:
        self.devices = [name for name in domain.objects if name in domain.devices]
        self.of: dict[str, object] = {}

    def come(self, driver: object, words: Iterable[str]) -> list[str]:
        """A driver comes: the devices that it drives from now on. ValueError, with a sentence, where it may not."""
        named = devices_of(words, self.devices)
        for name in named:
            if name in self.of:
                raise ValueError(f"{name} has a driver already")
        self.of.update(dict.fromkeys(named, driver))
        return named

    def go(self, driver: object) -> list[str]:
        """A driver goes: the devices that have none from now on."""
        lost = [name for name, one in self.of.items() if one is driver]
        for name in lost:
            del self.of[name]
        return lost

    def lists(self) -> list[list[str]]:
        """The devices of each driver, in the order in which the drivers came."""
        drivers: dict[int, list[str]] = {}
        for name, one in self.of.items():
            drivers.setdefault(id(one), []).append(name)
        return [*drivers.values()]


class Due:
    """An action of a device that may take this long: of which request it is, when it is late, and which state is then
    answered, if one is."""

    def __init__(self, request: tuple[str, str], action: str, seconds: float, state: str, now: float) -> None:
        self.request, self.action, self.seconds, self.state = request, action, seconds, state
        self.at, self.is_told = now + seconds, False


class Timeouts:
    """How long an action of a device may take, and which actions are late.

    A file has a line for each, `OBJECT ACTION SECONDS [STATE]`, where a class may stand for its objects; an object's
    own line counts before that of its class. Where there is a STATE, it is answered for an action that is late. What
    stands after `!` is a comment.
    """

    def __init__(self, domain: Domain, text: str = "") -> None:
        self.domain = domain
        self.limits: dict[tuple[str, str], tuple[float, str]] = {}
        self.due: dict[str, Due] = {}
        for number, line in enumerate(text.splitlines(), 1):
            words = line.partition("!")[0].upper().split()
            if words:
                try:
                    self.add(words)
                except ValueError as fault:
                    raise ValueError(f"line {number}: {fault}") from None

    def add(self, words: list[str]) -> None:
        if len(words) not in (3, 4):
            raise ValueError("a line is OBJECT ACTION SECONDS [STATE]")
        name, action, seconds, state = (*words, "")[:4]
        kind = self.domain.classes.get(self.domain.objects.get(name, name))
        if kind is None:
            raise ValueError(f"no object and no class is called {name}")
        if not kind.is_associated:
            raise ValueError(f"{name} has no device")
        if not any(action in actions for actions in kind.states.values()):
            raise ValueError(f"{name} declares no action {action}")
        if state and state not in kind.states and state != kind.dead:
            raise ValueError(f"{name} has no state {state}")
        if not re.fullmatch(r"[0-9]{1,7}(\.[0-9]{1,3})?", seconds) or float(seconds) == 0:
            raise ValueError(f"{seconds} is no number of seconds")
        if (name, action) in self.limits:
            raise ValueError(f"a second line for {name} {action}")
        self.limits[name, action] = (float(seconds), state)

    def take(self, line: str, now: float) -> None:
        """Takes a line that the manager wrote. A start that is told again begins no new time."""
        words = line.split(" ", 5)
        if words[0] == "start" and words[1] in self.domain.devices:
            name, action, request = words[1], words[4], (words[2], words[3])
            limit = self.limits.get((name, action)) or self.limits.get((self.domain.objects[name], action))
            if name not in self.due or self.due[name].request != request:
                self.due.pop(name, None)
                if limit:
                    self.due[name] = Due(request, action, *limit, now)
        elif words[0] in ("end", "kill") and len(words) > 2:
            self.due.pop(words[1], None)

    def keep(self, open_ones: Container[str]) -> None:
        """The manager has told anew what is open: what is so no more is not late."""
        self.due = {name: due for name, due in self.due.items() if name in open_ones}

    def forget(self, name: str) -> None:
        """An answer to what is late was lost: where its start is told again, its time begins anew."""
        self.due.pop(name, None)

    def late(self, now: float) -> list[tuple[str, str, float, str]]:
        """The actions that are late by now, each told once: device, action, seconds, and the state to be answered."""
        late = [(name, due) for name, due in self.due.items() if due.at <= now and not due.is_told]
        for _, due in late:
            due.is_told = True
        return [(name, due.action, due.seconds, due.state) for name, due in late]

    def next(self) -> float:
        """When the next action is late, if it has no answer by then."""
        return min((due.at for due in self.due.values() if not due.is_told), default=float("inf"))
