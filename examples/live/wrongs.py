"""What is wrong with a detector: from how all stands, since when, who drives what, and who waits for whom. `panel.py`
shows it in a strip at its top."""
from __future__ import annotations

import collections
import dataclasses
import re
from collections.abc import Iterable, Iterator

from domain import Domain, Standing

# A device is silent whose action has been open for this many seconds, where nothing else was asked for.
SILENT_SECONDS = 30.0
BAD = re.compile("ERROR|FAULT|FAIL|TRIP|ALARM")
# This many objects are named in a row of the strip.
NAMED = 6


class Wrong:
    """Something that is wrong: what kind of thing, a sentence, the objects that it is about, and since when."""

    def __init__(self, kind: str, sentence: str, objects: Iterable[str] = (), since: float | None = None) -> None:
        self.kind, self.sentence, self.objects, self.since = kind, sentence, [*objects], since

    def of_json(self) -> dict[str, object]:
        return {"kind": self.kind, "text": self.sentence, "objects": self.objects, "since": self.since}


def mood_of(domain: Domain, name: str, state: str) -> str:
    """The domain says of no state whether it is a good one, so its marks and its name have to say it."""
    kind = domain.classes[domain.objects[name]]
    if state == kind.dead:
        return "dead"
    if BAD.search(state):
        return "bad"
    return "initial" if state == kind.initial else "other"


def named(names: Iterable[str]) -> str:
    """A few names, and how many more there are."""
    everything = [*names]
    rest = len(everything) - NAMED
    return ", ".join(everything[:NAMED]) + (f" and {rest} more" if rest > 0 else "")


def waiters_of(waits: dict[str, list[str]]) -> dict[str, list[str]]:
    """Of each object those that wait for it, of each object those for which it waits."""
    waiters: dict[str, list[str]] = {}
    for name, whom in waits.items():
        for one in dict.fromkeys(whom):
            waiters.setdefault(one, []).append(name)
    return waiters


def chain_above(name: str, waiters: dict[str, list[str]]) -> list[str]:
    """Who waits for an object, who waits for these, and so on: each once, the nearest first."""
    found = {name: None}
    coming = collections.deque([name])
    while coming:
        for other in waiters.get(coming.popleft(), []):
            if other not in found:
                found[other] = None
                coming.append(other)
    return [*found][1:]


def circle(waits: dict[str, list[str]]) -> list[str]:
    """Objects that wait for one another in a ring, if there are such: the first that is found."""
    done: set[str] = set()
    for first in waits:
        # The way from `first`, and of each object on it those for which it waits that were not looked at.
        way: dict[str, Iterator[str]] = {} if first in done else {first: iter(waits[first])}
        while way:
            last = next(reversed(way))
            one = next(way[last], None)
            if one is None:
                done.add(last)
                del way[last]
            elif one in way:
                ring = [*way]
                return ring[ring.index(one):]
            elif one in waits and one not in done:
                way[one] = iter(waits[one])
    return []


class Since:
    """Since when each object is in its state, and since when its action is open; None, where it was so at first."""

    def __init__(self) -> None:
        self.states: dict[str, float | None] = {}
        self.opens: dict[str, float | None] = {}
        self.last_states: dict[str, str] = {}
        self.last_opens: dict[str, tuple[str, str]] = {}

    def take(self, standing: Standing, now: float, names: Iterable[str] | None = None) -> None:
        """Takes how these objects stand now, or all. What is there at first has been there for a time that is not
        known; an action that was open then has been so from now on at least."""
        is_first = not self.last_states
        for name in standing.states if is_first or names is None else names:
            if self.last_states.get(name) != standing.states[name]:
                self.states[name] = None if is_first else now
                self.last_states[name] = standing.states[name]
            self.take_open(standing, name, now)

    def take_open(self, standing: Standing, name: str, now: float) -> None:
        if name not in standing.open:
            self.last_opens.pop(name, None)
            self.opens.pop(name, None)
            return
        action, start, last = standing.open[name][0], standing.starts.get(name, ""), self.last_opens.get(name)
        # How all stands has no start; one that is told again after it is the same.
        is_same = last is not None and last[0] == action and not (start and last[1] and start != last[1])
        if not is_same:
            self.opens[name] = now
        self.last_opens[name] = (action, start or (last[1] if last and is_same else ""))


class Drivers:
    """What the gateway says of drivers: which devices have one, and since when others have none any more."""

    SAID = re.compile(r"driver of (.*) (here|lost)")

    def __init__(self) -> None:
        self.here: set[str] = set()
        self.lost: dict[str, float] = {}
        self.is_told = False

    def begin(self, now: float) -> None:
        """A new connection: the gateway tells anew who is there. Drivers that do not come back are lost from now on."""
        self.lost = {**dict.fromkeys(self.here, now), **self.lost}
        self.here, self.is_told = set(), False

    def take(self, sentence: str, now: float) -> None:
        # After this line the drivers that are there are told.
        self.is_told = self.is_told or sentence == "told"
        if found := self.SAID.fullmatch(sentence):
            names = found[1].split()
            if found[2] == "here":
                self.here.update(names)
                for name in names:
                    self.lost.pop(name, None)
            else:
                self.here.difference_update(names)
                self.lost.update(dict.fromkeys(names, now))

    def lacks(self, name: str) -> bool:
        """Whether a device has no driver, as far as is known: a gateway without a driver that says what it drives says
        nothing of any."""
        return name in self.lost or bool(self.here) and name not in self.here


@dataclasses.dataclass
class Facts:
    """What is known of a detector: how all stands, and since when; who drives what; for whom objects wait; which
    devices the gateway called late, and when. Objects are named in an order: whoever commands others stands first."""

    domain: Domain
    standing: Standing
    since: Since
    drivers: Drivers
    order: list[str]
    waits: dict[str, list[str]] = dataclasses.field(default_factory=dict)
    late: dict[str, float] = dataclasses.field(default_factory=dict)
    silent: float = SILENT_SECONDS


def wrongs(facts: Facts, now: float) -> list[Wrong]:
    """What is wrong, the worst first."""
    found = [*silent_ones(facts, now)]
    if ring := circle(facts.waits):
        found.append(Wrong("circle", f"{named(ring)} wait for one another", ring, earliest(facts.since.opens, ring)))
    if lost := [name for name in facts.order if name in facts.domain.devices and facts.drivers.lacks(name)]:
        found.append(Wrong("driver", f"no driver: {named(lost)}", lost, earliest(facts.drivers.lost, lost)))
    for mood, words in (("dead", "dead"), ("bad", "in error")):
        names = [name for name in facts.order if mood_of(facts.domain, name, facts.standing.states[name]) == mood]
        if names:
            ages = [at for name in names if (at := facts.since.states.get(name)) is not None]
            found.append(Wrong(mood, f"{words}: {named(names)}", names, max(ages, default=None)))
    return found


def earliest(times: dict[str, float] | dict[str, float | None], names: Iterable[str]) -> float | None:
    """The first of these times that is known."""
    return min((at for name in names if (at := times.get(name)) is not None), default=None)


def silent_ones(facts: Facts, now: float) -> Iterator[Wrong]:
    """Devices whose action has been open for long, those with the same waiters in one row."""
    opens, waiters = facts.since.opens, waiters_of(facts.waits)
    rows: dict[tuple[str, ...], list[str]] = {}
    for name in facts.standing.open:
        begun = opens.get(name)
        if name in facts.domain.devices and begun is not None and (name in facts.late or now - begun >= facts.silent):
            rows.setdefault(tuple(chain_above(name, waiters)), []).append(name)
    for above, names in rows.items():
        actions = [*dict.fromkeys(facts.standing.open[name][0] for name in names)]
        sentence = f"no answer to {named(actions)}: {named(names)}"
        if facts.drivers.is_told and not facts.drivers.here.intersection(names):
            sentence += ", without a driver"
        if above:
            sentence += f"; {' ← '.join(above[:NAMED])} wait{'s' if len(above) == 1 else ''} for it"
        yield Wrong("silent", sentence, [*names, *above], earliest(opens, names))
