"""What a panel knows of a detector, by what the gateway tells: for the page, for `healthz` and for `metrics`."""
from __future__ import annotations

import collections
import re
import time
from typing import Any

from domain import Domain, Standing, tells_standing
from managers import LASTING
from recent import Recent
from wrongs import SILENT_SECONDS, Drivers, Facts, Since, Wrong, mood_of, wrongs

# The page shows this much of what the manager wrote.
LINES_SHOWN = 200
# What the gateway complains of, where it is not over after a while.
AWAY = re.compile(r"is away|is gone|cannot be kept")
# What has happened is shown for a while; a log is told of where this much of it is full, in percent.
SHOWN_SECONDS, LOG_IS_LONG = 600.0, 80
RESTARTED, BEGUN_ANEW = "the manager was started again", "the manager goes on in a new log"
HELD = re.compile(r"(\w+) is held by (.*)")
LATE = re.compile(r"(\w+) \w+: \S+ s without an answer")
# An object in the page's tree: name, class, whether it is a device, depth, who else commands it.
Row = tuple[str, str, bool, int, list[str]]


def tree_of(domain: Domain) -> list[Row]:
    """The objects, each below the first that commands it: name, class, whether a device, depth, who else does."""
    above: dict[str, list[str]] = {name: [] for name in domain.objects}
    for name in domain.objects:
        for below in domain.commands[name]:
            above[below].append(name)
    rows: list[Row] = []
    seen: set[str] = set()
    # Whoever is in a ring is below nobody who stands at the top.
    tops = sorted(domain.objects, key=lambda name: bool(above[name]))
    coming: list[tuple[str, int, str | None]] = [(name, 0, None) for name in reversed(tops)]
    while coming:
        name, depth, by = coming.pop()
        if name not in seen:
            seen.add(name)
            others = [other for other in above[name] if other != by]
            rows.append((name, domain.objects[name], name in domain.devices, depth, others))
            coming += [(below, depth + 1, name) for below in reversed(domain.commands[name])]
    return rows


class View:
    """How all stands, since when, who drives what, who waits for whom, who has what, what is complained of, and what
    was asked here lately. Whoever uses it holds the panel's lock."""

    def __init__(self, domain: Domain, silent: float = SILENT_SECONDS) -> None:
        self.domain, self.recent = domain, Recent()
        self.facts = Facts(domain, Standing(domain), Since(), Drivers(), [row[0] for row in tree_of(domain)],
                           silent=silent)
        self.last: collections.deque[str] = collections.deque(maxlen=LINES_SHOWN)
        self.holders: dict[str, str] = {}
        self.complaints: dict[str, float] = {}
        # What has happened, and when: a manager that was started again; what nobody knows of; since when it is cut off.
        self.happened: dict[str, float] = {}
        self.unknown: dict[str, tuple[str, float]] = {}
        self.cut_since: float | None = time.time()
        self.who, self.is_greeted, self.has_ended = "", False, False
        # How often something changed for the page, and how many lines were told.
        self.count, self.told = 0, 0

    # What is told.

    def begin(self, first: str) -> None:
        """A new connection, by the first line that the gateway tells: `# session @1 anna`. All is told anew."""
        self.facts.standing = Standing(self.domain)
        self.facts.drivers.begin(time.time())
        self.holders, self.complaints, self.is_greeted, self.cut_since = {}, {}, False, None
        self.who = first.split()[-1]
        self.keep(first)

    def cut(self) -> None:
        self.cut_since = self.cut_since or time.time()
        self.keep("# the connection to the gateway is cut")

    def end(self) -> None:
        self.has_ended = True
        self.keep("# there is no gateway; start the panel anew")

    def lose(self, line: str) -> None:
        """It is not known what became of a line."""
        if row := self.recent.lose(line):
            now = time.time()
            self.unknown = {text: one for text, one in self.unknown.items() if now - one[1] < SHOWN_SECONDS}
            self.unknown[row.text] = (row.name, now)

    def keep(self, line: str) -> None:
        self.last.append(line)
        self.count += 1
        self.told += 1

    def hear(self, mark: str, line: str, now: float) -> None:
        """A line of the gateway, but for how all stands where it was asked for."""
        if mark == "#":
            self.hear_gateway(line, now)
        if mark in ("=", "-"):
            self.hear_manager(line, now)
        if mark == "-" and tells_standing(line):
            self.count += 1
        elif mark == "#" and line == "told":
            self.count += 1
        else:
            self.keep(f"{mark} {line}")

    def hear_manager(self, line: str, now: float) -> None:
        standing = self.facts.standing
        standing.take(line)
        self.recent.take(line, standing)
        if line == "! begun anew":
            self.recent.begin_anew()
            self.happened[BEGUN_ANEW] = now
            self.forget("log ", "limit", "full", "nine tenths")
        elif line == "! restarted":
            self.hear_restart(now)
        if self.is_greeted and line.startswith("stands "):
            self.compare(now)
        elif self.is_greeted and not standing.is_told:
            words = line.split(" ", 2)
            names = [word for word in words[1:2] if word in standing.states]
            self.facts.since.take(standing, now, names)
            if names and names[0] not in standing.open:
                self.facts.late.pop(names[0], None)

    def compare(self, now: float) -> None:
        """How all stands was told anew."""
        standing = self.facts.standing
        self.facts.since.take(standing, now)
        self.facts.late = {name: at for name, at in self.facts.late.items() if name in standing.open}
        self.recent.compare(standing)

    def hear_restart(self, now: float) -> None:
        """Another manager tells anew what it complains of; how full its log is the gateway tells."""
        self.happened[RESTARTED] = now
        self.complaints = {said: at for said, at in self.complaints.items() if said.startswith("log ")}

    def forget(self, *words: str) -> None:
        """Forgets complaints that have one of these words."""
        self.complaints = {said: at for said, at in self.complaints.items() if not any(word in said for word in words)}

    def hear_gateway(self, line: str, now: float) -> None:
        """A sentence of the gateway: of drivers, of holders, of what is late; or of the manager, which complains."""
        self.facts.drivers.take(line, now)
        if line == "told":
            self.is_greeted = True
            self.compare(now)
        elif found := HELD.fullmatch(line):
            self.holders.pop(found[1], None)
            if found[2] != "nobody":
                self.holders[found[1]] = found[2]
        elif found := LATE.match(line):
            self.facts.late.setdefault(found[1], now)
        elif line == "the manager is started again" or line.startswith("! restarted"):
            self.hear_restart(now)
        elif found := re.fullmatch(r"log (\d+) %", line):
            self.forget("log ")
            if int(found[1]) >= LOG_IS_LONG:
                self.complaints[f"{line} of what it may have"] = now
        elif LASTING.search(line) or AWAY.search(line):
            self.complaints.setdefault(line.partition(";")[0], now)

    def take_waits(self, lines: list[str]) -> None:
        """How all stands, as it was asked for: `open HV SWITCH_ON waits HV1 HV2` says for whom an object waits."""
        opens = [line.split(" ") for line in lines if line.startswith("open ")]
        self.facts.waits = {words[1]: words[4:] for words in opens
                            if words[3:4] == ["waits"] and words[4:] != ["device"]}
        self.count += 1

    # What is shown.

    def wrongs(self, now: float) -> list[Wrong]:
        """What is wrong, with what the gateway and the manager complain of."""
        found = [Wrong("manager", said, [], at) for said, at in reversed(self.complaints.items())]
        if self.cut_since is not None:
            found.insert(0, Wrong("manager", "no connection to the gateway", [], self.cut_since))
        found += wrongs(self.facts, now)
        found += [Wrong("restarted", said, [], at) for said, at in self.happened.items() if now - at < SHOWN_SECONDS]
        found += [Wrong("unknown", f"it is not known what became of {text}", [name], at)
                  for text, (name, at) in self.unknown.items() if now - at < SHOWN_SECONDS]
        return found

    def picture(self) -> dict[str, Any]:
        """How all stands, for the page."""
        now = time.time()
        return {"objects": {name: self.picture_of(name) for name in self.domain.objects},
                "sets": self.facts.standing.members, "lines": [*self.last], "cut": self.cut_since is not None,
                "ended": self.has_ended, "at": now, "recent": [row.of_json() for row in reversed(self.recent.rows)],
                "wrongs": [wrong.of_json() for wrong in self.wrongs(now)], "who": self.who}

    def picture_of(self, name: str) -> dict[str, Any]:
        facts, standing, kind = self.facts, self.facts.standing, self.domain.classes[self.domain.objects[name]]
        state = standing.states[name]
        mood = mood_of(self.domain, name, state)
        sets = standing.sets[name] if name in standing.open else {}
        parameters = {word: f"{value} -> {sets[word]}" if sets.get(word, value) != value else value
                      for word, value in standing.parameters[name].items()}
        actions = [] if mood == "dead" else [[action, words] for action, words in kind.states.get(state, {}).items()]
        return {"state": state, "mood": mood, "open": standing.open.get(name), "waiting": standing.waiting[name],
                "parameters": parameters, "actions": actions, "since": facts.since.states.get(name),
                "opened": facts.since.opens.get(name), "waits": facts.waits.get(name, []),
                "lacks": name in self.domain.devices and facts.drivers.lacks(name),
                "holder": self.holders.get(name, "")}
