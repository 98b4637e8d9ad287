#!/usr/bin/env python3
"""Plays the devices of a domain for `smirun live`, over two FIFOs, at a gateway, or as a driver of a node of links/.

usage: play_devices.py FILE IN OUT                 IN is what the manager reads, OUT what it writes
       play_devices.py FILE --gateway CONTACT      CONTACT is the file that gateway.py --contact wrote
       play_devices.py FILE --pipe                 standard input and output; nothing is shown

FILE is the domain: examples/detector.sml, examples/partition.sml, or one with the same actions of devices. At each
`start` line of a device its action is begun, and answered after a while; the devices work at the same time. Over FIFOs
what the manager writes is shown, and SIGTERM ends it once the manager has ended. At a gateway it connects again, for
ever, and SIGTERM ends it at once.

With `--trip OBJECT=STATE@SECONDS` a device changes by itself: it is in STATE that many seconds after the start. With
`--trips PATH` each line `OBJECT STATE` that is added to the file PATH does so when it comes. A device that rests in
another state than its object asks for the report, the action REPORT of its own object, and answers it with the state
that it is in then; where that is refused, it asks again, ever more seldom. So its class declares `REPORT`, without
parameters, in each of its states. At first a device is in the state that the manager tells of its object. `--every`
says how often it is looked for changes, and after how long the report is asked for again at first.

A driver of real equipment has the same form: its `perform` talks to the equipment where this one waits (driver.py).
"""
from __future__ import annotations

import argparse
import os
import signal
import sys
import threading
import time

from connections import SESSION
from domain import Domain
from driver import FIRST_AGAIN, Arguments, Driver, Failed

# The action by which a change is reported.
REPORT = "REPORT"
MOST_SECONDS = 1_000_000.0

# The state that an action ends in, and the seconds that it takes.
ACTIONS = {
    "COOL": ("COLD", 1.2), "WARM_UP": ("WARM", 1.2), "SWITCH_ON": ("ON", 0.6), "SWITCH_OFF": ("OFF", 0.4),
    "LOAD": ("LOADED", 0.8), "CONFIGURE": ("READY", 0.8), "START": ("TAKING_DATA", 0.4), "STOP": ("READY", 0.4),
    "RESET": ("IDLE", 0.3),
}


class Player(Driver):
    """Plays devices: the first action of some fails, by a state, or by FAULT; some change by themselves."""

    def __init__(self, domain: Domain, failures: dict[str, str], factor: float, is_shown: bool,
                 first_again: float = FIRST_AGAIN) -> None:
        super().__init__([name for name in domain.objects if name in domain.devices], first_again)
        self.domain, self.failures, self.factor, self.is_shown = domain, failures, factor, is_shown
        # The states in which the devices are; those of their objects are `known`.
        self.states = {name: domain.class_of(name).initial for name in self.devices}
        self.known = dict(self.states)
        # Those that have changed neither by an action nor by themselves; and those whose objects' states were told.
        self.new, self.told = {*self.devices}, set[str]()
        self.reporting = [name for name in self.devices if REPORT in domain.class_of(name).actions()]

    def hear(self, mark: str, line: str, is_again: bool = False) -> None:
        words = line.split(" ")
        with self.lock:  # what is told of a device and how it is are compared meanwhile
            super().hear(mark, line, is_again)
            if words[0] == "state" and words[1] in self.new:
                self.states[words[1]] = words[2]
        if words[0] in ("state", "end") and words[2] != "skipped":
            self.told.add(words[1])

    def perform(self, name: str, action: str, arguments: Arguments) -> str:
        self.new.discard(name)
        if action == REPORT:
            return self.states[name]
        state, seconds = ACTIONS[action]
        state = self.failures.pop(name, state)
        self.wait(seconds * self.factor)
        if state == "FAULT":
            raise Failed("as it was asked for")
        with self.lock:
            self.wait(0)  # it may have tripped meanwhile
            self.states[name] = state
        return state

    def trip(self, name: str, state: str) -> None:
        """A device changes by itself. An action that is under way ends so."""
        with self.lock:
            self.new.discard(name)
            self.states[name] = state
            self.answer(name, state)

    def differs(self, name: str) -> bool:
        known = self.known.get(name)
        return known not in (None, self.states[name], self.domain.class_of(name).dead)

    def declares(self, name: str, action: str) -> bool | None:
        """By the state that was told. Who comes to a manager that runs already is told none over FIFOs."""
        is_known = name in self.told and name in self.known
        return self.domain.declares(name, self.known[name], action) if is_known else None

    def report_all(self) -> None:
        """Asks for the report of each device that rests in another state than its object."""
        with self.lock:
            for name in self.reporting:
                if self.differs(name) and not self.is_at_work(name):
                    self.report(name)

    def show(self, line: str) -> None:
        if self.is_shown:
            print(line, flush=True)


# A device, the state that it comes to by itself, and how many seconds after the start.
Trip = tuple[str, str, float]


def is_state(domain: Domain, name: str, state: str) -> bool:
    return name in domain.devices and state in domain.class_of(name).states


def read_trip(domain: Domain, word: str) -> Trip:
    """What `OBJECT=STATE@SECONDS` says."""
    name, _, rest = word.upper().partition("=")
    state, _, seconds = rest.partition("@")
    if is_state(domain, name, state) and 0 <= float(seconds) <= MOST_SECONDS:
        return name, state, float(seconds)
    raise ValueError(word)


class Trips:
    """What changes by itself, and when."""

    def __init__(self, player: Player, left: list[Trip], path: str | None) -> None:
        self.player, self.left, self.path = player, left, path
        # What stands in the file already is over.
        self.place = os.path.getsize(path) if path and os.path.exists(path) else 0

    def look(self, seconds: float) -> None:
        """So long after the start."""
        for name, state, _ in [trip for trip in self.left if seconds >= trip[2]]:
            self.player.trip(name, state)
        self.left = [trip for trip in self.left if seconds < trip[2]]
        for line in self.added():
            name, _, state = line.strip().upper().partition(" ")
            if is_state(self.player.domain, name, state):
                self.player.trip(name, state)
            elif line.strip():
                print(f"{self.path}: {line.strip()} is no device with one of its states", file=sys.stderr, flush=True)

    def added(self) -> list[str]:
        """The whole lines that were added to the file."""
        if not self.path or not os.path.exists(self.path):
            return []
        with open(self.path, "rb") as file:
            file.seek(self.place)
            lines = file.read()
        lines = lines[:lines.rfind(b"\n") + 1]
        self.place += len(lines)
        return lines.decode("ascii", "replace").splitlines()

    def watch(self, pause: float) -> None:
        """Looks, and again after every pause. It never ends."""
        begun = time.monotonic()
        while True:
            self.look(time.monotonic() - begun)
            self.player.report_all()
            time.sleep(pause)


def parser() -> argparse.ArgumentParser:
    words = argparse.ArgumentParser(description=__doc__, formatter_class=argparse.RawDescriptionHelpFormatter)
    words.add_argument("file", metavar="FILE")
    words.add_argument("input", metavar="IN", nargs="?")
    words.add_argument("output", metavar="OUT", nargs="?")
    words.add_argument("--gateway", metavar="CONTACT")
    words.add_argument("--pipe", action="store_true", help="standard input and output, as a driver of a node")
    words.add_argument("--fail", metavar="OBJECT[=STATE]", action="append", default=[],
                       help="the device fails at its first action: by a fault, or by ending in STATE")
    words.add_argument("--trip", metavar="OBJECT=STATE@SECONDS", action="append", default=[],
                       help="the device is in STATE by itself, that many seconds after the start")
    words.add_argument("--trips", metavar="PATH", help="a file: each line OBJECT STATE that is added trips a device")
    words.add_argument("--every", metavar="SECONDS", type=float, default=FIRST_AGAIN,
                       help="it looks this often for changes, and asks for a report again after as long at first")
    words.add_argument("--factor", type=float, default=1.0, help="all takes this many times as long")
    return words


def check(words: argparse.ArgumentParser, domain: Domain, failures: dict[str, str]) -> None:
    """Ends with a sentence where a device is to do what it does not know."""
    for name in failures.keys() - domain.devices:
        words.error(f"{name} is no device: {', '.join(sorted(domain.devices))}")
    for name, state in failures.items():
        if state not in ("FAULT", *domain.class_of(name).states):
            words.error(f"{name} has no state {state}")
    for name in domain.devices:
        if unknown := domain.class_of(name).actions().keys() - ACTIONS.keys() - {REPORT}:
            words.error(f"the device of {name} does not know how to play {', '.join(sorted(unknown))}")


def main() -> None:
    words = parser()
    asked = words.parse_args()
    if not asked.gateway and not asked.output and not asked.pipe:
        words.error("IN and OUT, or --gateway, or --pipe")
    domain = Domain(asked.file)
    failures = {name: state or "FAULT" for name, _, state in (word.upper().partition("=") for word in asked.fail)}
    check(words, domain, failures)
    try:
        trips = [read_trip(domain, word) for word in asked.trip]
    except ValueError as fault:
        words.error(f"--trip {fault}: it is OBJECT=STATE@SECONDS, of a device and one of its states")
    if not 0 < asked.every <= MOST_SECONDS:
        words.error("--every is more than no seconds")
    player = Player(domain, failures, asked.factor, not asked.pipe, asked.every)
    if not asked.gateway:
        player.session = f"{SESSION} "  # (a device may change before the manager is there)
    if trips or asked.trips:
        threading.Thread(target=Trips(player, trips, asked.trips).watch, args=[asked.every], daemon=True).start()
    if asked.pipe:
        player.serve_descriptors(1, 0)
        return
    signal.signal(signal.SIGTERM, lambda *_: player.leave())
    if asked.gateway:
        player.serve(asked.gateway)
        return
    try:
        player.serve_pipes(asked.input, asked.output)
    except OSError as fault:
        raise SystemExit(f"{fault.filename}: {fault.strerror}") from None


if __name__ == "__main__":
    try:
        main()
    except KeyboardInterrupt:
        sys.exit(130)
