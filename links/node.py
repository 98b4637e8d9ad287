"""A node: one manager, and in front of it both ends of its links. It is the only one that writes to its manager.

It is made to be killed at any moment: all that it knows it has from how its manager stands, from the marks in the log,
and from retained messages. What it decides is in `decide`; here it talks. One thread does all; the client of the broker
has a thread of its own, which only hands over.
"""
from __future__ import annotations

import os
import select
import selectors
import signal
import subprocess
import sys
import time
from typing import Any

from . import marks
from .client import Client
from .decide import Decider, Kind
from .description import Hierarchy
from .lines import PROGRAM
from .process import PATIENCE, Ended, Leaving, Lock, Process, Program, Side

FIRST_PAUSE, LAST_PAUSE = 0.1, 10.0
# Before its first word a node listens for half a second to what others were told under its name.
LISTENS = 0.5
# Of the states of objects that nobody commands this many are told again with each beat, in turn.
AGAIN_EACH_BEAT = 2
# Their changes are told together, this many seconds after the first, so that they hold no command up.
OTHERS_WAIT = 0.25
LONGEST_WAIT = 10.0
BOOT = "/proc/sys/kernel/random/boot_id"
BEGUN_ANEW = b"! begun anew"


class Node:
    def __init__(self, hierarchy: Hierarchy, name: str) -> None:
        self.hierarchy, self.name = hierarchy, name
        self.manager = hierarchy.managers[name]
        self.decider = Decider(hierarchy.name, self.manager, hierarchy.domain_of(name), time.monotonic())
        self.lock = Lock(self.manager.log)
        self.client: Client | None = None
        self.will, self.refusal, self.speaks_from = "", "", float("inf")
        # States of objects that nobody else commands, which changed and are to be told.
        self.others: set[str] = set()
        self.is_leaving, self.is_closed = False, False
        self.programs: list[Program] = []
        self.ready = selectors.DefaultSelector()
        self.waiting_lines: list[bytes] = []
        self.turn_of_others, self.next_others, self.ends = 0, 0.0, float("inf")
        # A signal wakes the loop.
        wake, waker = os.pipe2(os.O_NONBLOCK | os.O_CLOEXEC)
        signal.set_wakeup_fd(waker)
        self.ready.register(wake, selectors.EVENT_READ, lambda: os.read(wake, 64))

    def run(self) -> None:
        for number in (signal.SIGTERM, signal.SIGINT):
            signal.signal(number, self.leave)
        pause = FIRST_PAUSE
        try:
            self.lock.take(lambda: self.is_leaving, self.tell)
        except Leaving:
            return
        while not self.is_leaving:
            begun = time.monotonic()
            try:
                self.live()
            except Ended:
                self.end_programs()
                self.hear_errors()
                self.ready.unregister(self.process.told.descriptor)
                self.ready.unregister(self.process.errors.descriptor)
                status = self.process.end()
                if self.is_leaving:
                    break
                self.tell(f"the manager was ended ({status}); it is started again")
                # One that ends at once, as with a full log or a changed domain, is started ever more seldom.
                pause = FIRST_PAUSE if time.monotonic() - begun > LAST_PAUSE else min(2 * pause, LAST_PAUSE)
                self.sleep(pause)
        if self.client is not None:
            self.client.leave(f"{self.decider.at}/alive", self.decider.down().line())

    def leave(self, *_: Any) -> None:
        self.is_leaving = True

    def sleep(self, seconds: float) -> None:
        ends = time.monotonic() + seconds
        while not self.is_leaving and time.monotonic() < ends:
            time.sleep(0.05)

    def tell(self, sentence: str) -> None:
        print(f"{self.name}: {sentence}", file=sys.stderr, flush=True)

    # One life of the manager.

    def live(self) -> None:
        self.is_closed = False
        self.begin()
        while True:
            if self.is_leaving and not self.is_closed:
                self.is_closed, self.ends = True, time.monotonic() + PATIENCE
                self.end_programs()
                self.process.close_input()
            if time.monotonic() > self.ends:
                raise Ended
            self.turn()

    def begin(self) -> None:
        notes = marks.notes_of(self.manager.log)
        self.process = Process(self.manager, self.lock)
        self.seen = self.process.begins_at
        self.ready.register(self.process.told.descriptor, selectors.EVENT_READ, self.hear_manager)
        self.ready.register(self.process.errors.descriptor, selectors.EVENT_READ, self.hear_errors)
        self.decider.resumed()
        told, errors = self.process.told.descriptor, self.process.errors.descriptor
        while not self.decider.table.news.standing:
            found = select.select([told, errors], [], [], 0.2)[0]
            if errors in found:
                self.hear_errors()
            if told in found:
                self.hear_manager()
            if self.is_leaving and not self.process.stdin.closed:
                self.process.close_input()
        self.decider.begin(notes, self.boot(), time.monotonic(), time.time())
        self.do_acts()
        if self.client is None or self.will != self.decider.down().line():
            self.connect()
        side = Side(self.greeting, self.decider.give, lambda name: name not in self.decider.subs, self.tell)
        self.programs = [Program(words, self.hierarchy.folder, self.ready, side) for words in self.manager.drivers]
        self.settle()

    def boot(self) -> str:
        """The kernel's boot; but a log that is synced loses nothing where the machine stops."""
        if self.manager.sync:
            return marks.SYNCED
        with open(BOOT, encoding="ascii") as file:
            return file.read().strip()

    def connect(self) -> None:
        if self.client is not None:
            self.ready.unregister(self.client.wake)
            self.client.leave()
        self.will, self.speaks_from = self.decider.down().line(), float("inf")
        self.client = Client(self.hierarchy, self.name, self.decider.subscriptions(),
                             (f"{self.decider.at}/alive", self.will))
        self.ready.register(self.client.wake, selectors.EVENT_READ, self.hear_broker)

    def greeting(self) -> list[str]:
        """What a driver that is a program is told at first: how each device stands, and what it has in hand."""
        table, devices = self.decider.table, self.decider.domain.devices
        return [f"state {name} {state}" for name, state in table.states.items() if name in devices] + [
            f"start {name} {was.sender} {was.number} {was.action} {was.arguments}".rstrip()
            for name, was in table.open.items() if name in devices and was.sender]

    def end_programs(self) -> None:
        for program in self.programs:
            program.end()
        self.programs = []

    # What comes.

    def turn(self) -> None:
        """Waits until something comes, or is due, and does it."""
        now = time.monotonic()
        times = [self.decider.next_time(now), self.ends, *(program.next_time(now) for program in self.programs)]
        times += [time for time in (self.speaks_from, self.next_others) if time > now]
        waits = min(max(min(times) - now, 0.0) + 0.0005, LONGEST_WAIT)
        if self.waiting_lines:
            self.hear_manager()
            waits = 0.0
        for key, _ in self.ready.select(0.01 if self.process.is_blocked() and waits else waits):
            key.data()
        self.settle()

    def settle(self) -> None:
        """What was heard is decided upon, done and told."""
        now = time.monotonic()
        beats = self.decider.beats
        if not self.is_closed:
            self.decider.settle(now, time.time())
        self.do_acts()
        if self.client is not None and self.will != self.decider.down().line() and self.decider.is_begun:
            self.connect()
        for program in self.programs:
            program.tick(now)
        self.process.flush()
        self.publish(now, beats != self.decider.beats)

    def publish(self, now: float, is_beat: bool) -> None:
        registers = self.decider.registers
        changed = self.decider.take_changed()
        if is_beat:
            self.tell_refusal()
        if self.client is None or self.speaks_from > now:
            return
        if self.speaks_from:
            self.speaks_from, self.others = 0.0, set()
            self.client.publish_all(registers.items())
            return
        others = {topic for topic in changed if self.is_of_others(topic)}
        if others and not self.others:
            self.next_others = now + OTHERS_WAIT
        self.others |= others
        topics = changed - others
        if is_beat:
            topics |= self.again()
        if self.others and now >= self.next_others:
            topics, self.others = topics | self.others, set()
        self.client.publish_all((topic, registers[topic]) for topic in sorted(topics) if topic in registers)

    def is_of_others(self, topic: str) -> bool:
        """Whether a register is the state of an object that nobody else commands: nothing is decided by it."""
        at = f"{self.decider.at}/state/"
        return topic.startswith(at) and topic[len(at):] not in self.decider.linked

    def again(self) -> set[str]:
        """The registers that are told again with a beat, since a message may be lost: all that others decide by, and in
        turn some states of other objects."""
        others = [topic for topic in self.decider.registers if self.is_of_others(topic)]
        first = self.turn_of_others % len(others) if others else 0
        self.turn_of_others = first + AGAIN_EACH_BEAT
        return self.decider.registers.keys() - set(others) | set(others[first:first + AGAIN_EACH_BEAT])

    def do_acts(self) -> None:
        kept = ""
        for act in self.decider.take_acts():
            if act.kind is Kind.TELL:
                self.tell(act.text)
                continue
            self.process.to.put(act.text.encode("ascii"))
            kept = act.text if act.kind is Kind.KEEP else kept
        self.process.flush()
        # Of several the last is waited for: they stand in the log in their order.
        if kept:
            self.process.keep(kept, self.seen, self.keep_turn)
            self.seen = max(self.seen, self.process.size() - 65536)

    def keep_turn(self) -> bool:
        """While a remark is waited for, what the manager writes is taken, and not looked at."""
        self.hear_errors()
        self.waiting_lines += self.process.read()
        return not self.decider.is_mute

    def hear_manager(self) -> None:
        lines, self.waiting_lines = self.waiting_lines + self.process.read(), []
        if BEGUN_ANEW in lines and self.decider.is_begun:
            self.begin_anew(lines)
            return
        self.take(lines)
        if self.process.told.has_ended:
            raise Ended

    def take(self, lines: list[bytes]) -> None:
        self.decider.hear_manager(lines)
        for program in self.programs:
            for line in lines:
                if not line.startswith(b"once "):
                    program.tell(line)

    def begin_anew(self, lines: list[bytes]) -> None:
        """The manager goes on in another log: how all stands follows."""
        self.take(lines)
        while self.decider.table.is_told or not self.decider.table.news.standing:
            self.take(self.process.read())
            if self.process.told.has_ended:
                raise Ended
            time.sleep(0.001)
        self.seen = 0
        self.decider.rolled(self.decider.notes)
        self.do_acts()

    def hear_errors(self) -> None:
        for line in self.process.read_errors():
            self.tell(f"the manager: {line}")
            was_mute = self.decider.is_mute
            self.decider.hear_error(line)
            if self.decider.is_mute and not was_mute and rolls():
                self.process.to.put(b">")

    def tell_refusal(self) -> None:
        """Once, where the broker does not let this node in."""
        refusal = self.client.refusal if self.client is not None else ""
        if refusal and refusal != self.refusal:
            self.tell(f"the broker does not let it in: {refusal}")
        self.refusal = refusal

    def hear_broker(self) -> None:
        assert self.client
        now, clock = time.monotonic(), time.time()
        for topic, payload in self.client.take():
            if topic:
                self.decider.hear_message(topic, payload, now, clock)
            elif payload == b"subscribed":
                # What is retained follows; when this node speaks for the first time, it has heard that.
                self.speaks_from = now + LISTENS if self.speaks_from == float("inf") else now


def rolls() -> bool:
    """Whether the manager can hand over to another log."""
    done = subprocess.run([PROGRAM, "live", "--help"], capture_output=True, text=True)
    return "--roll" in done.stdout
