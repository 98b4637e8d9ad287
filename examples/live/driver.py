"""A class to inherit for a driver of devices, which goes to a gateway or to two FIFOs.

  class Supplies(Driver):
      def perform(self, name, action, arguments):
          crate.ask(name, action, arguments)       # talks to the equipment; it may take as long as it likes
          return "ON" if crate.is_on(name) else "TRIPPED"

  Supplies(["HV1_*", "HV2_3"]).serve("contact")    # CONTACT is the file that gateway.py --contact wrote

`perform` is called at each start of a device, in a thread of its own: all devices work at the same time, and each does
one action at a time. What it returns is the state that is answered. Where it raises `Failed`, the object is killed, for
good; where it raises anything else, or returns what is the name of no state, that is told on standard error, and
`broken` says what is answered.

What this class does of itself:

  - It connects again where the connection is cut, for ever, after 0.5 to 10 seconds. Equipment at work goes on.
  - A start that is told again is not performed again: what is in hand goes on, and an answer that was given to
    this gateway and was lost is given again. One that was in hand before this driver was started, or before the gateway
    was, comes to `resume`, which performs it if it is not overridden. So `perform` looks first what its equipment does.
  - An action that takes longer than `limits` says is ended by `late`: what that returns is answered. What `perform`
    returns then comes too late, and is dropped; the next action of the device waits until it has returned.
  - An answer that is refused is told on standard error with its line. A state that the class does not have would leave
    the action open for ever: then `broken` says what is answered in its place.
  - `stop` is called where the object was killed while its device is at work; `wait` then ends with `Stopped`.
  - A start whose action the object's state does not declare is skipped by the manager, and never performed: a gateway
    does not tell it. Over FIFOs `declares` says so; where it does not know, a start is performed once the line after
    it is there, or has not come for 20 ms.
  - `report` tells that a device has changed by itself: it asks for an action (REPORT), and at its start `perform` says
    the state. Until it was started it is asked for again, after 0.1 to 10 seconds, as long as `differs` says so. The
    constructor takes the first of these times, `first_again`.

An exception in a method that is overridden is told on standard error, and ends nothing else.
"""
from __future__ import annotations

import queue
import re
import socket
import sys
import threading
import time
from collections.abc import Callable, Iterable

import connections

# Between two requests of a report that is not started: at first, and at most.
FIRST_AGAIN, LAST_AGAIN = 0.1, 10.0
START = re.compile(r"start (\w+) (\S+) (\d+) (\w+)(?: \((.*)\))?")
ARGUMENT = re.compile(r'(\w+) = ("[^"]*"|-?\d+)')
STATE = re.compile(r"[A-Za-z][A-Za-z0-9_]*")
# Where an answer is told this, its action is open still.
STILL_OPEN = ("refused NotAState", "refused BadLine")
# Where the request of a report is told this, it is not asked for again.
NO_REPORT = ("refused Dead", "refused UnknownObject", "refused UnknownAction", "refused BadArgs", "refused BadLine",
             "refused NotYours")
# What a subclass may override.
OVERRIDDEN = {"limits", "perform", "resume", "late", "broken", "stop", "differs", "declares", "say", "show", "hear"}
Arguments = dict[str, int | str]


class Failed(Exception):
    """The device has failed: its object is killed."""


class Stopped(Exception):
    """The object was killed, or its action was answered already; nothing is to be answered any more."""


def arguments_of(text: str | None) -> Arguments:
    """The arguments of a start: of `VOLTS = 5, MODE = "a"`."""
    return {name: value[1:-1] if value.startswith('"') else int(value)
            for name, value in ARGUMENT.findall(text or "")}


def checked(state: object) -> str:
    """What may be answered as a state. ValueError, where it is no name."""
    if isinstance(state, str) and STATE.fullmatch(state):
        return state
    raise ValueError(f"{state!r} is the name of no state")


class Job:
    """An action that a device has in hand, of which request of which gateway; what was answered, whether the answer was
    perhaps lost with a manager, and whether `broken` was asked."""

    def __init__(self, name: str, request: tuple[str, str], action: str, arguments: Arguments, gateway: str) -> None:
        self.name, self.request, self.action, self.arguments = name, request, action, arguments
        self.gateway = gateway
        self.over, self.answer, self.is_lost, self.was_broken = threading.Event(), "", False, False

    def named(self, line: str) -> str:
        """An answer, which at a gateway names the request that it is of."""
        return f"{line} {' '.join(self.request)}" if self.gateway else line

    def is_same(self, other: Job) -> bool:
        mine = (self.request, self.action, self.arguments)
        return mine == (other.request, other.action, other.arguments)


class Report:
    """A report that is to be made: by which action, when it may be asked for again, and whether one is under way."""

    def __init__(self, action: str, pause: float) -> None:
        self.action, self.next, self.pause, self.is_under_way = action, 0.0, pause, False


class Driver:
    """Drives devices; see the head of this file. What a driver says of itself stands in what it overrides."""

    # Seconds after which an action is late: by `OBJECT ACTION`, or by `ACTION` for all objects.
    limits: dict[str, float] = {}

    def __init_subclass__(cls) -> None:
        """A subclass that has a method of the same name as one of these by chance would stand still."""
        if taken := {name for name in vars(cls).keys() & vars(Driver).keys() - OVERRIDDEN if name[:2] != "__"}:
            raise TypeError(f"{cls.__name__}: a driver has {', '.join(sorted(taken))} of its own: take another name")

    def __init__(self, devices: Iterable[str], first_again: float = FIRST_AGAIN) -> None:
        self.devices, self.first_again = [name.upper() for name in devices], first_again
        # The state of each object, as far as the manager has told it.
        self.known: dict[str, str] = {}
        # What is in hand; and of each device the last answer that the manager has not told yet.
        self.jobs: dict[str, Job] = {}
        self.untold: dict[str, Job] = {}
        # Who performs an action of a device has its turn.
        self.turns: dict[str, threading.Lock] = {}
        self.lock = threading.RLock()
        self.sent: queue.SimpleQueue[str | None] = queue.SimpleQueue()
        self.asked: list[str] = []
        self.reports: dict[str, Report] = {}
        self.reminder: threading.Thread | None = None
        # What a request has in front of its object over FIFOs, `@7 `; a gateway puts a session in.
        self.own, self.session, self.secret = threading.local(), "", ""
        self.ending = threading.Event()
        self.link: socket.socket | None = None

    # What is overridden.

    def perform(self, name: str, action: str, arguments: Arguments) -> str:
        """Does an action of a device: the state in which it is then."""
        raise NotImplementedError

    def resume(self, name: str, action: str, arguments: Arguments) -> str:
        """Goes on with an action that was perhaps begun before."""
        return self.perform(name, action, arguments)

    def late(self, name: str, action: str) -> str | None:
        """The state that is answered for an action that is late; nothing, if it is to be waited for on."""
        return None

    def broken(self, name: str, action: str, why: str) -> str | None:
        """The state that is answered where `perform` was wrong; nothing, if the object is to be killed."""
        return None

    def stop(self, name: str) -> None:
        """The object was killed while its device was at work. No line is heard meanwhile, so it should be short."""

    def differs(self, name: str) -> bool:
        """Whether a device, of which a report is to be made, is in another state than its object (`known`) still."""
        return True

    def declares(self, name: str, action: str) -> bool | None:
        """Whether the state of an object (`known`) declares an action; nothing, where that is not known."""
        return None

    def say(self, sentence: str) -> None:
        print(sentence, file=sys.stderr, flush=True)

    def show(self, line: str) -> None:
        """A line of the manager, over FIFOs."""

    # What may be called.

    def wait(self, seconds: float) -> None:
        """Waits in `perform`; `Stopped` where nothing is to be answered any more."""
        job: Job | None = getattr(self.own, "job", None)
        if job is None:
            time.sleep(seconds)
        elif job.over.wait(seconds):
            raise Stopped

    def report(self, name: str, action: str = "REPORT") -> None:
        """Says that a device has changed by itself. One of a device is under way."""
        name = name.upper()
        with self.lock:
            if name in self.reports:
                return
            self.reports[name] = Report(action.upper(), self.first_again)
            self.ask_report(name, time.monotonic())
            if self.reminder is None:
                self.reminder = threading.Thread(target=self.remind, daemon=True)
                self.reminder.start()

    def answer(self, name: str, state: str) -> bool:
        """Answers what a device has in hand with this state, while `perform` still waits; whether it has anything."""
        with self.lock:
            job = self.jobs.get(name.upper())
            if job:
                self.settle(job, checked(state))
            return job is not None

    def serve(self, contact: str) -> None:
        """Drives at a gateway, for ever, or until `leave`."""
        connections.at_gateway(self, contact)

    def serve_pipes(self, to_manager: str, from_manager: str) -> None:
        """Drives over two FIFOs: what the manager reads, and what it writes. It ends with the manager."""
        connections.at_pipes(self, to_manager, from_manager)

    def serve_descriptors(self, given: int, told: int) -> None:
        """The same over two descriptors that are open: the first is closed at the end."""
        connections.at_descriptors(self, given, told)

    def leave(self) -> None:
        """Ends it: at a gateway the connection is cut, and `serve` comes back; over FIFOs no more is written."""
        self.ending.set()
        self.sent.put(None)
        if self.link:
            connections.shut(self.link)

    # What comes, and what is made of it.

    def hear(self, mark: str, line: str, is_again: bool = False) -> None:
        """A line of the manager. `=` marks the answer to the oldest of this driver's lines; `is_again` says that it
        tells how all stands, so that a start in it was perhaps begun before."""
        words = line.split(" ")
        if mark == "=":
            self.take_answer(line)
        if words[0] == "start":
            self.hear_start(line, is_again)
        elif words[0] == "kill" and len(words) > 2:
            self.known.pop(words[1], None)
            self.end(words[1], is_killed=True)
        elif words[0] == "end" and len(words) > 2:
            self.hear_end(words[1], words[2])
        elif words[0] == "state" and len(words) > 2:
            self.known[words[1]] = words[2]
        elif words[0] == "accept" and self.session and words[1:2] == [connections.SESSION]:
            self.take_report(words[2], words[4])
        elif line == "! begun anew":
            self.begin_anew()
        elif line == "! restarted":
            self.begin_again()

    def hear_start(self, line: str, is_again: bool) -> None:
        if not (found := START.fullmatch(line)):
            return
        name, sender, number, action, arguments = found.groups()
        if self.drives(name) and self.declares(name, action) is not False:
            self.begin(Job(name, (sender, number), action, arguments_of(arguments), self.secret), is_again)

    def hear_end(self, name: str, state: str) -> None:
        """The state comes first: who sees that a device is at work no more may ask at once whether it differs."""
        if state != "skipped":
            self.known[name] = state
        self.end(name, is_killed=False)
        if state == "skipped":
            self.lose_report(name)

    def drives(self, name: str) -> bool:
        return any(name == device or device.endswith("*") and name.startswith(device[:-1]) for device in self.devices)

    def may_be_skipped(self, line: str) -> bool:
        """Whether a line is a start of which it is not known that its action is done."""
        words = line.split(" ", 5)
        return words[0] == "start" and self.drives(words[1]) and self.declares(words[1], words[4]) is None

    def begin_anew(self) -> None:
        """The manager goes on in another log. It was at rest; there a number is of another request."""
        with self.lock:
            self.untold.clear()
        self.lose_reports()

    def begin_again(self) -> None:
        """The manager was started again: an answer that it did not tell was perhaps lost, and an answer to the request
        of a report will perhaps not come over FIFOs."""
        with self.lock:
            for job in self.untold.values():
                job.is_lost = True
        if self.session:
            self.lose_reports()

    def go_on(self, secret: str, starts: list[str]) -> None:
        """A gateway has told how all stands: these starts are in hand. At another gateway than before, by its secret,
        the log may be another, so what was answered there may be of another request."""
        in_hand = {line.split(" ")[1] for line in starts}
        with self.lock:
            # No answer comes over a new connection to what was asked over an old one.
            self.asked, self.sent, self.secret = [], queue.SimpleQueue(), secret
            reports = [*self.reports]
            # What was in hand and is no more was answered by another, or its object was killed. An answer that is not
            # told and whose action is open no more is told to nobody; in a log that was begun anew its number is
            # another's.
            self.untold = {name: job for name, job in self.untold.items() if name in in_hand}
            over = [name for name in self.jobs if name not in in_hand]
        for name in over:
            self.end(name, is_killed=True)
        for line in starts:
            self.hear("-", line, is_again=True)
        with self.lock:
            for name in [name for name in reports if name in self.reports]:
                self.ask_report(name, time.monotonic())

    # Reports that are asked for, until they are started.

    def ask_report(self, name: str, now: float) -> None:
        """Asks for a report. Over FIFOs nobody tells whose line was refused: there it is under way once the manager has
        accepted it."""
        report = self.reports[name]
        report.next, report.is_under_way = now + report.pause, not self.session
        report.pause = min(2 * report.pause, LAST_AGAIN)
        self.ask(f"request {self.session}{name} {report.action}")

    def take_report(self, name: str, action: str) -> None:
        with self.lock:
            report = self.reports.get(name)
            if report and report.action == action:
                report.is_under_way = True

    def lose_report(self, name: str) -> None:
        """The request of a report was refused, or skipped, or it is not known what became of it."""
        with self.lock:
            if report := self.reports.get(name):
                report.is_under_way = False

    def lose_reports(self) -> None:
        with self.lock:
            for report in self.reports.values():
                report.is_under_way = False

    def is_at_work(self, name: str) -> bool:
        """Whether a device has an action in hand, or has answered one of which the end will be told."""
        return name in self.jobs or name in self.untold and not self.untold[name].is_lost

    def is_to_be_reported(self, name: str) -> bool:
        try:
            return self.differs(name)
        except Exception as why:  # a driver goes on, whatever one device does
            self.say(f"{name}: differs: {type(why).__name__}: {why}")
            return True

    def remind(self) -> None:
        """Asks for reports again, in its own thread, which ends with the last of them."""
        while True:
            time.sleep(self.first_again / 2)
            with self.lock:
                now = time.monotonic()
                for name in [name for name in self.reports if not self.is_at_work(name)]:
                    self.remind_of(name, now)
                if not self.reports or self.ending.is_set():
                    self.reminder = None
                    return

    def remind_of(self, name: str, now: float) -> None:
        report = self.reports[name]
        if not self.is_to_be_reported(name):
            del self.reports[name]
        elif not report.is_under_way and now >= report.next:
            self.ask_report(name, now)

    # What is in hand.

    def begin(self, job: Job, is_again: bool) -> None:
        with self.lock:
            self.reports.pop(job.name, None)
            given = self.untold.get(job.name)
            if given and given.is_same(job) and given.gateway == job.gateway:
                given.is_lost = False
                self.ask(given.answer)
                return
            current = self.jobs.get(job.name)
            if current and current.is_same(job):
                return
            if current:
                current.over.set()
            self.untold.pop(job.name, None)
            self.jobs[job.name] = job
            turn = self.turns.setdefault(job.name, threading.Lock())
        call = self.resume if is_again else self.perform
        threading.Thread(target=self.do, args=[job, turn, call], daemon=True).start()
        limit = self.limits.get(f"{job.name} {job.action}", self.limits.get(job.action))
        if limit is not None:
            threading.Thread(target=self.watch, args=[job, limit], daemon=True).start()

    def do(self, job: Job, turn: threading.Lock, call: Callable[[str, str, Arguments], str]) -> None:
        """Performs an action, in its own thread, and answers it. One before it, which is late, may be at it still."""
        with turn:
            if job.over.is_set():
                return
            self.own.job = job
            try:
                state = checked(call(job.name, job.action, job.arguments))
            except Stopped:
                return
            except Failed as why:
                self.say(f"{job.name} {job.action}: failed: {why}")
                self.settle(job, None)
                return
            except (Exception, SystemExit) as why:  # a driver goes on, whatever one device does
                self.settle_broken(job, f"{type(why).__name__}: {why}")
                return
        self.settle(job, state)

    def said_by(self, job: Job, call: Callable[..., str | None], *words: str) -> str | None:
        """The state that an overridden method says; nothing, where it says none, or raises something."""
        try:
            state = call(job.name, job.action, *words)
            return None if state is None else checked(state)
        except (Exception, SystemExit) as why:  # a driver goes on, whatever one device does
            self.say(f"{job.name} {job.action}: {call.__name__}: {type(why).__name__}: {why}")
            return None

    def settle_broken(self, job: Job, why: str) -> None:
        """Answers what `broken` says, once; where that is refused too, the object is killed."""
        self.say(f"{job.name} {job.action}: {why}")
        if job.over.is_set():
            return
        state = None if job.was_broken else self.said_by(job, self.broken, why)
        job.was_broken = True
        self.settle(job, state)

    def settle(self, job: Job, state: str | None) -> None:
        """Answers an action, if it is still to be answered: by a state, or by a fault. It is ended before that is told,
        since the next may begin at once."""
        with self.lock:
            if self.jobs.get(job.name) is not job or job.over.is_set():
                return
            job.over.set()
            job.answer = job.named(f"answer {job.name} {state}" if state else f"fault {job.name}")
            del self.jobs[job.name]
            self.untold[job.name] = job
            self.ask(job.answer)

    def watch(self, job: Job, limit: float) -> None:
        """Ends an action that is late."""
        if job.over.wait(limit):
            return
        state = self.said_by(job, self.late)
        self.say(f"{job.name} {job.action}: {limit:g} s without an end" + (f", answered {state}" if state else ""))
        if state:
            self.settle(job, state)

    def end(self, name: str, is_killed: bool) -> None:
        """The manager tells that the action of a device has ended: answered, skipped, or cut by a kill."""
        with self.lock:
            self.untold.pop(name, None)
            job = self.jobs.pop(name, None)
            if job:
                job.over.set()
            if is_killed:
                self.reports.pop(name, None)
        if job and is_killed:
            try:
                self.stop(name)
            except Exception as why:  # a driver goes on, whatever one device does
                self.say(f"{name}: stop: {type(why).__name__}: {why}")

    def take_answer(self, told: str) -> None:
        """The answer to the oldest line that has none."""
        with self.lock:
            line = self.asked.pop(0) if self.asked else ""
            word, name, *_ = [*line.split(" "), ""]
            if word == "request" and told.startswith(("refused ", "! unanswered ")):
                self.lose_report(name)
            if not told.startswith("refused "):
                return
            if word == "request" and told in NO_REPORT:
                self.reports.pop(name, None)
            job = self.take_refused(name, line, told) if word in ("answer", "fault") else None
        self.say(f"`{line}` is {told}")
        if job:
            # (in a thread of its own, since `broken` may talk to the equipment)
            threading.Thread(target=self.settle_broken, args=[job, f"answered {told}"], daemon=True).start()

    def take_refused(self, name: str, line: str, told: str) -> Job | None:
        """An answer was refused. Where its action stays open, it is in hand again, and something else is to be
        answered. An answer of another action, which was given meanwhile, is left as it is."""
        given = self.untold.get(name)
        if given is None or given.answer != line:
            return None
        del self.untold[name]
        if told not in STILL_OPEN or name in self.jobs or line.startswith("fault "):
            return None
        given.over = threading.Event()
        self.jobs[name] = given
        return given

    def ask(self, line: str) -> None:
        """Puts a line that has an answer on its way. Over FIFOs nobody tells which answer is whose."""
        with self.lock:
            self.asked += [] if self.session else [line]
            self.sent.put(line)
