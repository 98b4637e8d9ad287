"""The parent's side: what is done at SUB, by the log of this manager and by what is heard of its child.

All is decided by three functions over values: `register`, what SUB's topic of commands has; `decide`, the line that
the manager is given, if it is time; `view`, how T stands as far as this side may say so. None of them remembers what
was sent. So what was lost is said again, and what was given up stays so.
"""
from __future__ import annotations

from dataclasses import dataclass, field

from . import marks
from .description import Link
from .marks import Known
from .messages import WITHDRAWN, Alive, Command, Outcome, State

# A withdrawal is waited for this many seconds.
GRACE = 2.0
# The number of a log stands in front of the count of starts.
LOGS = 32


@dataclass(frozen=True)
class Start:
    """A start at SUB: its K, what it asks for, and whether SUB's state declares it; else the manager will skip it."""
    k: int
    action: str
    arguments: str
    is_declared: bool


@dataclass(frozen=True)
class At:
    """How SUB stands by the log of its manager: its state, the states of its class, what is open, what is known."""
    state: str
    states: frozenset[str]
    start: Start | None
    # Of the child that the description has now; and the name of another, for which SUB stood before.
    known: Known | None
    former: str
    # The last K that may have been asked for, where nothing is open now.
    last: int


@dataclass
class Heard:
    """What was heard of a child: the newest (LOG, LIFE, BEAT), when, how many different ones of that log; and of T the
    newest state."""
    at: float
    life: tuple[int, int, int] = (0, 0, 0)
    beats: int = 0
    is_up: bool = False
    is_full: bool = False
    state: State | None = None
    # What came of the start that is open, and when that was heard last.
    outcome: Outcome | None = None
    told: float = 0.0


@dataclass
class Clocks:
    """Of the start that is open: since when it is waited for, and since when it is withdrawn."""
    k: int = -1
    since: float = 0.0
    withdrawn: float | None = None
    answered: bool = False


@dataclass
class Sub:
    link: Link
    heard: Heard
    clocks: Clocks = field(default_factory=Clocks)


def k_of(log: int, starts: int) -> int:
    return (log << LOGS) + starts


# What is heard.

def hear_alive(heard: Heard, alive: Alive, known: Known | None, now: float) -> None:
    """Only what is newer counts: a last will that comes late is of a life that is over."""
    if known is not None and alive.log < known.log:
        return
    if not alive.is_up:
        heard.is_up = heard.is_up and heard.life[:2] != (alive.log, alive.life)
        return
    life = (alive.log, alive.life, alive.beat)
    if life <= heard.life:
        return
    if heard.life[0] != alive.log:
        heard.beats, heard.state = 0, None
    heard.beats += 1
    heard.life, heard.is_up, heard.is_full, heard.at = life, True, alive.is_full, now


def hear_state(heard: Heard, state: State) -> None:
    """The newest counts, of the log that the child's beats name."""
    if state.log == heard.life[0] and (heard.state is None or state.version > heard.state.version):
        heard.state = state


def hear_outcome(heard: Heard, outcome: Outcome, at: At, now: float) -> None:
    """What came of the K that is open now; what is last stays."""
    hear_state(heard, State(outcome.log, outcome.version, outcome.state))
    if at.start is None or at.known is None or (outcome.k, outcome.log) != (at.start.k, at.known.log):
        return
    was = heard.outcome
    if was is None or (was.k, was.log) != (outcome.k, outcome.log) or not was.is_last():
        heard.outcome, heard.told = outcome, now


# What is decided.

def is_away(sub: Sub, now: float) -> bool:
    return now - sub.heard.at > sub.link.patience


def view(sub: Sub, at: At, now: float) -> State | None:
    """How T stands: after two beats of a node that is there, what is not older than what SUB took; LOST, of no version,
    where nothing was heard for long; else nothing is known."""
    if is_away(sub, now):
        return State(0, 0, sub.link.lost)
    heard, known = sub.heard, at.known
    if not heard.is_up or heard.beats < 2 or known is None or heard.life[0] != known.log:
        return None
    if heard.state is None or heard.state.log != known.log or heard.state.version < known.version:
        return None
    if heard.state.state not in at.states:
        return State(heard.state.log, heard.state.version, sub.link.lost)
    return heard.state


def is_asked(sub: Sub, start: Start | None) -> bool:
    """Whether a start is one that T is asked for: no report, and none that is skipped."""
    return start is not None and start.is_declared and start.action != sub.link.report


def register(sub: Sub, at: At) -> Command | None:
    """What SUB's topic has: the command that is open, as long as it is not given up and has no answer; else that the
    last one is withdrawn, which does nothing to one that was done. Nothing before the log of the child is known."""
    if at.known is None or not at.known.log:
        return None
    target, start = sub.link.object, at.start
    if start is not None and is_asked(sub, start):
        is_withdrawn = sub.clocks.k == start.k and (sub.clocks.withdrawn is not None or sub.clocks.answered)
        return Command(start.k, at.known.log, target, WITHDRAWN if is_withdrawn else start.action,
                       "" if is_withdrawn else start.arguments)
    return Command(at.last, at.known.log, target, WITHDRAWN)


@dataclass(frozen=True)
class Decided:
    """A line for the manager; of one that is a remark alone, its log is to have it before anything else is told. And
    what is said to people."""
    line: str
    is_remark: bool = False
    sentence: str = ""


def new_log(sub: Sub, at: At) -> Known | None:
    """The log that the child has now, where it is none that this log knows."""
    log, child = sub.heard.life[0], f"{sub.link.child}.{sub.link.object}"
    return Known(child, log, 0) if log > (at.known.log if at.known is not None else 0) else None


def decide(sub: Sub, at: At, now: float, clock: float) -> Decided | None:
    """The next line that SUB's manager is given. `now` is of a clock that never goes back, `clock` the time of day."""
    start, clocks = at.start, sub.clocks
    name, child = sub.link.sub, f"{sub.link.child}.{sub.link.object}"
    if start is None or not start.is_declared:
        clocks.k = -1
    elif clocks.k != start.k:
        sub.clocks = clocks = Clocks(start.k, now)
    if start is not None and start.is_declared and clocks.answered:
        return None
    if at.former:
        if start is None or not is_asked(sub, start):
            return Decided(marks.knows(name, Known(child, 0, 0)), is_remark=True)
        clocks.answered = True
        why = f"{name} stood for {at.former}, and stands for {child}"
        return Decided(marks.lost(name, sub.link.lost, start.k, clock, why), sentence=why)
    if new := new_log(sub, at):
        if start is not None and is_asked(sub, start) and at.known is not None and at.known.log:
            clocks.answered = True
            why = f"the log of {sub.link.child} was begun anew"
            return Decided(marks.lost(name, sub.link.lost, start.k, clock, why, new), sentence=why)
        return Decided(marks.knows(name, new), is_remark=True)
    if start is None or not start.is_declared:
        return None
    if start.action == sub.link.report:
        clocks.answered = True
        return report(sub, at, now)
    return answer(sub, at, start, now, clock)


def report(sub: Sub, at: At, now: float) -> Decided:
    """A report is answered at once."""
    name, found = sub.link.sub, view(sub, at, now)
    if found is None:
        return Decided(f"answer {name} {at.state} ! stays")
    if not found.log:
        return Decided(f"answer {name} {found.state} ! silent")
    return Decided(marks.stands(name, found.state, found.log, found.version), sentence=strange(sub, at, found.state))


def strange(sub: Sub, at: At, state: str) -> str:
    heard = sub.heard.state
    return f"{sub.link.sub} has no state {heard.state}" if heard and state == sub.link.lost and (
        heard.state not in at.states) else ""


def own_outcome(sub: Sub, at: At, start: Start) -> Outcome | None:
    """What was heard of this very start, in the log of the child that is known; and where it is the last that comes of
    it, no state that is older than what SUB took."""
    outcome, known = sub.heard.outcome, at.known
    if outcome is None or known is None or (outcome.k, outcome.log) != (start.k, known.log):
        return None
    return None if outcome.is_last() and outcome.version < known.version else outcome


def answer(sub: Sub, at: At, start: Start, now: float, clock: float) -> Decided | None:
    """What answers a command: its outcome, or that it is given up."""
    link, clocks, outcome = sub.link, sub.clocks, own_outcome(sub, at, start)
    if outcome is not None and outcome.is_last():
        clocks.answered = True
        if outcome.state not in at.states:
            why = f"{link.sub} has no state {outcome.state}"
            return Decided(marks.lost(link.sub, link.lost, start.k, clock, why), sentence=why)
        is_withdrawn = clocks.withdrawn is not None and outcome.kind == "refused:UnknownAction"
        return Decided(marks.came(link.sub, outcome.state, start.k, "withdrawn" if is_withdrawn else outcome.kind,
                                  outcome.log, outcome.version))
    child, away = f"{link.child}.{link.object}", is_away(sub, now)
    if clocks.withdrawn is None and (away or now - clocks.since > link.limit):
        clocks.withdrawn = now
    if clocks.withdrawn is None:
        return None
    if outcome is not None and sub.heard.told > clocks.withdrawn and not away:
        # The child was asked for an outcome by the withdrawal: what it told before says nothing of now.
        why = f"{child} is late"
    elif now - clocks.withdrawn > GRACE:
        why = f"nothing is heard of {link.child}" if away else f"{child} does not answer"
    else:
        return None
    clocks.answered = True
    return Decided(marks.lost(link.sub, link.lost, start.k, clock, why), sentence=why)


def next_time(sub: Sub, at: At, now: float) -> float:
    """When `decide` may come to something by time alone."""
    start = at.start
    times = [sub.heard.at + sub.link.patience]
    if start is not None and is_asked(sub, start) and sub.clocks.k == start.k and not sub.clocks.answered:
        clocks = sub.clocks
        times.append(clocks.since + sub.link.limit if clocks.withdrawn is None else clocks.withdrawn + GRACE)
    return min((time for time in times if time >= now), default=float("inf"))
