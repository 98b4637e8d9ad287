"""Everything that a node decides, over values: lines of its manager, messages and time go in; lines for the manager,
registers for the broker and sentences for people come out. Nothing here waits, and nothing here talks."""
from __future__ import annotations

import collections
from dataclasses import dataclass
from enum import Enum

from . import child, marks, messages, parent, reports
from .child import Verdict
from .description import OWN_SESSION, Link, Manager
from .domain import Domain
from .lines import Asked as AskedLines
from .marks import Notes
from .messages import MOST_LOG, Alive, State
from .parent import At, Clocks, Heard, Start, Sub
from .played import NEVER, Played
from .reports import Rest, Wish
from .table import NOT_KNOWN, News, Table

BEAT = 2.0
# The least time between two numbers of one log, where others say that there is a higher one.
BETWEEN_NUMBERS = 10.0


class Kind(Enum):
    GIVE = "a line for the manager"
    KEEP = "a line that its log is to have before anything else is done"
    TELL = "a sentence for people"


@dataclass(frozen=True)
class Act:
    kind: Kind
    text: str


class Decider:
    def __init__(self, root: str, manager: Manager, domain: Domain, now: float) -> None:
        self.root, self.manager, self.domain = root, manager, domain
        self.at = f"{root}/{manager.name}"
        self.notes, self.table, self.asked = Notes(), Table(domain), AskedLines()
        self.life, self.beats = 0, 0
        self.is_begun = self.is_full = self.is_mute = self.reacts = False
        self.bad: collections.Counter[str] = collections.Counter()
        self.complaints: dict[str, str] = {}
        self.refused: set[str] = set()
        self.acts: list[Act] = []
        # What each topic of this node has, and which of them changed since it was last looked at.
        self.registers: dict[str, str] = {}
        self.changed: set[str] = set()
        self.subs = {link.sub: Sub(link, Heard(now)) for link in manager.links}
        self.states_of = {name: frozenset(domain.class_of(name).states) for name in self.subs}
        self.last = dict.fromkeys(self.subs, 0)
        self.commands = {name: child.Asked() for name in manager.commanders}
        self.wishes: dict[str, Wish] = {}
        self.reaction_wish, self.reaction = Wish(), manager.reaction()
        self.played: dict[str, Played] = {}
        self.linked = manager.linked()
        self.topics = self.topics_of(manager.links)
        self.next_beat, self.next_number = now, now

    def topics_of(self, links: list[Link]) -> dict[str, list[tuple[Sub, str]]]:
        topics: dict[str, list[tuple[Sub, str]]] = {}
        for link in links:
            at, sub = f"{self.root}/{link.child}", self.subs[link.sub]
            for topic, what in ((f"{at}/alive", "alive"), (f"{at}/state/{link.object}", "state"),
                                (f"{at}/outcome/{link.name}", "outcome")):
                topics.setdefault(topic, []).append((sub, what))
        return topics

    def subscriptions(self) -> list[str]:
        return [f"{self.at}/alive", *(f"{self.at}/command/{name}" for name in self.manager.commanders), *self.topics]

    def take_acts(self) -> list[Act]:
        acts, self.acts = self.acts, []
        return acts

    def take_changed(self) -> set[str]:
        changed, self.changed = self.changed, set()
        return changed

    def give(self, line: str, kind: Kind = Kind.GIVE) -> None:
        self.asked.put(line.encode("ascii"))
        self.acts.append(Act(kind, line))

    def tell(self, sentence: str) -> None:
        self.acts.append(Act(Kind.TELL, sentence))

    def register(self, topic: str, line: str) -> None:
        if self.registers.get(topic) != line:
            self.registers[topic] = line
            self.changed.add(topic)

    # A life of the manager.

    def resumed(self) -> None:
        """The manager was started, or started anew: what it tells first is how all stands."""
        self.table, self.asked = Table(self.domain), AskedLines()
        self.is_begun = self.is_full = self.is_mute = False
        for sub in self.subs.values():
            sub.clocks = Clocks()
        self.refused.clear()

    def begin(self, notes: Notes, boot: str, now: float, clock: float) -> None:
        """How all stands was told. The first line of a life names it; nothing is told to others before the log has it.

        Where the machine was started anew since the log was numbered, and the log is not synced, its end may be lost.
        Then it gets a new number: what others know of the old one, and what it knows of them, no longer counts."""
        self.notes = notes
        for sub in self.subs.values():
            # A long log takes its time to be read, and meanwhile nobody listened.
            sub.heard.at = now
        if notes.log and notes.boot == boot:
            marks.note(self.notes, marks.RESUMED)
            self.give(marks.RESUMED, Kind.KEEP)
        else:
            self.number_log(max(int(clock), notes.log + 1), boot, "the machine was started anew", now, clock)
        self.life = self.life or self.notes.lives
        self.go_on(now)

    def rolled(self, notes: Notes) -> None:
        """The manager goes on in another log: it is told first what the log before had, with the numbers of now."""
        self.notes.lives = self.life
        self.give(marks.begun(self.notes.log, self.notes.boot, self.life), Kind.KEEP)
        for sub, known in notes.knows.items():
            if sub in self.subs:
                self.give(marks.knows(sub, known), Kind.KEEP)
        self.is_full = self.is_mute = False

    def number_log(self, number: int, boot: str, why: str, now: float, clock: float) -> None:
        """What is open at each SUB is given up, and then the log has a new number."""
        answered = set[str]()
        for name, sub in self.subs.items():
            # Where the start was not told again yet, how all stands has said what is open.
            start = self.start_at(name)
            if start is not None and sub.clocks.answered and sub.clocks.k == start.k:
                answered.add(name)
            elif start is not None and parent.is_asked(sub, start):
                self.give(marks.lost(name, sub.link.lost, start.k, clock, why))
                answered.add(name)
        line = marks.begun(min(number, MOST_LOG), boot, 1)
        marks.note(self.notes, line)
        self.give(line, Kind.KEEP)
        self.life, self.beats = 1, 0
        # What is open has another K now, and has its answer all the same.
        for name, sub in self.subs.items():
            sub.clocks = Clocks(self.open_k(name), now, answered=name in answered)
        for commands in self.commands.values():
            commands.newest = None

    def go_on(self, now: float) -> None:
        """All that is made anew where a manager is resumed."""
        self.registers.clear()
        self.changed.clear()
        self.is_begun, self.reacts = True, self.reaction is not None
        self.wishes, self.reaction_wish = {}, Wish()
        for name in self.subs:
            self.last[name] = self.last_of(name)
        for commands in self.commands.values():
            commands.given = -1
        for name in self.table.numbers_wanted():
            self.give(child.number_line(name, self.table.lasts[name]))
        if self.manager.plays:
            devices = [name for name in self.domain.objects if name in self.domain.devices and name not in self.subs]
            self.played = {name: self.played.get(name) or Played(name, self.manager.plays, self.table.states[name], now)
                           for name in devices}
            for name, device in self.played.items():
                device.stop()
                self.begin_played(name, now)
        for name in self.commands:
            self.tell_outcome(name)
        for name in self.told():
            self.tell_state(name)
        self.beat(now)

    def told(self) -> list[str]:
        return [*self.domain.objects] if self.manager.serve_all else sorted(self.linked)

    def last_of(self, name: str) -> int:
        """The last K that may have been asked of the child, where nothing is open: by the answer that the log has; in a
        log that has none yet, and of an object that may have been killed at work, by its count of starts."""
        starts = self.table.starts[name] - (name in self.table.open)
        known = self.notes.answered.get(name)
        if known is None or self.table.states[name] == self.domain.class_of(name).dead:
            return parent.k_of(self.notes.log, starts)
        return known

    def open_k(self, name: str) -> int:
        return parent.k_of(self.notes.log, self.table.starts[name]) if name in self.table.open else -1

    # What comes in.

    def hear_manager(self, lines: list[bytes]) -> None:
        """What the manager told. Nothing is decided before all of it was heard."""
        for line in lines:
            text = line.decode("latin1")
            self.table.take(text)
            asked = self.asked.answered_by(line, self.domain.devices)
            if asked is not None:
                self.hear_answer(asked.decode("latin1"), text)

    def hear_answer(self, asked: str, told: str) -> None:
        words = asked.split(" ", 3)
        if words[0] == "once" and words[1] in self.commands:
            self.hear_once(words[1], int(words[2]), told)
        elif words[0] == "answer" and words[1] in self.subs and told.startswith("refused "):
            # It was killed meanwhile; or else, as where another domain is performed, it is answered again with a beat.
            self.refused.add(words[1])
            self.complaints[words[1]] = f"{asked} was {told}"
        elif self.reaction and asked == self.reaction_line():
            reports.answered(self.reaction_wish, told)
            self.reacts = self.reacts or told == "refused Full"
        elif words[0] == "request" and len(words) == 4 and words[2] in self.wishes and words[1] == f"@{OWN_SESSION}":
            reports.answered(self.wishes[words[2]], told)

    def hear_once(self, name: str, k: int, told: str) -> None:
        """What the manager said to a command. Of one that is no request, or has no room, nothing came."""
        commands, what = self.commands[name], told.split(" ")
        is_refused = what[-2:-1] == ["refused"]
        if is_refused and what[-1] in child.NO_OUTCOMES:
            self.complaints[name] = f"{what[-1]}: a command of {name} has to wait"
            commands.given = -1 if commands.given == k else commands.given
            return
        if told == "refused BadLine":
            self.bad[name] += 1
        if commands.newest is not None and commands.newest.k <= k:
            commands.newest = None
        if commands.given == k:
            commands.given = -1

    def hear_message(self, topic: str, payload: bytes, now: float, clock: float) -> None:
        if topic.startswith(f"{self.at}/command/"):
            self.hear_command(topic.rpartition("/")[2], payload, now, clock)
        elif topic == f"{self.at}/alive":
            self.hear_own_life(payload, now, clock)
        for sub, what in self.topics.get(topic, []):
            self.hear_child(sub, what, topic, payload, now)

    def hear_child(self, sub: Sub, what: str, topic: str, payload: bytes, now: float) -> None:
        if what == "alive" and (alive := messages.read_alive(payload)):
            parent.hear_alive(sub.heard, alive, self.at_sub(sub).known, now)
        elif what == "state" and (state := messages.read_state(payload)):
            parent.hear_state(sub.heard, state)
        elif what == "outcome" and (outcome := messages.read_outcome(payload)):
            parent.hear_outcome(sub.heard, outcome, self.at_sub(sub), now)
        elif payload:
            self.bad[topic] += 1

    def hear_command(self, name: str, payload: bytes, now: float, clock: float) -> None:
        commander, command = self.manager.commanders.get(name), messages.read_command(payload)
        if not commander or not command or command.object not in commander.objects:
            self.bad[name] += 1
            return
        commands, last = self.commands[name], self.table.lasts.get(name)
        found = child.verdict(command, self.notes.log, commands, last)
        if found is Verdict.HIGHER_LOG and commander.is_link():
            self.begin_above(command.log, now, clock)
        elif found is Verdict.AGAIN and last and command.k <= last.k:
            # Who asks for what it does not know is told again; a withdrawal of what is over wants nothing.
            if command.action != messages.WITHDRAWN or not last.is_last():
                self.tell_outcome(name)
                self.changed.add(f"{self.at}/outcome/{name}")
        elif found is Verdict.NEW and child.is_newer(command, commands.newest):
            commands.newest = command
            self.ask(name, clock)

    def ask(self, name: str, clock: float) -> None:
        commands, commander = self.commands[name], self.manager.commanders[name]
        if commands.newest is None or not self.is_begun or self.is_mute:
            return
        commands.given = commands.newest.k
        self.table.sent[name, commands.newest.k] = commands.newest.object
        self.give(child.line_of(name, commander.session, commands.newest, clock))

    def hear_own_life(self, payload: bytes, now: float, clock: float) -> None:
        """On this node's own topic others hear which log it has. Where that is of a later log than its own, or of lives
        that this log has not seen, the log was lost or taken back, or two have one number: it begins above it."""
        alive = messages.read_alive(payload)
        if not alive or not self.is_begun:
            return
        if alive.log > self.notes.log or alive.is_up and alive.log == self.notes.log and (
                (alive.life, alive.beat) > (self.life, self.beats)):
            self.begin_above(alive.log, now, clock)

    def begin_above(self, log: int, now: float, clock: float) -> None:
        if not self.is_begun or self.is_mute or now < self.next_number or log >= MOST_LOG:
            return
        why = f"others know a log of {self.manager.name} with the number {log}"
        self.tell(f"{why}: a second node, a log that was begun anew, or a clock that was put back")
        self.next_number = now + BETWEEN_NUMBERS
        self.number_log(max(int(clock), log + 1), self.notes.boot, why, now, clock)
        self.go_on(now)

    def hear_error(self, line: str) -> None:
        """What the manager says beside its output."""
        if line.endswith(" nine tenths full") or line.endswith(" nine tenths of the starts"):
            self.is_full = True
        elif line == "remarks are not kept":
            self.is_full = self.is_mute = True
            self.tell("the log is full: no command is taken any more; begin another while all rests")

    # What is decided of it.

    def at_sub(self, sub: Sub) -> At:
        name, table = sub.link.sub, self.table
        known, was = self.notes.knows.get(name), table.open.get(name)
        former = known.child if known is not None and known.child != f"{sub.link.child}.{sub.link.object}" else ""
        # Its arguments come with its start, which is told again after how all stands.
        start = self.start_at(name) if was is not None and was.number != NOT_KNOWN else None
        return At(table.states[name], self.states_of[name], start, None if former else known, former, self.last[name])

    def start_at(self, name: str) -> Start | None:
        was = self.table.open.get(name)
        return None if was is None else Start(
            parent.k_of(self.notes.log, self.table.starts[name]), was.action, was.arguments,
            self.domain.declares(name, self.table.states[name], was.action))

    def settle(self, now: float, clock: float) -> None:
        """Decides what is to be done, once all that came was heard."""
        if not self.is_begun:
            return
        self.take_news(self.table.take_news(), now)
        for device in self.played.values():
            if (now >= device.due or now >= device.trip) and (line := device.tick(now)):
                self.give(line)
        for sub in self.subs.values():
            self.settle_sub(sub, now, clock)
        self.wish(now)
        if now >= self.next_beat:
            for name in self.refused:
                self.subs[name].clocks = Clocks()
            self.refused.clear()
            for name, commands in self.commands.items():
                if commands.newest is not None and commands.given != commands.newest.k:
                    self.ask(name, clock)
            self.beat(now)

    def take_news(self, news: News, now: float) -> None:
        for name in news.stopped:
            if name in self.played:
                self.played[name].stop()
        for name in news.started:
            self.begin_played(name, now)
        for name in news.changed:
            if self.manager.serve_all or name in self.linked:
                self.tell_state(name)
        for name in news.fates:
            self.tell_outcome(name)
        # What an object of equipment ends in by a report has changed by itself.
        if self.reaction and any(name in self.domain.devices and action == self.report_of(name)
                                 for name, action in news.ended):
            self.reacts = True

    def report_of(self, name: str) -> str:
        if name in self.subs:
            return self.subs[name].link.report
        return str(self.manager.plays.get("report", "REPORT"))

    def begin_played(self, name: str, now: float) -> None:
        was = self.table.open.get(name)
        if name in self.played and was is not None and was.number != NOT_KNOWN and (
                self.domain.declares(name, self.table.states[name], was.action)):
            self.played[name].start(was.action, now)

    def settle_sub(self, sub: Sub, now: float, clock: float) -> None:
        # A remark may stand before an answer; more is not decided at once.
        for _ in range(3):
            at = self.at_sub(sub)
            if at.start is not None and parent.is_asked(sub, at.start):
                self.last[sub.link.sub] = at.start.k
            decided = parent.decide(sub, at, now, clock)
            if decided is None or decided.is_remark and self.is_mute:
                break
            if decided.sentence:
                self.tell(f"{sub.link.sub}: {decided.sentence}")
            marks.note(self.notes, decided.line)
            self.give(decided.line, Kind.KEEP if decided.is_remark else Kind.GIVE)
        if command := parent.register(sub, self.at_sub(sub)):
            self.register(f"{self.root}/{sub.link.child}/command/{sub.link.name}", command.line())

    def rest(self, name: str, action: str) -> Rest:
        table = self.table
        return Rest(table.states[name], name not in table.open and not table.waiting[name],
                    self.domain.declares(name, table.states[name], action))

    def wish(self, now: float) -> None:
        """Reports, where what is known of equipment differs, and what follows them."""
        table = self.table
        for name in (*self.subs, *self.played):
            # Of many objects this is all that is to be said, and it is said often.
            if name in table.open or table.waiting[name]:
                continue
            view = self.view(name, now)
            if view is None or view == table.states[name] and name not in self.wishes:
                continue
            wish, report = self.wishes.setdefault(name, Wish()), self.report_of(name)
            if reports.wants_report(wish, view, self.rest(name, report), now):
                self.give(f"request @{OWN_SESSION} {name} {report}")
        if self.reaction and reports.wants_reaction(self.reaction_wish, self.reacts, self.rest(*self.reaction), now):
            self.reacts = False
            self.give(self.reaction_line())

    def reaction_line(self) -> str:
        name, action = self.reaction or ("", "")
        return f"request @{OWN_SESSION} {name} {action}"

    def view(self, name: str, now: float) -> str | None:
        if name in self.played:
            return self.played[name].state if self.played[name].due == NEVER else None
        found = parent.view(self.subs[name], self.at_sub(self.subs[name]), now)
        return None if found is None else found.state

    def next_time(self, now: float) -> float:
        """When something is to be decided by time alone."""
        times = [self.next_beat]
        for sub in self.subs.values():
            times.append(parent.next_time(sub, self.at_sub(sub), now))
        times += [min(device.due, device.trip) for device in self.played.values()]
        times += [wish.next for wish in self.wishes.values() if wish.next > now]
        if self.reacts:
            times.append(max(self.reaction_wish.next, now))
        return min(times)

    # What is told.

    def tell_state(self, name: str) -> None:
        state = State(self.notes.log, self.table.versions[name], self.table.states[name])
        self.register(f"{self.at}/state/{name}", state.line())

    def tell_outcome(self, name: str) -> None:
        if (last := self.table.lasts.get(name)) and name in self.commands:
            self.register(f"{self.at}/outcome/{name}", child.outcome_of(self.notes.log, last).line())

    def beat(self, now: float) -> None:
        for name, count in self.bad.items():
            self.tell(f"{count} messages of {name} that match no form, or are none of its own")
        for sentence in self.complaints.values():
            self.tell(sentence)
        self.bad.clear()
        self.complaints.clear()
        self.next_beat = now + BEAT
        self.beats += 1
        self.register(f"{self.at}/alive", self.alive().line())

    def alive(self) -> Alive:
        return Alive(not self.is_mute, self.notes.log, self.life, self.beats, self.is_full)

    def down(self) -> Alive:
        return Alive(False, self.notes.log, self.life)

