"""What a domain declares, and how it stands, as a manager's lines tell it. The first stands in `links/domain.py`, since
links need it too."""
from collections.abc import Iterator

from lines import PROGRAM  # it names the folder in which links/ is
from links.domain import Class, Refused, commands_of, parameters_of, tells_standing, told
from links.domain import Domain as Declared

__all__ = ["PROGRAM", "Class", "Domain", "Standing", "commands_of", "parameters_of", "tells_standing"]


class Domain(Declared):
    """The classes, the objects, the sets, and who commands whom. A fault ends the program that asks."""

    def __init__(self, path: str) -> None:
        try:
            super().__init__(path, told("list", path))
            self.commands = commands_of(self, told("print", path))
        except Refused as fault:
            raise SystemExit(str(fault)) from None


class Standing:
    """How all stands: at first as the domain declares it, then as the lines of a manager change it.

    It follows the lines alone, and asks the manager nothing. Lines `state` .. `stands`, which come where a manager was
    resumed, say it anew; counts, and what became of requests that are made once, are passed over. What an action `set`
    are its object's parameters once it has ended; a kill undoes it. No line `param` says it before, so `sets` of open
    actions outlive a standing. A `set` whose line was lost with a manager that was killed is missing, until the next
    standing behind its action's end.
    """

    def __init__(self, domain: Declared) -> None:
        self.domain, self.is_told = domain, False
        self.sets: dict[str, dict[str, str]] = {name: {} for name in domain.objects}
        self.begin()

    def begin(self) -> None:
        classes, objects = self.domain.classes, self.domain.objects
        self.states = {name: classes[kind].initial for name, kind in objects.items()}
        self.parameters = {name: dict(classes[kind].parameters) for name, kind in objects.items()}
        self.members = {name: list(members) for name, members in self.domain.sets.items()}
        # The open action of an object, and for whom it waits; the line of the start of what a device has in hand.
        self.open: dict[str, tuple[str, str]] = {}
        self.starts: dict[str, str] = {}
        self.waiting = dict.fromkeys(objects, 0)

    def lines(self) -> Iterator[str]:
        """How all stands, in the words of `smirun step --states`, but for what open actions of objects without a device
        wait for; behind it what these have set, and as at --resume the start of what each device has in hand."""
        yield from (f"state {name} {state}" for name, state in self.states.items())
        yield from (f"param {name} {parameter}={value}" for name, all_of in self.parameters.items()
                    for parameter, value in all_of.items())
        yield from (f"open {name} {self.open[name][0]}" + (" waits device" if name in self.domain.devices else "")
                    for name in self.states if name in self.open)
        yield from (f"waiting {name} {count}" for name, count in self.waiting.items() if count)
        yield from (" ".join(["member", name, *members]) for name, members in self.members.items()
                    if members != self.domain.sets[name])
        yield from (f"set {name} {parameter}={value}" for name, all_of in self.sets.items() if name in self.open
                    for parameter, value in all_of.items())
        yield from (self.starts[name] for name in self.states if name in self.open and name in self.starts)

    def take(self, line: str) -> None:
        """Takes a line that the manager wrote."""
        word, *rest = line.split(" ", 3)
        was_told, self.is_told = self.is_told, tells_standing(line)
        if self.is_told and not was_told:
            self.begin()
        elif word == "start" and rest[0] in self.domain.devices:
            self.starts[rest[0]] = line
        getattr(self, f"take_{word}", self.pass_over)(*rest)

    def is_skipped(self, line: str) -> bool:
        """Whether a line is the start of an action that its object's state does not declare: the manager skips it."""
        words = line.split(" ", 5)
        return (words[0] == "start" and words[1] in self.domain.objects
                and not self.domain.declares(words[1], self.states[words[1]], words[4]))

    def in_hand(self, name: str) -> tuple[str, str] | None:
        """The request that a device has in hand, by its sender and number, as far as the manager has told."""
        words = self.starts[name].split(" ") if name in self.open and name in self.starts else []
        return (words[2], words[3]) if words else None

    def lacks_starts(self) -> bool:
        """Whether a device is at work of which no start was told. So it is after how all stands, until the starts of
        what devices have in hand are told again."""
        return any(name not in self.starts for name in self.open if name in self.domain.devices)

    def pass_over(self, *_: str) -> None:
        """Lines that change nothing here: refused, empty, remarks; answers to who asks once (the request's own line
        `accept` stands before); and of how all stands the counts, and what became of such requests."""

    def take_state(self, name: str, state: str) -> None:
        self.states[name] = state

    def take_param(self, name: str, *words: str) -> None:
        parameter, _, value = " ".join(words).partition("=")
        self.parameters[name][parameter] = value

    def take_open(self, name: str, action: str, waits: str = "") -> None:
        # For whom it waits is true for this moment alone, and no line says when that changes.
        self.open[name] = (action, "" if not waits else "device" if waits == "waits device" else "others")

    def take_waiting(self, name: str, count: str) -> None:
        self.waiting[name] = int(count)

    def take_member(self, name: str, *members: str) -> None:
        self.members[name] = " ".join(members).split()

    def take_accept(self, _session: str, name: str, *_: str) -> None:
        self.waiting[name] += 1

    def take_post(self, _sender: str, target: str, rest: str) -> None:
        if not rest.startswith("refused "):
            self.waiting[target] += 1

    def take_start(self, name: str, _sender: str, rest: str) -> None:
        if name in self.open:
            return  # a start that is told again, where a manager was resumed
        self.waiting[name] -= 1
        self.sets[name] = {}
        is_device = name in self.domain.devices
        self.open[name] = (rest.split(" ")[1], "device" if is_device else "")

    def take_set(self, name: str, *words: str) -> None:
        parameter, _, value = " ".join(words).partition("=")
        self.sets[name][parameter] = value

    def take_wait(self, name: str) -> None:
        self.open[name] = (self.open[name][0], "others")

    def take_seen(self, name: str, *_: str) -> None:
        self.open[name] = (self.open[name][0], "")

    def take_end(self, name: str, state: str) -> None:
        self.open.pop(name, None)
        if state != "skipped":
            self.states[name] = state
            self.parameters[name].update(self.sets[name])
        self.sets[name] = {}

    def take_kill(self, name: str, _by: str) -> None:
        self.open.pop(name, None)
        self.states[name] = self.domain.classes[self.domain.objects[name]].dead

    def take_insert(self, _name: str, member: str, group: str) -> None:
        if member not in self.members[group]:
            self.members[group].append(member)

    def take_remove(self, _name: str, member: str, group: str) -> None:
        if member in self.members[group]:
            self.members[group].remove(member)
