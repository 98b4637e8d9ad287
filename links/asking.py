"""One request of an operator, over values."""
from __future__ import annotations

from .description import Hierarchy
from .domain import Refused
from .messages import WITHDRAWN, Alive, Command, Outcome, are_arguments, read_command


class Asking:
    """What is told to the broker, and what is said of it. Who gives up withdraws what was asked."""

    def __init__(self, k: int, target: str, action: str, arguments: str) -> None:
        self.k, self.target, self.action, self.arguments = k, target, action, arguments
        self.log = 0
        self.is_withdrawn = False
        self.kind = ""

    def hear(self, alive: Alive | None, outcome: Outcome | None) -> str | None:
        """What is to be said, if anything is new."""
        if alive is not None and alive.log > self.log:
            was, self.log = self.log, alive.log if not self.log else self.log
            if was:
                self.kind = "not known"
                return "not known: its log was begun anew"
        if outcome is not None and outcome.k == self.k and outcome.log == self.log and outcome.kind != self.kind:
            self.kind = outcome.kind
            if self.is_withdrawn and outcome.kind == "refused:UnknownAction":
                return f"withdrawn {outcome.state}"
            return f"{outcome.kind} {outcome.state}"
        return None

    def is_over(self) -> bool:
        return self.kind not in ("", "accepted")

    def command(self) -> Command | None:
        if not self.log:
            return None
        action = WITHDRAWN if self.is_withdrawn else self.action
        return Command(self.k, self.log, self.target, action, "" if self.is_withdrawn else self.arguments)


def asking_of(hierarchy: Hierarchy, name: str, at: str, words: tuple[str, str, str], k: int) -> Asking:
    """What an operator asks for: `words` are object, action and arguments. K is the time, so it is greater than any
    before."""
    target, action, arguments = words[0].upper(), words[1].upper(), words[2]
    manager = hierarchy.managers.get(at)
    if name not in hierarchy.operators:
        raise Refused(f"there is no operator {name}")
    if manager is None or name not in manager.commanders or target not in manager.commanders[name].objects:
        raise Refused(f"{name} may not command {at}.{target}")
    asking = Asking(k, target, action, arguments)
    line = Command(asking.k, 1, target, action, arguments).line()
    is_read = are_arguments(arguments) and read_command(line.encode("utf-8", "replace")) is not None
    if not is_read or action == WITHDRAWN:
        raise Refused(f'{action} {arguments} is no action with arguments; one is SWITCH_ON (A = 1, B = "x")')
    return asking
