"""What an operator hears of all managers, over values."""
from __future__ import annotations

from .description import Hierarchy
from .messages import Alive, Command, Outcome, State, read_alive, read_command, read_outcome, read_state

# A beat comes every two seconds: who was not heard for five is away.
AWAY = 5.0


class Seen:
    """Of each manager how it lives, and how its objects stand; and who asked whom, and what came of it."""

    def __init__(self) -> None:
        self.alive: dict[str, tuple[Alive, float, int]] = {}
        self.states: dict[tuple[str, str], State] = {}
        self.commands: dict[tuple[str, str], Command] = {}
        self.outcomes: dict[tuple[str, str], Outcome] = {}

    def hear(self, topic: str, payload: bytes, now: float) -> bool:
        """Takes a message; whether anything changed by it that is shown."""
        words = topic.split("/")
        if len(words) < 3:
            return False
        node, what, name = words[1], words[2], "/".join(words[3:])
        if what == "alive" and (alive := read_alive(payload)):
            was = self.alive.get(node)
            if alive.is_up and was and (alive.log, alive.life, alive.beat) <= (was[0].log, was[0].life, was[0].beat):
                return False
            if not alive.is_up and was and (alive.log, alive.life) < (was[0].log, was[0].life):
                return False
            beat = was[0].beat if was and not alive.is_up else alive.beat
            count = was[2] + 1 if was and was[0].log == alive.log and alive.is_up else 1
            self.alive[node] = (Alive(alive.is_up, alive.log, alive.life, beat, alive.is_full), now, count)
        elif what == "state" and (state := read_state(payload)):
            known = self.states.get((node, name))
            if known and (state.log, state.version) <= (known.log, known.version):
                return False
            self.states[node, name] = state
        elif what == "command" and (command := read_command(payload)):
            if self.commands.get((node, name)) == command:
                return False
            self.commands[node, name] = command
        elif what == "outcome" and (outcome := read_outcome(payload)):
            if self.outcomes.get((node, name)) == outcome:
                return False
            self.outcomes[node, name] = outcome
        else:
            return False
        return True

    def is_there(self, node: str, now: float) -> bool:
        """A retained beat of a node that is gone comes once: two different ones, and none of them old."""
        found = self.alive.get(node)
        return found is not None and found[0].is_up and found[2] >= 2 and now - found[1] < AWAY

    def state_of(self, node: str, name: str) -> str:
        """What is known of an object: a state of the log that its manager has now."""
        found, alive = self.states.get((node, name)), self.alive.get(node)
        return found.state if found and alive and found.log == alive[0].log else "not known"


def tree_of(hierarchy: Hierarchy, seen: Seen, now: float) -> list[str]:
    """The managers, each below the one that commands it: whether it is there, and how its objects stand."""
    states: dict[str, list[str]] = {}
    for node, target in sorted(seen.states):
        states.setdefault(node, []).append(f"{target} {seen.state_of(node, target)}")
    lines = []
    for node, depth, link in hierarchy.tree():
        by = f" (for {link.sub})" if link else ""
        full = ", nine tenths full" if node in seen.alive and seen.alive[node][0].is_full else ""
        there = "there;" if seen.is_there(node, now) else "away; what was told last:"
        lines.append(f"{'  ' * depth}{node}{by}: {there} {', '.join(states.get(node, [])) or 'nothing'}{full}")
    return lines
