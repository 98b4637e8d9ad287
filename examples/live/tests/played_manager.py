"""A manager that is played, for tests without the program: two supplies and a unit that commands the first. It stands
in the place of `smirun`: `list`, `print`, and `live` with its lines, its log, and how all stands."""
from __future__ import annotations

import re
import sys
import time

LIST = """class SUPPLY associated
state SUPPLY OFF initial
action SUPPLY OFF SWITCH_ON
state SUPPLY ON
action SUPPLY ON SWITCH_OFF
state SUPPLY DEAD dead
class UNIT
state UNIT OFF initial
state UNIT DEAD dead
object HV1 SUPPLY
object HV2 SUPPLY
object TOP UNIT"""
PRINT = """class: UNIT
      do SWITCH_ON HV1"""
# Between how all stands and what devices have in hand, in seconds: a gateway reads them one after the other.
PAUSE = 0.1
DECLARED = {"OFF": "SWITCH_ON", "ON": "SWITCH_OFF"}
FORMS = re.compile(r"(?P<once>once \w+ \d+ )?request (?P<session>@\d) (?P<object>\w+) (?P<action>\w+)"
                   r"|answer (?P<answered>\w+) (?P<state>\w+)|kill (?P<killed>\w+) (?P<killer>@\d)")
Start = tuple[str, int, str]


class Manager:
    def __init__(self) -> None:
        self.states = {"HV1": "OFF", "HV2": "OFF", "TOP": "OFF"}
        self.waiting: dict[str, list[Start]] = {name: [] for name in self.states}
        self.open: dict[str, Start] = {}
        self.numbers = dict.fromkeys(self.states, 0)
        self.answers: dict[str, str] = {}
        # Of each name the number and the object of its last request that is made once.
        self.last: dict[str, tuple[str, str]] = {}
        self.told: list[str] = []

    def make(self, line: str) -> None:
        found = FORMS.fullmatch(line)
        if not found:
            self.told += [] if not line or line.startswith("!") else ["refused BadLine"]
        elif found["object"]:
            self.request(found["once"] or "", found["session"], found["object"], found["action"])
        elif found["answered"]:
            self.answer(found["answered"], found["state"])
        else:
            self.states[found["killed"]] = "DEAD"
            self.open.pop(found["killed"], None)
            self.told.append(f"kill {found['killed']} {found['killer']}")

    def request(self, once: str, session: str, name: str, action: str) -> None:
        if once in self.answers:
            self.told.append(self.answers[once])
            return
        number = self.numbers[name]
        self.numbers[name] += 1
        self.told.append(f"accept {session} {name} {number} {action}")
        if once:
            self.answers[once] = f"{once}{self.told[-1]}"
            self.told.append(self.answers[once])
            self.last[once.split()[1]] = (once.split()[2], name)
        self.waiting[name].append((session, number, action))
        self.begin(name)

    def begin(self, name: str) -> None:
        while self.waiting[name] and name not in self.open:
            session, number, action = self.waiting[name].pop(0)
            self.told.append(f"start {name} {session} {number} {action}")
            if DECLARED.get(self.states[name]) == action:
                self.open[name] = (session, number, action)
            else:
                self.told.append(f"end {name} skipped")

    def answer(self, name: str, state: str) -> None:
        if name not in self.open:
            self.told.append("refused NotOpen")
        elif state not in DECLARED:
            self.told.append("refused NotAState")
        else:
            del self.open[name]
            self.states[name] = state
            self.told.append(f"end {name} {state}")
            self.begin(name)

    def standing(self) -> list[str]:
        opens = [f"open {name} {action} waits device" for name, (_, _, action) in self.open.items()]
        lasts = [f"once {name} {number} {asked} {self.states[asked]} 0 ended"
                 for name, (number, asked) in self.last.items()]
        return [*(f"state {name} {state}" for name, state in self.states.items()), *opens, *lasts, "stands 1"]

    def resume(self, log: str) -> None:
        """Makes the lines of a log again, and tells how all stands; slowly, so that a test can come before."""
        with open(log, encoding="ascii") as file:
            for line in file.read().splitlines():
                self.make(line)
        self.told = self.standing()
        self.tell()
        time.sleep(PAUSE)
        self.told = [f"start {name} {session} {number} {action}"
                     for name, (session, number, action) in self.open.items()]
        self.tell()

    def tell(self) -> None:
        for line in self.told:
            print(line, flush=True)
        self.told = []


def live(log: str) -> None:
    manager = Manager()
    if log:
        manager.resume(log)
    for line in map(str.rstrip, sys.stdin):
        if line == "?":
            print("\n".join(manager.standing()), file=sys.stderr, flush=True)
            continue
        if log:
            with open(log, "a", encoding="ascii") as file:
                file.write(f"{line}\n")
        manager.make(line)
        manager.tell()


if __name__ == "__main__":
    if sys.argv[1] == "live":
        live(sys.argv[sys.argv.index("--log") + 1] if "--log" in sys.argv else "")
    else:
        print(LIST if sys.argv[1] == "list" else PRINT)
