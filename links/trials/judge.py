"""Judges a hierarchy's links by the logs of its managers alone.

usage: links/judge FILE [--slack SECONDS] [--told PATH] [--not-at-rest]

FILE is the description. Each log is performed by `smirun step`, with a line that is refused after each of its lines,
so that it is known what each line wrote. A log that was lost stands beside it as LOG.lost-N. Of each link it looks
whether

  - the child performed each K once in all its logs, in rising order within each, and only what the parent's start K at
    SUB asked for, with the same arguments; and nothing of a start that SUB skipped, or of a report
  - nothing was requested in the link's session without a K, and each withdrawal was refused
  - each start at SUB was answered: by the state, the kind and the version that came of that very K in the log that the
    answer names, or by LOST
  - nothing was given to T more than SLACK seconds (4 if not given) after it was given up
  - the states that SUB took are states of T, by their version, and in T's order
  - SUB stands at last as the object does that it stands for

and that the journal of each log is Legal. With --told it looks too whether what operators were told (lines `NODE NAME K
KIND STATE VERSION`) is what came of that very K. It shares no code with the nodes. The last line has counts, and 'N
links, M wrong'; the status is 0 where M is 0.
"""
from __future__ import annotations

import argparse
import collections
import glob
import os
import re
import subprocess
import sys
import tomllib
from dataclasses import dataclass, field
from typing import Any

PROGRAM = os.environ.get("SMIRUN") or os.path.normpath(
    f"{os.path.dirname(os.path.realpath(__file__))}/../../crates/smirun/out/smirun")
MARK, ANSWER_TO_MARK, SESSION, WITHDRAWN = "no step", "refused BadLine", "@8", "WITHDRAWN"
LOGS = 32


@dataclass
class Start:
    """A start at an object: the log's number where it ended, or now; its count, whose it was, what it asks, and how it
    ended. (A log that has another number gives up what is open before; what starts meanwhile has the new one.)"""
    number: int
    count: int
    sender: str
    of_sender: int
    asks: str
    end: str = ""
    state: str = ""
    version: int = -1

    def k(self) -> int:
        return (self.number << LOGS) + self.count


@dataclass
class Given:
    """A request with a mark: its K, the line, what was answered, and when it was given."""
    k: int
    line: str
    answer: str
    at: float
    state: str
    version: int


@dataclass
class Taken:
    """An answer for SUB: its words after the comment's sign."""
    state: str
    words: list[str]
    made: bool


@dataclass(eq=False)
class Log:
    """A log, what each of its lines wrote, and the log's number at each."""
    path: str
    lines: list[str] = field(default_factory=list)
    wrote: list[list[str]] = field(default_factory=list)
    numbers: list[int] = field(default_factory=list)
    states: dict[str, str] = field(default_factory=dict)
    verdict: str = ""
    # Of each object its starts and its states, once they were looked for.
    started: dict[str, list[Start]] = field(default_factory=dict)
    stood: dict[str, list[str]] = field(default_factory=dict)

    def performed(self, domain: str, capacity: int) -> Log:
        with open(self.path, "rb") as file:
            text = file.read()
        self.lines = text[:text.rfind(b"\n") + 1].decode().split("\n")[:-1]
        fed = "".join(f"{MARK}\n" if line == ANSWER_TO_MARK else f"{line}\n{MARK}\n" for line in self.lines)
        told = subprocess.run([PROGRAM, "step", domain, "-", "--capacity", str(capacity), "--states"],
                              input=fed.encode(), capture_output=True, check=True).stdout.decode().split("\n")[:-1]
        at, number = 0, 0
        for line in self.lines:
            end = told.index(ANSWER_TO_MARK, at)
            self.wrote.append(told[at:end])
            at = end + 1
            if found := re.fullmatch(r"! links begun (\d+) \S+ \d+", line):
                number = int(found[1])
            self.numbers.append(number)
        self.states = {line.split()[1]: line.split()[2] for line in told[at:] if line.startswith("state ")}
        done = subprocess.run([PROGRAM, "audit", domain, "--log", self.path], capture_output=True, text=True)
        self.verdict = (done.stdout or done.stderr).strip()
        return self

    def starts(self, name: str) -> list[Start]:
        if name not in self.started:
            self.started[name] = self.starts_of(name)
        return self.started[name]

    def starts_of(self, name: str) -> list[Start]:
        made: list[Start] = []
        version, is_open = 0, False
        for number, wrote in zip(self.numbers, self.wrote):
            for line in wrote:
                words = line.split(" ", 5)
                if words[:2] == ["start", name]:
                    made.append(Start(number, len(made) + 1, words[2], int(words[3]), " ".join(words[4:])))
                    is_open = True
                elif words[0] in ("end", "kill") and words[1] == name:
                    version += words[2] != "skipped"
                    if is_open:
                        made[-1].number = number
                        made[-1].end = "skipped" if words[2] == "skipped" else {"kill": "killed"}.get(words[0], "ended")
                        made[-1].state, made[-1].version = words[2], version
                    is_open = False
            if is_open:
                made[-1].number = number
        return made

    def history(self, name: str, initial: str, dead: str) -> list[str]:
        """The states of an object, by version."""
        if name not in self.stood:
            self.stood[name] = self.states_of(name, initial, dead)
        return self.stood[name]

    def states_of(self, name: str, initial: str, dead: str) -> list[str]:
        states = [initial]
        for wrote in self.wrote:
            for line in wrote:
                words = line.split(" ")
                if words[0] == "end" and words[1] == name and words[2] != "skipped":
                    states.append(words[2])
                elif words[0] == "kill" and words[1] == name:
                    states.append(dead)
        return states

    def given(self, name: str, target: str, initial: str, dead: str) -> list[Given]:
        had, version, state = [], 0, initial
        for line, wrote in zip(self.lines, self.wrote):
            for told in wrote:
                words = told.split(" ")
                if words[0] in ("end", "kill") and words[1] == target and words[2] != "skipped":
                    version, state = version + 1, words[2] if words[0] == "end" else dead
            if found := re.fullmatch(r"(request .*?)(?: ! at ([0-9.]+))? ! once (\w+) (\d+)", line):
                if found[3] == name:
                    had.append(Given(int(found[4]), found[1], wrote[0], float(found[2] or 0), state, version))
        return had

    def taken(self, sub: str) -> list[Taken]:
        found = []
        for line, wrote in zip(self.lines, self.wrote):
            if answer := re.fullmatch(rf"answer {sub} (\w+) ! (.*)", line):
                found.append(Taken(answer[1], answer[2].split(" "), wrote[:1] == [f"end {sub} {answer[1]}"]))
        return found


class Domain:
    """Of each object the initial and the dead state."""

    def __init__(self, path: str) -> None:
        states: dict[str, list[str]] = {}
        self.first: dict[str, tuple[str, str]] = {}
        listed = subprocess.run([PROGRAM, "list", path], capture_output=True, text=True, check=True).stdout
        for line in listed.splitlines():
            words = line.split(" ")
            if words[0] == "state":
                known = states.setdefault(words[1], [words[2], ""])
                known[0] = words[2] if "initial" in words[3:] else known[0]
                known[1] = words[2] if "dead" in words[3:] else known[1]
            elif words[0] == "object":
                self.first[words[1]] = (states[words[2]][0], states[words[2]][1])


@dataclass
class Came:
    """What came of a K at the child: how it ended, T's state and version right then, the log, when it was given."""
    how: str
    state: str
    version: int
    logs: list[int]
    at: float


# What came of a request: its kind, and the state and the version of its object then.
Fate = tuple[str, str, int]


class Judge:
    def __init__(self, file: str, slack: float) -> None:
        with open(file, "rb") as opened:
            self.text = tomllib.load(opened)
        self.folder, self.slack = os.path.dirname(os.path.abspath(file)), slack
        self.counts: collections.Counter[str] = collections.Counter()
        self.wrong: list[str] = []
        self.logs: dict[str, list[Log]] = {}
        self.domains: dict[str, Domain] = {}
        for name, manager in self.text["managers"].items():
            domain = os.path.join(self.folder, manager["domain"])
            log = os.path.join(self.folder, manager.get("log", f"{name.lower()}.log"))
            paths = sorted(glob.glob(glob.escape(log) + ".lost-*"), key=lambda path: int(path.rpartition("-")[2]))
            self.logs[name] = [Log(path).performed(domain, manager.get("capacity", 16)) for path in [*paths, log]
                               if os.path.exists(path)]
            self.domains[name] = Domain(domain)

    def judge(self, at_rest: bool) -> int:
        links = 0
        for name, logs in self.logs.items():
            numbers = [number for log in logs for number in sorted(set(log.numbers) - {0})]
            if numbers != sorted(set(numbers)):
                self.wrong.append(f"{name}: the numbers of its logs do not rise: {numbers}")
            for log in logs:
                self.counts["lines"] += len(log.lines)
                self.counts["lives"] += sum(line == "! links resumed" for line in log.lines)
                self.counts["logs"] += 1
                self.counts["numbers"] += len(set(log.numbers) - {0})
                if log.verdict != "Legal":
                    self.wrong.append(f"{log.path}: its journal is {log.verdict}")
            for sub, link in self.text["managers"][name].get("links", {}).items():
                links += 1
                self.judge_link(name, sub, link, at_rest)
        for sentence in self.wrong[:40]:
            print(sentence)
        print(", ".join(f"{name} {count}" for name, count in sorted(self.counts.items())))
        print(f"{links} links, {len(self.wrong)} wrong")
        return 1 if self.wrong else 0

    def judge_link(self, name: str, sub: str, link: dict[str, Any], at_rest: bool) -> None:
        child, target = link["to"].split(".")
        title, report = f"{name}_{sub}", link.get("report", self.text.get("defaults", {}).get("report", "REPORT"))
        initial, dead = self.domains[child].first[target]
        starts = [start for log in self.logs[name] for start in log.starts(sub)]
        asked = {start.k(): start for start in starts if start.asks.split(" ")[0] != report}
        self.counts["reports"] += len(starts) - len(asked)
        came: dict[int, Came] = {}
        for log in self.logs[child]:
            self.judge_given(title, log, log.given(title, target, initial, dead), target, asked, came)
        for log in self.logs[name]:
            self.judge_answers(title, log, sub, asked, came)
            self.judge_states(title, log, sub, child, target)
        last = self.logs[name][-1]
        if at_rest and last.states[sub] != self.logs[child][-1].states[target]:
            self.wrong.append(f"{title}: stands as {last.states[sub]}, and {target} as "
                              f"{self.logs[child][-1].states[target]}")

    def judge_given(self, title: str, log: Log, had: list[Given], target: str, asked: dict[int, Start],
                    came: dict[int, Came]) -> None:
        """What the child performed in the link's name."""
        wrong = self.wrong.append
        numbers = [given.k for given in had]
        if numbers != sorted(set(numbers)):
            wrong(f"{title}: K are not once and rising in {log.path}")
        raw = sum(line.upper().startswith(f"REQUEST {SESSION} {target} ") for line in log.lines)
        if raw != len(had):
            wrong(f"{title}: {raw} requests in the session of the link, and {len(had)} with a K")
        ended = {(start.sender, start.of_sender): start for start in log.starts(target)}
        for given in had:
            words = given.line.split(" ", 3)
            logs = sorted(set(log.numbers) - {0})
            if words[3] == WITHDRAWN:
                self.counts["withdrawn"] += 1
                if not given.answer.startswith("refused"):
                    wrong(f"{title}: {given.line} was not refused")
                came.setdefault(given.k, Came("withdrawn", given.state, given.version, logs, given.at))
                continue
            if given.k not in asked:
                wrong(f"{title}: K {given.k} was never asked for: {given.line}")
                continue
            if given.k in came and came[given.k].how != "withdrawn":
                wrong(f"{title}: K {given.k} was given in two logs")
            if words[3] != asked[given.k].asks or words[2] != target:
                wrong(f"{title}: K {given.k} asked {asked[given.k].asks}, and was {given.line}")
            if asked[given.k].end == "skipped":
                wrong(f"{title}: SUB skipped start {asked[given.k].count}, and T was given {given.line}")
            if given.answer.startswith("accept"):
                start = ended.get((words[1], int(given.answer.split()[3])))
                how, state, version = "waits", "", -1
                if start and start.end:
                    how, state, version = start.end, start.state, start.version
                if how == "skipped" and start:
                    state = self.state_at(log, target, start.version)
            else:
                how, state, version = f"refused:{given.answer.split()[1]}", given.state, given.version
            came[given.k] = Came(how, state, version, logs, given.at)

    def state_at(self, log: Log, target: str, version: int) -> str:
        child = next(name for name, logs in self.logs.items() if log in logs)
        return log.history(target, *self.domains[child].first[target])[version]

    def judge_answers(self, title: str, log: Log, sub: str, asked: dict[int, Start], came: dict[int, Came]) -> None:
        """Each start has an answer, and it is what came of that very K."""
        wrong = self.wrong.append
        answers = {int(taken.words[1]): taken for taken in log.taken(sub) if taken.made
                   and taken.words[0] in ("came", "lost")}
        for start in log.starts(sub):
            k, found = start.k(), answers.get(start.k())
            what = f"{title}: start {start.count} ({start.asks})"
            if k not in asked:
                continue
            self.counts["starts"] += 1
            if not start.end:
                is_lost = any(log in logs[:-1] for logs in self.logs.values())
                self.counts["open in a log that was lost" if is_lost else "open"] += 1
                if not is_lost:
                    wrong(f"{what} has no answer")
            elif start.end == "skipped":
                self.counts["skipped by SUB"] += 1
            elif start.end == "killed":
                self.counts["SUB killed"] += 1
            elif found is None:
                wrong(f"{what} ended in {start.state}, by no answer with its K")
            elif found.words[0] == "lost":
                there = came.get(k)
                done = there is not None and there.how not in ("withdrawn",) and not there.how.startswith("refused")
                self.counts["lost, and " + ("performed" if done else "not performed")] += 1
                if found.state != "LOST":
                    wrong(f"{what} was lost, and answered {found.state}")
                late = there.at - float(found.words[3].rstrip(":")) if there and done else 0.0
                if late > self.slack:
                    wrong(f"{what} was given to T {late:.1f} s after it was given up")
            else:
                self.judge_came(what, found, came.get(k))

    def judge_came(self, what: str, found: Taken, there: Came | None) -> None:
        _, _, kind, log, version, *_ = found.words
        self.counts[f"answered as {kind.partition(':')[0]}"] += 1
        if there is None:
            self.wrong.append(f"{what} was answered {found.state} as {kind}, and nothing came of it")
        elif kind == "killed" and there.how in ("waits", "killed"):
            return  # of one that waited where T was killed the journal has no end
        if kind == "refused:UnknownAction" and there is not None and there.how == "withdrawn":
            kind = "withdrawn"  # a node that was started anew does not know which of the two it was
        if there is not None and (kind, found.state, int(version)) != (there.how, there.state, there.version):
            self.wrong.append(f"{what} was answered {found.state} as {kind} of version {version}, and {there.how} "
                              f"{there.state} of version {there.version} came of it")
        elif there is not None and int(log) not in there.logs:
            self.wrong.append(f"{what} was answered by log {log}, and the child has it in {there.logs}")

    def judge_states(self, title: str, log: Log, sub: str, child: str, target: str) -> None:
        """The states that SUB takes are T's, in T's order."""
        taken = [(int(one.words[-2]), int(one.words[-1]), one) for one in log.taken(sub) if one.made
                 and one.words[0] in ("came", "stands")]
        initial, dead = self.domains[child].first[target]
        histories = {number: one.history(target, initial, dead) for one in self.logs[child]
                     for number in set(one.numbers) - {0}}
        before = (0, -1)
        for number, version, one in taken:
            self.counts["states taken"] += 1
            history = histories.get(number, [])
            if (number, version) < before:
                self.wrong.append(f"{title}: took version {version} of log {number} after {before}")
            elif version >= len(history) or history[version] != one.state and one.state != "LOST":
                self.wrong.append(f"{title}: took {one.state} as version {version} of log {number}, which is "
                                  f"{history[version:version + 1]}")
            before = (number, version)

    def judge_told(self, path: str) -> None:
        """What operators were told is what came of that very K."""
        came: dict[tuple[str, str], dict[int, set[Fate]]] = {}
        with open(path, encoding="ascii") as file:
            told = [line.split() for line in file]
        for node, name, k, kind, state, version in told:
            self.counts["told to operators"] += 1
            if (node, name) not in came:
                came[node, name] = self.fates(node, name)
            found = came[node, name].get(int(k), set())
            if (kind, state, int(version)) not in found and kind != "accepted":
                self.wrong.append(f"{node}: {name} was told {kind} {state} {version} of K {k}, and {found} came of it")

    def fates(self, node: str, name: str) -> dict[int, set[Fate]]:
        """Of each K of an operator what came of it, in the logs of a manager."""
        found: dict[int, set[Fate]] = {}
        for log in self.logs[node]:
            for target in {line.split(" ")[2] for line in log.lines if f" ! once {name} " in line}:
                ended = {(start.sender, start.of_sender): start for start in log.starts(target)}
                for given in log.given(name, target, *self.domains[node].first[target]):
                    if fate := self.fate(log, target, given, ended):
                        found.setdefault(given.k, set()).add(fate)
        return found

    def fate(self, log: Log, target: str, given: Given, ended: dict[tuple[str, int], Start]) -> Fate | None:
        if given.line.split(" ")[2] != target:
            return None
        if given.answer.startswith("refused"):
            return f"refused:{given.answer.split()[1]}", given.state, given.version
        start = ended.get((given.line.split(" ")[1], int(given.answer.split()[3])))
        if start is None or not start.end:
            return None
        state = start.state if start.end == "ended" else self.state_at(log, target, start.version)
        return start.end, state, start.version


def main() -> int:
    words = argparse.ArgumentParser(description=__doc__, formatter_class=argparse.RawDescriptionHelpFormatter)
    words.add_argument("file", metavar="FILE")
    words.add_argument("--slack", type=float, default=4.0)
    words.add_argument("--told")
    words.add_argument("--not-at-rest", action="store_true")
    asked = words.parse_args()
    judge = Judge(asked.file, asked.slack)
    if asked.told:
        judge.judge_told(asked.told)
    return judge.judge(not asked.not_at_rest)


if __name__ == "__main__":
    sys.exit(main())
