"""Times a hierarchy of three levels: how long it takes from one request at the top until all is done.

usage: links/measure [--middle N] [--leaves N] [--devices N] [--rounds N] [--sync] [--port N] [--at-rest SECONDS]

It makes a hierarchy (8, 8 and 63 if not given: 73 managers and 4,096 devices, which answer at once), starts mosquitto
and all nodes on this machine, and switches all on and off N times (10 if not given). It prints after how many seconds
all nodes were there; of each request until when the last command of each level was published, and its last outcome;
then the median, the processors' seconds, the memory of nodes and managers, and, with --at-rest, the share of a
processor that all of it takes while nothing is asked. All times are of one clock, that of a client that sees all
topics.
"""
from __future__ import annotations

import argparse
import collections
import os
import shutil
import statistics
import subprocess
import sys
import tempfile
import time

from ..client import Client
from ..description import Hierarchy, read
from ..messages import Alive, Command, read_alive, read_outcome
from ..seen import Seen

ABOVE = os.path.dirname(os.path.dirname(os.path.dirname(os.path.realpath(__file__))))
TICKS = os.sysconf("SC_CLK_TCK")


class Watch:
    """A client that sees when commands and outcomes of each level come."""

    def __init__(self, hierarchy: Hierarchy) -> None:
        self.root, self.seen = hierarchy.name, Seen()
        topics = [f"{self.root}/+/{what}" for what in ("alive", "command/+", "outcome/+")]
        self.client = Client(hierarchy, "ANNA", topics)
        self.times: dict[tuple[int, str], float] = {}
        self.alive: Alive | None = None

    def hear(self, begun: float) -> tuple[int, str] | None:
        """Takes what came: the K and the kind of the last outcome of the top, if it came."""
        found = None
        for topic, payload in self.client.take():
            words = topic.split("/")
            if len(words) < 3:
                continue
            now = time.monotonic() - begun
            self.seen.hear(topic, payload, time.monotonic())
            level = 0 if words[1] == "TOP" else 1 + ("_" in words[1])
            if words[2] == "alive" and words[1] == "TOP":
                self.alive = read_alive(payload) or self.alive
            elif words[2] == "command" and payload.startswith(b"command"):
                self.times[level, "asked"] = now
            elif words[2] == "outcome" and (outcome := read_outcome(payload)) and outcome.is_last():
                self.times[level, "done"] = now
                if words[1] == "TOP":
                    found = outcome.k, f"{outcome.kind} {outcome.state}"
        return found

    def wait_for_all(self, count: int, seconds: float) -> float:
        begun = time.monotonic()
        while time.monotonic() < begun + seconds:
            self.hear(begun)
            if len([node for node, found in self.seen.alive.items() if found[0].is_up]) == count:
                break
            time.sleep(0.01)
        return time.monotonic() - begun

    def ask(self, action: str, arguments: str) -> tuple[float, str]:
        assert self.alive
        k, begun = time.time_ns(), time.monotonic()
        self.times.clear()
        command = Command(k, self.alive.log, "UNIT", action, arguments)
        self.client.publish(f"{self.root}/TOP/command/ANNA", command.line())
        while time.monotonic() < begun + 60:
            found = self.hear(begun)
            if found and found[0] == k:
                return time.monotonic() - begun, found[1]
            time.sleep(0.001)
        return time.monotonic() - begun, "no answer"


def processes_of(first: int) -> dict[int, list[str]]:
    """The processes below one, with their words."""
    parents: dict[int, list[int]] = collections.defaultdict(list)
    for name in os.listdir("/proc"):
        if name.isdigit():
            try:
                with open(f"/proc/{name}/stat", encoding="latin1") as file:
                    parents[int(file.read().rpartition(")")[2].split()[1])].append(int(name))
            except OSError:
                pass
    found: dict[int, list[str]] = {}
    left = [first]
    while left:
        number = left.pop()
        try:
            with open(f"/proc/{number}/cmdline", "rb") as file:
                found[number] = file.read().decode("latin1").split("\0")
        except OSError:
            continue
        left += parents[number]
    return found


def processor_seconds(numbers: list[int]) -> float:
    total = 0.0
    for number in numbers:
        try:
            with open(f"/proc/{number}/stat", encoding="latin1") as file:
                words = file.read().rpartition(")")[2].split()
            total += (int(words[11]) + int(words[12])) / TICKS
        except OSError:
            pass
    return total


def memory_of(numbers: list[int], word: str) -> list[float]:
    """Resident megabytes of each: all of it, or its share of what several have."""
    found = []
    for number in numbers:
        try:
            with open(f"/proc/{number}/smaps_rollup", encoding="latin1") as file:
                found += [int(line.split()[1]) / 1024 for line in file if line.startswith(word + ":")]
        except OSError:
            pass
    return found


def spread(numbers: list[float]) -> str:
    return f"median {statistics.median(numbers):.1f}, most {max(numbers):.1f}" if numbers else "none"


class Parts:
    """The processes of a hierarchy: those of nodes, of managers, and the broker's."""

    def __init__(self, nodes: int, broker: int) -> None:
        found = processes_of(nodes)
        self.managers = [number for number, words in found.items() if "live" in words]
        self.pythons = [number for number in found if number not in self.managers and number != nodes]
        self.all = {"nodes": [nodes, *self.pythons], "managers": self.managers, "broker": [broker]}

    def seconds(self) -> dict[str, float]:
        return {name: processor_seconds(numbers) for name, numbers in self.all.items()}

    def since(self, before: dict[str, float], parts: float) -> str:
        """What each has taken since then, divided by a number."""
        return ", ".join(f"{name} {(taken - before[name]) / parts:.3f}" for name, taken in self.seconds().items())


def switch(watch: Watch, parts: Parts, rounds: int) -> None:
    """All on and off, as often as asked for."""
    totals, before = [], parts.seconds()
    for number in range(rounds):
        action = ("SWITCH_ON", "(VOLTS = 300)") if number % 2 == 0 else ("SWITCH_OFF", "")
        total, what = watch.ask(*action)
        levels = ", ".join(f"L{level} {word} {at:.3f}" for (level, word), at in sorted(watch.times.items()))
        print(f"{action[0]} {what} {total:.3f} s: {levels}", flush=True)
        totals.append(total)
        time.sleep(1)
    print(f"median {statistics.median(totals):.3f} s, least {min(totals):.3f}, most {max(totals):.3f}")
    print(f"seconds of processor for each request, with what is told after it: {parts.since(before, rounds)}")


def rest(watch: Watch, parts: Parts, seconds: float) -> None:
    watch.client.leave()
    time.sleep(5)
    before = parts.seconds()
    time.sleep(seconds)
    print(f"processors taken at rest, of {seconds:.0f} s: {parts.since(before, seconds)}", flush=True)


def made(asked: argparse.Namespace, folder: str) -> str:
    """The hierarchy, and all that its broker needs: the path of its description."""
    env, file = os.environ | {"PYTHONPATH": ABOVE}, f"{folder}/hierarchy.toml"
    sizes = [f"--{name}={getattr(asked, name)}" for name in ("middle", "leaves", "devices", "port")]
    more = ["--sync"] if asked.sync else []
    subprocess.run([sys.executable, "-m", "links.trials.make_hierarchy", folder, "--react", *sizes, *more], check=True,
                   env=env)
    subprocess.run([sys.executable, "-m", "links", "broker", file, f"{folder}/broker"], check=True, env=env)
    return file


def measure(asked: argparse.Namespace, folder: str) -> None:
    file = made(asked, folder)
    hierarchy, env = read(file, domains=None), os.environ | {"PYTHONPATH": ABOVE}
    with open(f"{folder}/out", "wb") as out:
        broker = subprocess.Popen(["mosquitto", "-c", f"{folder}/broker/mosquitto.conf"], stdout=out, stderr=out)
        time.sleep(0.5)
        watch = Watch(hierarchy)
        nodes = subprocess.Popen([sys.executable, "-m", "links", "run", file], stdout=out, stderr=out, env=env)
    try:
        count = len(hierarchy.managers)
        print(f"{count} nodes were there after {watch.wait_for_all(count, 120):.1f} s", flush=True)
        time.sleep(8)
        parts = Parts(nodes.pid, broker.pid)
        switch(watch, parts, asked.rounds)
        print(f"memory of a node in MB: {spread(memory_of(parts.pythons, 'Rss'))}, its own share "
              f"{spread(memory_of(parts.pythons, 'Pss'))}; of a manager: {spread(memory_of(parts.managers, 'Rss'))}",
              flush=True)
        if asked.at_rest:
            rest(watch, parts, asked.at_rest)
    finally:
        for process in (nodes, broker):
            process.terminate()
            process.wait()


def main() -> int:
    words = argparse.ArgumentParser(description=__doc__, formatter_class=argparse.RawDescriptionHelpFormatter)
    for name, value in (("middle", 8), ("leaves", 8), ("devices", 63), ("rounds", 10), ("port", 18900)):
        words.add_argument(f"--{name}", metavar="N", type=int, default=value)
    words.add_argument("--sync", action="store_true")
    words.add_argument("--at-rest", metavar="SECONDS", type=float, default=0.0)
    asked = words.parse_args()
    os.environ["PATH"] += os.pathsep + "/usr/sbin"
    folder = tempfile.mkdtemp(prefix="measure-links-")
    try:
        measure(asked, folder)
    finally:
        shutil.rmtree(folder, ignore_errors=True)
    return 0


if __name__ == "__main__":
    sys.exit(main())
