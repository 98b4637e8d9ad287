"""Kills managers, nodes and the broker of a hierarchy at random moments, and has its links judged by the logs.

usage: links/crash [--rounds N] [--seed S] [--calm] [--port N] [--keep FOLDER] [--record] [--broker mosquitto|nats]

It makes three levels in small, starts a broker, a proxy and all nodes, and in each of N rounds (300 if not given), of
about a second, does one of these: it ends a manager, a node, both, two of them, all or the broker by SIGKILL, or a node
by SIGTERM; stops a manager or a node for some seconds; has a log believe that the machine was started anew; or takes a
log away, so that it is begun anew. An operator asks the top object without a pause, another one below it; at times they
ask for the next before the first is done, or give up and withdraw. Supplies trip by themselves. All goes through a
proxy, which loses, repeats, delays, reorders and cuts. At last all may come to rest, and the judge judges by the logs
of all managers, and by what the operators were told.

The lines before the last have the counts of what was done and judged. The last line is 'N rounds, M wrong, seed S', and
the status is 0 only where M is 0. FOLDER is kept, if one is given, and if anything was wrong. With --record these lines
are added to links/crash.last, which has the runs of one state of the sources: where they are others, it begins anew.
"""
from __future__ import annotations

import argparse
import collections
import datetime
import glob
import hashlib
import os
import random
import re
import shutil
import signal
import subprocess
import sys
import tempfile
import threading
import time

from ..asking import Asking
from ..client import Client
from ..description import Hierarchy, read
from ..messages import Alive, read_alive, read_outcome

ABOVE = os.path.dirname(os.path.dirname(os.path.dirname(os.path.realpath(__file__))))
DEEDS = {"manager": 25, "node": 25, "both": 14, "broker": 9, "two": 10, "all": 4, "term": 8, "stop": 8, "boot": 4,
         "new log": 4}
DISTURBED = ["--lose", "0.05", "--repeat", "0.1", "--delay", "0.1", "--seconds", "1.5", "--cut", "0.002"]
LIMIT, PATIENCE = 6.0, 4.0
# A process that is stopped longer than a start at SUB is waited for.
STOPPED = 9.0


class Plant:
    """Everything that runs: the broker, the proxy, the nodes and their managers."""

    def __init__(self, file: str, asked: argparse.Namespace) -> None:
        self.file, self.asked = file, asked
        self.hierarchy: Hierarchy = read(file)
        self.random = random.Random(asked.seed)
        self.nodes: dict[str, subprocess.Popen[bytes]] = {}
        self.deeds: collections.Counter[str] = collections.Counter()
        self.proxy_port = self.hierarchy.broker.port + 1
        self.env = os.environ | {"LINKS_PORT": str(self.proxy_port), "PYTHONPATH": ABOVE}
        self.errors = open(os.path.join(self.hierarchy.folder, "nodes.out"), "wb")
        self.broker: subprocess.Popen[bytes] | None = None
        self.proxy: subprocess.Popen[bytes] | None = None
        self.stopped: list[tuple[float, int]] = []
        self.lost: collections.Counter[str] = collections.Counter()

    def start_proxy(self, words: list[str]) -> None:
        self.proxy = subprocess.Popen([sys.executable, "-m", "links.trials.proxy", str(self.proxy_port),
                                       str(self.hierarchy.broker.port), "--seed", str(self.asked.seed), *words],
                                      env=self.env, stdout=self.errors)

    def start_missing(self) -> None:
        now = time.monotonic()
        for due, number in [one for one in self.stopped if one[0] <= now]:
            self.signal(number, signal.SIGCONT)
            self.stopped.remove((due, number))
        if self.broker is None or self.broker.poll() is not None:
            folder = os.path.join(self.hierarchy.folder, "broker")
            words = ["nats-server", "-c", f"{folder}/nats.conf"] if self.asked.broker == "nats" else [
                "mosquitto", "-c", f"{folder}/mosquitto.conf"]
            self.broker = subprocess.Popen(words, stdout=self.errors, stderr=self.errors)
        for name in self.hierarchy.managers:
            if name not in self.nodes or self.nodes[name].poll() is not None:
                self.nodes[name] = subprocess.Popen(
                    [sys.executable, "-m", "links", "node", self.file, name], env=self.env, stderr=self.errors,
                    start_new_session=True)

    @staticmethod
    def managers_of(number: int) -> list[int]:
        try:
            with open(f"/proc/{number}/task/{number}/children", encoding="ascii") as file:
                return [int(word) for word in file.read().split()]
        except OSError:
            return []

    @staticmethod
    def signal(number: int, what: signal.Signals = signal.SIGKILL) -> None:
        try:
            os.kill(number, what)
        except ProcessLookupError:
            pass

    def strike(self) -> None:
        what = self.random.choices([*DEEDS], [*DEEDS.values()])[0]
        self.deeds[what] += 1
        count = {"two": 2, "all": len(self.nodes)}.get(what, 1)
        victims = self.random.sample(sorted(self.nodes), count)
        if what in ("broker", "all") and self.broker:
            self.signal(self.broker.pid)
        if what == "broker":
            return
        for name in victims:
            node = self.nodes[name]
            managers = self.managers_of(node.pid)
            if what == "stop":
                number = self.random.choice([node.pid, *managers[:1]])
                self.signal(number, signal.SIGSTOP)
                self.stopped.append((time.monotonic() + self.random.uniform(1, STOPPED), number))
            elif what == "term":
                node.terminate()
            else:
                for number in managers if what != "node" else []:
                    self.signal(number)
                if what != "manager":
                    self.signal(node.pid)
            if what in ("boot", "new log"):
                node.wait()
                self.change_log(name, what)

    def change_log(self, name: str, what: str) -> None:
        """Neither the node nor its manager runs. As a crash of the machine would leave it, or as if it had no log."""
        path = self.hierarchy.managers[name].log
        time.sleep(0.1)
        if not os.path.exists(path):
            return  # it was taken away before, and its node has not begun another yet
        if what == "new log":
            self.lost[name] += 1
            os.rename(path, f"{path}.lost-{self.lost[name]}")
            return
        with open(path, "rb") as file:
            text = file.read()
        with open(path, "wb") as file:
            file.write(re.sub(rb"(?m)^(! links begun \d+ )\S+", lambda found: found[1] + b"another", text))

    def come_to_rest(self, seconds: float) -> None:
        for _, number in self.stopped:
            self.signal(number, signal.SIGCONT)
        self.stopped.clear()
        if self.proxy:
            self.proxy.send_signal(signal.SIGTERM)
            self.proxy.wait()
        self.start_proxy([])
        ends = time.monotonic() + seconds
        while time.monotonic() < ends:
            self.start_missing()
            time.sleep(0.5)

    def end(self) -> None:
        """Ends all; also twice, and where something went wrong."""
        for _, number in self.stopped:
            self.signal(number, signal.SIGCONT)
        for node in self.nodes.values():
            node.terminate()
        for node in self.nodes.values():
            node.wait()
        for process in (self.proxy, self.broker):
            if process:
                process.terminate()
                process.wait()
        self.errors.close()


class Operator(threading.Thread):
    """Asks the object of a manager again and again, and notes what it was told."""

    def __init__(self, hierarchy: Hierarchy, port: int, seed: int, name: str, node: str, pairs: float) -> None:
        super().__init__(daemon=True)
        os.environ["LINKS_PORT"] = str(port)
        self.name_of, self.node, self.pairs = name, node, pairs
        self.at, self.random = f"{hierarchy.name}/{node}", random.Random(f"{seed} {name}")
        self.client = Client(hierarchy, name, [f"{self.at}/alive", f"{self.at}/outcome/{name}"])
        self.is_over, self.log = False, 0
        self.told: list[str] = []
        self.counts: collections.Counter[str] = collections.Counter()

    def run(self) -> None:
        is_on = False
        while not self.is_over:
            is_on = not is_on if self.random.random() < 0.8 else is_on
            action = ("SWITCH_ON", f"(VOLTS = {self.counts['asked']})") if is_on else ("SWITCH_OFF", "")
            self.ask(Asking(time.time_ns(), "UNIT", *action))
            time.sleep(self.random.random() * 0.3)

    def ask(self, asking: Asking) -> None:
        """Asks until there is an outcome; at times it gives up, or asks for the next before that."""
        self.counts["asked"] += 1
        dice, begun, again = self.random.random(), time.monotonic(), 0.0
        limit = 90.0 if dice < 0.85 - self.pairs else self.random.uniform(0.0, 0.5)
        while not asking.is_over():
            self.hear(asking)
            now = time.monotonic()
            if now > begun + limit and not asking.is_withdrawn:
                if dice > 1.0 - self.pairs:
                    self.counts["the next asked first"] += 1
                    return
                asking.is_withdrawn, again = True, 0.0
            if now > begun + limit + 20:
                self.counts["no answer"] += 1
                return
            if (command := asking.command()) and now > again:
                self.client.publish(f"{self.at}/command/{self.name_of}", command.line())
                again = now + 1
            time.sleep(0.01)
        self.counts["answered"] += 1

    def hear(self, asking: Asking) -> None:
        for topic, payload in self.client.take():
            alive: Alive | None = read_alive(payload) if topic.endswith("/alive") else None
            outcome = read_outcome(payload)
            if alive and alive.is_up:
                self.log = max(self.log, alive.log)
            asking.hear(alive, outcome)
            if outcome:
                self.told.append(f"{self.node} {self.name_of} {outcome.k} {outcome.kind} {outcome.state} "
                                 f"{outcome.version}\n")
        if not asking.log:
            asking.log = self.log


def crash(asked: argparse.Namespace, folder: str) -> tuple[int, list[str]]:
    words = [sys.executable, "-m", "links.trials.make_hierarchy", folder, "--middle", "2", "--leaves", "2", "--devices",
             "3", "--port", str(asked.port), "--limit", str(LIMIT), "--patience", str(PATIENCE), "--seconds", "0.05",
             "--trips", "0.01", "--react"]
    file, env = f"{folder}/hierarchy.toml", os.environ | {"PYTHONPATH": ABOVE}
    subprocess.run(words, check=True, env=env)
    subprocess.run([sys.executable, "-m", "links", "broker", file, f"{folder}/broker"], check=True, env=env)
    plant = Plant(file, asked)
    try:
        return crash_all(plant, asked, folder)
    finally:
        plant.end()


def crash_all(plant: Plant, asked: argparse.Namespace, folder: str) -> tuple[int, list[str]]:
    """How much was wrong, and the counts of what was done and judged."""
    plant.start_proxy([] if asked.calm else DISTURBED)
    plant.start_missing()
    time.sleep(5)
    operators = [Operator(plant.hierarchy, plant.proxy_port, asked.seed, *one)
                 for one in (("ANNA", "TOP", 0.15), ("DORA", "M1", 0.5))]
    for operator in operators:
        operator.start()
    begun = time.monotonic()
    for number in range(asked.rounds):
        time.sleep(plant.random.uniform(0.2, 1.6))
        plant.strike()
        time.sleep(plant.random.uniform(0.0, 0.4))
        plant.start_missing()
        if number % 50 == 49:
            print(f"{number + 1} rounds, {time.monotonic() - begun:.0f} s, operators "
                  f"{[dict(operator.counts) for operator in operators]}", flush=True)
    for operator in operators:
        operator.is_over = True
    while any(operator.is_alive() for operator in operators):
        plant.start_missing()
        operators[0].join(0.5)
        time.sleep(0.1)
    for operator in operators:
        operator.client.leave()
    plant.come_to_rest(asked.rest)
    plant.end()
    file, env = plant.file, plant.env
    with open(f"{folder}/told", "w", encoding="ascii") as told:
        for operator in operators:
            told.writelines(dict.fromkeys(operator.told))
    deeds = f"done {dict(sorted(plant.deeds.items()))}; operators {[dict(operator.counts) for operator in operators]}"
    print(deeds, flush=True)
    done = subprocess.run([sys.executable, "-m", "links.trials.judge", file, "--told", f"{folder}/told"], env=env,
                          stdout=subprocess.PIPE, text=True)
    print(done.stdout, end="")
    found = re.search(r", (\d+) wrong$", done.stdout.strip())
    return int(found[1]) if found else 1, [deeds, *done.stdout.splitlines()[-2:]]


def state_of_sources() -> str:
    """A digest of the package."""
    digest = hashlib.sha1()
    for path in sorted(glob.glob(f"{ABOVE}/links/*.py") + glob.glob(f"{ABOVE}/links/trials/*.py")):
        with open(path, "rb") as file:
            digest.update(file.read())
    return digest.hexdigest()[:16]


def record(state: str, lines: list[str]) -> None:
    """Adds a run to what was run in the same state of the sources."""
    head, path = f"sources {state}\n", f"{ABOVE}/links/crash.last"
    try:
        with open(path, encoding="utf-8") as file:
            had = file.read()
    except FileNotFoundError:
        had = ""
    with open(path, "w", encoding="utf-8") as file:
        file.write((had if had.startswith(head) else head) + f"\n{datetime.date.today()}\n" + "\n".join(lines) + "\n")


def main() -> int:
    words = argparse.ArgumentParser(description=__doc__, formatter_class=argparse.RawDescriptionHelpFormatter)
    words.add_argument("--rounds", type=int, default=300)
    words.add_argument("--seed", type=int, default=1)
    words.add_argument("--port", type=int, default=18830)
    words.add_argument("--rest", type=float, default=40.0)
    words.add_argument("--calm", action="store_true")
    words.add_argument("--keep", metavar="FOLDER")
    words.add_argument("--record", action="store_true")
    words.add_argument("--broker", choices=("mosquitto", "nats"), default="mosquitto")
    asked = words.parse_args()
    os.environ["PATH"] += os.pathsep + "/usr/sbin"
    state = state_of_sources()
    folder = os.path.abspath(asked.keep) if asked.keep else tempfile.mkdtemp(prefix="crash-links-")
    os.makedirs(folder, exist_ok=True)
    wrong, counts = crash(asked, folder)
    if not wrong and not asked.keep:
        shutil.rmtree(folder)
    elif wrong:
        print(f"all of it stands in {folder}")
    last = f"{asked.rounds} rounds, {wrong} wrong, seed {asked.seed}"
    if asked.record and state == state_of_sources():
        record(state, [*counts, f"{asked.broker}: {last}"])
    print(last)
    return 1 if wrong else 0


if __name__ == "__main__":
    sys.exit(main())
