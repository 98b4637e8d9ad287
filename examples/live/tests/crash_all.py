#!/usr/bin/env python3
"""Kills managers, supervisors, gateways and drivers at random, and looks whether all comes to rest rightly.

usage: crash_all.py [--seconds S] [--seed N] [--keep FOLDER]

A gateway with a log serves the detector of examples/detector.sml; two drivers play its devices. An operator switches
the detector on and off, again and again, by requests that are made once. Meanwhile, every 0.3 to 2 seconds, one of
these is killed by SIGKILL, and a gateway or a driver is started again a moment later. After S seconds (60, if it is not
given) nothing more is killed, and the detector is switched on for the last time.

It holds where

  - each switch ended in READY or OFF, whatever was killed
  - at the end nothing is open, and no request waits (`smirun states --log`)
  - `smirun audit --log` calls the log's journal Legal

The last line is 'seed N: M switched, killed ..: held', or what did not hold; the status is 0 only where all held. The
seed, which is printed at first, gives the order of kills, not their places: these hang on time.
"""
from __future__ import annotations

import argparse
import os
import random
import signal
import socket
import subprocess
import sys
import tempfile
import threading
import time

LIVE = os.path.dirname(os.path.dirname(os.path.realpath(__file__)))
sys.path.insert(0, LIVE)

from lines import PROGRAM, read_contact  # noqa: E402

DOMAIN = os.path.normpath(f"{LIVE}/../detector.sml")
DRIVEN = (["TRACKER_*"], ["CALORIMETER_*"])
# How fast devices are played, and how long nothing may come.
FACTOR, PATIENCE = 0.05, 30.0
# Nothing may take longer than this, in seconds, or it stands still.
LIMIT = 180.0
DRIVER = """
import sys
sys.path.insert(0, sys.argv[1])
from domain import Domain
from play_devices import Player
player = Player(Domain(sys.argv[2]), {}, float(sys.argv[4]), False)
player.devices = sys.argv[5:]
player.serve(sys.argv[3])
"""


class Plant:
    """The gateway, what is below it, and the drivers; and how often each was killed."""

    def __init__(self, folder: str, chance: random.Random) -> None:
        self.folder, self.chance = folder, chance
        self.log, self.contact = f"{folder}/log", f"{folder}/contact"
        self.errors = open(f"{folder}/errors", "ab")
        self.killed = {"manager": 0, "supervisor": 0, "gateway": 0, "driver": 0}
        self.gateway = self.start_gateway()
        self.drivers = [self.start_driver(names) for names in DRIVEN]

    def start(self, words: list[str]) -> subprocess.Popen[bytes]:
        return subprocess.Popen([sys.executable, *words], stdout=subprocess.DEVNULL, stderr=self.errors)

    def start_gateway(self) -> subprocess.Popen[bytes]:
        return self.start([f"{LIVE}/gateway.py", DOMAIN, "--log", self.log, "--contact", self.contact,
                           "--secret-file", f"{self.folder}/secret"])

    def start_driver(self, names: list[str]) -> subprocess.Popen[bytes]:
        return self.start(["-c", DRIVER, LIVE, DOMAIN, self.contact, str(FACTOR), *names])

    def below(self) -> dict[str, list[int]]:
        """The supervisor and the manager of this gateway, by their process numbers."""
        supervisors = children_of(self.gateway.pid, f"{LIVE}/supervise.py")
        return {"supervisor": supervisors, "manager": [pid for one in supervisors for pid in children_of(one, "live")]}

    def kill(self) -> None:
        what = self.chance.choice(["manager", "manager", "supervisor", "gateway", "driver"])
        if what == "gateway":
            end(self.gateway)
            time.sleep(0.3)
            self.gateway = self.start_gateway()
            self.killed[what] += 1
        elif what == "driver":
            place = self.chance.randrange(len(DRIVEN))
            end(self.drivers[place])
            time.sleep(self.chance.uniform(0, 0.5))
            self.drivers[place] = self.start_driver(DRIVEN[place])
            self.killed[what] += 1
        else:
            self.killed[what] += sum(kill(pid) for pid in self.below()[what])

    def leave(self) -> None:
        self.gateway.terminate()
        self.gateway.wait()
        for driver in self.drivers:
            end(driver)
        self.errors.close()


def read(path: str) -> str:
    """What a file of the system says; nothing, where its process has ended."""
    try:
        with open(path, encoding="utf-8") as file:
            return file.read()
    except OSError:
        return ""


def children_of(pid: int, word: str) -> list[int]:
    """The processes below another that have this word on their command line. (A gateway asks the program too.)"""
    children = map(int, read(f"/proc/{pid}/task/{pid}/children").split())
    return [child for child in children if word in read(f"/proc/{child}/cmdline").split("\0")]


def kill(pid: int) -> bool:
    try:
        os.kill(pid, signal.SIGKILL)
    except OSError:
        return False
    return True


def end(process: subprocess.Popen[bytes]) -> None:
    process.kill()
    process.wait()


class Killer(threading.Thread):
    """Kills until it is told to stop."""

    def __init__(self, plant: Plant) -> None:
        super().__init__(daemon=True)
        self.plant, self.stops = plant, threading.Event()

    def run(self) -> None:
        while not self.stops.wait(self.plant.chance.uniform(0.3, 2.0)):
            self.plant.kill()

    def leave(self) -> None:
        self.stops.set()
        if self.is_alive():
            self.join()


class Operator:
    """Switches the detector, by requests that are made once; where the connection is cut it comes again."""

    def __init__(self, contact: str) -> None:
        self.contact, self.number = contact, 0
        self.ends = time.monotonic() + LIMIT
        self.connect()

    def connect(self) -> None:
        """A connection with the session of before: NAME of a request that is made once is of the session."""
        while time.monotonic() < self.ends:
            try:
                host, port, secret = read_contact(self.contact)
                self.link = socket.create_connection((host, int(port)), PATIENCE)
                self.told = self.link.makefile("r", encoding="ascii")
                self.say(secret)
                if self.told.readline() == "# session @1\n":
                    return
                self.link.close()
            except (OSError, ValueError, SystemExit):
                pass
            time.sleep(0.2)
        raise TimeoutError("no gateway lends session @1")

    def say(self, line: str) -> None:
        self.link.sendall(f"{line}\n".encode())

    def switch(self, action: str) -> str:
        """Asks for an action of the detector until it is made, once: the state in which that ended."""
        self.number = max(self.number + 1, time.time_ns() // 1000)
        self.ends = time.monotonic() + LIMIT
        while time.monotonic() < self.ends:
            try:
                self.say(f"once {self.number} request DETECTOR {action}")
                return self.await_end()
            except OSError:
                self.link.close()
                self.connect()
        raise TimeoutError(f"{action} of the detector has no end")

    def await_end(self) -> str:
        """The state in which the request ends that was just asked for. Its end may have been told before its answer,
        or to nobody, where the manager was killed: so after the answer it is asked how all stands."""
        while not (line := self.read()).startswith("= "):
            pass
        if " accept " not in line:
            raise AssertionError(line)
        while True:
            state, is_over = self.look()
            if is_over:
                return state
            time.sleep(0.1)

    def look(self) -> tuple[str, bool]:
        """The state of the detector, and whether its last request is over."""
        self.say("?")
        state, is_over = "", False
        while (line := self.read()) != "?":
            words = line.split(" ")
            if words[:3] == ["?", "state", "DETECTOR"]:
                state = words[3]
            elif words[:4] == ["?", "once", "S1", str(self.number)]:
                is_over = words[7] not in ("open", "waits")
        return state, is_over

    def read(self) -> str:
        line = self.told.readline()
        if not line.endswith("\n"):
            raise OSError("the connection is cut")
        return line[:-1]


def told(command: str, log: str) -> str:
    done = subprocess.run([PROGRAM, command, DOMAIN, "--log", log], capture_output=True, text=True)
    return done.stdout + done.stderr


def faults_of(ends: list[str], log: str) -> list[str]:
    """What does not hold."""
    wanted = ["READY" if number % 2 == 0 else "OFF" for number in range(len(ends))]
    faults = [f"switch {number} ended in {state}" for number, state in enumerate(ends) if state != wanted[number]]
    faults += [line for line in told("states", log).splitlines() if line.startswith(("open ", "waiting "))]
    verdict = told("audit", log).strip()
    return faults + ([] if verdict.startswith("Legal") else [f"audit: {verdict}"])


def run(folder: str, seconds: float, seed: int) -> list[str]:
    plant = Plant(folder, random.Random(seed))
    killer, ends, faults = Killer(plant), list[str](), list[str]()
    try:
        operator = Operator(plant.contact)
        killer.start()
        until = time.monotonic() + seconds
        while time.monotonic() < until or len(ends) % 2 == 0:
            if time.monotonic() >= until:
                killer.leave()
            ends.append(operator.switch("SWITCH_ON" if len(ends) % 2 == 0 else "SWITCH_OFF"))
    except (TimeoutError, AssertionError) as fault:
        faults.append(str(fault))
    finally:
        killer.leave()
        plant.leave()
    faults += faults_of(ends, plant.log)
    killed = ", ".join(f"{count} {what}s" for what, count in plant.killed.items())
    print(f"seed {seed}: {len(ends)} switched, killed {killed}, {os.path.getsize(plant.log)} bytes: "
          f"{'; '.join(faults) or 'held'}", flush=True)
    return faults


def main() -> int:
    words = argparse.ArgumentParser(description=__doc__, formatter_class=argparse.RawDescriptionHelpFormatter)
    words.add_argument("--seconds", type=float, default=60.0)
    words.add_argument("--seed", type=int, help="a new one, if it is not given")
    words.add_argument("--keep", metavar="FOLDER", help="a new folder, in which log and errors are kept")
    asked = words.parse_args()
    seed = random.SystemRandom().randrange(10 ** 6) if asked.seed is None else asked.seed
    print(f"seed {seed}", flush=True)
    if asked.keep:
        os.makedirs(asked.keep)
        return 1 if run(asked.keep, asked.seconds, seed) else 0
    with tempfile.TemporaryDirectory() as folder:
        return 1 if run(folder, asked.seconds, seed) else 0


if __name__ == "__main__":
    sys.exit(main())
