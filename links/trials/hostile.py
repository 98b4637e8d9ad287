"""Tries a hierarchy with certificates against clients that mean no good.

usage: links/hostile [--port N] [--keep FOLDER]

It makes three levels in small with an authority of its own, starts a broker and all nodes, and tries them: strangers,
forged certificates, topics of others, messages that are long, broken or none of the forms, floods, and a thousand
connections. Each case is a line, `held` or `NOT HELD`; the last line is 'N held, M not', and the status is 0 only where
M is 0.
"""
from __future__ import annotations

import argparse
import os
import shutil
import socket
import ssl
import subprocess
import sys
import tempfile
import threading
import time
from collections.abc import Callable
from typing import Any

from ..client import client_of
from ..description import Hierarchy, read
from ..messages import Command, read_alive, read_outcome

ABOVE = os.path.dirname(os.path.dirname(os.path.dirname(os.path.realpath(__file__))))
KEY = ["-newkey", "ec", "-pkeyopt", "ec_paramgen_curve:prime256v1", "-nodes"]


class Caller:
    """A client of the broker, with some certificate, or with none."""

    def __init__(self, hierarchy: Hierarchy, certificate: tuple[str, str] | None = None, is_plain: bool = False,
                 name: str = "") -> None:
        self.heard: list[Any] = []
        self.code: object = None
        self.client = client_of(name or f"try-{time.time_ns()}")
        if not is_plain:
            self.client.tls_set(f"{hierarchy.folder}/ca.crt", *(certificate or (None, None)))
        self.client.on_connect = self.connected
        self.client.on_message = lambda _client, _data, message: self.heard.append(message)
        try:
            self.client.connect("127.0.0.1", hierarchy.broker.port)
            self.client.loop_start()
            wait_for(lambda: self.code is not None, 4)
        except (OSError, ssl.SSLError) as fault:
            self.code = str(fault)

    def connected(self, _client: Any, _data: Any, _flags: Any, code: int) -> None:
        self.code = code

    def say(self, topic: str, payload: bytes | str, retain: bool = True) -> None:
        for _ in range(40):
            try:
                self.client.publish(topic, payload, qos=1, retain=retain).wait_for_publish(5)
                return
            except (RuntimeError, ValueError):
                time.sleep(0.25)  # a node of this name is there too: the two take the connection from one another

    def leave(self) -> None:
        self.client.loop_stop()
        try:
            self.client.disconnect()
        except OSError:
            pass


def wait_for(what: Callable[[], object], seconds: float) -> object:
    ends = time.monotonic() + seconds
    while not what() and time.monotonic() < ends:
        time.sleep(0.02)
    return what()


class Operator(Caller):
    """One who has a certificate, and asks at the top."""

    def __init__(self, trial: "Trial", name: str = "ANNA") -> None:
        super().__init__(trial.hierarchy, trial.keys(name))
        self.name, self.root, self.log = name, trial.root, 0
        self.client.subscribe([(f"{self.root}/TOP/alive", 1), (f"{self.root}/TOP/outcome/{name}", 1)])
        wait_for(self.knows, 10)

    def knows(self) -> int:
        for message in [*self.heard]:
            alive = read_alive(message.payload)
            if alive and alive.is_up:
                self.log = max(self.log, alive.log)
        return self.log

    def asks(self, action: str, arguments: str = "", k: int = 0, seconds: float = 20) -> list[str]:
        number = k or time.time_ns()
        command = Command(number, self.knows(), "UNIT", action, arguments)
        self.say(f"{self.root}/TOP/command/{self.name}", command.line())

        def kinds() -> list[str]:
            found = [read_outcome(message.payload) for message in [*self.heard]]
            return [one.kind for one in found if one and one.k == number and one.is_last()][:1]

        wait_for(kinds, seconds)
        return kinds()


class Trial:
    def __init__(self, folder: str, port: int) -> None:
        self.folder, self.file = folder, f"{folder}/hierarchy.toml"
        self.env = os.environ | {"PYTHONPATH": ABOVE}
        self.results: list[bool] = []
        self.run("links.trials.make_hierarchy", folder, "--middle", "2", "--leaves", "2", "--devices", "3", "--port",
                 str(port), "--tls")
        self.run("links", "keys", self.file, "127.0.0.1")
        self.run("links", "broker", self.file, f"{folder}/broker")
        self.hierarchy = read(self.file, domains=None)
        self.root = self.hierarchy.name
        self.out = open(f"{folder}/out", "wb")
        self.broker = subprocess.Popen(["mosquitto", "-c", f"{folder}/broker/mosquitto.conf"], stdout=self.out,
                                       stderr=self.out)
        time.sleep(1)
        self.nodes = subprocess.Popen([sys.executable, "-m", "links", "run", self.file], env=self.env, stdout=self.out,
                                      stderr=self.out)

    def run(self, module: str, *words: str) -> None:
        subprocess.run([sys.executable, "-m", module, *words], check=True, env=self.env)

    def end(self) -> None:
        self.nodes.terminate()
        self.nodes.wait()
        self.broker.terminate()
        self.broker.wait()
        self.out.close()

    def keys(self, name: str) -> tuple[str, str]:
        return f"{self.folder}/keys/{name}.crt", f"{self.folder}/keys/{name}.key"

    def tell(self, case: str, held: object, more: str = "") -> None:
        self.results.append(bool(held))
        print(("held      " if held else "NOT HELD  ") + case + (f" ({more})" if more else ""), flush=True)

    def logs(self) -> dict[str, bytes]:
        found = {}
        for name, manager in self.hierarchy.managers.items():
            with open(manager.log, "rb") as file:
                found[name] = file.read()
        return found

    def says_in_vain(self, case: str, caller: Caller, topics: list[str], payload: str) -> None:
        before = self.logs()
        for topic in topics:
            caller.say(topic, payload)
        time.sleep(2.5)
        changed = [name for name, text in self.logs().items() if text != before[name]]
        self.tell(case, not changed, f"{len(topics)} topics; {changed}" if changed else f"{len(topics)} topics")

    def strangers(self) -> None:
        stranger = Caller(self.hierarchy)
        self.tell("no certificate", stranger.code != 0, str(stranger.code))
        plain = Caller(self.hierarchy, is_plain=True)
        self.tell("no TLS", plain.code != 0, str(plain.code))
        words = ["openssl", "req", "-x509", *KEY, "-subj", "/CN=TOP", "-keyout", f"{self.folder}/k", "-out",
                 f"{self.folder}/c"]
        subprocess.run(words, check=True, capture_output=True)
        forged = Caller(self.hierarchy, (f"{self.folder}/c", f"{self.folder}/k"))
        self.tell("a certificate TOP of another authority", forged.code != 0, str(forged.code))
        old = subprocess.run(["openssl", "s_client", "-connect", f"127.0.0.1:{self.hierarchy.broker.port}", "-tls1_1",
                              "-cipher", "ALL:@SECLEVEL=0"], input=b"", capture_output=True)
        self.tell("TLS 1.1", b"Cipher is (NONE)" in old.stdout or old.returncode != 0)
        for caller in (stranger, plain, forged):
            caller.leave()

    def others(self, anna: Operator) -> None:
        """Topics of others."""
        root, highest = self.root, f"command {2**64 - 1} {anna.log} UNIT SWITCH_OFF"
        self.says_in_vain("an operator publishes on topics of others", anna, [
            f"{root}/M1/command/TOP_M1", f"{root}/M1_L1/command/M1_L1", f"{root}/TOP/outcome/ANNA",
            f"{root}/M1/state/UNIT", f"{root}/M1/alive", f"{root}/TOP/alive", f"{root}/TOP/command/OTTO", f"{root}/x",
            "x"], highest)
        spy = Operator(self, "BERT")
        spy.client.subscribe([("#", 0), (f"{root}/#", 0), ("$SYS/#", 0)])
        time.sleep(3)
        system = {message.topic for message in spy.heard if message.topic.startswith("$SYS")}
        self.tell("an operator listens to all: nothing of the broker's own", not system)
        spy.leave()
        leaf = Caller(self.hierarchy, self.keys("M1_L1"))
        self.says_in_vain("a leaf's key commands nobody, and tells nobody else's state", leaf, [
            f"{root}/M1/command/TOP_M1", f"{root}/M1_L2/command/M1_L2", f"{root}/TOP/command/ANNA",
            f"{root}/M1_L2/state/UNIT", f"{root}/M1/state/UNIT", f"{root}/M1/alive"],
            f"command {2**63} {anna.log} UNIT SWITCH_OFF")
        self.says_in_vain("a leaf's state of a log that its `alive` does not name is not taken", leaf,
                          [f"{root}/M1_L1/state/UNIT"], "state 4000000000 999999 DEAD")
        before = self.logs()
        leaf.say(f"{root}/M1_L1/alive", "up 4000000000 999 1 well")
        time.sleep(4)
        changed = sorted(name for name, text in self.logs().items() if text != before[name])
        told = self.logs()["M1_L1"][len(before["M1_L1"]):].decode().strip()
        self.tell("a leaf's key lies of its own log: itself, and who is above it, hear it", set(changed) <= {
            "M1_L1", "M1", "TOP"}, f"{changed}; {told[:60]}")
        leaf.leave()

    def messages(self, anna: Operator) -> None:
        topic, k, log = f"{self.root}/TOP/command/ANNA", time.time_ns(), anna.knows()
        before = self.logs()["TOP"]
        hostile: list[bytes] = [
            b"", b"command", b"command 1", b"command x y UNIT SWITCH_ON", b"command 1 2 UNIT SWITCH_OFF\n",
            f"command {k} {log} UNIT SWITCH_OFF\nkill UNIT @1".encode(),
            f"command {k} {log} UNIT SWITCH_OFF ! x".encode(),
            f"command {k} {log} UNIT SWITCH_ON (VOLTS = 3)\r\nkill UNIT @1".encode(),
            f"command {k} {log} M1 SWITCH_OFF".encode(), f"command {k} {log} HV1 SWITCH_OFF".encode(),
            f"command {k} {log} UNIT SWITCH_ON (VOLTS = 3) (VOLTS = 4)".encode(),
            f"command {k} {log} UNIT SWITCH_ON (VOLTS = 9223372036854775808)".encode(),
            f"command {k} {log} UNIT SWITCH_ON (A = \"{'x' * 256}\")".encode(),
            f"command {k} {log} UNIT {'X' * 65}".encode(), f"command {k} {log} UNIT MOVE_TO".encode(),
            f"command {k} {log} UNIT WITHDRAWN".encode(), f"command {2**64} {log} UNIT SWITCH_OFF".encode(),
            f"command 0{k} {log} UNIT SWITCH_OFF".encode(), f"command -1 {log} UNIT SWITCH_OFF".encode(),
            f"command {k} {log} UNIT SWITCH_OFF\0".encode(), b"\xff" * 100, b"command " + b"1" * 8000,
            ("command \u0661 " + str(log) + " UNIT SWITCH_OFF").encode(), b"x" * 12000,
            f"command {k} 4000000000 UNIT SWITCH_OFF".encode(), f"withdraw {k} 4000000000 UNIT".encode()]
        for payload in hostile:
            anna.say(topic, payload)
        time.sleep(1)
        self.tell(f"{len(hostile)} messages that are none of the forms, or of another log, or of objects of others",
                  self.logs()["TOP"] == before)
        self.tell("an action that is not declared", anna.asks("NOTHING") == ["refused:UnknownAction"])
        self.tell("arguments that do not fit", anna.asks("SWITCH_ON", '(VOLTS = "x")') == ["refused:BadArgs"])
        count = self.logs()["TOP"].count(b"request @1 UNIT")
        old = Command(time.time_ns() - 10**12, log, "UNIT", "SWITCH_OFF").line()
        for _ in range(200):
            anna.say(topic, old)
        time.sleep(1)
        self.tell("an older command, two hundred times", self.logs()["TOP"].count(b"request @1 UNIT") == count)

    def floods(self, anna: Operator) -> None:
        topic = f"{self.root}/TOP/command/CARL"
        big = Caller(self.hierarchy, self.keys("CARL"))
        big.client.publish(topic, b"x" * 200000, qos=0)
        time.sleep(2)
        self.tell("a message of 200,000 bytes", anna.asks("SWITCH_OFF") == ["ended"])
        big.leave()
        flood = Caller(self.hierarchy, self.keys("CARL"))
        begun = time.monotonic()
        for _ in range(20000):
            flood.client.publish(topic, b"x" * 60, qos=0)
        asked = time.monotonic()
        honest = anna.asks("SWITCH_ON", "(VOLTS = 3)")
        self.tell("20,000 bad messages at once, and an honest command after them", honest == ["ended"],
                  f"{time.monotonic() - asked:.1f} s, published in {asked - begun:.1f} s")
        flood.leave()
        links: list[socket.socket] = []
        try:
            for _ in range(1000):
                links.append(socket.create_connection(("127.0.0.1", self.hierarchy.broker.port), timeout=5))
        except OSError:
            pass
        begun = time.monotonic()
        honest = anna.asks("SWITCH_OFF")
        self.tell("a thousand connections that say nothing", honest == ["ended"],
                  f"{len(links)} stood, answered in {time.monotonic() - begun:.1f} s")
        for link in links:
            link.close()

    def names(self, anna: Operator) -> None:
        takes = Caller(self.hierarchy, self.keys("M1_L2"), name=f"{self.root}-TOP")
        time.sleep(2)
        begun = time.monotonic()
        held = anna.asks("SWITCH_ON", "(VOLTS = 4)") == ["ended"]
        self.tell("a leaf's key takes the name of TOP's connection", held, f"{time.monotonic() - begun:.1f} s")
        takes.leave()
        anna.asks("SWITCH_OFF", k=2**64 - 1)
        deaf = not anna.asks("SWITCH_ON", "(VOLTS = 3)", seconds=5)
        bert = Operator(self, "BERT")
        self.tell("an operator uses up all numbers of his own name: he is deaf then, and nobody else is",
                  deaf and bert.asks("SWITCH_ON", "(VOLTS = 3)") == ["ended"])

    def try_all(self) -> None:
        time.sleep(5)
        anna = Operator(self)
        self.tell("an honest operator is answered", anna.asks("SWITCH_ON", "(VOLTS = 3)", seconds=30) == ["ended"])
        self.strangers()
        self.others(anna)
        self.messages(anna)
        self.floods(anna)
        self.names(anna)


def main() -> int:
    words = argparse.ArgumentParser(description=__doc__, formatter_class=argparse.RawDescriptionHelpFormatter)
    words.add_argument("--port", type=int, default=18920)
    words.add_argument("--keep", metavar="FOLDER")
    asked = words.parse_args()
    os.environ["PATH"] += os.pathsep + "/usr/sbin"
    threading.excepthook = lambda _: None  # the library's own thread ends where the broker hangs up
    folder = os.path.abspath(asked.keep) if asked.keep else tempfile.mkdtemp(prefix="hostile-links-")
    trial = Trial(folder, asked.port)
    try:
        trial.try_all()
    finally:
        trial.end()
        if not asked.keep:
            shutil.rmtree(folder, ignore_errors=True)
    held = sum(trial.results)
    print(f"{held} held, {len(trial.results) - held} not")
    sys.stdout.flush()
    os._exit(0 if held == len(trial.results) else 1)


if __name__ == "__main__":
    sys.exit(main())
