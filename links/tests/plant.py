"""A parent and a child with their nodes, over a broker that may not be there, for tests that need the program."""
from __future__ import annotations

import importlib.util
import os
import re
import shutil
import signal
import subprocess
import sys
import tempfile
import time
from collections.abc import Callable

from links.lines import PROGRAM
from links.tests.sides import TESTS

ABOVE = os.path.dirname(os.path.dirname(TESTS))
# Nodes need paho: where this Python does not find it, Debian's does.
PYTHON = sys.executable if importlib.util.find_spec("paho") else "/usr/bin/python3"
TOML = """name = "cases"
[broker]
port = {port}
passwords = "secrets"
[defaults]
limit = 6
patience = 3
[managers.P]
domain = "parent.sml"
{parent}[managers.P.links]
SUB = {{ to = "C.T" }}
[managers.C]
domain = "child.sml"
capacity = 1
drivers = [["tail", "-n0", "-f", "say"]]
{child}[operators.ANNA]
may = ["P.SUB", "P.U", "C.T"]
"""


class Plant:
    def __init__(self, port: int, parent: str = "", child: str = "") -> None:
        self.folder = tempfile.mkdtemp(prefix="links-")
        self.port, self.file = port, f"{self.folder}/hierarchy.toml"
        for name in ("parent.sml", "child.sml"):
            shutil.copy(f"{TESTS}/{name}", self.folder)
        self.write("say", "")
        self.describe(parent, child)
        self.env = os.environ | {"PYTHONPATH": ABOVE}
        self.nodes: dict[str, subprocess.Popen[bytes]] = {}

    def describe(self, parent: str = "", child: str = "") -> None:
        self.write("hierarchy.toml", TOML.format(port=self.port, parent=parent, child=child))

    def write(self, name: str, text: str) -> None:
        with open(f"{self.folder}/{name}", "w", encoding="ascii") as file:
            file.write(text)

    def make_secrets(self) -> None:
        """Of each name, where no broker is to check them."""
        os.mkdir(f"{self.folder}/secrets")
        for name in ("P", "C", "ANNA"):
            self.write(f"secrets/{name}", "a secret\n")

    def links(self, *words: str) -> subprocess.CompletedProcess[str]:
        return subprocess.run([PYTHON, "-m", "links", *words], env=self.env, capture_output=True, text=True)

    def start(self, name: str) -> None:
        with open(f"{self.folder}/{name}.err", "ab") as errors:
            self.nodes[name] = subprocess.Popen([PYTHON, "-m", "links", "node", self.file, name], env=self.env,
                                                start_new_session=True, stderr=errors)

    def stop(self, name: str) -> int:
        self.nodes[name].terminate()
        return self.nodes[name].wait(20)

    def kill(self, name: str, with_manager: bool = True) -> None:
        """The node first: it would start its manager again."""
        number = self.nodes[name].pid
        managers = self.managers_of(number)
        self.nodes[name].kill()
        self.nodes[name].wait()
        for manager in managers if with_manager else []:
            try:
                os.kill(manager, signal.SIGKILL)
            except ProcessLookupError:
                pass
        # What a node leaves behind ends when its input ends.
        self.wait_for(lambda: not with_manager or not any(os.path.exists(f"/proc/{one}") for one in managers))

    @staticmethod
    def managers_of(number: int) -> list[int]:
        try:
            with open(f"/proc/{number}/task/{number}/children", encoding="ascii") as file:
                return [int(word) for word in file.read().split()]
        except OSError:
            return []

    def manager_of(self, name: str) -> int:
        for number in self.managers_of(self.nodes[name].pid):
            with open(f"/proc/{number}/cmdline", "rb") as file:
                if b"live" in file.read().split(b"\0"):
                    return number
        raise AssertionError(f"{name} has no manager")

    def end(self) -> None:
        for node in self.nodes.values():
            if node.poll() is None:
                node.terminate()
        for node in self.nodes.values():
            node.wait(30)
        shutil.rmtree(self.folder, ignore_errors=True)

    def say(self, line: str) -> None:
        with open(f"{self.folder}/say", "a", encoding="ascii") as file:
            file.write(line + "\n")

    def log(self, name: str) -> list[str]:
        try:
            with open(f"{self.folder}/{name.lower()}.log", "rb") as file:
                return file.read().decode("latin1").split("\n")[:-1]
        except FileNotFoundError:
            return []

    def errors(self, name: str) -> str:
        with open(f"{self.folder}/{name}.err", encoding="ascii") as file:
            return file.read()

    def change_log(self, name: str, old: str, new: str) -> None:
        path = f"{self.folder}/{name.lower()}.log"
        with open(path, encoding="ascii") as file:
            text = file.read()
        with open(path, "w", encoding="ascii") as file:
            file.write(re.sub(old, new, text, flags=re.M))

    def other_boot(self, name: str) -> None:
        self.change_log(name, r"^(! links begun \d+) \S+", r"\1 another")

    def begun(self, name: str) -> list[int]:
        return [int(line.split()[3]) for line in self.log(name) if line.startswith("! links begun ")]

    def given(self, name: str, request: str) -> int:
        """How often a request stands in a log with a mark, with whatever arguments."""
        return sum(line.startswith(f"{request} ") and " ! once " in line for line in self.log(name))

    def state(self, name: str, target: str) -> str:
        domain = "parent" if name == "P" else "child"
        done = subprocess.run([PROGRAM, "step", f"{self.folder}/{domain}.sml", f"{self.folder}/{name.lower()}.log",
                               "--states", "--capacity", "1" if name == "C" else "16"], capture_output=True, text=True)
        return [line.split()[2] for line in done.stdout.splitlines() if line.startswith(f"state {target} ")][-1]

    @staticmethod
    def wait_for(what: Callable[[], object], seconds: float = 20.0) -> bool:
        ends = time.monotonic() + seconds
        while not what():
            if time.monotonic() > ends:
                return False
            time.sleep(0.05)
        return True
