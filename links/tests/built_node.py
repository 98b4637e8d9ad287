"""A node before the manager itself, where no broker is there; and the tables of a manager that is killed."""
import os
import random
import signal
import subprocess
import tempfile
import time
import unittest

from links.child import number_line, outcome_of
from links.description import read
from links.domain import Domain, told
from links.lines import PROGRAM
from links.marks import Notes
from links.process import Leaving, Lock, whole_size
from links.table import Table
from links.tests.plant import Plant
from links.tests.sides import TESTS

NOBODY = 9  # a port at which no broker is


class Nodes(unittest.TestCase):
    def setUp(self) -> None:
        self.plant = Plant(NOBODY)
        self.plant.make_secrets()

    def tearDown(self) -> None:
        self.plant.end()

    def start(self, name: str = "C", lives: int = 1) -> None:
        self.plant.start(name)
        self.assertTrue(self.plant.wait_for(lambda: self.lives(name) >= lives), self.plant.errors(name))

    def lives(self, name: str = "C") -> int:
        return sum(line.startswith(("! links begun ", "! links resumed")) for line in self.plant.log(name))

    def test_the_first_lines_of_lives(self) -> None:
        self.start()
        self.assertEqual(self.plant.stop("C"), 0)
        self.start(lives=2)
        os.kill(self.plant.manager_of("C"), signal.SIGKILL)
        self.assertTrue(self.plant.wait_for(lambda: self.lives() >= 3))
        self.plant.kill("C")
        self.plant.other_boot("C")
        self.start(lives=4)
        self.plant.stop("C")
        words = [line.split(" ")[2] for line in self.plant.log("C") if line.startswith("! links ")]
        self.assertEqual(words, ["begun", "resumed", "resumed", "begun"])
        first, second = self.plant.begun("C")
        self.assertGreater(second, first)

    def test_a_synced_log_has_the_same_number_in_another_boot(self) -> None:
        self.plant.describe(child="sync = true\n")
        self.start()
        self.assertIn(" synced 1", self.plant.log("C")[1])
        self.plant.stop("C")
        self.start(lives=2)
        self.assertEqual(len(self.plant.begun("C")), 1)

    def test_a_manager_that_refuses_its_log(self) -> None:
        """Nothing is written into a log of another domain, and the node goes on trying, ever more seldom."""
        self.start()
        self.plant.stop("C")
        before = self.plant.log("C")
        with open(f"{self.plant.folder}/child.sml", "a", encoding="ascii") as file:
            file.write("object: HV2 is_of_class SUPPLY\n")
        self.plant.start("C")
        self.assertTrue(self.plant.wait_for(lambda: "is of another domain" in self.plant.errors("C")))
        time.sleep(0.5)
        self.assertIsNone(self.plant.nodes["C"].poll())
        self.assertEqual(self.plant.log("C"), before)

    def test_the_lock_is_the_nodes_too(self) -> None:
        """It is held while there is no manager, and while there is a manager and no node."""
        self.start()
        lock = Lock(f"{self.plant.folder}/c.log")
        manager = self.plant.manager_of("C")
        for number in (manager, 0):
            if number:
                os.kill(number, signal.SIGKILL)
            ends = time.monotonic() + 0.4
            with self.assertRaises(Leaving):
                lock.take(lambda: time.monotonic() > ends, print)
        self.assertTrue(self.plant.wait_for(lambda: self.lives() >= 2))
        manager = self.plant.manager_of("C")
        os.kill(manager, signal.SIGSTOP)
        self.plant.nodes["C"].kill()
        self.plant.nodes["C"].wait()
        ends = time.monotonic() + 0.4
        with self.assertRaises(Leaving):
            lock.take(lambda: time.monotonic() > ends, print)
        os.kill(manager, signal.SIGCONT)
        lock.take(lambda: False, print)
        os.close(lock.descriptor)

    def test_no_line_is_cut_where_a_node_ends(self) -> None:
        """By SIGTERM while its manager does not read, with more than a pipe takes; and by SIGKILL."""
        request = "request @2 T GO_TO (N = 300)"
        writes = f'drivers = [["sh", "-c", "yes \'{request}\' | head -n 60000"]]\n'
        self.plant.describe(child=writes)
        with open(self.plant.file, encoding="ascii") as file:
            text = file.read()
        self.plant.write("hierarchy.toml", text.replace('drivers = [["tail", "-n0", "-f", "say"]]\n', ""))
        for life, ends in ((1, "term"), (2, "kill"), (3, "term")):
            self.start(lives=life)
            number = self.plant.manager_of("C")
            os.kill(number, signal.SIGSTOP)
            time.sleep(1.0)
            if ends == "kill":
                self.plant.nodes["C"].kill()
                self.plant.nodes["C"].wait()
            else:
                self.plant.nodes["C"].terminate()
                time.sleep(0.3)
            os.kill(number, signal.SIGCONT)
            self.plant.nodes["C"].wait(30)
            self.assertTrue(self.plant.wait_for(lambda: not os.path.exists(f"/proc/{number}")))
        lines = [line for line in self.plant.log("C")[1:] if not line.startswith(("! links ", "start ", "go "))]
        self.assertEqual(set(lines), {request})

    def test_a_log_that_is_full(self) -> None:
        """A node that cannot write its remark goes on, says so, and changes nothing in the log."""
        self.start()
        self.plant.stop("C")
        path, line = f"{self.plant.folder}/c.log", b"! " + b"x" * 8000 + b"\n"
        with open(path, "ab") as file:
            while file.tell() + len(line) < (1 << 24) - 65536:
                file.write(line)
            file.write(b"! " + b"x" * ((1 << 24) - 65536 - file.tell() - 3) + b"\n")
        size = os.stat(path).st_size
        self.plant.start("C")
        self.assertTrue(self.plant.wait_for(lambda: "the log is full" in self.plant.errors("C")))
        self.assertEqual(self.plant.stop("C"), 0)
        self.assertEqual(os.stat(path).st_size, size)

    def test_a_torn_line(self) -> None:
        self.start()
        self.plant.kill("C")
        path = f"{self.plant.folder}/c.log"
        size = os.stat(path).st_size
        with open(path, "ab") as file:
            file.write(b"! links begun 4000000000 x 9")
        self.assertEqual(whole_size(path), size)
        self.start(lives=2)
        self.assertEqual(self.plant.log("C")[-1], "! links resumed")


class Descriptions(unittest.TestCase):
    def test_the_lists_beside_the_tests_are_those_of_the_program(self) -> None:
        for name in ("parent", "child"):
            with open(f"{TESTS}/{name}.list", encoding="ascii") as file:
                self.assertEqual(told("list", f"{TESTS}/{name}.sml"), file.read().splitlines())

    def test_the_description_with_its_domains(self) -> None:
        plant = Plant(NOBODY)
        self.assertEqual(plant.links("check", plant.file).stdout, f"{plant.file} ok: 2 managers, 1 links, 1 devices\n")
        self.assertEqual(len(read(plant.file).links()), 1)
        done = plant.links("units", plant.file, f"{plant.folder}/units")
        self.assertEqual(done.returncode, 0, done.stderr)
        plant.end()


class Tables(unittest.TestCase):
    """Of random lines, given to managers that are started again and again: the tables of a node that reads how all
    stands each time are those of one that followed all lines, and states and counts are what `step` says."""

    def setUp(self) -> None:
        self.path = f"{TESTS}/child.sml"
        self.domain = Domain(self.path, told("list", self.path))

    def lines(self, dice: random.Random, ks: dict[str, int]) -> list[str]:
        made = []
        for _ in range(dice.randint(1, 8)):
            name = dice.choice(["A", "B", "C"])
            what = dice.random()
            if what < 0.6:
                ks[name] += dice.randint(0, 2)
                action = dice.choice(["GO", "GO_TO", "GO_TO (N = 4)", "NOTHING", "WITHDRAWN"])
                made.append(f"once {name} {ks[name]} request @{dice.randint(1, 8)} T {action}")
            elif what < 0.75:
                made.append(f"request @2 T {dice.choice(['GO', 'GO_TO'])}")
            elif what < 0.95:
                made.append(f"answer HV {dice.choice(['ON', 'OFF'])}")
            elif what < 0.97:
                made.append("kill T @2")
            else:
                made.append("! a remark")
        return made

    def run_live(self, log: str, lines: list[str]) -> list[str]:
        done = subprocess.run([PROGRAM, "live", self.path, "--log", log, "--resume", "--in-turn", "--capacity", "2"],
                              input="".join(line + "\n" for line in lines), capture_output=True, text=True, check=True)
        return done.stdout.splitlines()

    @staticmethod
    def feed(table: Table, asked: list[str], lines: list[str]) -> None:
        for line in asked:
            words = line.split(" ")
            if words[0] == "once":
                table.sent[words[1], int(words[2])] = words[5]
        for line in lines:
            table.take(line)

    def test_tables_after_a_restart(self) -> None:
        for seed in range(12):
            dice, ks = random.Random(seed), dict.fromkeys("ABC", 0)
            followed = Table(self.domain)
            with tempfile.TemporaryDirectory() as folder:
                log = f"{folder}/log"
                open(log, "w", encoding="ascii").close()
                for _ in range(12):
                    first = Table(self.domain)
                    standing = self.run_live(log, [])
                    self.feed(first, [], standing)
                    again = [number_line(name, first.lasts[name]) for name in first.numbers_wanted()]
                    lines = self.lines(dice, ks)
                    told_now = self.run_live(log, [*again, *lines])
                    self.feed(first, lines, told_now)
                    # One that followed all lines has not heard how all stands anew.
                    start = next(place for place, line in enumerate(told_now) if line.startswith("stands ")) + 1
                    self.feed(followed, lines, told_now[start:])
                    for name, last in followed.lasts.items():
                        self.assertEqual(outcome_of(5, first.lasts[name]), outcome_of(5, last), (seed, name))
                    for one in ("states", "versions", "starts", "waiting"):
                        self.assertEqual(getattr(first, one), getattr(followed, one), (seed, one))
        self.assertEqual(Notes().lives, 0)


if __name__ == "__main__":
    unittest.main()
