"""The gateway, over a manager that is played: who is told what, and what it does where the manager has ended."""
from __future__ import annotations

import fcntl
import os
import signal
import socket
import subprocess
import sys
import tempfile
import termios
import time
import unittest

LIVE = os.path.dirname(os.path.dirname(os.path.realpath(__file__)))
sys.path[:0] = [LIVE, f"{LIVE}/tests"]

from lines import read_contact  # noqa: E402
from patience import LIMIT, Limited, until  # noqa: E402
from played_manager import LIST, PRINT  # noqa: E402

# What stands in the place of the program. A manager alone needs a Python.
PROGRAM = f"""#!/bin/sh
[ "$1" = live ] || exec cat "${{0%/*}}/$1"
exec "{sys.executable}" -IS "{LIVE}/tests/played_manager.py" "$@"
"""


class Client:
    def __init__(self, contact: str, first: str) -> None:
        host, port, secret = read_contact(contact)
        self.link = socket.create_connection((host, int(port)), LIMIT)
        self.told = self.link.makefile("r", encoding="ascii")
        self.say(f"{secret} {first}".strip())

    def say(self, *lines: str) -> None:
        self.link.sendall("".join(f"{line}\n" for line in lines).encode())

    def read(self) -> str:
        return self.told.readline().rstrip("\n")

    def until(self, *beginnings: str) -> str:
        """The next line that begins so."""
        while not (line := self.read()).startswith(beginnings):
            if not line:
                return "the end"
        return line

    def leave(self) -> None:
        self.told.close()
        self.link.close()


def children_of(pid: int) -> list[int]:
    with open(f"/proc/{pid}/task/{pid}/children", encoding="ascii") as file:
        return [int(word) for word in file.read().split()]


def unread(pid: int) -> int:
    """How many bytes wait for a process in its standard input, a pipe."""
    with open(f"/proc/{pid}/fd/0", "rb", buffering=0) as pipe:
        return int.from_bytes(fcntl.ioctl(pipe, termios.FIONREAD, bytes(4)), sys.byteorder)


class Serving(Limited):
    def setUp(self) -> None:
        super().setUp()
        room = tempfile.TemporaryDirectory()
        self.addCleanup(room.cleanup)
        self.folder, self.contact, self.log = room.name, f"{room.name}/contact", f"{room.name}/log"
        for name, text in (("smirun", PROGRAM), ("list", f"{LIST}\n"), ("print", f"{PRINT}\n")):
            with open(f"{room.name}/{name}", "w", encoding="ascii") as file:
                file.write(text)
        os.chmod(f"{room.name}/smirun", 0o755)
        self.env = {**os.environ, "SMIRUN": f"{room.name}/smirun"}

    def start(self, *words: str) -> None:
        given = [sys.executable, f"{LIVE}/gateway.py", f"{self.folder}/domain.sml", "--contact", self.contact, *words]
        self.gateway = subprocess.Popen(given, stdout=subprocess.PIPE, stderr=subprocess.DEVNULL, text=True,
                                        env=self.env)
        assert self.gateway.stdout
        self.addCleanup(self.gateway.stdout.close)
        self.addCleanup(self.gateway.wait, LIMIT)
        self.addCleanup(self.gateway.terminate)
        self.gateway.stdout.readline()

    def client(self, first: str = "") -> Client:
        client = Client(self.contact, first)
        self.addCleanup(client.leave)
        return client

    def manager(self) -> int:
        """The manager that runs, below the supervisor."""
        def managers() -> list[int]:
            return [pid for one in children_of(self.gateway.pid) for pid in children_of(one)]

        until(managers)
        return managers()[0]

    def test_a_driver_is_told_of_its_devices_alone(self) -> None:
        """And no start of what the manager skips."""
        self.start()
        operator, driver = self.client(), self.client("driver hv*")
        self.assertEqual([driver.read() for _ in range(3)], ["- state HV1 OFF", "- state HV2 OFF", "# driver HV1 HV2"])
        self.assertEqual(operator.until("# driver"), "# driver of HV1 HV2 here")
        operator.say("request HV1 SWITCH_OFF", "request TOP GO", "request HV1 SWITCH_ON")
        self.assertEqual([driver.read() for _ in range(2)], ["- end HV1 skipped", "- start HV1 @1 1 SWITCH_ON"])
        driver.say("answer HV1 ON @1 0", "answer HV1 ON @1 1", "request HV1 REPORT", "kill HV1", "request TOP GO")
        self.assertEqual([driver.until("=") for _ in range(5)], [
            "= refused NotOpen", "= end HV1 ON", "= accept @7 HV1 2 REPORT", *["= refused NotYours"] * 2])
        operator.say("answer HV1 OFF")
        self.assertEqual([operator.until("=") for _ in range(4)][-1], "= refused NotYours")
        driver.leave()
        self.assertEqual(operator.until("# driver"), "# driver of HV1 HV2 lost")

    def test_nobody_is_told_how_all_stands_before_the_manager_has_told_it(self) -> None:
        with open(self.log, "w", encoding="ascii") as file:
            file.write("request @1 HV1 SWITCH_ON\n")
        self.start("--log", self.log)
        driver = self.client("driver HV1")
        self.assertEqual([driver.read() for _ in range(3)],
                         ["- state HV1 OFF", "- start HV1 @1 0 SWITCH_ON", "# driver HV1"])

    def test_an_answer_waits_until_the_next_manager_has_told_what_is_in_hand(self) -> None:
        """It is refused if its request is open no more. What was asked for once is made once."""
        self.start("--log", self.log)
        operator, driver = self.client(), self.client("driver HV1")
        operator.say("once 7 request HV1 SWITCH_ON", "request HV1 SWITCH_OFF")
        self.assertEqual(driver.until("- start"), "- start HV1 @1 0 SWITCH_ON")
        operator.until("= accept")
        manager = self.manager()
        with open(self.log, "a", encoding="ascii") as file:
            file.write("answer HV1 ON\n")  # as a manager has it in its log that was killed before it told the end
        os.kill(manager, signal.SIGKILL)
        self.assertEqual(driver.until("- ! restarted"), "- ! restarted")
        driver.say("answer HV1 ON @1 0", "answer HV1 OFF @1 1")
        self.assertEqual([driver.until("=", "- start") for _ in range(3)],
                         ["- start HV1 @1 1 SWITCH_OFF", "= refused NotOpen", "= end HV1 OFF"])
        operator.say("once 7 request HV1 SWITCH_ON")
        self.assertEqual(operator.until("= once"), "= once S1 7 accept @1 HV1 0 SWITCH_ON")

    def at_session(self, session: int) -> Client:
        """A client with this session, once that is free."""
        def is_lent() -> bool:
            clients.append(self.client())
            is_it = clients[-1].read() == f"# session @{session}"
            if not is_it:
                clients[-1].leave()
            return is_it

        clients: list[Client] = []
        until(is_lent)
        return clients[-1]

    def test_who_has_a_session_whose_last_number_is_ahead_of_the_clock_is_told_so(self) -> None:
        """It goes on from there. With a number by the clock all of its requests would be old."""
        self.start()
        number = time.time_ns() // 1000 + 3_000_000_000
        clients = [self.client(), self.client()]
        for session, (client, asked) in enumerate(zip(clients, (number, 7)), 1):
            client.say(f"once {asked} request HV{session} SWITCH_ON")
            self.assertEqual(client.until("="), f"= once S{session} {asked} accept @{session} HV{session} 0 SWITCH_ON")
        for client in clients:
            client.leave()
        first = self.at_session(1)
        self.assertEqual([first.read(), first.until("#")], [f"# last {number}", "# told"])
        first.say(f"once {number + 1} request HV2 SWITCH_ON")
        self.assertEqual(first.until("="), f"= once S1 {number + 1} accept @1 HV2 1 SWITCH_ON")
        self.assertEqual(self.at_session(2).until("#"), "# told")

    def test_so_it_is_where_that_number_has_no_answer_yet(self) -> None:
        """Who had the session before was let go at once."""
        self.start()
        client, number = self.client(), time.time_ns() // 1000 + 3_000_000_000
        client.until("# told")
        manager = children_of(self.gateway.pid)[0]
        os.kill(manager, signal.SIGSTOP)
        self.addCleanup(os.kill, manager, signal.SIGCONT)
        client.say(f"once {number} request HV1 SWITCH_ON")
        until(lambda: unread(manager))
        client.link.sendall(b"x" * 9000)
        self.assertEqual(client.until("#"), "# a line has 8192 bytes at most")
        self.assertEqual(self.at_session(1).read(), f"# last {number}")

    def test_so_it_is_where_the_clock_was_set_back(self) -> None:
        """As the log says, however far that was. What is much greater is refused."""
        number = time.time_ns() // 1000 + 7_200_000_000
        with open(self.log, "w", encoding="ascii") as file:
            file.write(f"once S1 {number} request @1 HV1 SWITCH_ON\n")
        self.start("--log", self.log)
        client = self.client()
        self.assertEqual([client.read() for _ in range(2)], ["# session @1", f"# last {number}"])
        client.say(f"once {number + 2000} request HV2 SWITCH_ON", f"once {number + 1} request HV2 SWITCH_ON")
        self.assertEqual([client.until("=") for _ in range(2)],
                         ["= refused BadLine", f"= once S1 {number + 1} accept @1 HV2 0 SWITCH_ON"])

    def test_it_outlives_its_supervisor(self) -> None:
        self.start("--log", self.log, "--pause", "0.3")
        operator = self.client()
        operator.say("request HV1 SWITCH_ON")
        operator.until("= accept")
        for pid in children_of(self.gateway.pid):
            os.kill(pid, signal.SIGKILL)
        self.assertEqual(operator.until("# the manager"), "# the manager is away; it is started again in 0.3 s")
        operator.say("answer HV1 ON")
        self.assertEqual(operator.until("# the manager is started", "="), "# the manager is started again")
        self.assertEqual([operator.until("- !", "- start"), operator.until("- start"), operator.until("=")],
                         ["- ! restarted", "- start HV1 @1 0 SWITCH_ON", "= end HV1 ON"])

    def test_it_ends_where_its_log_is_gone(self) -> None:
        """A new log would have all in its first state, while all is switched on."""
        self.start("--log", self.log)
        operator = self.client()
        operator.say("request HV1 SWITCH_ON")
        operator.until("= accept")
        os.unlink(self.log)
        for pid in children_of(self.gateway.pid):
            os.kill(pid, signal.SIGKILL)
        self.assertEqual(operator.until("# " + self.log), f"# {self.log} is gone")
        self.assertEqual(self.gateway.wait(LIMIT), 1)

    def test_it_ends_with_a_manager_that_cannot_begin(self) -> None:
        """However long that takes to say so."""
        with open(f"{self.folder}/smirun", "r+", encoding="ascii") as file:
            text = file.read().replace("\n", '\n[ "$1" != live ] || { sleep 0.4; exit 1; }\n', 1)
            file.seek(0)
            file.write(text)
        self.start("--log", self.log, "--first", "0.2")
        self.assertEqual(self.gateway.wait(LIMIT), 1)

    def test_what_is_late_is_answered(self) -> None:
        with open(f"{self.folder}/timeouts", "w", encoding="ascii") as file:
            file.write("SUPPLY SWITCH_ON 0.2 OFF\n")
        self.start("--timeouts", f"{self.folder}/timeouts", "--log", self.log)
        operator = self.client()
        operator.say("request HV1 SWITCH_ON")
        self.assertEqual(operator.until("# HV1"), "# HV1 SWITCH_ON: 0.2 s without an answer, answered OFF")
        self.assertEqual(operator.until("- end"), "- end HV1 OFF")
        with open(self.log, encoding="ascii") as file:
            log = file.read()
        self.assertRegex(log, r"^! \S+Z @1\nrequest @1 HV1 SWITCH_ON\n! \S+Z timeouts\nanswer HV1 OFF\n$")

    def test_who_leaves_has_nothing_any_more(self) -> None:
        """Also who is told to leave, from that moment on."""
        self.start()
        other, holder = self.client(), self.client()
        holder.say("take TOP")
        self.assertEqual(holder.until("="), "= taken TOP")
        other.until("# TOP")
        other.say("request HV1 SWITCH_ON", "kill TOP", "kill HV2")
        self.assertEqual([other.until("=") for _ in range(3)], [*["= refused Held @2"] * 2, "= kill HV2 @1"])
        holder.link.sendall(b"x" * 9000)
        self.assertEqual(other.until("# TOP"), "# TOP is held by nobody")

    def test_files_are_refused_by_line(self) -> None:
        no_secret = "a secret has 16 to 128 letters of ASCII, without blanks"
        for name, text, wanted in (
            ("timeouts", "HV1 SWITCH_ON 1\nHV1 GO 1\n", "line 2: HV1 declares no action GO"),
            ("operators", "anna 0123456789abcdef\nbob x\n", f"line 2: {no_secret}"),
            ("holders", "[]", "it is no list of who has what"), ("secret-file", "short\n", no_secret),
        ):
            path = f"{self.folder}/{name}"
            with open(path, "w", encoding="ascii") as file:
                file.write(text)
            os.chmod(path, 0o600)
            words = [sys.executable, f"{LIVE}/gateway.py", "domain.sml", f"--{name}", path]
            done = subprocess.run(words, capture_output=True, text=True, env=self.env, timeout=LIMIT)
            self.assertEqual((done.returncode, done.stderr), (1, f"{path}: {wanted}\n"))


if __name__ == "__main__":
    unittest.main()
