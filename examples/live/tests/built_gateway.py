"""The gateway beside the manager itself: drivers, holders, times, and that it outlives its manager."""
import os
import signal
import socket
import subprocess
import sys
import tempfile
import time
import unittest

LIVE = os.path.dirname(os.path.dirname(os.path.realpath(__file__)))
sys.path.insert(0, LIVE)
DOMAIN = f"{LIVE}/../detector.sml"
LIMIT = 120

from domain import Domain  # noqa: E402
from lines import read_contact  # noqa: E402
from panel_client import Manager  # noqa: E402


def stands_still(*_: object) -> None:
    raise TimeoutError(f"nothing came within {LIMIT} seconds")


class Client:
    """A client: what it is told is kept until it is looked for."""

    def __init__(self, contact: str, first: str = "", secret: str = "") -> None:
        host, port, ours = read_contact(contact)
        self.link = socket.create_connection((host, int(port)))
        self.told = self.link.makefile("r", encoding="ascii")
        self.say(" ".join(word for word in (secret or ours, first) if word))
        self.session = self.until("#")
        if self.session.startswith("# session"):
            self.until("# told")

    def say(self, line: str) -> None:
        self.link.sendall(f"{line}\n".encode())

    def until(self, beginning: str) -> str:
        for line in self.told:
            if line.startswith(beginning):
                return line.rstrip("\n")
        return "the end"

    def leave(self) -> None:
        if not self.told.closed:
            self.link.shutdown(socket.SHUT_RDWR)
            self.told.close()
            self.link.close()


class AtGateway(unittest.TestCase):
    def setUp(self) -> None:
        room = tempfile.TemporaryDirectory()
        self.addCleanup(room.cleanup)
        self.folder = room.name
        self.contact, self.log = f"{self.folder}/contact", f"{self.folder}/log"
        signal.signal(signal.SIGALRM, stands_still)
        signal.alarm(LIMIT)
        self.addCleanup(signal.alarm, 0)

    def start(self, *words: str) -> None:
        all_words = [sys.executable, f"{LIVE}/gateway.py", DOMAIN, "--contact", self.contact, *words]
        self.gateway = subprocess.Popen(all_words, stdout=subprocess.PIPE, stderr=subprocess.DEVNULL, text=True)
        assert self.gateway.stdout
        self.said = self.gateway.stdout
        self.addCleanup(self.said.close)
        self.addCleanup(self.end)
        self.said.readline()

    def end(self) -> None:
        self.gateway.send_signal(signal.SIGTERM)
        self.gateway.wait()

    def client(self, first: str = "", secret: str = "") -> Client:
        client = Client(self.contact, first, secret)
        self.addCleanup(client.leave)
        return client

    def write(self, name: str, text: str) -> str:
        with open(f"{self.folder}/{name}", "w", encoding="ascii") as file:
            file.write(text)
        os.chmod(file.name, 0o600)
        return file.name

    def test_drivers_are_known(self) -> None:
        self.start()
        operator = self.client()
        self.assertEqual(operator.session, "# session @1")
        cooler = self.client("driver tracker_cooler")
        self.assertEqual(cooler.session, "# driver TRACKER_COOLER")
        self.assertEqual(operator.until("#"), "# driver of TRACKER_COOLER here")
        for words, wanted in (("driver TRACKER_*", "# TRACKER_COOLER has a driver already"),
                              ("driver TRACKER", "# no device is called TRACKER"),
                              ("drives X", "# after the secret stands nothing, or driver OBJECT..")):
            self.assertEqual(self.client(words).session, wanted)
        supplies = self.client("driver TRACKER_HV*")
        self.assertEqual(supplies.session, "# driver TRACKER_HV1 TRACKER_HV2 TRACKER_HV3")
        operator.say("request TRACKER_COOLER COOL (DEGREES = 5)")
        self.assertEqual(operator.until("="), "= accept @1 TRACKER_COOLER 0 COOL (DEGREES = 5)")
        for client in (supplies, operator):
            client.say("answer TRACKER_COOLER COLD")
            self.assertEqual(client.until("="), "= refused NotYours")
        for line in ("kill TRACKER_COOLER", "request TRACKER SWITCH_ON", "take TRACKER"):
            cooler.say(line)
            self.assertEqual(cooler.until("="), "= refused NotYours")
        cooler.say("answer TRACKER_COOLER COLD")
        self.assertEqual(cooler.until("="), "= end TRACKER_COOLER COLD")
        cooler.say("request TRACKER_COOLER WARM_UP")
        self.assertEqual(cooler.until("="), "= accept @7 TRACKER_COOLER 0 WARM_UP")
        cooler.leave()
        self.assertEqual(operator.until("# driver of TRACKER_C"), "# driver of TRACKER_COOLER lost")
        late = self.client()
        self.assertEqual(late.until("# driver of"), "# driver of TRACKER_HV1 TRACKER_HV2 TRACKER_HV3 here")
        operator.say("answer TRACKER_COOLER WARM")
        self.assertEqual(operator.until("="), "= end TRACKER_COOLER WARM")

    def test_what_the_state_forbids_is_told_to_no_driver(self) -> None:
        """A start that the manager skips: the driver is told its end alone."""
        self.start()
        operator, cooler = self.client(), self.client("driver TRACKER_COOLER")
        operator.say("request TRACKER_COOLER WARM_UP")
        self.assertEqual(operator.until("- start"), "- start TRACKER_COOLER @1 0 WARM_UP")
        self.assertEqual(cooler.until("-"), "- end TRACKER_COOLER skipped")
        operator.say("request TRACKER_COOLER COOL (DEGREES = 5)")
        self.assertEqual(cooler.until("-"), "- start TRACKER_COOLER @1 1 COOL (DEGREES = 5)")
        cooler.say("answer TRACKER_COOLER COLD @1 1")
        self.assertEqual(cooler.until("="), "= end TRACKER_COOLER COLD")

    def test_a_driver_is_told_the_states_of_its_devices(self) -> None:
        self.start()
        link = socket.create_connection(("127.0.0.1", int(read_contact(self.contact)[1])))
        self.addCleanup(link.close)
        link.sendall(f"{read_contact(self.contact)[2]} driver TRACKER_HV1\n".encode())
        told = link.makefile("r", encoding="ascii")
        self.addCleanup(told.close)
        self.assertEqual([told.readline() for _ in range(2)], ["- state TRACKER_HV1 OFF\n", "# driver TRACKER_HV1\n"])

    def test_an_answer_that_is_given_twice_ends_one_action(self) -> None:
        """While the manager does not read, an answer comes twice. The second does not end the action behind."""
        self.start()
        operator, cooler = self.client(), self.client("driver TRACKER_COOLER")
        for _ in range(2):
            operator.say("request TRACKER_COOLER COOL (DEGREES = 5)")
            operator.until("= accept")
        cooler.until("- start")
        children = subprocess.run(["ps", "-o", "pid=", "--ppid", str(self.gateway.pid)], capture_output=True, text=True)
        manager = int(children.stdout.split()[0])
        os.kill(manager, signal.SIGSTOP)
        cooler.say("answer TRACKER_COOLER COLD\nanswer TRACKER_COOLER COLD")
        time.sleep(1)
        os.kill(manager, signal.SIGCONT)
        self.assertEqual([cooler.until("="), cooler.until("=")], ["= end TRACKER_COOLER COLD", "= refused NotOpen"])
        operator.say("?")
        self.assertEqual(operator.until("? open"), "? open TRACKER_COOLER COOL waits device")

    def test_an_answer_of_another_request_ends_nothing(self) -> None:
        self.start()
        operator, cooler = self.client(), self.client("driver TRACKER_COOLER")
        for _ in range(2):
            operator.say("request TRACKER_COOLER COOL (DEGREES = 5)")
        for line, wanted in (("answer TRACKER_COOLER COLD @1 1", "refused NotOpen"),
                             ("fault TRACKER_COOLER @1 1", "refused NotOpen"),
                             ("answer tracker_cooler cold @1 0", "end TRACKER_COOLER COLD"),
                             ("answer TRACKER_COOLER COLD @1 0", "refused NotOpen"),
                             ("answer TRACKER_COOLER COLD @1 1", "end TRACKER_COOLER COLD")):
            time.sleep(0.5)
            cooler.say(line)
            self.assertEqual(cooler.until("="), f"= {wanted}")

    def test_a_driver_is_told_of_its_devices_alone(self) -> None:
        self.start()
        crate = self.client("driver CALORIMETER_CRATE")
        operator = self.client()
        operator.say("request CALORIMETER SWITCH_ON (MODE = \"a\")")
        self.assertEqual(crate.told.readline(), '- start CALORIMETER_CRATE CALORIMETER 0 LOAD (SETTINGS = "default")\n')

    def test_what_is_late_is_told_and_answered(self) -> None:
        self.start("--timeouts", self.write("times", "COOLER COOL 0.2 WARM\n"))
        operator = self.client()
        operator.say("request TRACKER_COOLER COOL (DEGREES = 5)")
        self.assertEqual(operator.until("# T"), "# TRACKER_COOLER COOL: 0.2 s without an answer, answered WARM")
        self.assertEqual(operator.until("- end"), "- end TRACKER_COOLER WARM")
        operator.say("request TRACKER_COOLER WARM_UP")
        self.assertEqual(operator.until("= "), "= accept @1 TRACKER_COOLER 1 WARM_UP")

    def test_who_has_a_part_has_it_alone(self) -> None:
        self.start("--operators", self.write("who", "anna 0123456789abcdef\nbob fedcba9876543210\n"),
                   "--holders", f"{self.folder}/holders", "--log", self.log)
        anna, bob, nobody = (self.client("", secret) for secret in ("0123456789abcdef", "fedcba9876543210", ""))
        self.assertEqual([one.session for one in (anna, bob, nobody)],
                         ["# session @1 anna", "# session @2 bob", "# session @3"])
        anna.say("take TRACKER")
        self.assertEqual(anna.until("="), "= taken TRACKER")
        self.assertEqual(bob.until("# T"), "# TRACKER is held by anna")
        for line in ('request TRACKER SWITCH_ON (MODE = "a")', "kill TRACKER_HV1", "take DETECTOR",
                     "request DETECTOR SWITCH_ON",
                     "once 7 request TRACKER_HV1 SWITCH_ON"):
            bob.say(line)
            self.assertEqual(bob.until("="), "= refused Held anna")
        bob.say("request CALORIMETER SWITCH_ON (MODE = \"a\")")
        self.assertTrue(bob.until("=").startswith("= accept @2 CALORIMETER 0"))
        anna.say("kill TRACKER_HV1")
        self.assertEqual(anna.until("="), "= kill TRACKER_HV1 @1")
        nobody.say("seize DETECTOR")
        self.assertEqual(nobody.until("="), "= taken DETECTOR")
        self.assertEqual([bob.until("# T"), bob.until("# D")],
                         ["# TRACKER is held by nobody", "# DETECTOR is held by @3"])
        nobody.leave()
        self.assertEqual(bob.until("# D"), "# DETECTOR is held by nobody")
        bob.say("take CALORIMETER")
        bob.until("= taken")
        self.end()
        with open(self.log, encoding="ascii") as log:
            lines = log.read().splitlines()
        of_anna = next(at for at, line in enumerate(lines) if line == "kill TRACKER_HV1 @1")
        self.assertRegex(lines[of_anna - 1], r"^! \d{4}-\d\d-\d\dT\d\d:\d\d:\d\dZ @1 anna$")
        self.start("--operators", f"{self.folder}/who", "--holders", f"{self.folder}/holders", "--log", self.log)
        self.assertEqual(self.client().until("# C"), "# CALORIMETER is held by bob")

    def test_no_client_writes_a_time(self) -> None:
        self.start("--log", self.log)
        operator = self.client()
        operator.say("! 2026-11-29T03:12:07Z @2 bob")
        self.assertEqual(operator.until("="), "= refused BadLine")

    def test_it_outlives_its_supervisor_and_its_manager(self) -> None:
        self.start("--log", self.log)
        operator, cooler = self.client(), self.client("driver TRACKER_COOLER")
        operator.say("request TRACKER_COOLER COOL (DEGREES = 5)")
        operator.until("= accept")
        cooler.until("- start")
        children = subprocess.run(["ps", "-o", "pid=", "--ppid", str(self.gateway.pid)], capture_output=True, text=True)
        os.kill(int(children.stdout.split()[0]), signal.SIGKILL)
        self.assertEqual(operator.until("# the manager"), "# the manager is away; it is started again in 1 s")
        operator.say("once 5 request TRACKER_HV1 SWITCH_ON (VOLTS = 5)")
        self.assertEqual(operator.until("# the manager is s"), "# the manager is started again")
        self.assertEqual(cooler.until("- start"), "- start TRACKER_COOLER @1 0 COOL (DEGREES = 5)")
        self.assertEqual(operator.until("="), "= once S1 5 accept @1 TRACKER_HV1 0 SWITCH_ON (VOLTS = 5)")
        cooler.say("answer TRACKER_COOLER COLD")
        self.assertEqual(cooler.until("="), "= end TRACKER_COOLER COLD")

    def test_a_panel_goes_on_from_a_number_that_is_ahead_of_the_clock(self) -> None:
        """As the log says: the gateway was started anew meanwhile. By its clock all that it asks for would be old."""
        self.start("--log", self.log)
        operator, number = self.client(), time.time_ns() // 1000 + 3_000_000_000
        operator.say(f"once {number} request TRACKER_HV1 SWITCH_ON (VOLTS = 5)")
        self.assertEqual(operator.until("= "), f"= once S1 {number} accept @1 TRACKER_HV1 0 SWITCH_ON (VOLTS = 5)")
        self.end()
        self.start("--log", self.log)
        asked = Manager(Domain(DOMAIN), self.contact).ask("request TRACKER_HV2 SWITCH_ON (VOLTS = 5)")
        self.assertEqual([*asked], ["sent", "accepted"])
        with open(self.log, encoding="ascii") as log:
            self.assertIn(f"request @1 TRACKER_HV2 SWITCH_ON (VOLTS = 5) ! once S1 {number + 1}\n", log.readlines())

    def test_no_start_is_lost(self) -> None:
        """A detector is switched on and off, and its devices answer at once, until they have started 1,000 times."""
        self.start()
        words = [sys.executable, f"{LIVE}/play_devices.py", DOMAIN, "--gateway", self.contact, "--factor", "0.0005"]
        player = subprocess.Popen(words, stdout=subprocess.DEVNULL, stderr=subprocess.DEVNULL)
        self.addCleanup(player.wait)
        self.addCleanup(player.kill)
        operator, starts = self.client(), 0
        operator.say("request DETECTOR SWITCH_ON")
        for line in operator.told:
            words = line.split()
            starts += words[1:2] == ["start"]
            if words[:3] == ["-", "end", "DETECTOR"]:
                if starts >= 1000:
                    break
                operator.say(f"request DETECTOR {'SWITCH_OFF' if words[3] == 'READY' else 'SWITCH_ON'}")
        self.assertGreaterEqual(starts, 1000)

    def test_a_wrong_log_ends_it_at_once(self) -> None:
        log = self.write("other", "! smirun live 1\n")
        self.start("--log", log)
        begun = time.monotonic()
        self.assertEqual(self.gateway.wait(), 1)
        self.assertLess(time.monotonic() - begun, 30)

    def test_a_secret_that_is_kept_is_not_printed(self) -> None:
        self.start("--secret-file", f"{self.folder}/secret")
        with open(f"{self.folder}/secret", encoding="ascii") as file:
            secret = file.read().strip()
        self.assertEqual(read_contact(self.contact)[2], secret)
        self.end()
        self.assertEqual(self.said.read(), "")
        self.start("--secret-file", f"{self.folder}/secret")
        self.assertEqual(self.client("", secret).session, "# session @1")


if __name__ == "__main__":
    unittest.main()
