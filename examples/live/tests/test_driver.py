"""Drivers, at a gateway that is played: what they perform, what they answer, and what they do where it is cut."""
from __future__ import annotations

import os
import socket
import sys
import tempfile
import threading
import time
import unittest

LIVE = os.path.dirname(os.path.dirname(os.path.realpath(__file__)))
sys.path[:0] = [LIVE, f"{LIVE}/tests"]

import connections  # noqa: E402
from driver import Failed  # noqa: E402
from patience import LIMIT, until  # noqa: E402
from trial_driver import AGAIN, Trial  # noqa: E402

SECRET = "0123456789abcdef"
connections.LEAST_PAUSE = 0.05


class Played:
    """A gateway that is played: one client at a time."""

    def __init__(self, folder: str) -> None:
        self.contact, self.secret = f"{folder}/contact", SECRET
        self.requests: list[tuple[str, ...]] = []
        self.door = socket.create_server(("127.0.0.1", 0))
        self.door.settimeout(LIMIT)
        self.write_contact()

    def write_contact(self) -> None:
        with open(self.contact, "w", encoding="ascii") as file:
            file.write(f"127.0.0.1 {self.door.getsockname()[1]} {self.secret}\n")

    def take(self, *greeting: str) -> str:
        """Takes the next client: its first line, which is answered by these lines and `# driver ..`."""
        self.link, _ = self.door.accept()
        self.link.settimeout(LIMIT)
        self.lines = self.link.makefile("r", encoding="ascii")
        first = self.lines.readline().rstrip("\n")
        self.tell(*greeting, "# driver HV1 HV2")
        return first

    def tell(self, *lines: str) -> None:
        self.link.sendall("".join(line + "\n" for line in lines).encode())

    def read(self) -> str:
        """The next line; of an answer what stands before the request that it names."""
        line = self.lines.readline().rstrip("\n")
        words = line.split(" ")
        if words[0] not in ("answer", "fault"):
            return line
        self.requests.append(tuple(words[-2:]))
        return " ".join(words[:-2])

    def cut(self) -> None:
        connections.shut(self.link)
        self.lines.close()
        self.link.close()


class AtGateway(unittest.TestCase):
    def setUp(self) -> None:
        folder = tempfile.TemporaryDirectory()
        self.addCleanup(folder.cleanup)
        self.gateway, self.driver = Played(folder.name), Trial(["HV1", "hv2*"])
        self.addCleanup(self.gateway.door.close)

    def serve(self, *greeting: str) -> None:
        threading.Thread(target=self.driver.serve, args=[self.gateway.contact], daemon=True, name="driver").start()
        self.assertEqual(self.gateway.take(*greeting), f"{SECRET} driver HV1 HV2*")
        # What is asked before the driver goes on there is asked again, in whatever order.
        until(lambda: self.driver.secret)

    def tearDown(self) -> None:
        self.driver.leave()
        self.gateway.cut()

    def test_an_action_is_performed_and_answered(self) -> None:
        self.serve("- state HV1 OFF")
        self.gateway.tell('- start HV1 T 0 SWITCH_ON (VOLTS = -5, MODE = "a, B = 2")', "- start LV T 0 SWITCH_ON",
                          "- start HV2_7 T 3 SWITCH_ON")
        self.assertEqual({self.gateway.read(), self.gateway.read()}, {"answer HV1 ON", "answer HV2_7 ON"})
        self.assertEqual({*self.gateway.requests}, {("T", "0"), ("T", "3")})
        self.assertEqual(sorted(self.driver.done, key=str),
                         [("perform", "HV1", "SWITCH_ON", {"VOLTS": -5, "MODE": "a, B = 2"}),
                          ("perform", "HV2_7", "SWITCH_ON", {})])

    def test_devices_work_at_the_same_time(self) -> None:
        self.driver.doing["RAMP"] = ready = threading.Event()
        self.serve()
        self.gateway.tell("- start HV1 T 0 RAMP", "- start HV2 T 0 SWITCH_ON")
        self.assertEqual(self.gateway.read(), "answer HV2 ON")
        ready.set()
        self.assertEqual(self.gateway.read(), "answer HV1 ON")

    def test_a_start_that_is_told_again_goes_on(self) -> None:
        self.driver.doing["RAMP"] = ready = threading.Event()
        self.serve()
        self.gateway.tell("- start HV1 T 0 RAMP", "- ! restarted", "- stands 7", "- start HV1 T 0 RAMP")
        ready.set()
        self.assertEqual(self.gateway.read(), "answer HV1 ON")
        self.assertEqual(len(self.driver.done), 1)

    def test_an_answer_that_was_lost_is_given_again_without_performing(self) -> None:
        self.serve()
        self.gateway.tell("- start HV1 T 0 SWITCH_ON")
        self.assertEqual(self.gateway.read(), "answer HV1 ON")
        self.gateway.tell("- ! restarted", "= ! unanswered answer HV1 ON", "- start HV1 T 0 SWITCH_ON")
        self.assertEqual(self.gateway.read(), "answer HV1 ON")
        self.gateway.tell("= end HV1 ON", "- start HV1 T 1 SWITCH_ON")
        self.assertEqual(self.gateway.read(), "answer HV1 ON")
        self.assertEqual(len(self.driver.done), 2)

    def test_a_kill_stops_a_device(self) -> None:
        self.driver.doing["RAMP"] = threading.Event()
        self.serve()
        self.gateway.tell("- start HV1 T 0 RAMP", "- kill HV1 @2", "- start HV2 T 0 SWITCH_ON")
        self.assertEqual(self.gateway.read(), "answer HV2 ON")
        until(lambda: self.driver.stopped == ["HV1"] and not self.driver.jobs)

    def test_an_end_that_is_skipped_stops_nothing(self) -> None:
        """Its start is not told by a gateway."""
        self.serve()
        self.gateway.tell("- end HV1 skipped", "- start HV1 T 1 SWITCH_ON")
        self.assertEqual(self.gateway.read(), "answer HV1 ON")
        self.assertEqual((self.driver.stopped, len(self.driver.done)), ([], 1))

    def test_a_failure_is_a_fault(self) -> None:
        self.driver.doing["RAMP"] = Failed("no water")
        self.serve()
        self.gateway.tell("- start HV1 T 0 RAMP")
        self.assertEqual(self.gateway.read(), "fault HV1")
        self.assertEqual(self.driver.said, ["HV1 RAMP: failed: no water"])

    def test_an_exception_is_told_and_answered_as_broken_says(self) -> None:
        self.driver.doing["RAMP"] = KeyError("x")
        self.driver.broken_state = "ERROR"
        self.serve()
        self.gateway.tell("- start HV1 T 0 RAMP")
        self.assertEqual(self.gateway.read(), "answer HV1 ERROR")
        self.assertEqual(self.driver.said, ["HV1 RAMP: KeyError: 'x'"])

    def test_a_state_that_is_refused_is_answered_as_broken_says_and_then_by_a_fault(self) -> None:
        self.driver.doing["RAMP"] = "NO_STATE"
        self.driver.broken_state = "NO_STATE_EITHER"
        self.serve()
        self.gateway.tell("- start HV1 T 0 RAMP")
        for answer in ("answer HV1 NO_STATE", "answer HV1 NO_STATE_EITHER"):
            self.assertEqual(self.gateway.read(), answer)
            self.gateway.tell("= refused NotAState")
        self.assertEqual(self.gateway.read(), "fault HV1")
        self.assertEqual(self.driver.said[0], "`answer HV1 NO_STATE T 0` is refused NotAState")

    def test_what_is_no_name_is_no_state(self) -> None:
        """A line feed in it would be a line of its own, and two words another answer."""
        self.driver.broken_state = "ERROR"
        self.serve()
        for number, state in enumerate(("", "ON\nfault HV2", "ON T 7", "\xc9TAT", None, 5)):
            self.driver.doing["RAMP"] = state
            self.gateway.tell(f"- start HV1 T {number} RAMP")
            self.assertEqual(self.gateway.read(), "answer HV1 ERROR")
            self.gateway.tell("= end HV1 ERROR")
            self.assertEqual(self.driver.said.pop(), f"HV1 RAMP: ValueError: {state!r} is the name of no state")

    def test_an_exception_in_what_is_overridden_ends_nothing(self) -> None:
        self.driver.doing = {"RAMP": KeyError("x"), "WAIT": threading.Event()}
        self.driver.broken_state = "RAISES"
        self.serve()
        self.gateway.tell("- start HV1 T 0 RAMP")
        self.assertEqual(self.gateway.read(), "fault HV1")
        self.gateway.tell("= kill HV1 fault", "- start HV2 T 0 WAIT")
        until(lambda: self.driver.jobs)
        self.gateway.tell("- kill HV2 @1", "- start HV2_1 T 0 SWITCH_ON")
        self.assertEqual(self.gateway.read(), "answer HV2_1 ON")
        self.assertEqual(self.driver.said[1:], ["HV1 RAMP: broken: KeyError: 'RAMP'", "HV2: stop: KeyError: 'HV2'"])

    def test_a_device_does_one_action_at_a_time(self) -> None:
        """Also where the first is late, and was answered, but has not returned."""
        self.driver.doing["RAMP"] = barrier = threading.Barrier(2)
        self.driver.limits, self.driver.late_state = {"RAMP": 0.05}, "LATE"
        self.serve()
        self.gateway.tell("- start HV1 T 0 RAMP")
        self.assertEqual(self.gateway.read(), "answer HV1 LATE")
        self.gateway.tell("= end HV1 LATE", "- start HV1 T 1 SWITCH_ON")
        for number in range(5):
            self.gateway.tell(f"- start HV2 T {number} SWITCH_ON")
            self.assertEqual(self.gateway.read(), "answer HV2 ON")
        self.assertEqual([done[1:3] for done in self.driver.done], [("HV1", "RAMP"), *[("HV2", "SWITCH_ON")] * 5])
        barrier.wait(LIMIT)
        self.assertEqual(self.gateway.read(), "answer HV1 ON")

    def test_what_an_answer_of_before_is_told_is_not_of_the_next(self) -> None:
        """The same answer was given twice; by the time that the second is refused the next action has its own."""
        self.serve()
        self.gateway.tell("- start HV1 T 0 SWITCH_ON")
        self.gateway.read()
        self.gateway.tell("- ! restarted", "- start HV1 T 0 SWITCH_ON")
        self.gateway.read()
        self.gateway.tell("= end HV1 ON", "- start HV1 T 1 SWITCH_ON")
        self.gateway.read()
        self.gateway.tell("= refused NotOpen", "- start HV1 T 1 SWITCH_ON")
        self.assertEqual(self.gateway.read(), "answer HV1 ON")
        self.assertEqual((self.gateway.requests[-1], len(self.driver.done)), (("T", "1"), 2))

    def test_an_answer_that_comes_too_late_changes_nothing(self) -> None:
        self.serve()
        self.gateway.tell("- start HV1 T 0 SWITCH_ON")
        self.assertEqual(self.gateway.read(), "answer HV1 ON")
        self.gateway.tell("= refused NotOpen", "- start HV1 T 1 SWITCH_ON")
        self.assertEqual(self.gateway.read(), "answer HV1 ON")
        self.assertEqual(self.driver.said, ["`answer HV1 ON T 0` is refused NotOpen"])

    def test_what_is_late_is_answered_as_late_says(self) -> None:
        self.driver.doing["RAMP"] = ready = threading.Event()
        self.driver.limits, self.driver.late_state = {"RAMP": 9.0, "HV1 RAMP": 0.05}, "LATE"
        self.serve()
        self.gateway.tell("- start HV1 T 0 RAMP")
        self.assertEqual(self.gateway.read(), "answer HV1 LATE")
        ready.set()
        self.gateway.tell("= end HV1 LATE", "- start HV1 T 1 SWITCH_ON")
        self.assertEqual(self.gateway.read(), "answer HV1 ON")
        self.assertEqual(self.driver.said, ["HV1 RAMP: 0.05 s without an end, answered LATE"])

    def test_what_is_late_is_waited_for_where_nothing_is_said(self) -> None:
        self.driver.doing["RAMP"] = ready = threading.Event()
        self.driver.limits = {"RAMP": 0.02}
        self.serve()
        self.gateway.tell("- start HV1 T 0 RAMP")
        until(lambda: self.driver.said)
        ready.set()
        self.assertEqual(self.gateway.read(), "answer HV1 ON")

    def test_where_the_connection_is_cut_what_is_in_hand_goes_on(self) -> None:
        self.driver.doing["RAMP"] = ready = threading.Event()
        self.serve()
        self.gateway.tell("- start HV1 T 0 RAMP")
        until(lambda: self.driver.jobs)
        self.gateway.cut()
        self.gateway.take("- open HV1 RAMP waits device", "- start HV1 T 0 RAMP")
        ready.set()
        self.assertEqual(self.gateway.read(), "answer HV1 ON")
        self.assertEqual([how for how, *_ in self.driver.done], ["perform"])

    def test_what_ended_while_the_connection_was_cut_is_answered_at_the_same_gateway(self) -> None:
        self.driver.doing["RAMP"] = ready = threading.Event()
        self.serve()
        self.gateway.tell("- start HV1 T 0 RAMP")
        until(lambda: self.driver.jobs)
        self.gateway.cut()
        ready.set()
        until(lambda: not self.driver.jobs)
        self.gateway.take("- start HV1 T 0 RAMP")
        self.assertEqual(self.gateway.read(), "answer HV1 ON")
        self.assertEqual([how for how, *_ in self.driver.done], ["perform"])

    def test_at_another_gateway_it_is_resumed(self) -> None:
        self.driver.doing["RAMP"] = ready = threading.Event()
        self.serve()
        self.gateway.tell("- start HV1 T 0 RAMP")
        until(lambda: self.driver.jobs)
        self.gateway.secret = "another"
        self.gateway.write_contact()
        self.gateway.cut()
        ready.set()
        until(lambda: not self.driver.jobs)
        self.gateway.take("- start HV1 T 0 RAMP")
        self.assertEqual(self.gateway.read(), "answer HV1 RESUMED")

    def test_what_was_in_hand_before_is_resumed(self) -> None:
        self.serve("- state HV1 OFF", "- start HV1 T 0 RAMP (VOLTS = 3)")
        self.assertEqual(self.gateway.read(), "answer HV1 RESUMED")
        self.assertEqual(self.driver.done, [("resume", "HV1", "RAMP", {"VOLTS": 3})])

    def test_what_was_killed_while_the_connection_was_cut_is_stopped(self) -> None:
        self.driver.doing["RAMP"] = threading.Event()
        self.serve()
        self.gateway.tell("- start HV1 T 0 RAMP")
        until(lambda: self.driver.jobs)
        self.gateway.cut()
        self.gateway.take("- state HV1 DEAD")
        until(lambda: self.driver.stopped == ["HV1"])

    def test_a_report_is_asked_for_once_until_it_starts(self) -> None:
        self.serve()
        self.driver.report("HV1")
        self.driver.report("HV1")
        self.driver.report("HV2")
        self.assertEqual([self.gateway.read(), self.gateway.read()], ["request HV1 REPORT", "request HV2 REPORT"])
        self.gateway.tell("= accept @7 HV1 0 REPORT", "- start HV1 @7 0 REPORT", "= refused Dead")
        self.assertEqual(self.gateway.read(), "answer HV1 ON")
        until(lambda: not self.driver.reports)
        self.driver.report("HV1")
        self.driver.report("HV2")
        self.assertEqual([self.gateway.read(), self.gateway.read()], ["request HV1 REPORT", "request HV2 REPORT"])

    def test_a_report_that_is_refused_is_asked_for_again(self) -> None:
        """Ever more seldom, and not where it is under way, or device and object do not differ any more. (That of HV2
        would come after one of HV1, which was asked for earlier.)"""
        self.serve()
        begun = time.monotonic()
        self.driver.report("HV1")
        for _ in range(4):
            self.assertEqual(self.gateway.read(), "request HV1 REPORT")
            self.gateway.tell("= refused Full")
        self.assertEqual(self.gateway.read(), "request HV1 REPORT")
        self.assertGreater(time.monotonic() - begun, (1 + 2 + 4 + 8) * AGAIN * 0.99)
        self.gateway.tell("= accept @7 HV1 0 REPORT")
        self.driver.report("HV2")
        for _ in range(5):
            self.assertEqual(self.gateway.read(), "request HV2 REPORT")
            self.gateway.tell("= refused Full")
        self.assertEqual(self.gateway.read(), "request HV2 REPORT")
        self.gateway.tell("= accept @7 HV2 0 REPORT", "- end HV1 skipped")
        self.assertEqual(self.gateway.read(), "request HV1 REPORT")
        self.driver.same |= {"HV1", "HV2"}
        self.gateway.tell("= refused Full")
        until(lambda: not self.driver.reports and not self.driver.reminder)
        self.gateway.tell("- start HV2 T 0 SWITCH_ON")
        self.assertEqual(self.gateway.read(), "answer HV2 ON")

    def test_a_report_is_not_held_up_by_an_answer_whose_end_was_lost(self) -> None:
        """The manager was killed once it had the answer, so nobody tells the end."""
        self.serve()
        self.gateway.tell("- start HV1 T 0 SWITCH_ON")
        self.assertEqual(self.gateway.read(), "answer HV1 ON")
        self.gateway.tell("= ! unanswered answer HV1 ON", "- ! restarted", "- state HV1 ON")
        self.driver.report("hv1")
        self.assertEqual(self.gateway.read(), "request HV1 REPORT")
        self.gateway.tell("= refused Full")
        self.assertEqual(self.gateway.read(), "request HV1 REPORT")

    def test_an_answer_of_a_log_that_is_no_more_is_not_given_again(self) -> None:
        """The gateway keeps its secret, and its log was begun anew: the same number is of another request."""
        for is_cut in (True, False):
            self.gateway.tell("- ! begun anew") if not is_cut else self.serve()
            self.gateway.tell("- start HV1 @1 0 SWITCH_ON")
            self.assertEqual(self.gateway.read(), "answer HV1 ON")
            until(lambda: "HV1" in self.driver.untold)
            if is_cut:
                self.gateway.cut()
                self.gateway.take("- state HV1 OFF")
                self.gateway.tell("- start HV1 @1 0 SWITCH_ON")
                self.assertEqual(self.gateway.read(), "answer HV1 ON")
        self.assertEqual([how for how, *_ in self.driver.done], ["perform"] * 3)

    def test_it_can_be_ended(self) -> None:
        thread = threading.Thread(target=self.driver.serve, args=[self.gateway.contact], daemon=True)
        thread.start()
        self.gateway.take()
        until(lambda: self.driver.link)
        self.driver.leave()
        thread.join(LIMIT)
        self.assertFalse(thread.is_alive())
        self.assertEqual(self.driver.said, [])

    def test_it_says_why_it_is_turned_away_and_comes_again(self) -> None:
        threading.Thread(target=self.driver.serve, args=[self.gateway.contact], daemon=True).start()
        self.gateway.link, _ = self.gateway.door.accept()
        self.gateway.lines = self.gateway.link.makefile("r", encoding="ascii")
        self.gateway.read()
        self.gateway.tell("# HV1 has a driver already")
        self.gateway.cut()
        self.assertEqual(self.gateway.take(), f"{SECRET} driver HV1 HV2*")
        self.assertEqual(self.driver.said[0], "no gateway: HV1 has a driver already; again in 0.05 s")


    def test_a_gateway_that_cuts_it_at_once_is_not_flooded(self) -> None:
        begun = time.monotonic()
        self.serve()
        for _ in range(4):
            self.gateway.cut()
            self.gateway.take()
        self.assertGreaterEqual(time.monotonic() - begun, 4 * 0.05)

    def test_it_can_be_ended_while_there_is_no_gateway(self) -> None:
        self.serve()
        self.gateway.door.close()
        os.remove(self.gateway.contact)
        connections.LEAST_PAUSE = 10.0 * LIMIT
        self.addCleanup(setattr, connections, "LEAST_PAUSE", 0.05)
        self.gateway.cut()
        until(lambda: self.driver.said)
        self.driver.leave()
        until(lambda: not any(thread.name == "driver" for thread in threading.enumerate()))

    def test_what_was_begun_before_it_left_is_not_driven(self) -> None:
        """`leave` may come before the connection is there."""
        self.driver.leave()
        thread = threading.Thread(target=connections.connect, args=[self.driver, self.gateway.contact])
        thread.start()
        thread.join(LIMIT)
        self.assertFalse(thread.is_alive())
        self.gateway.link, _ = self.gateway.door.accept()
        self.gateway.lines = self.gateway.link.makefile("r", encoding="ascii")
        self.assertEqual(self.gateway.read(), "")


if __name__ == "__main__":
    unittest.main()
