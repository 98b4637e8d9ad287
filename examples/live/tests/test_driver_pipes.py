"""Drivers over FIFOs, and what a subclass may have."""
from __future__ import annotations

import os
import sys
import tempfile
import threading
import unittest
from unittest import mock

LIVE = os.path.dirname(os.path.dirname(os.path.realpath(__file__)))
sys.path[:0] = [LIVE, f"{LIVE}/tests"]

import connections  # noqa: E402
from driver import Driver, arguments_of  # noqa: E402
from patience import LIMIT, Limited, until  # noqa: E402
from trial_driver import Trial  # noqa: E402


class OverPipes(Limited):
    def setUp(self) -> None:
        super().setUp()
        folder = tempfile.TemporaryDirectory()
        self.addCleanup(folder.cleanup)
        pipes = [f"{folder.name}/in", f"{folder.name}/out"]
        for pipe in pipes:
            os.mkfifo(pipe)
        self.trial = Trial(["HV1", "HV2"])
        self.thread = threading.Thread(target=self.trial.serve_pipes, args=pipes)
        self.thread.start()
        self.given = open(pipes[0], encoding="ascii")
        self.told = open(pipes[1], "w", encoding="ascii", buffering=1)
        self.addCleanup(self.leave)

    def leave(self) -> None:
        self.told.close()
        self.thread.join(LIMIT)
        self.given.close()

    def next_but(self, passed: str) -> str:
        """The next line that is not this one."""
        while (line := self.given.readline()) == passed:
            pass
        return line

    def test_it_answers_and_ends_with_the_manager(self) -> None:
        self.told.write("start HV1 T 0 SWITCH_ON\n")
        self.assertEqual(self.given.readline(), "answer HV1 ON\n")
        self.told.write("end HV1 ON\nstate HV1 ON\nstands 4\nstart HV1 T 1 RAMP\n")
        self.assertEqual(self.given.readline(), "answer HV1 RESUMED\n")
        self.leave()
        self.assertFalse(self.thread.is_alive())

    def test_what_is_skipped_is_never_performed(self) -> None:
        """The line that says so comes in the same read, or a little later. (It is waited for as long as the test lasts,
        so a start that is to be performed has another line after it.)"""
        with mock.patch.object(connections, "SKIPPED_WITHIN", LIMIT):
            for number, is_later in enumerate((False, False, True, True)):
                start = f"start HV1 T {2 * number} RAMP"
                self.told.write(f"{start}\n" + ("" if is_later else "end HV1 skipped\n"))
                if is_later:
                    until(lambda: self.trial.shown[-1:] == [start])
                    self.told.write("end HV1 skipped\n")
                self.told.write(f"start HV1 T {2 * number + 1} SWITCH_ON\naccept @1 HV2 {number} SWITCH_ON\n")
                self.assertEqual(self.given.readline(), "answer HV1 ON\n")
                self.told.write("end HV1 ON\n")
        self.assertEqual([action for _, _, action, _ in self.trial.done], ["SWITCH_ON"] * 4)

    def test_what_is_known_not_to_be_declared_is_never_performed(self) -> None:
        """However late the line comes that says that it is skipped."""
        setattr(self.trial, "declares", lambda _name, action: action != "RAMP")
        self.told.write("start HV1 T 0 RAMP\nstart HV2 T 0 SWITCH_ON\n")
        self.assertEqual(self.given.readline(), "answer HV2 ON\n")
        self.told.write("end HV1 skipped\nstart HV1 T 1 SWITCH_ON\n")
        self.assertEqual(self.given.readline(), "answer HV1 ON\n")
        self.assertEqual([done[1:3] for done in self.trial.done], [("HV2", "SWITCH_ON"), ("HV1", "SWITCH_ON")])

    def test_a_report_is_asked_for_until_it_is_started(self) -> None:
        """In the drivers' session; again where it was refused, or skipped, and not while it is accepted. (That of HV2
        would come after one of HV1, which was asked for earlier.)"""
        self.told.write("state HV1 ON\n")
        until(lambda: self.trial.shown)
        self.trial.report("HV1")
        for _ in range(3):
            self.assertEqual(self.given.readline(), "request @7 HV1 REPORT\n")
            self.told.write("refused Full\n")
        for number in (3, 4):
            accept = f"accept @7 HV1 {number} REPORT"
            self.told.write(f"{accept}\n")
            until(lambda: self.trial.shown[-1] == accept and self.trial.reports["HV1"].is_under_way)
            self.trial.report("HV2")
            self.assertEqual(self.next_but("request @7 HV1 REPORT\n"), "request @7 HV2 REPORT\n")
            for _ in range(4):
                self.assertEqual(self.given.readline(), "request @7 HV2 REPORT\n")
            self.told.write(f"accept @7 HV2 {number} REPORT\nstart HV2 @7 {number} REPORT\n")
            self.assertEqual(self.next_but("request @7 HV2 REPORT\n"), "answer HV2 ON\n")
            self.told.write("end HV2 ON\n")
            if number == 3:
                self.told.write("start HV1 @7 3 REPORT\nend HV1 skipped\n")
                self.assertEqual(self.given.readline(), "request @7 HV1 REPORT\n")
        self.told.write("start HV1 @7 4 REPORT\n")
        self.assertEqual(self.given.readline(), "answer HV1 ON\n")
        self.assertEqual(self.trial.reports, {})


class Subclasses(unittest.TestCase):
    def test_a_name_that_is_taken_is_refused(self) -> None:
        """A driver whose own `begin` is called in the place of the class's would stand still."""
        type("Mine", (Driver,), {"perform": print, "limits": {}, "mine": print})
        for name in ("begin", "settle", "serve"):
            with self.assertRaises(TypeError):
                type("Mine", (Driver,), {name: print})


class Lines(unittest.TestCase):
    def test_arguments(self) -> None:
        for text, wanted in ((None, {}), ("A = 1", {"A": 1}), ('A = "", B_2 = "x = 3"', {"A": "", "B_2": "x = 3"})):
            self.assertEqual(arguments_of(text), wanted)

    def test_devices(self) -> None:
        trial = Trial(["HV1", "hv2_*"])
        self.assertEqual([trial.drives(name) for name in ("HV1", "HV11", "HV2_", "HV2_9", "HV2")],
                         [True, False, True, True, False])


if __name__ == "__main__":
    unittest.main()
