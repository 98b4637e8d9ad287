"""What a node takes of its driver programs."""
import selectors
import time
import unittest

from links.process import Program, Side

TAKEN = ("answer HV ON", "fault hv", "\trequest @7 HV REPORT", "request @2 T GO_TO (N = 3)", "request @6 SUB GO",
         "kill T @2", "! a remark")
DROPPED = ("answer SUB ON", "fault sub", "request @7 SUB REPORT", "request  @7 sub GO", "request @7", "request @8 T GO",
           "request HV REPORT", "once A 1 request @7 HV REPORT", "request @7 HV REPORT ! once A 1", "! links resumed",
           "start HV", "?")


class Lines(unittest.TestCase):
    def test_what_is_taken_of_a_driver(self) -> None:
        """Of SUB nothing that is a device's; in the session of links, and without one, nothing at all."""
        heard, told = list[str](), list[str]()
        side = Side(list, heard.append, lambda name: name != "SUB", told.append)
        with selectors.DefaultSelector() as ready:
            program = Program(["printf", "%s\\n", *TAKEN, *DROPPED, TAKEN[0]], "/", ready, side)
            program.start(time.monotonic())
            ends = time.monotonic() + 60
            while program.process and time.monotonic() < ends:
                ready.select(0.1)
                program.hear()
        self.assertEqual((heard, told), ([*TAKEN, TAKEN[0]], ["the driver printf has ended; it is started again"]))

    def test_one_that_cannot_be_started(self) -> None:
        """It is said, and tried again later."""
        told: list[str] = []
        with selectors.DefaultSelector() as ready:
            program = Program(["/no/such/driver"], "/", ready, Side(list, told.append, bool, told.append))
            program.tick(5.0)
            program.tick(6.0)
        self.assertEqual(told, ["the driver /no/such/driver could not be started: No such file or directory"])
        self.assertEqual(program.next_time(6.0), 15.0)


if __name__ == "__main__":
    unittest.main()
