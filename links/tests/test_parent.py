"""What is done at SUB, by what is heard of its child: commands, answers, what is given up, reports."""
import unittest

from links.tests.sides import CHILDS, LOG, Side, known_notes

from links.marks import Known, Notes

K = (LOG << 32) + 1
COMMANDS = "C/command/P_SUB"
START, UP = "start SUB @1 0 GO", f"up {CHILDS} 1 1 well"
UPS = (UP, f"up {CHILDS} 1 2 well")


class AtSub(unittest.TestCase):
    def setUp(self) -> None:
        self.side = Side("P")

    def begin(self, *standing: str, notes: Notes | None = None) -> list[str]:
        return self.side.begin(*standing, notes=notes or known_notes())

    def asked(self) -> str:
        return self.side.told(COMMANDS)

    def lost(self, given: list[str], k: int = K) -> None:
        self.assertEqual(len(given), 1, given)
        self.assertRegex(given[0], rf"\Aanswer SUB LOST ! lost {k} at [0-9.]+( knows C\.T [0-9]+)?: ")

    def test_a_command_is_answered_by_what_came_of_it(self) -> None:
        self.begin()
        self.side.hear_child(*UPS)
        self.side.hear(START)
        self.assertEqual(self.asked(), f"command {K} {CHILDS} T GO")
        for other in (f"outcome {K - 1} {CHILDS} ended ON 1", f"outcome {K} {CHILDS - 1} ended ON 1",
                      f"outcome {K + 1} {CHILDS} ended ON 1", f"outcome {K} {CHILDS} accepted OFF 0"):
            self.assertEqual(self.side.hear_child(other), [])
        self.assertEqual(self.side.hear_child(f"outcome {K} {CHILDS} ended ON 1"),
                         [f"answer SUB ON ! came {K} ended {CHILDS} 1"])
        self.assertEqual(self.side.hear_child(f"outcome {K} {CHILDS} ended ON 1"), [])
        self.assertEqual(self.side.hear("end SUB ON"), [])
        self.assertEqual(self.asked(), f"withdraw {K} {CHILDS} T")

    def test_refused_skipped_killed(self) -> None:
        for kind in ("refused:Full", "skipped", "killed"):
            self.setUp()
            self.begin()
            self.side.hear_child(*UPS)
            self.side.hear(START)
            self.assertEqual(self.side.hear_child(f"outcome {K} {CHILDS} {kind} OFF 0"),
                             [f"answer SUB OFF ! came {K} {kind} {CHILDS} 0"])

    def test_a_start_that_is_skipped_is_not_asked_for(self) -> None:
        """Both lines come in one write; and where a read ends between them, the state says it."""
        self.begin("state SUB ON", notes=known_notes(answered=K - 1))
        self.side.hear_child(*UPS)
        before = self.asked()
        for lines in ((START, "end SUB skipped"), ("start SUB @1 1 GO",), ("end SUB skipped",)):
            self.side.hear(*lines)
            self.assertEqual(self.asked(), before)
        self.assertEqual(before, f"withdraw {K - 1} {CHILDS} T")
        self.side.hear("start SUB @1 2 GO_TO (N = 4)")
        self.assertEqual(self.asked(), f"command {K + 2} {CHILDS} T GO_TO (N = 4)")

    def test_arguments_come_with_the_start_that_is_told_again(self) -> None:
        """Of how all stands the line `open` has none of them."""
        side = self.side
        side.begin("open SUB GO_TO waits device", "started SUB 1", notes=known_notes())
        side.hear_child(UP)
        self.assertNotIn("command", self.asked())
        side.hear("start SUB @1 0 GO_TO (N = 300)")
        self.assertEqual(self.asked(), f"command {K} {CHILDS} T GO_TO (N = 300)")

    def test_late(self) -> None:
        self.begin()
        self.side.hear_child(*UPS)
        self.side.hear(START)
        given: list[str] = []
        for second in range(62):
            given += self.side.hear_child(f"up {CHILDS} 1 {3 + second} well") + self.side.wait(1)
        self.assertEqual((given, self.asked()), ([], f"withdraw {K} {CHILDS} T"))
        self.lost(self.side.hear_child(f"outcome {K} {CHILDS} accepted OFF 0"))
        self.side.hear("end SUB LOST")
        self.assertEqual(self.asked(), f"withdraw {K} {CHILDS} T")

    def test_what_was_told_before_a_withdrawal_says_nothing_of_now(self) -> None:
        """`accepted` is told again in answer to it; what was told before may be over by now, as where the child was
        away and is back."""
        self.begin()
        self.side.hear_child(*UPS)
        self.side.hear(START)
        self.side.hear_child(f"outcome {K} {CHILDS} accepted OFF 0")
        self.assertEqual(self.side.wait(11), [])
        self.assertEqual(self.asked(), f"withdraw {K} {CHILDS} T")
        self.assertEqual(self.side.hear_child(f"up {CHILDS} 1 3 well") + self.side.wait(1), [])
        self.assertEqual(self.side.hear_child(f"outcome {K} {CHILDS} ended ON 1"),
                         [f"answer SUB ON ! came {K} ended {CHILDS} 1"])

    def test_withdrawn_in_time(self) -> None:
        self.begin()
        self.side.hear_child(*UPS)
        self.side.hear(START)
        self.side.wait(61)
        self.assertEqual(self.side.hear_child(f"outcome {K} {CHILDS} refused:UnknownAction OFF 0"),
                         [f"answer SUB OFF ! came {K} withdrawn {CHILDS} 0"])

    def test_away(self) -> None:
        self.begin()
        self.side.hear_child(*UPS)
        self.side.hear(START)
        self.assertEqual(self.side.wait(11), [])
        self.assertEqual(self.asked(), f"withdraw {K} {CHILDS} T")
        self.lost(self.side.wait(3))

    def test_a_manager_that_takes_long_to_begin(self) -> None:
        """Nobody listened meanwhile: what is open is not given up for that."""
        self.side.now += 60
        self.begin("open SUB GO waits device", "started SUB 1", START)
        self.assertEqual(self.asked(), f"command {K} {CHILDS} T GO")

    def test_what_was_given_up_stays_withdrawn(self) -> None:
        """The register goes by the log: after a restart of the node, a kill of SUB, and a number that is new."""
        self.begin(notes=known_notes(answered=K + 4))
        self.assertEqual(self.asked(), f"withdraw {K + 4} {CHILDS} T")
        self.side.begin("state SUB DEAD", "started SUB 9", "ended SUB 9", notes=known_notes(answered=K + 4))
        self.assertEqual(self.asked(), f"withdraw {(LOG << 32) + 9} {CHILDS} T")
        self.side.begin("open SUB GO waits device", "started SUB 9", START, notes=known_notes(answered=K + 4))
        self.assertEqual(self.asked(), f"command {(LOG << 32) + 9} {CHILDS} T GO")
        self.side.hear("kill SUB @1")
        self.assertEqual(self.asked(), f"withdraw {(LOG << 32) + 9} {CHILDS} T")

    def test_another_boot_gives_up_and_withdraws(self) -> None:
        """K of the new number is greater than any that the lost end of the log may have had."""
        side = self.side
        self.assertEqual(Side("P").begin(), ["! links begun 1000 boot 1"])
        first, second = side.begin("open SUB GO waits device", "started SUB 1", START, notes=known_notes(),
                                   boot="another")
        self.lost([first])
        self.assertEqual(second, "! links begun 1000 another 1")
        self.assertEqual(side.told(COMMANDS), f"withdraw {(1000 << 32) + 1} {CHILDS} T")
        self.assertEqual(side.hear("end SUB LOST"), [])
        self.assertEqual(side.told(COMMANDS), f"withdraw {(1000 << 32) + 1} {CHILDS} T")
        self.assertEqual(side.hear("start SUB @1 1 GO"), [])
        self.assertEqual(side.told(COMMANDS), f"command {(1000 << 32) + 2} {CHILDS} T GO")

    def test_a_limit_that_passes_before_the_log_is_known(self) -> None:
        """Nothing is asked after it, though the log comes to be known before it is given up."""
        self.begin(notes=Notes(LOG, "boot", 1))
        self.side.hear(START)
        self.assertEqual(self.asked(), "")
        self.side.wait(11)
        self.assertEqual(self.side.hear_child(UP), [f"! links SUB knows C.T {CHILDS} 0"])
        self.assertEqual(self.asked(), f"withdraw {K} {CHILDS} T")
        self.lost(self.side.wait(3))
        self.assertEqual(self.asked(), f"withdraw {K} {CHILDS} T")

    def test_a_new_log_of_the_child(self) -> None:
        """One line gives up and knows: what is asked afterwards goes to one log alone."""
        self.begin()
        self.side.hear_child(*UPS)
        self.side.hear(START)
        given = self.side.hear_child("up 901 1 1 well")
        self.lost(given)
        self.assertIn(" knows C.T 901: ", given[0])
        self.assertEqual(self.asked(), f"withdraw {K} 901 T")
        self.assertEqual(self.side.hear_child(f"up {CHILDS} 1 7 well", f"outcome {K} {CHILDS} ended ON 1"), [])
        self.side.hear("end SUB LOST", "start SUB @1 1 GO")
        self.assertEqual(self.asked(), f"command {K + 1} 901 T GO")
        self.setUp()
        self.begin()
        self.assertEqual(self.side.hear_child("up 901 1 1 well"), ["! links SUB knows C.T 901 0"])

    def test_a_link_that_is_pointed_elsewhere(self) -> None:
        """What was open is given up, though the other's log began earlier; then the new child counts."""
        given = self.begin("open SUB GO waits device", "started SUB 1", START,
                           notes=known_notes(log=CHILDS + 50, child="OLD.T"))
        self.assertEqual(given[0], "! links resumed")
        self.lost(given[1:])
        self.assertEqual(self.asked(), "")
        self.side.hear_child(UP)
        self.assertNotIn("command", self.asked())
        self.assertEqual(self.side.hear("end SUB LOST"), ["! links SUB knows C.T 0 0",
                                                          f"! links SUB knows C.T {CHILDS} 0"])
        self.side.hear_child(f"state {CHILDS} 1 ON", f"up {CHILDS} 1 2 well")
        self.assertEqual(self.asked(), f"withdraw {K} {CHILDS} T")

    def test_a_state_that_sub_does_not_declare_is_lost(self) -> None:
        self.begin()
        self.side.hear_child(*UPS)
        self.side.hear(START)
        self.lost(self.side.hear_child(f"outcome {K} {CHILDS} ended NOWHERE 1"))

    def test_a_report_of_such_a_state_is_lost_too(self) -> None:
        self.begin()
        self.assertEqual(self.side.hear_child(*UPS, f"state {CHILDS} 2 NOWHERE"), ["request @7 SUB REPORT"])
        self.assertEqual(self.side.hear("accept @7 SUB 0 REPORT", "start SUB @7 0 REPORT"),
                         [f"answer SUB LOST ! stands {CHILDS} 2"])
        self.assertEqual(self.side.hear("end SUB LOST"), [])

    def test_an_answer_that_is_refused_is_given_again_with_a_beat(self) -> None:
        """And no sooner: each try is a line of the log."""
        self.begin()
        self.side.hear_child(*UPS)
        self.side.hear(START)
        line = f"answer SUB ON ! came {K} ended {CHILDS} 1"
        self.assertEqual(self.side.hear_child(f"outcome {K} {CHILDS} ended ON 1"), [line])
        self.assertEqual(self.side.hear("refused NotAState"), [])
        self.assertEqual(self.side.wait(1), [])
        self.assertEqual(self.side.wait(1.1) + self.side.wait(0.1), [line])
        self.side.hear("kill SUB @1", "refused NotOpen")
        self.assertEqual(self.side.wait(3) + self.side.wait(3), [])


class Reports(unittest.TestCase):
    def setUp(self) -> None:
        self.side = Side("P")

    def test_reports(self) -> None:
        side = self.side
        side.begin(notes=known_notes())
        self.assertEqual(side.hear_child(*UPS, f"state {CHILDS} 2 ON"), ["request @7 SUB REPORT"])
        self.assertEqual(side.hear_child(f"state {CHILDS} 1 OFF") + side.wait(1), [])
        self.assertEqual(side.hear("accept @7 SUB 0 REPORT", "start SUB @7 0 REPORT"),
                         [f"answer SUB ON ! stands {CHILDS} 2"])
        self.assertEqual(side.hear("end SUB ON") + side.wait(1), [])
        self.assertEqual(side.decider.notes.knows["SUB"], Known("C.T", CHILDS, 2))

    def test_a_state_counts_after_two_beats(self) -> None:
        """A retained `up` and `state` of a child that is dead are one beat."""
        side = self.side
        side.begin(notes=known_notes())
        self.assertEqual(side.hear_child(UP, f"state {CHILDS} 2 ON", UP), [])
        self.assertEqual(side.wait(5), [])
        self.assertEqual(side.hear_child(f"up {CHILDS} 1 2 well"), ["request @7 SUB REPORT"])

    def test_a_state_that_is_older_than_what_was_taken_does_not_count(self) -> None:
        side = self.side
        side.begin("state SUB ON", notes=known_notes(version=7))
        self.assertEqual(side.hear_child(*UPS, f"state {CHILDS} 6 OFF"), [])
        self.assertEqual(side.hear_child(f"state {CHILDS} 8 OFF"), ["request @7 SUB REPORT"])

    def test_an_outcome_that_is_older_than_what_was_taken_does_not_count(self) -> None:
        side = self.side
        side.begin(notes=known_notes(version=7))
        side.hear_child(*UPS)
        side.hear(START)
        self.assertEqual(side.hear_child(f"outcome {K} {CHILDS} ended ON 6"), [])

    def test_a_last_will_stops_reports_of_an_old_state(self) -> None:
        side = self.side
        side.begin(notes=known_notes())
        side.hear_child(*UPS, f"down {CHILDS} 1")
        self.assertEqual(side.hear_child(f"state {CHILDS} 3 ON"), [])
        self.assertEqual(side.hear_child(f"up {CHILDS} 2 1 well", f"down {CHILDS} 1"), ["request @7 SUB REPORT"])

    def test_silence_is_lost(self) -> None:
        side = self.side
        side.begin(notes=known_notes())
        side.hear_child(*UPS)
        self.assertEqual(side.wait(11), ["request @7 SUB REPORT"])
        self.assertEqual(side.hear("accept @7 SUB 0 REPORT", "start SUB @7 0 REPORT"), ["answer SUB LOST ! silent"])

    def test_a_report_before_anything_is_known_stays(self) -> None:
        side = self.side
        side.begin(notes=known_notes())
        self.assertEqual(side.hear("start SUB @7 0 REPORT"), ["answer SUB OFF ! stays"])

    def test_one_that_is_refused_is_asked_for_ever_more_seldom(self) -> None:
        side, pauses = self.side, [0.1, 0.2, 0.4]
        side.begin(notes=known_notes())
        given = side.hear_child(*UPS, f"state {CHILDS} 2 ON")
        for pause in pauses:
            self.assertEqual(given, ["request @7 SUB REPORT"])
            self.assertEqual(side.hear("refused Full"), [])
            self.assertEqual(side.wait(pause - 0.05), [])
            given = side.wait(0.06)
        side.hear("refused Dead")
        self.assertEqual(side.wait(9), [])

    def test_commands_that_wait_hold_a_report_up(self) -> None:
        side = self.side
        side.begin("waiting SUB 1", notes=known_notes())
        self.assertEqual(side.hear_child(*UPS, f"state {CHILDS} 2 ON"), [])


if __name__ == "__main__":
    unittest.main()
