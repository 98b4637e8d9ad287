"""Who drives what, what is late, who has what, and times: parts of `drivers.py`, `holders.py` and `times.py`."""
import os
import sys
import tempfile
import unittest

LIVE = os.path.dirname(os.path.dirname(os.path.realpath(__file__)))
sys.path.insert(0, LIVE)

from domain import Class, Domain  # noqa: E402
from drivers import Drivers, Timeouts, devices_of  # noqa: E402
from holders import Holders, Operators, read_own  # noqa: E402
from then import cut  # noqa: E402
from times import Times, is_time, read  # noqa: E402


def domain() -> Domain:
    """TOP commands A and B, A commands HV1 and HV2, B commands LV."""
    made = Domain.__new__(Domain)
    supply, unit = Class(True), Class(False)
    supply.states, supply.dead = {"OFF": {"SWITCH_ON": [], "RAMP": []}, "ON": {"SWITCH_OFF": []}}, "DEAD"
    unit.states, unit.dead = {"OFF": {"GO": []}}, "DEAD"
    made.classes = {"SUPPLY": supply, "UNIT": unit}
    made.objects = {"HV1": "SUPPLY", "HV2": "SUPPLY", "LV": "SUPPLY", "A": "UNIT", "B": "UNIT", "TOP": "UNIT"}
    made.devices, made.sets = {"HV1", "HV2", "LV"}, {}
    made.commands = {"HV1": [], "HV2": [], "LV": [], "A": ["HV1", "HV2"], "B": ["LV"], "TOP": ["A", "B"]}
    return made


class Named(unittest.TestCase):
    def test_what_words_name(self) -> None:
        devices = ["HV1", "HV2", "LV"]
        for words, wanted in ((["hv1"], ["HV1"]), (["LV", "HV*"], devices), (["*"], devices),
                              (["H*", "HV1"], devices[:2])):
            with self.subTest(words=words):
                self.assertEqual(devices_of(words, devices), wanted)

    def test_what_names_none(self) -> None:
        wrong: tuple[tuple[list[str], str], ...] = (
            (["HV"], "no device is called HV"), (["LV", "X*"], "no device begins with X"),
            (["A"], "no device is called A"), ([], "a driver names devices"), (["HV1,"], "a driver names devices"),
            (["@1"], "a driver names devices"), (["*V"], "a driver names devices"))
        for words, wanted in wrong:
            with self.subTest(words=words), self.assertRaisesRegex(ValueError, wanted):
                devices_of(words, ["HV1", "HV2", "LV"])


class WhoDrives(unittest.TestCase):
    def test_the_second_is_turned_away_and_drives_nothing(self) -> None:
        drivers, one, other = Drivers(domain()), object(), object()
        self.assertEqual(drivers.come(one, ["HV1"]), ["HV1"])
        with self.assertRaisesRegex(ValueError, "HV1 has a driver already"):
            drivers.come(other, ["LV", "HV*"])
        self.assertEqual(drivers.come(other, ["LV"]), ["LV"])
        self.assertEqual(drivers.lists(), [["HV1"], ["LV"]])
        self.assertEqual((drivers.go(one), drivers.go(one), drivers.go(object())), (["HV1"], [], []))
        self.assertEqual(drivers.come(other, ["HV1"]), ["HV1"])
        self.assertEqual(drivers.go(other), ["LV", "HV1"])


TIMEOUTS = """! seconds
SUPPLY SWITCH_ON 60   ! for all of them
hv1 switch_on 5.5 OFF
SUPPLY RAMP 10 DEAD
"""


class Late(unittest.TestCase):
    def test_an_action_is_late_once(self) -> None:
        timeouts = Timeouts(domain(), TIMEOUTS)
        self.assertEqual(timeouts.next(), float("inf"))
        for line in ("start HV1 A 0 SWITCH_ON (V = 1)", "start HV2 A 0 SWITCH_ON", "start LV B 0 SWITCH_OFF",
                     "start A TOP 0 GO", "wait A"):
            timeouts.take(line, 100.0)
        self.assertEqual(timeouts.next(), 105.5)
        self.assertEqual(timeouts.late(105.4), [])
        self.assertEqual(timeouts.late(105.5), [("HV1", "SWITCH_ON", 5.5, "OFF")])
        self.assertEqual(timeouts.late(159.0), [])
        timeouts.take("start HV2 A 0 SWITCH_ON", 150.0)  # told again, where the manager was started again
        self.assertEqual(timeouts.late(160.0), [("HV2", "SWITCH_ON", 60.0, "")])
        self.assertEqual(timeouts.next(), float("inf"))

    def test_what_has_ended_is_not_late(self) -> None:
        timeouts = Timeouts(domain(), TIMEOUTS)
        for line in ("start HV1 A 0 RAMP", "end HV1 ON", "start HV2 A 0 RAMP", "kill HV2 @1", "start LV B 0 RAMP",
                     "end LV skipped", "start HV1 A 1 RAMP"):
            timeouts.take(line, 0.0)
        self.assertEqual(timeouts.late(99.0), [("HV1", "RAMP", 10.0, "DEAD")])

    def test_what_is_open_no_more_is_not_late(self) -> None:
        """Where a manager was started again, nobody tells the end of what was answered just before."""
        timeouts = Timeouts(domain(), TIMEOUTS)
        for line in ("start HV1 A 0 RAMP", "start HV2 A 0 RAMP", "start LV B 0 RAMP"):
            timeouts.take(line, 0.0)
        timeouts.keep({"HV2": "", "LV": ""})
        timeouts.take("start HV2 A 0 RAMP", 5.0)
        self.assertEqual([name for name, *_ in timeouts.late(10.0)], ["HV2", "LV"])
        timeouts.forget("LV")
        timeouts.take("start LV B 0 RAMP", 11.0)
        self.assertEqual((timeouts.late(20.0), timeouts.next()), ([], 21.0))

    def test_an_action_without_a_limit_ends_the_time_of_the_one_before(self) -> None:
        timeouts = Timeouts(domain(), TIMEOUTS)
        timeouts.take("start LV B 0 RAMP", 0.0)
        timeouts.take("start LV B 1 SWITCH_OFF", 1.0)
        self.assertEqual(timeouts.late(99.0), [])

    def test_wrong_lines(self) -> None:
        for line, wanted in (("HV9 RAMP 1", "no object and no class is called HV9"), ("A GO 1", "A has no device"),
                             ("HV1 GO 1", "HV1 declares no action GO"), ("HV1 RAMP", "a line is OBJECT ACTION"),
                             ("HV1 RAMP 1 ON X", "a line is OBJECT ACTION"), ("HV1 RAMP 1 X", "HV1 has no state X"),
                             ("HV1 RAMP -1", "-1 is no number"), ("HV1 RAMP 0", "0 is no number"),
                             ("HV1 RAMP 1E3", "1E3 is no number"), ("HV1 RAMP inf", "INF is no number"),
                             ("HV1 RAMP 1\nHV1 RAMP 2", "^line 3: a second line for HV1 RAMP")):
            with self.subTest(line=line), self.assertRaisesRegex(ValueError, wanted):
                Timeouts(domain(), f"! first\n{line}\n")


class WhoHas(unittest.TestCase):
    def setUp(self) -> None:
        self.holders = Holders(domain())

    def test_a_part_and_what_it_commands(self) -> None:
        self.assertEqual(self.holders.do("take", "A", "anna"), ("taken A", [("A", "anna")]))
        self.assertEqual([self.holders.holder(name) for name in ("A", "HV1", "HV2", "LV", "B", "TOP")],
                         ["anna", "anna", "anna", "", "", ""])

    def test_what_another_has_cannot_be_taken(self) -> None:
        self.holders.do("take", "A", "anna")
        for name in ("A", "HV2", "TOP"):
            self.assertEqual(self.holders.do("take", name, "bob"), ("refused Held anna", []))
        self.assertEqual(self.holders.do("take", "B", "bob"), ("taken B", [("B", "bob")]))
        self.assertEqual(self.holders.do("take", "HV1", "anna"), ("taken HV1", [("HV1", "anna")]))

    def test_what_stands_against_a_line(self) -> None:
        self.holders.do("take", "A", "anna")
        for word, name, wanted in (("request", "A", "anna"), ("request", "HV1", "anna"), ("request", "TOP", "anna"),
                                   ("request", "B", ""), ("kill", "A", "anna"), ("kill", "HV2", "anna"),
                                   ("kill", "TOP", ""), ("kill", "LV", "")):
            with self.subTest(word=word, name=name):
                self.assertEqual(self.holders.stands_against(word, name, "bob"), wanted)
                self.assertEqual(self.holders.stands_against(word, name, "anna"), "")

    def test_release(self) -> None:
        self.holders.do("take", "A", "anna")
        self.assertEqual(self.holders.do("release", "A", "bob"), ("refused Held anna", []))
        self.assertEqual(self.holders.do("release", "HV1", "anna"), ("refused NotHeld", []))
        self.assertEqual(self.holders.do("release", "X", "anna"), ("refused UnknownObject", []))
        self.assertEqual(self.holders.do("release", "A", "anna"), ("released A", [("A", "")]))
        self.assertEqual(self.holders.holder("HV1"), "")

    def test_seize_takes_it_from_all_whom_it_meets(self) -> None:
        self.holders.do("take", "A", "anna")
        self.holders.do("take", "B", "bob")
        answer, changed = self.holders.do("seize", "TOP", "@3")
        self.assertEqual((answer, changed), ("taken TOP", [("A", ""), ("B", ""), ("TOP", "@3")]))
        self.assertEqual(self.holders.do("seize", "TOP", "anna"), ("taken TOP", [("TOP", "anna")]))

    def test_names_are_kept_and_sessions_are_not(self) -> None:
        with tempfile.TemporaryDirectory() as folder:
            holders = Holders(domain(), f"{folder}/holders")
            holders.do("take", "A", "anna")
            holders.do("take", "B", "@2")
            holders.keep()
            self.assertEqual(Holders(domain(), f"{folder}/holders").held, {"A": "anna"})
            self.assertEqual((holders.leave("anna"), holders.leave("@2")), ([], [("B", "")]))
            self.assertEqual(holders.held, {"A": "anna"})

    def test_a_file_that_says_nothing_of_this(self) -> None:
        with tempfile.TemporaryDirectory() as folder:
            for text in ("", "[]", '{"A": 1}', "anna"):
                with open(f"{folder}/holders", "w", encoding="ascii") as file:
                    file.write(text)
                with self.subTest(text=text), self.assertRaises(ValueError):
                    Holders(domain(), f"{folder}/holders")


class Names(unittest.TestCase):
    def test_names(self) -> None:
        operators = Operators("! who\nanna 0123456789abcdef\nbob  fedcba9876543210\n\n")
        self.assertEqual([operators.name_of(one) for one in ("0123456789abcdef", "fedcba9876543210", "", "x\xe9")],
                         ["anna", "bob", "", ""])

    def test_wrong_lines(self) -> None:
        good = "anna 0123456789abcdef\n"
        for line, wanted in (("bob short", "16 to 128"), ("bob", "NAME SECRET"), ("1b 0123456789abcdeg", "a letter"),
                             ("@1 0123456789abcdeg", "a letter"), ("Anna 0123456789abcdeg", "Anna stands twice"),
                             ("bob 0123456789abcdef", "^line 2: two names have this secret")):
            with self.subTest(line=line), self.assertRaisesRegex(ValueError, wanted):
                Operators(good + line)

    def test_others_may_not_read_secrets(self) -> None:
        with tempfile.NamedTemporaryFile("w") as file:
            for mode, may in ((0o600, True), (0o640, False), (0o604, False)):
                os.chmod(file.name, mode)
                if may:
                    self.assertEqual(read_own(file.name), "")
                else:
                    with self.assertRaisesRegex(ValueError, "chmod 600"):
                        read_own(file.name)


class WhenItCame(unittest.TestCase):
    def test_a_remark_where_the_second_or_the_client_is_another(self) -> None:
        times = Times()
        self.assertEqual([times.remark(at, who) for at, who in ((0.2, "@1"), (0.9, "@1"), (0.9, "@2 anna"), (0.9, "@1"),
                                                                (1.0, "@1"))],
                         [b"! 1970-01-01T00:00:00Z @1", None, b"! 1970-01-01T00:00:00Z @2 anna",
                          b"! 1970-01-01T00:00:00Z @1", b"! 1970-01-01T00:00:01Z @1"])

    def test_what_is_read_as_a_time(self) -> None:
        self.assertEqual(read("! 2026-11-29T03:12:07Z @3 anna"), ("2026-11-29T03:12:07Z", "@3 anna"))
        self.assertEqual(read("! 2026-11-29T03:12:07Z driver HV1_* LV"), ("2026-11-29T03:12:07Z", "driver HV1_* LV"))
        for line in ("! 2026-11-29T03:12:07Z", "! at 2026-11-29T03:12:07Z @3", "request @1 A GO"):
            self.assertIsNone(read(line))
        for given, wanted in ((b"! 2026-11-29T03:12:07Z @3", True), (b" !  2026-11-29T03:12:07Z\t@3", True),
                              (b"! remark", False), (b"request @1 A GO ! 2026-11-29T03:12:07Z @3", False)):
            self.assertEqual(is_time(given), wanted)

    def test_what_came_up_to_a_time(self) -> None:
        log = ["! smirun live 1 x capacity 16", "! 2026-11-28T23:10:00Z @1", "request @1 A GO", "start A",
               "! 2026-11-29T03:12:07Z @2 anna", "kill A @2", "! 2026-11-29T03:13:00Z @1", "request @1 A GO"]
        for wanted, count, last in (
            ("03:12", 6, "2026-11-29T03:12:07Z @2 anna"), ("03:12:06", 4, "2026-11-28T23:10:00Z @1"),
            ("23:10", 4, "2026-11-28T23:10:00Z @1"), ("2026-11-29T23:10", 8, "2026-11-29T03:13:00Z @1"),
            ("2026-11-29 03:13:00Z", 8, "2026-11-29T03:13:00Z @1"), ("03:11", 4, "2026-11-28T23:10:00Z @1"),
        ):
            with self.subTest(wanted=wanted):
                self.assertEqual(cut(log, wanted), (count, last))
        for wanted, why in (("3:12", "is no time"), ("24:00", "is no time"), ("03:60", "is no time"),
                            ("2026-11-28T23:09", "the first time in the log is 2026")):
            with self.subTest(wanted=wanted), self.assertRaisesRegex(ValueError, why):
                cut(log, wanted)
        with self.assertRaisesRegex(ValueError, "the log has no times"):
            cut(log[2:4], "03:12")


if __name__ == "__main__":
    unittest.main()
