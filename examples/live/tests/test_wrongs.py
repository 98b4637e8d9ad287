"""What is wrong, and since when: `wrongs.py`."""
import os
import sys
import types
import unittest
from typing import Any

LIVE = os.path.dirname(os.path.dirname(os.path.realpath(__file__)))
sys.path.insert(0, LIVE)

from domain import Class, Standing  # noqa: E402
from wrongs import Drivers, Facts, Since, chain_above, circle, named, waiters_of, wrongs  # noqa: E402


def domain() -> Any:
    supply, unit = Class(True), Class(False)
    supply.states, supply.initial, supply.dead = {"OFF": {}, "ON": {}, "TRIPPED": {}}, "OFF", "DEAD"
    unit.states, unit.initial, unit.dead = {"OFF": {}, "ERROR": {}}, "OFF", "DEAD"
    return types.SimpleNamespace(classes={"SUPPLY": supply, "UNIT": unit}, sets={}, devices={"HV1", "HV2"},
                                 objects={"HV1": "SUPPLY", "HV2": "SUPPLY", "HV": "UNIT", "TOP": "UNIT"})


class Wrongs(unittest.TestCase):
    def setUp(self) -> None:
        self.domain, self.since, self.drivers = domain(), Since(), Drivers()
        self.standing = Standing(self.domain)
        self.facts = Facts(self.domain, self.standing, self.since, self.drivers, [*self.domain.objects])
        self.since.take(self.standing, 100.0)

    def take(self, now: float, *lines: str) -> None:
        for line in lines:
            self.standing.take(line)
        self.since.take(self.standing, now, None if len(lines) > 1 else [lines[0].split(" ")[1]])

    def found(self, now: float) -> list[tuple[str, str, list[str], float | None]]:
        return [(one.kind, one.sentence, one.objects, one.since) for one in
                wrongs(self.facts, now)]

    def test_nothing(self) -> None:
        self.take(101.0, "accept @1 HV1 0 SWITCH_ON", "start HV1 @1 0 SWITCH_ON")
        self.assertEqual(self.found(130.9), [])

    def test_a_silent_device_and_who_waits_for_it(self) -> None:
        self.take(101.0, "accept @1 TOP 0 GO", "start TOP @1 0 GO", "post TOP HV 0 GO", "start HV TOP 0 GO",
                  "post HV HV1 0 SWITCH_ON", "start HV1 HV 0 SWITCH_ON", "wait HV", "wait TOP")
        self.facts.waits = {"HV": ["HV1"], "TOP": ["HV"]}
        self.assertEqual(self.found(131.0), [
            ("silent", "no answer to SWITCH_ON: HV1; HV ← TOP wait for it", ["HV1", "HV", "TOP"], 101.0)])
        self.take(140.0, "start HV1 HV 0 SWITCH_ON")  # told again
        self.assertEqual(self.found(141.0)[0][3], 101.0)
        self.take(142.0, "end HV1 ON", "accept @1 HV1 0 SWITCH_OFF", "start HV1 @1 0 SWITCH_OFF")
        self.assertEqual(self.found(150.0), [])

    def test_a_manager_that_was_started_again_begins_no_new_time(self) -> None:
        self.take(101.0, "accept @1 HV1 0 SWITCH_ON", "start HV1 @1 0 SWITCH_ON")
        self.take(120.0, "state HV1 OFF", "state HV2 OFF", "state HV OFF", "state TOP OFF",
                  "open HV1 SWITCH_ON waits device", "stands 2")
        self.take(120.1, "start HV1 @1 0 SWITCH_ON")
        self.drivers.take("told", 100.0)
        wanted = ("silent", "no answer to SWITCH_ON: HV1, without a driver", ["HV1"], 101.0)
        self.assertEqual(self.found(140.0), [wanted])
        self.take(141.0, "end HV1 OFF", "accept @1 HV1 1 SWITCH_ON", "start HV1 @1 1 SWITCH_ON")
        self.assertEqual(self.found(142.0), [])

    def test_what_the_gateway_called_late_is_silent_before_its_time(self) -> None:
        self.take(101.0, "accept @1 HV1 0 SWITCH_ON", "start HV1 @1 0 SWITCH_ON")
        self.facts.late = {"HV1": 102.0}
        self.assertEqual([one[1] for one in self.found(103.0)], ["no answer to SWITCH_ON: HV1"])

    def test_drivers(self) -> None:
        self.drivers.take("driver of HV1 here", 101.0)
        self.assertEqual(self.found(102.0), [("driver", "no driver: HV2", ["HV2"], None)])
        self.drivers.take("driver of HV2 here", 103.0)
        self.assertEqual(self.found(104.0), [])
        self.drivers.take("driver of HV1 lost", 105.0)
        self.assertEqual(self.found(106.0), [("driver", "no driver: HV1", ["HV1"], 105.0)])
        self.drivers.take("driver of HV2 lost", 107.0)
        self.assertEqual(self.found(108.0), [("driver", "no driver: HV1, HV2", ["HV1", "HV2"], 105.0)])

    def test_a_driver_that_does_not_come_back_to_a_gateway_is_lost(self) -> None:
        for sentence in ("driver of HV1 here", "driver of HV2 here", "driver of HV2 lost"):
            self.drivers.take(sentence, 101.0)
        self.drivers.begin(102.0)
        self.drivers.take("told", 102.0)
        self.assertEqual(self.found(103.0), [("driver", "no driver: HV1, HV2", ["HV1", "HV2"], 101.0)])
        self.drivers.take("driver of HV2 here", 104.0)
        self.assertEqual(self.found(105.0), [("driver", "no driver: HV1", ["HV1"], 102.0)])

    def test_dead_and_in_error(self) -> None:
        self.take(101.0, "kill HV1 fault")
        self.take(102.0, "accept @1 HV2 0 X", "start HV2 @1 0 X", "end HV2 TRIPPED")
        self.take(103.0, "accept @1 TOP 0 X", "start TOP @1 0 X", "end TOP ERROR")
        self.assertEqual(self.found(104.0), [("dead", "dead: HV1", ["HV1"], 101.0),
                                             ("bad", "in error: HV2, TOP", ["HV2", "TOP"], 103.0)])

    def test_what_was_so_at_first_has_no_time(self) -> None:
        since = Since()
        self.standing.take("kill HV1 fault")
        since.take(self.standing, 200.0)
        self.facts.since = since
        self.assertEqual(self.found(300.0), [("dead", "dead: HV1", ["HV1"], None)])


class Chains(unittest.TestCase):
    def test_who_waits(self) -> None:
        waits = {"A": ["X", "Y"], "B": ["A"], "C": ["A", "B"], "D": ["Z"]}
        self.assertEqual([chain_above(name, waiters_of(waits)) for name in ("X", "A", "C", "Z")],
                         [["A", "B", "C"], ["B", "C"], [], ["D"]])

    def test_a_long_chain(self) -> None:
        """A ring of ten thousand is walked over once, and by no call of a function for each."""
        waits = {str(n): [str((n + 1) % 10000)] for n in range(10000)}
        self.assertEqual(len(circle(waits)), 10000)
        self.assertEqual(len(chain_above("7", waiters_of(waits))), 9999)

    def test_circles(self) -> None:
        tries: tuple[tuple[dict[str, list[str]], list[str]], ...] = (
            ({}, []), ({"A": ["B"], "B": ["X"]}, []), ({"A": ["B"], "B": ["A"]}, ["A", "B"]),
            ({"T": ["A"], "A": ["B"], "B": ["C"], "C": ["A"]}, ["A", "B", "C"]),
            ({"A": ["C", "B"], "C": ["D"], "D": ["X"], "B": ["X", "A"]}, ["A", "B"]))
        for waits, wanted in tries:
            with self.subTest(waits=waits):
                self.assertEqual(circle(waits), wanted)

    def test_names(self) -> None:
        self.assertEqual([named("ABC"), named("ABCDEFGH")], ["A, B, C", "A, B, C, D, E, F and 2 more"])


if __name__ == "__main__":
    unittest.main()
