"""What a panel knows, by what the gateway tells: `view.py`, `recent.py`, `metrics.py`."""
import os
import sys
import types
import unittest
from typing import Any

LIVE = os.path.dirname(os.path.dirname(os.path.realpath(__file__)))
sys.path.insert(0, LIVE)

from domain import Class  # noqa: E402
from metrics import lines_of  # noqa: E402
from view import View, tree_of  # noqa: E402

# How all stands at first, and the end of it.
FIRST = ("- state HV1 OFF", "- state HV OFF", "- state TOP OFF", "# told")


def domain() -> Any:
    """TOP commands HV, which commands HV1."""
    supply, unit = Class(True), Class(False)
    supply.states, supply.initial, supply.dead = {"OFF": {"SWITCH_ON": []}, "ON": {}, "DEAD": {}}, "OFF", "DEAD"
    unit.states, unit.initial, unit.dead = {"OFF": {"GO": []}, "ON": {}, "DEAD": {}}, "OFF", "DEAD"
    objects = {"HV1": "SUPPLY", "HV": "UNIT", "TOP": "UNIT"}
    made = types.SimpleNamespace(classes={"SUPPLY": supply, "UNIT": unit}, sets={}, devices={"HV1"}, objects=objects,
                                 commands={"HV1": [], "HV": ["HV1"], "TOP": ["HV"]})
    made.class_of = lambda name: made.classes[objects[name]]
    return made


class Viewed(unittest.TestCase):
    def setUp(self) -> None:
        self.view = View(domain())
        self.view.begin("# session @2")
        self.hear(100.0, *FIRST)

    def hear(self, now: float, *lines: str) -> None:
        for line in lines:
            self.view.hear(line[:1], line[2:], now)

    def rows(self, now: float = 101.0) -> list[tuple[str, str, float | None]]:
        return [(one.kind, one.sentence, one.since) for one in self.view.wrongs(now)]


class Views(Viewed):
    def test_nothing_is_wrong_at_first(self) -> None:
        self.assertEqual((self.rows(), self.view.who), ([], "@2"))

    def test_complaints_last_until_another_manager_is_there(self) -> None:
        """How full its log is the gateway tells at each tenth, and not anew."""
        self.hear(200.0, "# log 70 %", "# log 80 %", "# d.sml nine tenths of the starts", "# d.sml limit",
                  "# d.sml full", "# d.sml nine tenths full", "# remarks are not kept")
        self.hear(201.0, "# log 90 %", "# the manager is away; it is started again in 1 s")
        self.assertEqual(self.rows(), [
            ("manager", "the manager is away", 201.0), ("manager", "log 90 % of what it may have", 201.0),
            ("manager", "d.sml full", 200.0), ("manager", "d.sml limit", 200.0),
            ("manager", "d.sml nine tenths of the starts", 200.0)])
        self.hear(210.0, "# the manager is started again", "- ! restarted")
        self.assertEqual(self.rows(220.0), [("manager", "log 90 % of what it may have", 201.0),
                                            ("restarted", "the manager was started again", 210.0)])
        self.assertEqual(len(self.rows(811.0)), 1)

    def test_a_log_that_was_begun_anew(self) -> None:
        """Its numbers are of other requests, and it has room."""
        self.hear(200.0, "# log 90 %", "# d.sml limit")
        self.view.recent.add("once 7 request TOP GO")
        self.hear(201.0, "- accept @2 TOP 0 GO")
        self.view.recent.answer("once 7 request TOP GO", "once S2 7 accept @2 TOP 0 GO", "accepted")
        self.hear(202.0, "- start TOP @2 0 GO", "- end TOP ON", "- ! begun anew", *FIRST[:3], "- stands 0")
        self.hear(203.0, "- accept @1 TOP 0 GO", "- start TOP @1 0 GO", "- end TOP ON", "- accept @2 TOP 0 GO",
                  "- start TOP @2 0 GO")
        self.assertEqual(self.rows(203.0), [("restarted", "the manager goes on in a new log", 202.0)])
        self.assertEqual([row.said for row in self.view.recent.rows], ["ended: ON"])

    def test_a_cut_and_what_is_not_known(self) -> None:
        self.view.recent.add("kill HV1")
        self.view.lose("kill HV1")
        self.view.cut()
        kinds = [(one.kind, one.sentence, one.objects) for one in self.view.wrongs(self.view.cut_since or 0.0)]
        self.assertEqual(kinds, [("manager", "no connection to the gateway", []),
                                 ("unknown", "it is not known what became of kill HV1", ["HV1"])])
        self.assertEqual(self.view.recent.rows[0].said, "not known")

    def test_who_waits_and_what_is_late(self) -> None:
        """How all stands anew, where the manager was started again, keeps what is late."""
        start = "- start HV1 HV 0 SWITCH_ON"
        self.hear(200.0, "- start HV TOP 0 GO", start, "- wait HV", "# HV1 SWITCH_ON: 5 s without an answer")
        self.view.take_waits(["state HV1 OFF", "open HV GO waits HV1", "open HV1 SWITCH_ON waits device", "stands 3"])
        wanted = ("silent", "no answer to SWITCH_ON: HV1, without a driver; HV waits for it", 200.0)
        self.assertEqual(self.rows(206.0), [wanted])
        self.hear(207.0, "- ! restarted", *FIRST[:3], "- open HV1 SWITCH_ON waits device", "- open HV GO waits HV1",
                  "- stands 3", start)
        self.assertEqual(self.rows(208.0)[0], wanted)
        self.hear(209.0, "- end HV1 ON", "- start HV1 HV 1 SWITCH_ON")
        self.assertEqual(self.rows(210.0)[1:], [])

    def test_holders(self) -> None:
        self.hear(200.0, "# TOP is held by anna")
        self.assertEqual(self.view.picture_of("TOP")["holder"], "anna")
        self.hear(201.0, "# TOP is held by nobody")
        self.assertEqual(self.view.picture_of("TOP")["holder"], "")

    def test_metrics(self) -> None:
        self.hear(200.0, "- start HV1 @1 0 SWITCH_ON", "# driver of HV1 here", "# driver of HV1 lost")
        lines = [*lines_of(self.view, 240.0)]
        for line in ('mukdeth_state{object="HV1",state="OFF"} 1', "mukdeth_connected 1",
                     "mukdeth_devices_without_driver 1",
                     'mukdeth_open_seconds{object="HV1",action="SWITCH_ON"} 40.0', 'mukdeth_wrong{kind="silent"} 1',
                     'mukdeth_wrong{kind="driver"} 1', 'mukdeth_wrong{kind="dead"} 0'):
            self.assertIn(line, lines)


class Requests(Viewed):
    def ask(self, name: str, action: str, number: int) -> str:
        """What the panel asks for, and has accepted: what is said of it then."""
        line = f"once {number} request {name} {action}"
        self.view.recent.add(line)
        self.hear(200.0, f"- accept @2 {name} {number} {action}")
        self.view.recent.answer(line, f"once S2 {number} accept @2 {name} {number} {action}", "accepted")
        return self.said()

    def said(self) -> str:
        return self.view.recent.rows[-1].said

    def test_what_became_of_a_request(self) -> None:
        for number, line, wanted in ((0, "- end TOP ON", "ended: ON"), (1, "- kill TOP @1", "cut by a kill"),
                                     (2, "- end TOP skipped", "skipped: TOP is DEAD, which has no action")):
            self.assertEqual(self.ask("TOP", "GO", number), "accepted")
            self.hear(200.0, f"- start TOP @2 {number} GO")
            self.assertEqual(self.said(), "at work")
            self.hear(200.0, line)
            self.assertEqual(self.said(), wanted)

    def test_what_ends_before_its_answer_comes(self) -> None:
        line = "once 5 request TOP GO"
        self.view.recent.add(line)
        self.hear(200.0, "- accept @2 TOP 5 GO", "- start TOP @2 5 GO", "- end TOP ON")
        self.view.recent.answer(line, "once S2 5 accept @2 TOP 5 GO", "accepted")
        self.assertEqual((self.said(), self.view.recent.requests), ("ended: ON", {}))

    def test_what_ended_while_nobody_told_it_is_not_known(self) -> None:
        """An end of another request is not told as that of this one."""
        self.ask("TOP", "GO", 5)
        self.hear(200.0, "- start TOP @2 5 GO")
        self.view.begin("# session @2")
        self.hear(201.0, "- state HV1 OFF", "- state HV OFF", "- state TOP ON", "# told")
        self.assertEqual(self.said(), "not known")
        self.hear(202.0, "- start TOP @1 6 GO", "- end TOP OFF")
        self.assertEqual(self.said(), "not known")

    def test_what_is_still_at_work_is_followed_on(self) -> None:
        self.ask("TOP", "GO", 5)
        self.hear(200.0, "- start TOP @2 5 GO")
        self.view.begin("# session @2")
        self.hear(201.0, *FIRST[:3], "- open TOP GO", "# told")
        self.assertEqual(self.said(), "at work")
        self.hear(202.0, "- end TOP ON")
        self.assertEqual(self.said(), "ended: ON")


class Trees(unittest.TestCase):
    def test_each_stands_below_the_first_that_commands_it(self) -> None:
        made = domain()
        made.objects["OTHER"] = "UNIT"
        made.commands["OTHER"] = ["HV1", "OTHER"]
        self.assertEqual([(name, depth, others) for name, _, _, depth, others in tree_of(made)],
                         [("TOP", 0, []), ("HV", 1, []), ("HV1", 2, ["OTHER"]), ("OTHER", 0, ["OTHER"])])


if __name__ == "__main__":
    unittest.main()
