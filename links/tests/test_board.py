"""What a panel shows of a hierarchy, from topics alone."""
import unittest

from links.board import Board, asked_of, known_of, value_of
from links.tests.sides import CHILDS, LOG, hierarchy_of


class Boards(unittest.TestCase):
    def setUp(self) -> None:
        self.board = Board(hierarchy_of())

    def hear(self, now: float, *messages: str) -> None:
        for message in messages:
            topic, _, line = message.partition(": ")
            self.board.hear(f"smirun/{topic}", line.encode("ascii"), now)
        self.board.refresh(now, everybody=True)

    def up(self, now: float, beat: int) -> None:
        self.hear(now, f"P/alive: up {LOG} 1 {beat} well", f"C/alive: up {CHILDS} 1 {beat} full")

    def test_what_is_not_known_has_a_colour_of_its_own(self) -> None:
        self.hear(0.0)
        self.assertEqual(self.board.pictures["C"]["objects"]["T"], ["not known", "unknown"])
        self.assertFalse(self.board.pictures["C"]["heard"])
        self.up(0.0, 1)
        self.assertFalse(self.board.pictures["C"]["there"])
        self.hear(1.0, f"C/state/T: state {CHILDS} 3 ON", f"P/state/SUB: state {LOG} 4 LOST")
        self.up(2.0, 2)
        self.assertTrue(self.board.pictures["C"]["there"] and self.board.pictures["C"]["full"])
        self.assertEqual(self.board.pictures["C"]["objects"]["T"], ["ON", "other"])
        self.assertEqual(self.board.pictures["P"]["objects"]["SUB"], ["LOST", "lost"])
        self.assertEqual(self.board.pictures["P"]["subs"]["SUB"], ["C.T", "ON", "", 0])
        self.assertEqual(self.board.pictures["C"]["at"], 0)
        self.hear(20.0)
        self.assertFalse(self.board.pictures["C"]["there"])
        self.assertEqual(self.board.pictures["C"]["at"], 2.0)

    def test_a_command_that_is_under_way(self) -> None:
        self.up(0.0, 1)
        self.hear(1.0, f"C/command/P_SUB: command 7 {CHILDS} T GO_TO (N = 4)")
        self.assertEqual(self.board.pictures["P"]["subs"]["SUB"], ["C.T", "not known", "GO_TO (N = 4)", 1.0])
        self.hear(3.0, f"C/outcome/P_SUB: outcome 7 {CHILDS} accepted OFF 0")
        self.assertEqual(self.board.pictures["P"]["subs"]["SUB"][2:], ["GO_TO (N = 4)", 1.0])
        self.hear(4.0, f"C/outcome/P_SUB: outcome 7 {CHILDS} ended ON 1")
        self.assertEqual(self.board.pictures["P"]["subs"]["SUB"][2:], ["", 0])
        self.hear(5.0, f"C/command/P_SUB: withdraw 8 {CHILDS} T")
        self.assertEqual(self.board.pictures["P"]["subs"]["SUB"][2:], ["", 0])

    def test_what_changed_alone_is_told(self) -> None:
        self.up(0.0, 1)
        self.up(2.0, 2)
        serial, pictures = self.board.changed_since(0)
        self.assertEqual(set(pictures), {"P", "C"})
        self.hear(3.0, f"C/state/HV: state {CHILDS} 3 ON")
        self.assertEqual(set(self.board.changed_since(serial)[1]), {"C"})

    def test_the_tree(self) -> None:
        hierarchy = hierarchy_of()
        known = known_of(hierarchy, "ANNA")
        self.assertEqual(known["rows"][1], {"name": "C", "depth": 1, "by": "P.SUB", "tops": ["T"], "subs": [],
                                            "others": [], "devices": ["HV"]})
        self.assertEqual(known["may"]["C"]["T"]["ON"], [["GO_TO", [["int", "N", "3"]]]])

    def test_a_command_that_follows_another_begins_anew(self) -> None:
        self.up(0.0, 1)
        self.hear(1.0, f"C/command/P_SUB: command 7 {CHILDS} T GO")
        self.hear(5.0, f"C/command/P_SUB: command 8 {CHILDS} T GO")
        self.assertEqual(self.board.pictures["P"]["subs"]["SUB"][2:], ["GO", 5.0])

    def test_what_a_page_may_ask(self) -> None:
        hierarchy = hierarchy_of()
        asked: dict[str, object] = {"node": "C", "object": "T", "action": "GO_TO", "arguments": {"N": "-4", "X": "5"}}
        node, asking = asked_of(hierarchy, "ANNA", asked, 7)
        self.assertEqual((node, asking.k, asking.target, asking.action, asking.arguments),
                         ("C", 7, "T", "GO_TO", "(N = -4)"))
        changes: tuple[dict[str, object], ...] = (
            {"object": "HV"}, {"node": "D"}, {"action": "WITHDRAWN"}, {"arguments": {"N": "4)"}},
            {"arguments": {"N": 4}},
            {"arguments": {"N": "9223372036854775808"}})
        for change in changes:
            with self.assertRaises(ValueError):
                asked_of(hierarchy, "ANNA", asked | change, 7)
        self.assertEqual(value_of("string", "a (b) !"), '"a (b) !"')
        for text in ('a"b', "a\nb", "x" * 256, "\u00e9"):
            with self.assertRaises(ValueError):
                value_of("string", text)


if __name__ == "__main__":
    unittest.main()
