"""What an operator asks for and hears, over values."""
import unittest

from links.asking import Asking, asking_of
from links.domain import Refused
from links.messages import Alive, Outcome
from links.seen import Seen, tree_of
from links.tests.sides import hierarchy_of


class Asks(unittest.TestCase):
    def setUp(self) -> None:
        self.asking = Asking(7, "T", "GO", "(N = 1)")

    def line(self) -> str:
        command = self.asking.command()
        return command.line() if command else ""

    def test_it_is_asked_of_one_log(self) -> None:
        self.assertEqual(self.line(), "")
        self.assertIsNone(self.asking.hear(Alive(True, 5, 1, 1), None))
        self.assertEqual(self.line(), "command 7 5 T GO (N = 1)")
        for other in (Outcome(6, 5, "ended", "ON", 1), Outcome(7, 4, "ended", "ON", 1)):
            self.assertIsNone(self.asking.hear(None, other))
        self.assertEqual(self.asking.hear(None, Outcome(7, 5, "accepted", "OFF", 0)), "accepted OFF")
        self.assertIsNone(self.asking.hear(None, Outcome(7, 5, "accepted", "OFF", 0)))
        self.assertFalse(self.asking.is_over())
        self.assertEqual(self.asking.hear(None, Outcome(7, 5, "ended", "ON", 1)), "ended ON")
        self.assertTrue(self.asking.is_over())

    def test_who_gives_up_withdraws(self) -> None:
        self.asking.hear(Alive(True, 5, 1, 1), None)
        self.asking.is_withdrawn = True
        self.assertEqual(self.line(), "withdraw 7 5 T")
        self.assertEqual(self.asking.hear(None, Outcome(7, 5, "refused:UnknownAction", "OFF", 0)), "withdrawn OFF")

    def test_a_log_that_is_begun_anew(self) -> None:
        """It is not asked of the new one too: it might be done twice."""
        self.asking.hear(Alive(True, 5, 1, 1), None)
        self.assertEqual(self.asking.hear(Alive(True, 6, 1, 1), None), "not known: its log was begun anew")
        self.assertTrue(self.asking.is_over())

    def test_what_may_not_be_asked(self) -> None:
        hierarchy = hierarchy_of()
        asking = asking_of(hierarchy, "ANNA", "C", ("t", "go_to", "(N = 1)"), 7)
        self.assertEqual((asking.target, asking.action, asking.arguments), ("T", "GO_TO", "(N = 1)"))
        for name, at, words, sentence in (
                ("BERT", "C", ("T", "GO", ""), "there is no operator BERT"),
                ("ANNA", "D", ("T", "GO", ""), "ANNA may not command D.T"),
                ("ANNA", "C", ("HV", "WORK", ""), "ANNA may not command C.HV"),
                ("ANNA", "C", ("T", "GO", "(N = )"), "is no action with arguments"),
                ("ANNA", "C", ("T", "GO\nkill T @1", ""), "is no action with arguments"),
                ("ANNA", "C", ("T", "W\u00d6RK", ""), "is no action with arguments"),
                ("ANNA", "C", ("T", "WITHDRAWN", ""), "is no action with arguments")):
            with self.assertRaises(Refused) as refused:
                asking_of(hierarchy, name, at, words, 7)
            self.assertIn(sentence, str(refused.exception))


class Sees(unittest.TestCase):
    def test_a_retained_beat_is_no_life(self) -> None:
        seen = Seen()
        seen.hear("x/P/alive", b"up 5 1 7 well", 0.0)
        seen.hear("x/P/state/T", b"state 5 3 ON", 0.0)
        self.assertFalse(seen.is_there("P", 0.1))
        seen.hear("x/P/alive", b"up 5 1 8 full", 2.0)
        self.assertTrue(seen.is_there("P", 2.1))
        self.assertFalse(seen.is_there("P", 9.0))
        self.assertEqual(seen.state_of("P", "T"), "ON")
        seen.hear("x/P/state/T", b"state 5 2 OFF", 2.0)
        self.assertEqual(seen.state_of("P", "T"), "ON")
        seen.hear("x/P/alive", b"up 6 1 1 well", 3.0)
        self.assertEqual(seen.state_of("P", "T"), "not known")
        seen.hear("x/P/alive", b"down 6 1", 4.0)
        self.assertFalse(seen.is_there("P", 4.1))

    def test_the_tree(self) -> None:
        seen = Seen()
        for now, topic, line in ((0.0, "C/alive", b"up 5 1 7 well"), (0.0, "C/state/T", b"state 5 3 ON"),
                                 (1.0, "C/alive", b"up 5 1 8 full"), (1.0, "P/alive", b"up 5 1 8 well")):
            seen.hear(f"smirun/{topic}", line, now)
        self.assertEqual(tree_of(hierarchy_of(), seen, 1.0), [
            "P: away; what was told last: nothing", "  C (for SUB): there; T ON, nine tenths full"])


if __name__ == "__main__":
    unittest.main()
