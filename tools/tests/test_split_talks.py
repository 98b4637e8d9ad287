"""What one log and a chain of logs may tell otherwise: `tools/split-talks`."""
import collections
import importlib.machinery
import importlib.util
import os
import sys
import unittest

TOOLS = os.path.dirname(os.path.dirname(os.path.realpath(__file__)))
sys.path.insert(0, TOOLS)
LOADER = importlib.machinery.SourceFileLoader("split_talks", f"{TOOLS}/split-talks")
SPEC = importlib.util.spec_from_loader("split_talks", LOADER)
assert SPEC is not None
tool = importlib.util.module_from_spec(SPEC)
sys.modules["split_talks"] = tool
LOADER.exec_module(tool)


class SplitTalks(unittest.TestCase):
    def compared(self, one: bytes, other: bytes) -> int:
        """How many lines were compared of two texts that are to be the same, after O was killed."""
        chain = object.__new__(tool.Chain)
        chain.killed = {b"O"}
        counts: "collections.Counter[str]" = collections.Counter()
        chain.compare(one, other, "told", counts)
        return counts["lines"]

    def test_numbers_of_requests_are_free(self) -> None:
        one = b"accept @1 O 7 GO\nstart O @1 7 GO\npost A O 3 GO (N = 1)\nonce A 1 accept @1 O 7 GO\nstands 9\n"
        other = b"accept @1 O 0 GO\nstart O @1 0 GO\npost A O 1 GO (N = 1)\nonce A 1 accept @1 O 0 GO\nstands 1\n"
        self.assertEqual(self.compared(one, other), 4)
        self.assertEqual(self.compared(b"once A 1 O S 4 waits @1 5\n", b"once A 1 O S 4 waits @1 0\n"), 1)

    def test_other_words_are_not(self) -> None:
        for one, other in [
            (b"accept @1 O 7 GO\n", b"accept @2 O 7 GO\n"),
            (b"post A O 1 GO\n", b"post A O refused full GO\n"),
            (b"started O 7\n", b"started O 1\n"),
            (b"once A 1 O S 4 ended\n", b"once A 1 O S 3 ended\n"),
            (b"end O S\n", b""),
            (b"waiting A 1\n", b"waiting A 2\n"),
        ]:
            with self.assertRaises(tool.Differs):
                self.compared(one, other)

    def test_what_waits_at_the_dead_is_free(self) -> None:
        self.assertEqual(self.compared(b"state O DEAD\nwaiting O 2\n", b"state O DEAD\n"), 1)

    def test_repeats(self) -> None:
        accepted = b"once A 1 accept @1 O # GO"
        for one, other in [
            (accepted, b"once A 1 past ended"),
            (accepted, b"once A 1 past killed"),
            (b"once A 1 refused Dead", b"once A 1 past refused Dead"),
        ]:
            self.assertTrue(tool.is_told_past(one, other), other)
        for one, other in [
            (accepted, b"once A 2 past ended"),
            (accepted, b"once A 1 refused Old"),
            (accepted, b"once A 1 past waits"),
            (b"once A 1 refused Dead", b"once A 1 past refused Full"),
            (b"once A 1 refused Dead", b"once A 1 past ended"),
            (b"once A 1 O S 1 ended", b"once A 1 past ended"),
        ]:
            self.assertFalse(tool.is_told_past(one, other), other)


if __name__ == "__main__":
    unittest.main()
