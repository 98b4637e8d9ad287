"""Which logs that were damaged a manager refuses, for `tools/crash-live --damaged`."""
import argparse
import collections
import importlib.machinery
import importlib.util
import os
import random
import sys
import tempfile
import types
import unittest

TOOLS = os.path.dirname(os.path.dirname(os.path.realpath(__file__)))
sys.path.insert(0, TOOLS)
LOADER = importlib.machinery.SourceFileLoader("crash_live", f"{TOOLS}/crash-live")
SPEC = importlib.util.spec_from_loader("crash_live", LOADER)
assert SPEC is not None
tool = importlib.util.module_from_spec(SPEC)
sys.modules["crash_live"] = tool
LOADER.exec_module(tool)
FIRST = b"! smirun live 1 f429841714cea64edc32604434bd9d296b8bd51e capacity 16\n"
# A text, and the place of its first line that no manager takes.
BROKEN = (
    # Without a line: the front of the first one, or not.
    (b"", None), (b"!", None), (FIRST[:20], None), (FIRST[:-1], None),
    (b"\0" * 300, 0), (b"! smirun live " + b"\0" * 40, 0), (FIRST[:-1] + b"\0", 0), (FIRST[:-1] + b"\0kill RUN @1", 0),
    # What stands after the last line feed is no line.
    (FIRST, None), (FIRST + b"\0" * 5000, None), (FIRST + b"kill RUN @1\nansw\0\0", None),
    (FIRST + b"kill RU\0\0\n", 1), (FIRST + b"kill RUN @1\n\0\0\0\0\nanswer HV1 ON\n", 2), (b"\0\0\nkill RUN @1\n", 0),
    # A carriage return ends no line.
    (FIRST + b"! a\rb\n\r\0\n", 2), (FIRST + b"\r\0\n", 1),
)
# A manager that refuses its log by its first line.
STAND_IN = """#!/bin/sh
while [ "$1" != --log ]; do shift; done
echo "$2 is of another domain" >&2
exit 1
"""


class Damaged(unittest.TestCase):
    def test_the_first_line_that_no_manager_takes(self) -> None:
        for text, wanted in BROKEN:
            with self.subTest(text=text[len(FIRST):][:40] or text[:40], length=len(text)):
                self.assertEqual(tool.broken_line(text, FIRST), wanted)

    def test_a_log_without_a_whole_line_that_is_refused_is_begun_anew(self) -> None:
        """Nothing was told of it."""
        asked = argparse.Namespace(sync=False, damaged=True, unread=False, full=False)
        domain = types.SimpleNamespace(path="domain.sml", limits=[], first_line=FIRST, devices=set())
        counts: collections.Counter[str] = collections.Counter()
        with tempfile.TemporaryDirectory() as folder:
            with open(f"{folder}/smirun", "w", encoding="ascii") as file:
                file.write(STAND_IN)
            os.chmod(f"{folder}/smirun", 0o755)
            dice = types.SimpleNamespace(random=random.Random(1))
            campaign = tool.Campaign(f"{folder}/smirun", dice, domain, folder, asked)
            with open(campaign.log, "wb") as log:
                log.write(FIRST[:14] + b"\0" * 30)
            campaign.look_at(FIRST[:14] + b"\0" * 30, counts)
            self.assertEqual((counts["refused"], campaign.kept, os.path.getsize(campaign.log)), (1, b"", 0))


if __name__ == "__main__":
    unittest.main()
