"""Talks that two programs answer alike, and talks that they do not: `tools/same-talks`, with programs that stand in."""
import importlib.machinery
import importlib.util
import os
import random
import subprocess
import sys
import tempfile
import unittest

TOOLS = os.path.dirname(os.path.dirname(os.path.realpath(__file__)))
sys.path.insert(0, TOOLS)
LOADER = importlib.machinery.SourceFileLoader("same_talks", f"{TOOLS}/same-talks")
SPEC = importlib.util.spec_from_loader("same_talks", LOADER)
assert SPEC is not None
tool = importlib.util.module_from_spec(SPEC)
sys.modules["same_talks"] = tool
LOADER.exec_module(tool)
# A program that writes its lines into the log, and each of them, or what a change makes of it, to its output.
STAND_IN = """#!{python} -IS
import sys
words = sys.argv[1:]
assert words[:5] == ["live", "domain.sml", "--log", "log", "--in-turn"], words
open("domain.sml").read()
with open("log", "ab" if "--resume" in words else "xb") as log:
    for line in sys.stdin.buffer:
        log.write(line)
        sys.stdout.buffer.write({change})
"""


class SameTalks(unittest.TestCase):
    def compared(self, change: str) -> tuple[int, list[str]]:
        """The status and the lines of the tool, where the second program writes what a change makes of a line."""
        with tempfile.TemporaryDirectory() as folder:
            for name, made in (("before", "line"), ("after", change)):
                with open(f"{folder}/{name}", "w", encoding="ascii") as file:
                    file.write(STAND_IN.format(python=sys.executable, change=made))
                os.chmod(f"{folder}/{name}", 0o755)
            # A copy of the tool, so that its last line is not that of a run of the program.
            for name in ("same-talks", "long-run", "last.py"):
                with open(f"{TOOLS}/{name}", encoding="utf-8") as source:
                    with open(f"{folder}/{name}", "w", encoding="utf-8") as file:
                        file.write(source.read())
            ran = subprocess.run([sys.executable, f"{folder}/same-talks", f"{folder}/before", f"{folder}/after",
                                  "--talks", "2", "--seed", "3"], capture_output=True, text=True)
            return ran.returncode, ran.stdout.splitlines()

    def test_programs_that_write_the_same(self) -> None:
        self.assertEqual(self.compared("line"), (0, ["2 the same, 0 not, seed 3"]))

    def test_a_program_that_writes_another_line(self) -> None:
        status, lines = self.compared("line.replace(b'answer', b'Answer')")
        self.assertEqual(status, 1)
        self.assertRegex(lines[0], r"talk \d differs: life \d, output")
        self.assertRegex(lines[-1], r"\d the same, [12] not, seed 3")

    def test_a_question_stands_after_every_line(self) -> None:
        dice, domains = random.Random(5), tool.long_run()
        lives = [life for _ in range(20) for life in tool.Talk(dice, domains, True).lives]
        whole = [life.split(b"\n")[:-1] for life in lives]
        self.assertTrue(any(whole))
        for lines in whole:
            self.assertEqual(set(lines[1::2]) | {b"?"}, {b"?"})

    def test_a_repeat_has_the_number_and_the_request_that_it_had(self) -> None:
        dice = random.Random(5)
        talk = tool.Talk(dice, tool.long_run(), False)
        asked = [talk.asked_once() for _ in range(200)]
        self.assertLess(len(set(asked)), 190)
        self.assertEqual(len({tuple(line.split(b" ", 3)[1:3]) for line in asked}), len(set(asked)))


if __name__ == "__main__":
    unittest.main()
