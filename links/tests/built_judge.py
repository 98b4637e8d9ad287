"""The judge, of logs that managers have written of lines made up here: of a good pair it finds nothing, and of each
pair with a fault it says that fault."""
import os
import subprocess
import sys
import tempfile
import unittest

from links.lines import PROGRAM
from links.tests.sides import TESTS, TOML

ABOVE = os.path.dirname(os.path.dirname(TESTS))
FIRST = (5 << 32) + 1
PARENT = ("! links begun 5 boot 1", "! links SUB knows C.T 9 0", "request @1 SUB GO_TO (N = 4)",
          f"answer SUB ON ! came {FIRST} ended 9 1")
CHILD = ("! links begun 9 boot 1", f"once P_SUB {FIRST} request @8 T GO_TO (N = 4) ! at 100.000")
LOST = f"answer SUB LOST ! lost {FIRST} at 90.000: C.T is late"
SKIPPED = "request @1 SUB GO"
# Of each fault the lines of the parent, of the child, and of a log of the child that was lost; and what is said of it.
FAULTS = (
    (PARENT, (CHILD[0], CHILD[1].replace("4", "5", 1).replace("N = 4", "N = 5")), (), "was never asked for"),
    (PARENT, (CHILD[0], CHILD[1].replace("N = 4", "N = 5")), (), "asked GO_TO (N = 4), and was request @8 T GO_TO (N"),
    (PARENT, (CHILD[0].replace("9", "11"), CHILD[1]), CHILD, "was given in two logs"),
    ((*PARENT[:3], PARENT[3].replace(" ON ", " OFF ")), CHILD, (),
     "was answered OFF as ended of version 1, and ended ON of version 1"),
    ((*PARENT[:3], PARENT[3].replace("came", "come")), CHILD, (), "ended in ON, by no answer with its K"),
    ((*PARENT[:3], PARENT[3].replace(" 9 1", " 8 1")), CHILD, (), "was answered by log 8, and the child has it in [9]"),
    ((*PARENT[:3], PARENT[3].replace("ended", "refused:Full")), CHILD, (),
     "as refused:Full of version 1, and ended ON"),
    (PARENT[:3], CHILD, (), "(GO_TO (N = 4)) has no answer"),
    (PARENT, CHILD[:1], (), "was answered ON as ended, and nothing came of it"),
    (PARENT, (*CHILD, "request @8 T GO_TO"), (), "2 requests in the session of the link, and 1 with a K"),
    ((*PARENT[:3], LOST), CHILD, (), "was given to T 10.0 s after it was given up"),
    ((*PARENT[:3], LOST), CHILD, (), "stands as LOST, and T as ON"),
    ((*PARENT, SKIPPED), (*CHILD, f"once P_SUB {FIRST + 1} request @8 T GO ! at 101.000"), (),
     "SUB skipped start 2, and T was given"),
    ((*PARENT, "request @7 SUB REPORT", "answer SUB OFF ! stands 9 0"), CHILD, (),
     "took version 0 of log 9 after (9, 1)"),
    ((*PARENT, "request @7 SUB REPORT", "answer SUB OFF ! stands 9 1"), CHILD, (), "took OFF as version 1 of log 9"),
    (PARENT, CHILD, CHILD, "the numbers of its logs do not rise"),
)


class Judged:
    """A folder with a description, domains and logs."""

    def __init__(self, folder: str) -> None:
        self.folder = folder
        for name in ("parent", "child"):
            os.symlink(f"{TESTS}/{name}.sml", f"{folder}/{name}.sml")
        with open(f"{folder}/h.toml", "w", encoding="ascii") as file:
            file.write(TOML)

    def write(self, domain: str, log: str, lines: tuple[str, ...]) -> None:
        words = [PROGRAM, "live", f"{self.folder}/{domain}.sml", "--log", f"{self.folder}/{log}", "--in-turn"]
        subprocess.run(words, input="".join(line + "\n" for line in lines), capture_output=True, text=True, check=True)

    def logs(self, parent: tuple[str, ...], child: tuple[str, ...], was: tuple[str, ...]) -> None:
        for name in ("p.log", "c.log", "c.log.lost-1"):
            if os.path.exists(f"{self.folder}/{name}"):
                os.unlink(f"{self.folder}/{name}")
        self.write("parent", "p.log", parent)
        self.write("child", "c.log", child)
        if was:
            self.write("child", "c.log.lost-1", was)

    def judge(self, *words: str) -> str:
        done = subprocess.run([sys.executable, "-m", "links.trials.judge", f"{self.folder}/h.toml", *words],
                              env=os.environ | {"PYTHONPATH": ABOVE}, capture_output=True, text=True)
        return done.stdout + done.stderr


class Judging(unittest.TestCase):
    def setUp(self) -> None:
        folder = tempfile.TemporaryDirectory()
        self.addCleanup(folder.cleanup)
        self.judged = Judged(folder.name)

    def test_a_good_pair(self) -> None:
        self.judged.logs((*PARENT, SKIPPED), (*CHILD, f"once P_SUB {FIRST + 1} request @8 T WITHDRAWN"), ())
        told = self.judged.judge()
        self.assertTrue(told.endswith("\n1 links, 0 wrong\n"), told)
        self.assertIn("answered as ended 1", told)
        self.assertIn("skipped by SUB 1", told)

    def test_each_fault_is_found(self) -> None:
        for parent, child, was, sentence in FAULTS:
            with self.subTest(sentence=sentence):
                self.judged.logs(parent, child, was)
                self.assertIn(sentence, self.judged.judge())

    def test_what_operators_were_told(self) -> None:
        self.judged.logs(PARENT, (*CHILD, "once ANNA 7 request @1 T GO_TO (N = 1)"), ())
        path = f"{self.judged.folder}/told"
        for line, wrong in (("C ANNA 7 ended OFF 2", 0), ("C ANNA 7 accepted ON 1", 0), ("C ANNA 7 ended ON 2", 1),
                            ("C ANNA 8 ended OFF 2", 1)):
            with open(path, "w", encoding="ascii") as file:
                file.write(line + "\n")
            told = self.judged.judge("--told", path, "--not-at-rest")
            self.assertTrue(told.endswith(f"\n1 links, {wrong} wrong\n"), told)


if __name__ == "__main__":
    unittest.main()
