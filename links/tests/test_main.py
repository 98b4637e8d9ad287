"""The commands: wrong command lines, and a Python that does not find paho."""
import contextlib
import io
import os
import subprocess
import sys
import tempfile
import unittest

from links.__main__ import main, seconds_of
from links.domain import Refused
from links.tests.sides import TESTS, TOML

ABOVE = os.path.dirname(os.path.dirname(TESTS))


def run_main(*words: str) -> tuple[int, str]:
    """The status, and what stands on standard error."""
    errors = io.StringIO()
    with contextlib.redirect_stderr(errors), contextlib.redirect_stdout(io.StringIO()):
        return main([*words]), errors.getvalue()


class Commands(unittest.TestCase):
    def setUp(self) -> None:
        self.folder = tempfile.TemporaryDirectory()
        self.addCleanup(self.folder.cleanup)
        self.file = f"{self.folder.name}/h.toml"
        with open(self.file, "w", encoding="ascii") as file:
            file.write(TOML)

    def test_wrong_command_lines(self) -> None:
        for words in ((), ("check",), ("check", "a", "b"), ("node", "a"), ("nothing", "a"), ("ask", "a", "B", "C")):
            status, told = run_main(*words)
            self.assertEqual((status, told[:6]), (2, "usage:"), words)
        for words in (("--help",), ("check", "--help"), ("-h",)):
            self.assertEqual(run_main(*words), (0, ""), words)

    def test_what_is_not_there(self) -> None:
        for words, wanted in ((("check", "/no/such/file"), "/no/such/file: No such file or directory\n"),
                              (("keys", self.file, "localhost"), f"{self.file}: broker: there is no `ca`\n")):
            self.assertEqual(run_main(*words), (1, wanted))
        with open(self.file, "a", encoding="ascii") as file:
            file.write('[broker]\nca = "ca.crt"\n')
        status, told = run_main("broker", self.file, "/dev/null/x")
        self.assertEqual((status, len(told.splitlines())), (1, 1), told)
        self.assertIn("/dev/null/x: ", told)

    def test_seconds(self) -> None:
        self.assertEqual(seconds_of("0.5"), 0.5)
        for word in ("nan", "inf", "-1", "0", "x", ""):
            with self.assertRaises(Refused):
                seconds_of(word)

    def test_a_python_that_does_not_find_paho(self) -> None:
        """One line says so, with the Python that does, or how to get it."""
        os.mkdir(f"{self.folder.name}/paho")
        with open(f"{self.folder.name}/paho/__init__.py", "w", encoding="ascii") as file:
            file.write("raise ModuleNotFoundError('No module named paho')\n")
        env = os.environ | {"PYTHONPATH": f"{self.folder.name}:{ABOVE}"}
        tools = [["-m", f"links.trials.{name}"] for name in ("crash", "hostile", "measure")]
        for words in (["-m", "links", "look", self.file, "ANNA"], [f"{ABOVE}/links/test-with-broker"], *tools):
            done = subprocess.run([sys.executable, *words], env=env, capture_output=True, text=True)
            self.assertEqual((done.returncode, len(done.stderr.splitlines())), (1, 1), done.stderr)
            self.assertIn("does not find paho.mqtt: ", done.stderr)


if __name__ == "__main__":
    unittest.main()
