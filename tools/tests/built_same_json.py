"""What `--json` writes has all of the text, by the built program."""
import os
import subprocess
import sys
import unittest

TOOLS = os.path.dirname(os.path.dirname(os.path.realpath(__file__)))


class SameJson(unittest.TestCase):
    def test_all_of_the_text_is_there(self) -> None:
        ran = subprocess.run([sys.executable, f"{TOOLS}/same-json"], capture_output=True, text=True)
        self.assertEqual(ran.returncode, 0, ran.stdout + ran.stderr)


if __name__ == "__main__":
    unittest.main()
