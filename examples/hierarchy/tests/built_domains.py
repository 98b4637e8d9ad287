"""The domains of the example, by the program: they fit the description, have no warning, and do what the page says."""
import os
import re
import subprocess
import sys
import tempfile
import unittest

HERE = os.path.dirname(os.path.dirname(os.path.realpath(__file__)))
sys.path.insert(0, os.path.dirname(os.path.dirname(HERE)))

from links.description import read  # noqa: E402
from links.lines import PROGRAM  # noqa: E402

DOMAINS = sorted(name for name in os.listdir(HERE) if name.endswith(".sml"))
SUPPLIES = ("HV1", "HV2", "HV3")


def stands(domain: str, lines: list[str]) -> dict[str, str]:
    """The states of objects after a schedule."""
    with tempfile.NamedTemporaryFile("w", encoding="ascii") as file:
        file.write("\n".join(lines) + "\n")
        file.flush()
        words = [PROGRAM, "step", f"{HERE}/{domain}", file.name, "--states"]
        told = subprocess.run(words, capture_output=True, text=True, check=True).stdout
    return dict(re.findall(r"^state (\w+) (\w+)$", told, re.M))


class Domains(unittest.TestCase):
    def test_the_description_has_no_fault(self) -> None:
        self.assertEqual(len(read(f"{HERE}/hierarchy.toml").links()), 6)

    def test_there_is_no_warning(self) -> None:
        words = [PROGRAM, "lint", *(f"{HERE}/{name}" for name in DOMAINS)]
        done = subprocess.run(words, capture_output=True, text=True)
        self.assertEqual(done.stderr, "")
        self.assertEqual(done.returncode, 0, done.stdout)

    def test_a_supply_that_trips_is_seen(self) -> None:
        lines = ["request @8 SECTOR SWITCH_ON (VOLTS = 3)", "start SECTOR", "go SECTOR"]
        for name in SUPPLIES:
            lines += [f"start {name}", f"answer {name} ON"]
        lines += ["go SECTOR", "go SECTOR"]
        self.assertEqual(stands("sector.sml", lines)["SECTOR"], "ON")
        lines += ["request @7 HV2 REPORT", "start HV2", "answer HV2 TRIPPED", "request @7 SECTOR CHECK", "start SECTOR",
                  *["go SECTOR"] * 4]
        self.assertEqual(stands("sector.sml", lines), {"HV1": "ON", "HV2": "TRIPPED", "HV3": "ON", "SECTOR": "ERROR"})

    def test_a_sector_that_is_taken_out_is_not_commanded(self) -> None:
        for name, top in (("tracker.sml", "TRACKER"), ("calorimeter.sml", "CALORIMETER")):
            lines = [f"request @8 {top} TAKE_OUT_B", f"start {top}", *[f"go {top}"] * 5]
            lines += [f"request @8 {top} SWITCH_ON", f"start {top}", f"go {top}", "start SECTOR_B", "start SECTOR_A",
                      "answer SECTOR_A ON", *[f"go {top}"] * 4]
            self.assertEqual(stands(name, lines), {"SECTOR_A": "ON", "SECTOR_B": "OFF", top: "ON"})


if __name__ == "__main__":
    unittest.main()
