"""The example of a hierarchy: its description, and what stands in it."""
import importlib.machinery
import importlib.util
import os
import re
import subprocess
import sys
import tempfile
import tomllib
import unittest
from typing import Any

HERE = os.path.dirname(os.path.dirname(os.path.realpath(__file__)))
LOADER = importlib.machinery.SourceFileLoader("start", f"{HERE}/start")


def start_module() -> Any:
    spec = importlib.util.spec_from_loader("start", LOADER)
    assert spec
    made = importlib.util.module_from_spec(spec)
    sys.dont_write_bytecode = True
    LOADER.exec_module(made)
    return made


def read(name: str) -> str:
    with open(f"{HERE}/{name}", encoding="ascii") as file:
        return file.read()


class Description(unittest.TestCase):
    def setUp(self) -> None:
        self.start = start_module()
        self.text = tomllib.loads(self.start.described(read("hierarchy.toml"), 4711))

    def test_managers_and_links(self) -> None:
        """Each manager but the top is commanded by one other."""
        links = {f"{parent}.{sub}": link["to"] for parent, manager in self.text["managers"].items()
                 for sub, link in manager.get("links", {}).items()}
        self.assertEqual(links, {
            "DET.TRACKER": "TRK.TRACKER", "DET.CALORIMETER": "CAL.CALORIMETER", "TRK.SECTOR_A": "TRK_A.SECTOR",
            "TRK.SECTOR_B": "TRK_B.SECTOR", "CAL.SECTOR_A": "CAL_A.SECTOR", "CAL.SECTOR_B": "CAL_B.SECTOR"})
        self.assertEqual({to.partition(".")[0] for to in links.values()} | {"DET"}, {*self.text["managers"]})
        self.assertEqual(self.text["broker"]["port"], 4711)

    def test_each_sector_has_its_own_player(self) -> None:
        for name, manager in self.text["managers"].items():
            is_sector = manager["domain"] == "sector.sml"
            self.assertEqual(manager.get("drivers", []), [[
                sys.executable, self.start.PLAYER, "sector.sml", "--pipe", "--trips", f"{name.lower()}.trips"]]
                if is_sector else [])
        self.assertTrue(os.access(self.start.PLAYER, os.R_OK))

    def test_what_is_named_is_declared(self) -> None:
        managers = self.text["managers"]
        named = [word for operator in self.text["operators"].values() for word in operator.get("may", [])]
        for name, manager in managers.items():
            named.append(f"{name}.{manager['react'].split()[0]}")
            named += [f"{name}.{sub}" for sub in manager.get("links", {})]
            named += [link["to"] for link in manager.get("links", {}).values()]
        for word in named:
            name, _, target = word.partition(".")
            self.assertRegex(read(managers[name]["domain"]), rf"(?m)^object: {target} ", word)

    def test_all_of_it_is_copied(self) -> None:
        with tempfile.TemporaryDirectory() as folder:
            path = self.start.make(folder, 4711)
            with open(path, "rb") as file:
                managers = tomllib.load(file)["managers"]
            self.assertEqual({manager["domain"] for manager in managers.values()},
                             {name for name in os.listdir(folder) if name.endswith(".sml")})

    def test_wrong_words(self) -> None:
        for words in (["--port"], ["a", "b"], ["--port", "x"]):
            done = subprocess.run([sys.executable, f"{HERE}/start", *words], capture_output=True, text=True)
            self.assertEqual(done.returncode, 2, done.stderr)

    def test_the_page_names_what_is_there(self) -> None:
        """Each command of `ask` in README.md is of an operator, a manager and an object of the description."""
        asked = re.findall(r"links ask \$F (\w+) (\w+) (\w+) (\w+)", read("README.md"))
        self.assertGreater(len(asked), 3)
        for operator, node, target, action in asked:
            self.assertIn(operator, self.text["operators"])
            self.assertIn(f"action: {action}", read(self.text["managers"][node]["domain"]))
            self.assertIn(f"object: {target} ", read(self.text["managers"][node]["domain"]))


if __name__ == "__main__":
    unittest.main()
