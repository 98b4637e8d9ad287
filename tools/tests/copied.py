"""Small repositories with copies of some tools: a tool works on the folder above the one in which it stands."""
import contextlib
import importlib.machinery
import importlib.util
import io
import os
import runpy
import shutil
import sys
import tempfile
import types
import unittest
import unittest.mock

TOOLS = os.path.dirname(os.path.dirname(os.path.realpath(__file__)))
# The modules that tools share.
OWN = [name.removesuffix(".py") for name in os.listdir(TOOLS) if name.endswith(".py")]


class Repository(unittest.TestCase):
    """A test that has a folder of its own, with copies of `TOOLS_COPIED` in its tools/."""

    TOOLS_COPIED: tuple[str, ...] = ()

    def setUp(self) -> None:
        made = tempfile.TemporaryDirectory()
        self.addCleanup(made.cleanup)
        self.top = os.path.realpath(made.name)
        os.mkdir(f"{self.top}/tools")
        for name in self.TOOLS_COPIED:
            shutil.copy(f"{TOOLS}/{name}", f"{self.top}/tools/{name}")

    def write(self, name: str, text: str) -> None:
        """Makes a file, and the folders in which it stands."""
        os.makedirs(os.path.dirname(f"{self.top}/{name}"), exist_ok=True)
        with open(f"{self.top}/{name}", "w", encoding="utf-8") as file:
            file.write(text)

    def read(self, name: str) -> str:
        with open(f"{self.top}/{name}", encoding="utf-8") as file:
            return file.read()

    def replace(self, name: str, old: str, new: str) -> None:
        """Changes a text that stands once in a file."""
        text = self.read(name)
        self.assertEqual(text.count(old), 1, old)
        self.write(name, text.replace(old, new))

    def load(self, name: str) -> types.ModuleType:
        """The copy of a tool as a module, with modules of its own below it."""
        loader = importlib.machinery.SourceFileLoader(f"copied_{name}", f"{self.top}/tools/{name}")
        spec = importlib.util.spec_from_loader(loader.name, loader)
        assert spec is not None
        module = importlib.util.module_from_spec(spec)
        with unittest.mock.patch.dict(sys.modules), \
                unittest.mock.patch.object(sys, "path", [f"{self.top}/tools", *sys.path]):
            for own in OWN:
                sys.modules.pop(own, None)
            loader.exec_module(module)
        return module

    def tell(self, *words: str) -> tuple[int, list[str]]:
        """The status of a tool, and the lines that it writes. It runs in this process, with modules of its own."""
        told = io.StringIO()
        with unittest.mock.patch.dict(sys.modules), contextlib.redirect_stdout(told), contextlib.redirect_stderr(told):
            for name in OWN:
                sys.modules.pop(name, None)
            status = self.status(list(words))
        return status, told.getvalue().splitlines()

    def status(self, words: list[str]) -> int:
        path = f"{self.top}/tools/{words[0]}"
        with unittest.mock.patch.object(sys, "path", [f"{self.top}/tools", *sys.path]), \
                unittest.mock.patch.object(sys, "argv", [path, *words[1:]]):
            try:
                runpy.run_path(path, run_name="__main__")
            except SystemExit as end:
                return end.code if isinstance(end.code, int) else 1 if end.code else 0
        return 0
