"""How libraries are proved and the program is built, with a stand-in for `rt`: `tools/build`."""
import contextlib
import io
import os
import sys
import unittest
import unittest.mock

from copied import Repository

# It notes how it is called, and does what the files of the folder `acts` say of the crate.
STAND_IN = f"""#!{sys.executable}
import os, sys
name, acts = os.path.basename(os.getcwd()), os.environ["ACTS"]
with open(f"{{acts}}/called", "a") as file:
    file.write(f"{{name}} {{' '.join(sys.argv[1:])}}\\n")
os.makedirs("out/rlib", exist_ok=True)
open("out/rlib/stamp", "w").close()
if sys.argv[1] == "run":
    open(f"out/{{name}}", "w").close()
if os.path.exists(f"{{acts}}/{{name}}.fails"):
    print(f"{{name}} is not proved")
    sys.exit(1)
sys.exit(247 if "--jobs" in sys.argv and os.path.exists(f"{{acts}}/{{name}}.killed") else 0)
"""
# Two libraries side by side over one, one over both, and a program.
CRATES = "low: itoa\nleft: low\nright: low\ntop: left right low\napp: top left right low\nother: low\n"
LOTS = 1 << 40


class Build(Repository):
    TOOLS_COPIED = ("build", "laying.py")

    def setUp(self) -> None:
        super().setUp()
        self.write("crates.txt", CRATES)
        self.write("HANDLES", "Handles allowed: none.\n")
        for name in ("low", "left", "right", "top", "other"):
            self.write(f"crates/{name}/src/lib.rt", f"//! {name}\n")
        self.write("crates/app/src/main.rt", "fn main() {}\n")
        self.write("acts/called", "")
        self.write("bin/rt", STAND_IN)
        os.chmod(f"{self.top}/bin/rt", 0o755)
        path = f"{self.top}/bin:{os.environ['PATH']}"
        places = {"PATH": path, "ACTS": f"{self.top}/acts", "XDG_CACHE_HOME": f"{self.top}/cache"}
        patched = unittest.mock.patch.dict(os.environ, places)
        patched.start()
        self.addCleanup(patched.stop)

    def build(self, *words: str, memory: int = LOTS, processors: int = 4) -> tuple[int, str]:
        """The status of the tool, and what it tells, on a machine that has so much."""
        tool, told = self.load("build"), io.StringIO()
        with unittest.mock.patch.object(tool, "free_memory", lambda: memory), \
                unittest.mock.patch.object(os, "sched_getaffinity", lambda _: set(range(processors))), \
                unittest.mock.patch.object(sys, "argv", ["build", *words]), contextlib.redirect_stdout(told):
            status = tool.main()
        return status, told.getvalue()

    def called(self) -> list[str]:
        return self.read("acts/called").splitlines()


class Jobs(Build):
    def test_a_library_that_is_alone_gets_a_second_job(self) -> None:
        status, told = self.build("--lanes", "2", "app")
        self.assertEqual(status, 0)
        one, *both, last, program = self.called()
        self.assertEqual((one, last, program), ("low lib --jobs 2", "top lib --jobs 2", "app run -- --version"))
        self.assertEqual(sorted(both), ["left lib", "right lib"])
        self.assertIn("the program is", told)
        self.assertTrue(os.path.exists(f"{self.top}/crates/top/out/rlib/stamp"))
        self.assertEqual(os.listdir(f"{self.top}/cache/mukdeth/lanes"), [])

    def test_one_lane_leaves_each_alone(self) -> None:
        self.build("--lanes", "1", "top")
        self.assertEqual([it.partition(" ")[2] for it in self.called()], ["lib --jobs 2"] * 4)

    def test_as_many_jobs_as_asked(self) -> None:
        for words, called in (
            (["--jobs", "3"], "low lib --jobs 3"), (["--jobs", "1"], "low lib"), (["--jobs", "0"], "low lib"),
            (["--jobs", "5"], "low lib"),
        ):
            self.write("acts/called", "")
            self.build(*words, "low")
            self.assertEqual(self.called(), [called])

    def test_no_second_job_without_memory_or_a_processor(self) -> None:
        for memory, processors, called in (
            (12_000_000_000, 2, "low lib --jobs 2"), (11_999_999_999, 2, "low lib"), (LOTS, 1, "low lib"),
        ):
            self.write("acts/called", "")
            self.build("--lanes", "2", "low", memory=memory, processors=processors)
            self.assertEqual(self.called(), [called])

    def test_what_was_killed_is_proved_by_one_job(self) -> None:
        self.write("acts/low.killed", "")
        self.assertEqual(self.build("low")[0], 0)
        self.assertEqual(self.called(), ["low lib --jobs 2", "low lib"])

    def test_what_is_not_proved_is_not_tried_again(self) -> None:
        self.write("acts/left.fails", "")
        status, told = self.build("--lanes", "1", "app")
        self.assertEqual(status, 1)
        self.assertIn("left NOT PROVED", told)
        self.assertTrue(told.endswith("left:\nleft is not proved\n\n"), told)
        self.assertEqual(self.called().count("left lib --jobs 2"), 1)
        self.assertNotIn("top lib --jobs 2", self.called())

    def test_only_what_is_needed(self) -> None:
        self.build("left")
        self.assertEqual(self.called(), ["low lib --jobs 2", "left lib --jobs 2"])
        with contextlib.redirect_stderr(io.StringIO()) as told, self.assertRaises(SystemExit):
            self.build("nothing")
        self.assertIn("crates.txt has no crate nothing", told.getvalue())


if __name__ == "__main__":
    unittest.main()
