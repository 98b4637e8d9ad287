"""The table of docs/GATE.md, and the rows that it is made of: `tools/gate-times`."""
import contextlib
import io
import os
import sys
import unittest
import unittest.mock

from copied import Repository

CRATES = "# three crates\nlow: itoa\nmiddle: low\n# behind\nhigh: low middle\n"
ROWS = "low 1.25 0.00 2.00 2026-01-02 0.50 -\nmiddle 0.50 0.75 0.00 2026-01-02 0.50 -\n"
WHOLE = "2026-01-02: 5.0 processor minutes, `9 passed, 0 failed`"
PAGE = "# The gate\n\n<!-- table: begin -->\nby hand\n<!-- table: end -->\n\nWhat comes after.\n"
MADE = """# The gate

<!-- table: begin -->
| Crate | Proof | Tests | Edits | Number | All | Crate | Proof | Tests | Edits | Number | All |
|---|---|---|---|---|---|---|---|---|---|---|---|
| `low` | 1.2 | - | 2.0 | 1 | 3.2 | `high` | - | - | - | 0 | 0.0 |
| `middle` | 0.5 | 0.8 | - | 0 | 1.2 | | | | | | |

All rows: **4.5 processor minutes**: 1.8 of proofs, 0.8 of tests, 2.0 of edits. They are of runs of 2026-01-02 (0.50
seconds), with the yardstick of each. Not measured yet: the proofs of high. The last whole run from nothing: 2026-01-02:
5.0 processor minutes, `9 passed, 0 failed`.
<!-- table: end -->

What comes after.
"""
SUMS = (
    "from sums import own_sum\n"
    "print(own_sum('low', ('src', 'specs', 'proofs', 'must-fail', 'data')))\n"
)


# It proves as long as it takes until the tool has seen it.
STAND_IN = """#!{python}
import subprocess, sys
{meanwhile}
proof = "import os, time\\nwhile not os.path.exists('seen'): time.sleep(0.01)"
subprocess.run([sys.executable, "-c", proof, "--crate-name", "low"], timeout=60)
print(" ".join(sys.argv[1:]))
print("1 passed, 0 failed")
"""


class GateTimes(Repository):
    TOOLS_COPIED = ("gate-times", "laying.py", "sums.py")

    def setUp(self) -> None:
        super().setUp()
        self.write("crates.txt", CRATES)
        self.write("docs/GATE.md", PAGE)
        self.write("tools/gate-times.last", f"# crate, and so on\n{ROWS}whole: {WHOLE}\n")
        for part in ("src/lib.rt", "must-fail/one.edit", "must-fail/no_edit", "out/kept"):
            self.write(f"crates/low/{part}", f"{part}\n")


class Page(GateTimes):
    def test_the_table_is_made_of_the_file(self) -> None:
        self.assertEqual(self.tell("gate-times", "--page"), (0, []))
        self.assertEqual(self.read("docs/GATE.md"), MADE)
        self.assertEqual(self.tell("gate-times", "--same-page"), (0, ["0 wrong"]))

    def test_nothing_else_is_written(self) -> None:
        before = self.read("tools/gate-times.last")
        self.tell("gate-times", "--page")
        self.assertEqual(self.read("tools/gate-times.last"), before)

    def test_what_differs_is_told_by_its_line(self) -> None:
        for old, new, line in (
            ("| 3.2 |", "| 3.3 |", 6), ("`middle` | 0.5", "`middle` | 0.6", 7), ("**4.5", "**4.4", 9),
            ("| `middle` | 0.5 | 0.8 | - | 0 | 1.2 | | | | | | |\n", "", 7), (" | | | | | |\n", " | | | | | |", 8),
        ):
            self.write("docs/GATE.md", MADE)
            self.replace("docs/GATE.md", old, new)
            told = f"docs/GATE.md:{line}: its table is not that of tools/gate-times.last"
            status, lines = self.tell("gate-times", "--same-page")
            self.assertEqual((status, lines), (1, [f"{told} (tools/gate-times --page makes it)", "1 wrong"]))

    def test_a_crate_or_an_edit_that_comes_changes_the_table(self) -> None:
        for name, text in (("crates.txt", f"{CRATES}new: low\n"), ("crates/low/must-fail/two.edit", "")):
            self.tell("gate-times", "--page")
            self.write(name, text)
            self.assertEqual(self.tell("gate-times", "--same-page")[0], 1, name)

    def test_a_page_without_place_for_a_table_is_wrong(self) -> None:
        for mark in ("begin", "end"):
            self.write("docs/GATE.md", PAGE.replace(f"<!-- table: {mark} -->\n", ""))
            for option in ("--page", "--same-page"):
                told = (1, [f"docs/GATE.md: lacks <!-- table: {mark} -->", "1 wrong"])
                self.assertEqual(self.tell("gate-times", option), told)

    def test_a_line_that_is_no_row_is_told_by_its_place(self) -> None:
        for line in ("middle", "middle 1 x 0 2026-01-02 0.50", "middle 1 0 0 2026-01-02"):
            self.write("tools/gate-times.last", f"# head\nlow 1 0 0 2026-01-02 0.5 -\n{line}\n")
            told = (1, ["tools/gate-times.last:3: is no row of a crate", "1 wrong"])
            self.assertEqual(self.tell("gate-times", "--same-page"), told)


class Stale(GateTimes):
    def with_sum(self) -> None:
        """Gives the lowest crate's row the sum of its files."""
        self.write("tools/sum", SUMS)
        _, (files,) = self.tell("sum")
        self.replace("tools/gate-times.last", "2.00 2026-01-02 0.50 -", f"2.00 2026-01-02 0.50 {files}")

    def test_rows_without_a_sum_and_crates_without_a_row(self) -> None:
        told = ["measured without a sum of its files: low, middle", "never measured: high", "3 of 3 rows are stale"]
        self.assertEqual(self.tell("gate-times", "--stale"), (1, told))

    def test_a_row_is_of_the_files_as_they_are(self) -> None:
        self.with_sum()
        for name in ("out/kept", "wrong-bodies/other.edit", "README.md"):
            self.write(f"crates/low/{name}", "other\n")
        told = ["measured without a sum of its files: middle", "never measured: high", "2 of 3 rows are stale"]
        self.assertEqual(self.tell("gate-times", "--stale"), (1, told))

    def test_a_row_of_other_files_is_stale(self) -> None:
        parts = ("src/lib.rt", "src/in/new.rt", "specs/New.antt", "proofs/New.antt", "must-fail/two.edit", "data/x")
        for name in parts:
            self.write("tools/gate-times.last", f"{ROWS}whole: {WHOLE}\n")
            self.with_sum()
            self.write(f"crates/low/{name}", f"changed {name}\n")
            self.assertIn("its own files changed: low", self.tell("gate-times", "--stale")[1], name)

    def test_all_rows_of_their_files(self) -> None:
        self.write("crates.txt", "low: itoa\n")
        self.with_sum()
        self.assertEqual(self.tell("gate-times", "--stale"), (0, ["0 of 1 rows are stale"]))


class Measured(GateTimes):
    """A gate of one crate, with a stand-in for `rt` that proves nothing."""

    def measure(self, meanwhile: str) -> None:
        self.write("bin/rt", STAND_IN.format(python=sys.executable, meanwhile=meanwhile))
        os.chmod(f"{self.top}/bin/rt", 0o755)
        tool, path = self.load("gate-times"), f"{self.top}/bin:{os.environ['PATH']}"
        part_of = tool.part_of

        def seen(pid: int) -> object:
            if part := part_of(pid):
                self.write("seen", "")
            return part

        with unittest.mock.patch.dict(os.environ, {"PATH": path}), \
                unittest.mock.patch.object(tool, "yardstick", lambda: 0.25), \
                unittest.mock.patch.object(tool, "part_of", seen), \
                unittest.mock.patch.object(sys, "argv", ["gate-times", "--anew", "low"]), \
                contextlib.redirect_stdout(io.StringIO()) as told:
            self.assertEqual(tool.main(), 0)
        self.assertIn("ci --anew low\n1 passed, 0 failed\n", told.getvalue())

    def test_a_row_has_the_sum_of_what_was_measured(self) -> None:
        self.measure("")
        self.assertEqual(self.tell("gate-times", "--same-page"), (0, ["0 wrong"]))
        self.assertNotIn("low", " ".join(self.tell("gate-times", "--stale")[1]))
        head, low, middle, whole = self.read("tools/gate-times.last").splitlines()
        self.assertRegex(low, r"low \d\.\d\d 0\.00 0\.00 \d{4}-\d\d-\d\d 0\.25 [0-9a-f]{16}$")
        self.assertEqual((middle, whole), (ROWS.splitlines()[1], f"whole: {WHOLE}"))

    def test_what_changed_meanwhile_has_no_sum(self) -> None:
        self.measure("open('crates/low/src/other.rt', 'w').close()")
        told = "measured without a sum of its files: low, middle"
        self.assertEqual(self.tell("gate-times", "--stale")[1][0], told)


class Added(GateTimes):
    def test_a_run_is_added_to_what_one_that_was_stopped_has_left(self) -> None:
        tool = self.load("gate-times")
        row = tool.Row(1.25, 0.5, 2.0, "2026-01-02", 0.5, "0123456789abcdef")
        middle = row._replace(files="-")
        more = tool.Row(0.25, 1.5, 0.0, "2026-01-02", 0.25, row.files)
        self.assertEqual(tool.added({"low": row, "middle": middle}, {"low": more}), {
            "low": tool.Row(1.5, 2.0, 2.0, "2026-01-02", 0.25, row.files), "middle": middle,
        })

    def test_rows_of_another_day_or_of_other_files_are_replaced(self) -> None:
        tool = self.load("gate-times")
        row = tool.Row(1.25, 0.5, 2.0, "2026-01-02", 0.5, "0123456789abcdef")
        others = [("day", "2026-01-01"), ("files", "-"), ("files", "fedcba9876543210")]
        for name, value in others:
            before = row._replace(**{name: value})
            self.assertEqual(tool.added({"low": before}, {"low": row}), {"low": row}, value)
        bare = row._replace(files="-")
        self.assertEqual(tool.added({"low": bare}, {"low": bare}), {"low": bare})


class Words(GateTimes):
    def test_options_that_do_not_go_together(self) -> None:
        lone = ["--anew"], ["low"], ["--add"]
        for words in (*lone, ["--page", "--stale"], ["--only-print", "--rest"], ["--page", "--add"]):
            self.assertEqual(self.tell("gate-times", *words)[0], 2, words)


if __name__ == "__main__":
    unittest.main()
