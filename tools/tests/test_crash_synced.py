"""What a manager has on the disk before it tells it, as `strace` shows it: `tools/crash-live --synced`."""
import contextlib
import io
import os
import subprocess
import sys
import tempfile
import unittest

TOOLS = os.path.dirname(os.path.dirname(os.path.realpath(__file__)))
sys.path.insert(0, TOOLS)

from crash_synced import Call, calls_of, faults_of, synced  # noqa: E402

LOG, FOLDER, OUT = "/l/log", "/l", "pipe:[7]"
TOLD, WRITTEN, CUT = Call("write", "1", OUT), Call("write", "3", LOG), Call("ftruncate", "3", LOG)
SYNCED, KEPT, NAMED = Call("fdatasync", "3", LOG), Call("fsync", "3", LOG), Call("fsync", "4", FOLDER)
NOT_KEPT = "something was told while the log was not on the disk"
NOT_NAMED = "something was told while the name of the log was not on the disk"
# Calls, and what is wrong with their order.
ORDERS = (
    ([WRITTEN, KEPT, NAMED, WRITTEN, SYNCED, TOLD], []),
    # How all stands is told of a log that was resumed, and an answer of which the log has nothing.
    ([KEPT, NAMED, TOLD, TOLD, WRITTEN, SYNCED, TOLD, TOLD], []),
    ([CUT, KEPT, NAMED, TOLD], []),
    ([TOLD, KEPT, NAMED], [NOT_KEPT]), ([NAMED, TOLD], [NOT_KEPT]), ([KEPT, TOLD, NAMED], [NOT_NAMED]),
    ([KEPT, CUT, NAMED, TOLD], [NOT_KEPT]), ([KEPT, NAMED, WRITTEN, TOLD, SYNCED, TOLD], [NOT_KEPT]),
    ([KEPT, NAMED, WRITTEN, SYNCED, WRITTEN, TOLD, TOLD], [NOT_KEPT] * 2),
    # What is told beside the output need not wait.
    ([WRITTEN, Call("write", "2", OUT)], []),
)
TRACE = """7 write(3</l/log>, "! smirun live 1"..., 71) = 71
7 fsync(3</l/log>)                  = 0
8 +++ exited with 0 +++
7 write(1<pipe:[7]>, "a > b", 5 <unfinished ...>
9 write(2<pipe:[8]>, "b", 1)      = 1
7 <... write resumed>)              = 5
7 fdatasync(3</l/log> <unfinished ...>
9 write(1<pipe:[7]>, "c", 1)      = 1
7 <... fdatasync resumed>)          = 0
7 fdatasync(3</l/log>)              = -1 EIO (Input/output error)
7 fsync(4</l> <unfinished ...>
7 <... fsync resumed>)              = -1 EIO (Input/output error)
7 ftruncate(3</l/log>, 71)          = 0
"""
CALLS = [WRITTEN, KEPT, TOLD, Call("write", "2", "pipe:[8]"), TOLD, SYNCED, CUT]
# A manager that writes, puts on the disk and tells in this order, where that is so: at the beginning, and at each line.
STAND_IN = """#!{python} -IS
import os, sys
path, is_resumed = sys.argv[sys.argv.index("--log") + 1], "--resume" in sys.argv
log = os.open(path, os.O_RDWR | os.O_CREAT | os.O_APPEND)
text = os.read(log, 1 << 20)
if is_resumed:
    os.ftruncate(log, text.rindex(b"\\n") + 1)
else:
    os.write(log, b"! smirun live 1\\n")
if {settles}:
    os.fsync(log)
    os.fsync(os.open(os.path.dirname(path), os.O_RDONLY))
if is_resumed:
    os.write(1, b"stands 1\\n")
for line in sys.stdin.buffer:
    os.write(log, line)
    if {syncs}:
        os.fdatasync(log)
    os.write(1, line.replace(b"answer", {answer}))
"""


def can_trace() -> bool:
    try:
        return subprocess.run(["strace", "-o", os.devnull, "true"], capture_output=True).returncode == 0
    except OSError:
        return False


class Orders(unittest.TestCase):
    def test_what_is_wrong_with_an_order(self) -> None:
        for calls, wanted in ORDERS:
            with self.subTest(calls=[call.name for call in calls]):
                self.assertEqual([*faults_of(calls, LOG)], wanted)

    def test_calls_of_a_trace(self) -> None:
        """One that puts something on the disk counts where it has done so."""
        self.assertEqual([*calls_of(TRACE.splitlines(keepends=True))], CALLS)


@unittest.skipUnless(can_trace(), "strace is not here, or may not look at processes")
class Managers(unittest.TestCase):
    def looked_at(self, settles: str = "True", syncs: str = "True", answer: str = "b'end'") -> tuple[int, list[str]]:
        """The status, and what is said of a manager that stands in."""
        with tempfile.TemporaryDirectory() as folder, contextlib.redirect_stdout(io.StringIO()) as said:
            with open(f"{folder}/smirun", "w", encoding="ascii") as file:
                file.write(STAND_IN.format(python=sys.executable, settles=settles, syncs=syncs, answer=answer))
            os.chmod(f"{folder}/smirun", 0o755)
            status = synced(f"{folder}/smirun", "domain.sml")
        return status, said.getvalue().splitlines()

    def test_one_that_puts_all_on_the_disk_first(self) -> None:
        wanted = "9 writes of the output, 10 times the log was put on the disk, 0 differ"
        self.assertEqual(self.looked_at(), (0, [wanted]))

    def test_one_that_does_not_where_it_resumes(self) -> None:
        """At the beginning, and at each of three lines."""
        wanted = "9 writes of the output, 9 times the log was put on the disk, 4 differ"
        self.assertEqual(self.looked_at(settles="not is_resumed"), (1, [NOT_KEPT, *[NOT_NAMED] * 3, wanted]))
        wanted = "9 writes of the output, 7 times the log was put on the disk, 3 differ"
        self.assertEqual(self.looked_at(syncs="not is_resumed"), (1, [*[NOT_KEPT] * 3, wanted]))

    def test_one_whose_devices_do_not_answer(self) -> None:
        status, lines = self.looked_at(answer="b'refused'")
        self.assertEqual((status, len(lines)), (1, 3))


if __name__ == "__main__":
    unittest.main()
