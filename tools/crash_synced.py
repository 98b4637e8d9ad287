"""Looks under `strace` whether a manager with --sync has all on the disk before it tells it, also in a log that it
resumes: `tools/crash-live --synced`."""
import os
import re
import subprocess
import tempfile
from collections.abc import Iterable, Iterator
from typing import NamedTuple

# A call that begins, with its thread, its name, the number and the path of its file, and what strace tells after that;
# and one that was told in two parts, at its end.
CALL = re.compile(r"(\d+) +(write|ftruncate|fdatasync|fsync)\((\d+)<([^>]*)>(.*)")
RESUMED = re.compile(r"(\d+) +<\.\.\. (?:fdatasync|fsync) resumed>(.*)")
SYNCS = ("fdatasync", "fsync")
# The lines of a manager that begins a log, and of one that resumes it; and what each has to tell, so that devices have
# answered.
LIVES = (
    (b"request @1 TRACKER_COOLER COOL (DEGREES = 5)\nanswer TRACKER_COOLER COLD\n"
     b"once L 1 request @3 TRACKER_HV1 SWITCH_ON (VOLTS = 5)\nrequest @2 NOBODY STOP\nkill CALORIMETER_HV1 @1\n",
     b"\nend TRACKER_COOLER COLD\n"),
    (b"answer TRACKER_HV1 ON\nonce L 1 request @3 TRACKER_HV1 SWITCH_ON (VOLTS = 5)\nkill TRACKER_HV2 @1\n",
     b"\nend TRACKER_HV1 ON\n"),
)
# What a crash leaves at the end of the log between the two.
TORN = b"request @1 TRACKER_COOL"


class Call(NamedTuple):
    """A system call: its name, and the number and the path of its file."""

    name: str
    file: str
    path: str

    def is_told(self) -> bool:
        return (self.name, self.file) == ("write", "1")


def calls_of(trace: Iterable[str]) -> Iterator[Call]:
    """The calls of a trace in their order: of those that put something on the disk the ones that did, where they
    ended, and the others where they began."""
    pending: dict[str, Call] = {}
    for line in trace:
        if found := CALL.match(line):
            call, rest = Call(found[2], found[3], found[4]), found[5]
            if call.name not in SYNCS or rest.rstrip().endswith("= 0"):
                yield call
            elif "<unfinished" in rest:
                pending[found[1]] = call
        elif (found := RESUMED.match(line)) and found[1] in pending:
            call = pending.pop(found[1])
            if found[2].rstrip().endswith("= 0"):
                yield call


def faults_of(calls: Iterable[Call], log: str) -> Iterator[str]:
    """What was told while something of the log was not on the disk, or its name in its folder. What a log has at first
    may not be there either."""
    is_on_disk = has_name = False
    for call in calls:
        if call.path == log:
            is_on_disk = call.name in SYNCS
        elif call.path == os.path.dirname(log):
            has_name = has_name or call.name == "fsync"
        elif call.is_told() and not is_on_disk:
            yield "something was told while the log was not on the disk"
        elif call.is_told() and not has_name:
            yield "something was told while the name of the log was not on the disk"


def traced(words: list[str], lines: bytes, trace: str) -> tuple[bytes, list[Call]]:
    """What a manager of these words told of lines, and its calls."""
    under = ["strace", "-f", "-y", "-e", "trace=write,ftruncate,fdatasync,fsync", "-o", trace]
    done = subprocess.run([*under, *words], input=lines, capture_output=True)
    if done.returncode:
        raise SystemExit(f"it ended with {done.returncode}: {done.stderr!r}")
    with open(trace, encoding="utf-8", errors="replace") as file:
        return done.stdout, [*calls_of(file)]


def synced(program: str, domain: str) -> int:
    """Lets a manager begin a log, and another one resume it, and looks at the order of their calls. The status."""
    told = kept = 0
    faults: list[str] = []
    with tempfile.TemporaryDirectory() as made:
        folder = os.path.realpath(made)
        words = [program, "live", domain, "--log", f"{folder}/log", "--sync"]
        for number, (lines, wanted) in enumerate(LIVES):
            output, calls = traced([*words, *["--resume"] * number], lines, f"{folder}/trace")
            faults += faults_of(calls, f"{folder}/log")
            faults += [] if wanted in output else [f"nothing was told of the answer of a device: {output!r}"]
            told += sum(call.is_told() for call in calls)
            kept += sum(call.path == f"{folder}/log" and call.name in SYNCS for call in calls)
            with open(f"{folder}/log", "ab") as log:
                log.write(TORN)
    for fault in faults:
        print(fault)
    print(f"{told} writes of the output, {kept} times the log was put on the disk, {len(faults)} differ")
    return 1 if faults else 0
