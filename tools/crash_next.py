"""Kills `smirun next` before each of its system calls, and lets each of those that touch files fail: `tools/crash-live
--next`."""
import collections
import os
import re
import subprocess
import tempfile
from typing import NamedTuple

DOMAIN = """class: HV /associated
  state: OFF
    action: SWITCH_ON
  state: ON
    action: SWITCH_OFF
class: RUN_TYPE
  parameters: int N = 5, string P = "none"
  state: NOT_READY
    action: CONFIGURE (string M)
      set P = M
      do SWITCH_ON all_in SUPPLIES
      move_to READY
  state: READY
object: HV1 is_of_class HV
object: HV2 is_of_class HV
object: RUN is_of_class RUN_TYPE
objectset: SUPPLIES { HV1, HV2 }
"""
ASKED = b'once A 1 request @1 RUN CONFIGURE (M = "a b")\n'
LINES = ASKED + b"answer HV1 ON\nfault HV2\n"
# With what a call fails that cannot be done.
ERRORS = {"link": "EPERM", "linkat": "EPERM", "write": "ENOSPC", "unlink": "EACCES", "unlinkat": "EACCES"}
OTHER_ERROR = "EIO"
FILE_CALLS = ("open", "openat", "read", "write", "fsync", "fdatasync", "link", "linkat", "rename", "renameat",
              "renameat2", "unlink", "unlinkat", "fchmod", "chmod", "flock", "statx", "newfstatat", "fstat", "lseek")
CALL = re.compile(r"(?:\d+ +)?(\w+)\((.*)")


class Call(NamedTuple):
    """A system call: its name, the how many-th of this name it is, what it is given, and whether the domain was opened
    before it, or by it."""

    name: str
    number: int
    given: str
    is_own: bool


class Place:
    """A folder with a domain and a log at rest, which can be made anew."""

    def __init__(self, program: str, folder: str) -> None:
        self.program, self.folder = os.path.abspath(program), folder
        with open(f"{folder}/domain.sml", "w", encoding="ascii") as file:
            file.write(DOMAIN)
        self.run("live", "domain.sml", "--log", "log", "--in-turn", lines=LINES)
        self.old = self.read("log")
        self.stood = self.resumed(b"")

    def run(
        self, *words: str, lines: bytes = b"", before: tuple[str, ...] = ()
    ) -> "subprocess.CompletedProcess[bytes]":
        return subprocess.run([*before, self.program, *words], input=lines, capture_output=True, cwd=self.folder)

    def read(self, name: str) -> bytes:
        with open(f"{self.folder}/{name}", "rb") as file:
            return file.read()

    def names(self) -> list[str]:
        return sorted(name for name in os.listdir(self.folder) if name != "domain.sml")

    def renew(self) -> None:
        """The folder as it was before `next`."""
        for name in self.names():
            os.unlink(f"{self.folder}/{name}")
        with open(f"{self.folder}/log", "wb") as file:
            file.write(self.old)

    def next(self, *words: str) -> "subprocess.CompletedProcess[bytes]":
        return self.run("next", "domain.sml", "log", before=words)

    def resumed(self, lines: bytes) -> list[bytes]:
        """What a manager that resumes the log tells, but for how many entries there are."""
        done = self.run("live", "domain.sml", "--log", "log", "--in-turn", "--resume", lines=lines)
        told = [line for line in done.stdout.splitlines() if not line.startswith(b"stands ")]
        return told if done.returncode == 0 else [done.stderr]


def traced(place: Place) -> list[Call]:
    """The system calls of `next`, in their order, but for the first, which begins the program."""
    trace = f"{place.folder}/trace"
    done = place.next("strace", "-f", "-o", trace)
    if done.returncode or done.stdout != b"log.1\n":
        raise SystemExit(f"next ended with {done.returncode} under strace: {done.stdout!r}, {done.stderr!r}")
    calls: list[Call] = []
    counts: collections.Counter[str] = collections.Counter()
    is_own = False
    with open(trace, encoding="utf-8", errors="replace") as file:
        for line in file:
            if found := CALL.match(line):
                counts[found[1]] += 1
                is_own = is_own or found[1] in FILE_CALLS and '"domain.sml"' in found[2]
                calls.append(Call(found[1], counts[found[1]], found[2], is_own))
    return calls[1:]


class Wrong(Exception):
    """What is wrong after a call."""


def look(place: Place, new: bytes) -> bool:
    """Looks at what `next` left, however it ended. Whether the log is the new one."""
    log = place.read("log")
    if log not in (place.old, new):
        raise Wrong(f"the log is neither the old one nor the new one: {log!r}")
    if log == new and place.read("log.1") != place.old:
        raise Wrong("the old log has no name")
    if any(place.read(name) != place.old for name in place.names() if re.fullmatch(r"log\.\d+", name)):
        raise Wrong(f"other logs are there: {place.names()}")
    return log == new


def go_on(place: Place, is_new: bool) -> None:
    """Begins the next log again, and resumes it."""
    had = "log.1" in place.names()
    done = place.next()
    name = "log.2" if had else "log.1"
    if done.returncode or done.stdout != f"{name}\n".encode():
        raise Wrong(f"next ended with {done.returncode} the second time: {done.stdout!r}, {done.stderr!r}")
    told = place.resumed(b"")
    if told != place.stood:
        raise Wrong(f"it stands otherwise: {told!r}")
    if place.resumed(ASKED)[-1] != b"once A 1 past ended":
        raise Wrong(f"the request of A is not known: {place.resumed(ASKED)[-1]!r}")
    if "log.next" in place.names():
        raise Wrong("log.next is left")
    if not is_new and had and place.read("log.1") != place.read("log.2"):
        raise Wrong("log.1 and log.2 differ, which are one file")


def kill_at(place: Place, new: bytes, call: Call) -> bool:
    """Kills `next` before a call. Whether the log is the new one."""
    inject = f"inject={call.name}:signal=KILL:when={call.number}"
    place.next("strace", "-f", "-o", "/dev/null", "-e", inject)
    is_new = look(place, new)
    if not is_new and place.resumed(b"") != place.stood:
        raise Wrong("the old log is not resumed as before")
    go_on(place, is_new)
    return is_new


def fail_at(place: Place, new: bytes, call: Call) -> int:
    """Lets a call fail. The status with which `next` ended."""
    error = ERRORS.get(call.name, OTHER_ERROR)
    inject = f"inject={call.name}:error={error}:when={call.number}"
    done = place.next("strace", "-f", "-o", "/dev/null", "-e", inject)
    is_new = look(place, new)
    if done.returncode not in (0, 1):
        raise Wrong(f"it ended with {done.returncode}: {done.stderr!r}")
    if done.returncode == 0 and not is_new:
        raise Wrong(f"it ended with 0, and the log is the old one: {done.stdout!r}")
    # (where standard error itself cannot be written nothing is said)
    if done.returncode == 1 and not done.stderr and not call.given.startswith("2,"):
        raise Wrong("it ended with 1 and said nothing")
    if is_new and done.returncode and b"output fault\n" not in done.stderr:
        raise Wrong(f"the log is the new one, and it said {done.stderr!r}")
    go_on(place, is_new)
    return done.returncode


def crash_next(program: str) -> int:
    """Tries both at each call, and gives the status."""
    counts: collections.Counter[str] = collections.Counter()
    with tempfile.TemporaryDirectory() as folder:
        place = Place(program, folder)
        calls = traced(place)
        new = place.read("log")
        for call in calls:
            for kind in ["killed", "failed"] if call.is_own and call.name in FILE_CALLS else ["killed"]:
                place.renew()
                try:
                    if kind == "killed":
                        counts["killed with the new log" if kill_at(place, new, call) else "killed"] += 1
                    else:
                        counts[f"failed with {fail_at(place, new, call)}"] += 1
                except Wrong as found:
                    counts["wrong"] += 1
                    print(f"{kind} at {call.name} {call.number}, ({call.given[:60]}: {found}", flush=True)
    print(", ".join(f"{name}: {count}" for name, count in sorted(counts.items())))
    print(f"{len(calls)} system calls, {counts['wrong']} wrong")
    return 1 if counts["wrong"] else 0
