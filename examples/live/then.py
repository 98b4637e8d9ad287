#!/usr/bin/env python3
"""Tells how all stood at a time, of a log in which a gateway wrote when lines came (times.py).

usage: then.py FILE LOG TIME [WORDS of smirun states]

TIME is HH:MM, HH:MM:SS, or one of these after a date and a blank or T, as 2026-11-29T03:12; it is UTC. Without a date
it is the last such time of the log; without seconds, the end of that minute. What is told is what `smirun states FILE
--log` tells of the lines of the log before the first that came later; before it stands a line of when the last of them
came, and of whom.
"""
from __future__ import annotations

import argparse
import re
import subprocess
import sys
import tempfile

from lines import PROGRAM
from times import read

TIME = re.compile(r"(?:(\d{4}-\d\d-\d\d)[ T])?((?:[01]\d|2[0-3]):[0-5]\d)(?::([0-5]\d))?Z?")


def cut(lines: list[str], wanted: str) -> tuple[int, str]:
    """How many lines came up to a time, and the last remark before them. ValueError where there is none."""
    found = TIME.fullmatch(wanted)
    if not found:
        raise ValueError(f"{wanted} is no time: HH:MM, HH:MM:SS, or a date and T in front")
    date, clock = found[1], f"{found[2]}:{found[3] or '59'}"
    stamps = [(number, one[0].rstrip("Z"), one[1]) for number, line in enumerate(lines) if (one := read(line))]
    if not stamps:
        raise ValueError("the log has no times")
    if date is None:
        # The last such time that the log has got to; where it has got to none, that of its last day.
        days = [stamp[:10] for _, stamp, _ in stamps]
        date = next((day for day in reversed(days) if f"{day}T{clock}" <= stamps[-1][1]), days[-1])
    upto = f"{date}T{clock}"
    before = [one for one in stamps if one[1] <= upto]
    if not before:
        raise ValueError(f"the first time in the log is {stamps[0][1]}Z")
    later = next((number for number, stamp, _ in stamps if stamp > upto), len(lines))
    return later, f"{before[-1][1]}Z {before[-1][2]}"


def main() -> int:
    words = argparse.ArgumentParser(description=__doc__, formatter_class=argparse.RawDescriptionHelpFormatter,
                                    allow_abbrev=False)
    for name in ("file", "log", "time"):
        words.add_argument(name, metavar=name.upper())
    asked, others = words.parse_known_args()
    try:
        with open(asked.log, encoding="latin1", newline="\n") as text:
            lines = text.read().split("\n")[:-1]
        count, last = cut(lines, asked.time)
    except (OSError, ValueError) as fault:
        print(f"{asked.log}: {getattr(fault, 'strerror', None) or fault}", file=sys.stderr)
        return 1
    print(f"! {last}: line {count} of the log", flush=True)
    with tempfile.NamedTemporaryFile("w", encoding="latin1", newline="\n", suffix=".log") as part:
        part.writelines(f"{line}\n" for line in lines[:count])
        part.flush()
        try:
            return subprocess.run([PROGRAM, "states", asked.file, "--log", part.name, *others]).returncode
        except OSError as fault:
            print(f"{PROGRAM}: {fault.strerror}. Build it, or name it: SMIRUN=PATH", file=sys.stderr)
            return 1


if __name__ == "__main__":
    sys.exit(main())
