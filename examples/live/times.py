"""Times in a log: remarks that say when a line came, and of whom. `gateway.py` writes them.

Such a remark is `! 2026-11-29T03:12:07Z @3 anna`: the time is UTC, then comes the session, and then the name, if the
client has one; of a driver `driver` stands in their place, and the first device that it drives; of an answer that
--timeouts gives, `timeouts`. It stands in front of the first line of a client, and again where the second or the client
is another than in the last one.
"""
from __future__ import annotations

import re
import time

FORM = re.compile(r"! (\d{4}-\d\d-\d\dT\d\d:\d\d:\d\dZ) ((?:@[1-8]|driver|timeouts)(?: .*)?)")


def is_time(line: bytes) -> bool:
    """Whether a line would be read as a remark of a gateway, whatever blanks stand in it. No client may write one."""
    return bool(FORM.match(" ".join(line.decode("latin1").split())))


class Times:
    """The last remark that was written."""

    def __init__(self) -> None:
        self.last = ""

    def remark(self, seconds: float, who: str) -> bytes | None:
        """The remark in front of a line that comes now, if one is needed."""
        remark = f"! {time.strftime('%Y-%m-%dT%H:%M:%SZ', time.gmtime(seconds))} {who}"
        if remark == self.last:
            return None
        self.last = remark
        return remark.encode("ascii")


def read(line: str) -> tuple[str, str] | None:
    """The time and the client of a remark; nothing of any other line."""
    found = FORM.fullmatch(line)
    return (found[1], found[2]) if found else None
