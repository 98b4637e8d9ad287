"""Lines of a manager, over pipes and sockets, and which of them answers what. examples/live uses it too."""
from __future__ import annotations

import collections
import os
import re


def program(named: str) -> str:
    """What SMIRUN names, by a path that holds in every folder; or else the program that is built in this repository."""
    if not named:
        return os.path.normpath(f"{os.path.dirname(os.path.realpath(__file__))}/../crates/smirun/out/smirun")
    return os.path.abspath(named) if os.sep in named else named


PROGRAM = program(os.environ.get("SMIRUN", ""))
# A line from outside has this many bytes at most, its line feed not counted; one of the manager has fewer than the
# second.
LONGEST_LINE, LONGEST_TOLD = 8192, 65536
# A pipe that is ready takes this much at once, and nobody waits for it (PIPE_BUF).
PIECE = 4096
# More than this must not wait to be written; else nothing more is read from whoever causes it.
MOST_WAITING = 65536
# What has no token: blanks, and a remark after them.
REMARK = re.compile(rb"[ \t\r]*(?:![\t\r\x20-\x7f]*)?")
# The first words of lines that a manager takes while it holds others.
NEVER_HELD = ([b"kill"], [b"answer"], [b"fault"])
# What a line is told that is not looked at; no request writes it.
NO_ANSWERS = (b"refused BadLine", b"refused Limit", b"refused Late")
# The mark of a request that is made once, and how one is asked for; both with the digits of its number.
MARK = re.compile(rb".* ! once [A-Z0-9_]{1,64} (0|[1-9][0-9]{0,19})", re.DOTALL)
ASKED_ONCE = re.compile(rb"once [A-Z0-9_]{1,64} (0|[1-9][0-9]{0,19}) ")


def is_of_64_bits(digits: bytes) -> bool:
    return int(digits) < 1 << 64


def has_mark(line: bytes) -> bool:
    """Whether a line ends with the mark that the manager puts after a request that is made once. From outside such a
    line is refused, also a remark."""
    found = MARK.fullmatch(line)
    return found is not None and is_of_64_bits(found[1])


def has_answer(line: bytes) -> bool:
    """Whether the manager answers a line from outside.

    It answers none without a token, and none that asks how all stands. A remark is refused, as a line of any other kind
    is, where it is too long, has a byte that no line may have, begins as a log does, or has the mark of a request.
    """
    if line.startswith(b"?"):
        return False
    if len(line) > LONGEST_LINE or line.startswith(b"! smirun live ") or not REMARK.fullmatch(line):
        return True
    return has_mark(line)


def asked_once(line: bytes) -> bytes:
    """The front `once NAME K ` of a line that asks for a request that is made once; nothing of any other line."""
    found = ASKED_ONCE.match(line)
    return found[0] if found and is_of_64_bits(found[1]) else b""


def is_once_answer(line: bytes) -> bool:
    """Whether a line that the manager wrote is `once NAME K ANSWER`. One of how all stands, which begins so too, has an
    object or `-` as its fourth word, and names of objects are in upper case."""
    words = line.split(b" ", 4)
    return words[0] == b"once" and words[3:4] in ([b"accept"], [b"refused"], [b"past"])


def is_plain_answer(line: bytes, devices: set[str]) -> bool:
    """Whether a line that the manager wrote answers a line from outside, if that asks for nothing once."""
    words = line.split(b" ", 3)
    if words[0] == b"end":
        return words[1].decode() in devices and words[2] != b"skipped"
    return words[0] in (b"accept", b"refused", b"kill")


def answers(told: bytes, asked: bytes, devices: set[str]) -> bool:
    """Whether a line that the manager wrote answers this line from outside, the oldest that has no answer yet.

    Each line from outside that has an answer has exactly one, and they come in the order of the lines. The manager's
    own steps, a start and a go, are never refused and never still. So of what it writes

      once NAME K ANSWER    answers `once NAME K ..`. Where the request is made, the line `accept ..` or `refused ..`
                            that it writes comes before this one, and is no answer
      refused BadLine       answers `once NAME K ..` too: no request writes it. So do `refused Limit` and `refused
                            Late`

    and where the oldest line asks for nothing once

      accept ..             answers a request
      refused ..            answers a line of any kind (`post .. refused ..` begins with another word)
      kill OBJECT @S        answers a kill
      kill OBJECT fault     answers a fault
      end OBJECT STATE      answers an `answer` exactly if OBJECT is associated: there only an `answer` ends an action,
                            and a go is refused. At any other object an answer is refused, and a go ends the action
      end OBJECT skipped    is of a start, at every object. Names are in upper case, so no state is called `skipped`

    and all else (start, post, set, wait, seen, insert, remove, empty; the lines of a standing at --resume, and the
    start lines that are told again after it) answers nothing. `! unanswered` is what supervise.py writes for a line
    whose answer the end of a manager has swallowed.
    """
    if told.startswith(b"! unanswered "):
        return True
    if front := asked_once(asked):
        return told in NO_ANSWERS or told.startswith(front) and is_once_answer(told)
    return is_plain_answer(told, devices)


def is_held(line: bytes) -> bool:
    """Whether a manager holds a line from outside back, while it hands over from one log to the next."""
    return [word.lower() for word in line.split(None, 1)[:1]] not in NEVER_HELD


class Asked:
    """The lines from outside that have no answer yet, in their order.

    Where a manager hands over from one log to the next, it holds lines back, from `! holds` to `! goes on` or `! begun
    anew`: all but those that begin with `kill`, `answer` or `fault`. Meanwhile these alone are answered.
    """

    def __init__(self) -> None:
        self.lines: collections.deque[bytes] = collections.deque()
        self.holds = False

    def put(self, line: bytes) -> None:
        if has_answer(line):
            self.lines.append(line)

    def answered_by(self, told: bytes, devices: set[str]) -> bytes | None:
        """The line that this one answers; it is taken out."""
        if told.startswith(b"! "):
            self.holds = told == b"! holds" if told in (b"! holds", b"! goes on", b"! begun anew") else self.holds
        for place, line in enumerate(self.lines):
            if self.holds and is_held(line):
                continue
            if not answers(told, line, devices):
                return None
            del self.lines[place]
            return line
        return None


class Inlet:
    """Cuts what comes from a descriptor into lines."""

    def __init__(self, descriptor: int, longest: int = LONGEST_LINE) -> None:
        self.descriptor, self.longest, self.rest, self.has_ended = descriptor, longest, b"", False

    def read(self) -> list[bytes]:
        """The lines that have come. What stands after the last line feed is kept, at the end too."""
        try:
            got = os.read(self.descriptor, 65536)
        except BlockingIOError:
            return []
        except OSError:
            got = b""
        if not got:
            self.has_ended = True
            return []
        *lines, self.rest = (self.rest + got).split(b"\n")
        # Of a line that is too long as much is kept as shows that it is.
        self.rest = self.rest[:self.longest + 1]
        return lines


class Outlet:
    """Lines that wait to be written to a descriptor.

    What is written at once are whole lines, as many as a pipe takes in one piece: so whoever ends between two writes
    has cut no line. Of a line that is longer than a piece, pieces are written; a manager refuses one that is cut.
    """

    def __init__(self, descriptor: int) -> None:
        self.descriptor, self.waiting, self.is_broken = descriptor, bytearray(), False
        # Whether a piece of the first line that waits has been written.
        self.is_within = False

    def put(self, line: bytes) -> None:
        self.waiting += line + b"\n"

    def piece(self) -> bytes:
        """What is to be written next."""
        if self.is_within:
            return bytes(self.waiting[:self.waiting.index(b"\n") + 1][:PIECE])
        return bytes(self.waiting[:self.waiting.rfind(b"\n", 0, PIECE) + 1] or self.waiting[:PIECE])

    def write(self) -> bool:
        """Writes a piece. It is called where the descriptor is ready, so that a pipe does not hold it up. Whether more
        may be written."""
        piece = self.piece()
        try:
            done = os.write(self.descriptor, piece)
        except BlockingIOError:
            return False
        except OSError:
            self.is_broken = True
            self.waiting.clear()
            return False
        if done:
            self.is_within = self.waiting[done - 1:done] != b"\n"
        del self.waiting[:done]
        return bool(self.waiting) and done == len(piece)

    def close(self) -> None:
        """Its descriptor was closed, and its number may come to be that of another file: nothing more is written."""
        self.descriptor, self.is_broken = -1, True
        self.waiting.clear()

    def is_full(self) -> bool:
        return len(self.waiting) > MOST_WAITING
