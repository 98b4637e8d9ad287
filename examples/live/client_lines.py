"""The lines of a gateway's clients, and what the manager gets of them."""
from __future__ import annotations

import re

from lines import LONGEST_LINE, has_answer

# How far the number of a request that is made once may be ahead of the clock, in microseconds; or else after the last
# one of its session, which is ahead of a clock that was set back.
MOST_AHEAD, MOST_AFTER = 3_600_000_000, 1000
NAME = rb"[A-Za-z][A-Za-z0-9_]*"
# An answer that names its request, as the `start` did: answer HV1 ON TRACKER 3.
OF_REQUEST = re.compile(rb"((?:answer %b |fault )%b) (@[1-8]|%b) ([0-9]{1,20})" % (NAME, NAME, NAME), re.I)
TAKE = re.compile(rb"[ \t\r]*(take|release|seize)[ \t\r]+(%b)[ \t\r]*(?:!.*)?" % NAME, re.I)
# Whom a line is for: the object of a request, a kill, an answer or a fault as the manager gets it.
OBJECT_OF = re.compile(rb"[ \t\r]*(?:once \w+ \d+ )?(request|kill|answer|fault)(?:[ \t\r]+@\d)?[ \t\r]+(%b)" % NAME,
                       re.I)
REQUEST = re.compile(rb"[ \t\r]*request(?![A-Za-z0-9_])(.*)", re.I)
KILL = re.compile(rb"[ \t\r]*kill[ \t\r]+(%b)[ \t\r]*(?:!.*)?" % NAME, re.I)
ANSWER = re.compile(rb"[ \t\r]*answer[ \t\r]+%b[ \t\r]+%b[ \t\r]*(?:!.*)?" % (NAME, NAME), re.I)
FAULT = re.compile(rb"[ \t\r]*fault[ \t\r]+%b[ \t\r]*(?:!.*)?" % NAME, re.I)
ONCE = re.compile(rb"once (0|[1-9][0-9]{0,19}) (.*)")
# A session and a number of its own, in a line that the manager gets, or in one of how all stands.
OF_SESSION = re.compile(rb"once S([1-8]) (0|[1-9][0-9]{0,19}) .*")
# What drivers write.
ANSWERS = ("answer", "fault")


class Numbers:
    """The last number that each session has asked for: by the lines that were handed on to the manager, and by what it
    tells where it goes on with a log. It may be ahead of the clock, since a client's was fast, or this one was set
    back; then what is asked for with a number by the clock is old."""

    def __init__(self) -> None:
        self.last: dict[int, int] = {}

    def take(self, line: bytes) -> None:
        if found := OF_SESSION.fullmatch(line):
            session = int(found[1])
            self.last[session] = max(int(found[2]), self.of(session))

    def of(self, session: int) -> int:
        return self.last.get(session, 0)


def with_session(line: bytes, session: int) -> bytes | None:
    """A client's request with its session, or None where it is no request."""
    found = REQUEST.fullmatch(line)
    return b"request @%d %b" % (session, found[1].strip(b" \t\r")) if found else None


def once_with_session(line: bytes, session: int, now: int, last: int) -> bytes | None:
    """A client's request that is made once, with the name of its session; None where it is none, or its number is of
    more than 64 bits or too far ahead of the clock and of the session's last one."""
    found = ONCE.fullmatch(line)
    if not found or int(found[1]) > min(max(now + MOST_AHEAD, last + MOST_AFTER), (1 << 64) - 1):
        return None
    request = with_session(found[2], session)
    return b"once S%d %b %b" % (session, found[1], request) if request else None


def for_manager(line: bytes, session: int, now: int, last: int = 0) -> bytes | None:
    """A client's line as the manager gets it, or None where it is none that a client may write; `now` is the clock, in
    microseconds since 1970, and `last` the last number of the session.

    The session stands where no comment and no other word of the client can hide it: directly after `request`, and
    after the one name of a `kill`, whose comment is left out. A client that writes a session writes one too many. A
    line that begins with `>` asks for another log, which no client may.
    """
    if len(line) > LONGEST_LINE or not line.isascii() or line.startswith(b">"):
        return None
    if not has_answer(line) or ANSWER.fullmatch(line) or FAULT.fullmatch(line):
        return line
    if found := KILL.fullmatch(line):
        return b"kill %b @%d" % (found[1], session)
    made = with_session(line, session) or once_with_session(line, session, now, last)
    return made if made and len(made) <= LONGEST_LINE else None


def object_of(made: bytes) -> tuple[str, str]:
    """What a line of a client is, and for which object: (`request`, HV1); nothing, where it is for none."""
    found = OBJECT_OF.match(made)
    return (found[1].decode().lower(), found[2].decode().upper()) if found else ("", "")


def request_of(line: bytes) -> tuple[bytes, tuple[str, str] | None]:
    """An answer without the request that it names, and this request, by its sender and number, if it names one."""
    found = OF_REQUEST.fullmatch(line)
    return (found[1], (found[2].decode().upper(), found[3].decode())) if found else (line, None)
