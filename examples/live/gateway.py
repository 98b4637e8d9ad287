#!/usr/bin/env python3
"""Serves a manager to clients on a loopback TCP port: to six with a session of their own, and to 64 drivers.

usage: gateway.py FILE [--log PATH] [--port N] [--contact PATH] [--secret-file PATH] [--timeouts PATH]
                  [--operators PATH] [--holders PATH] [--pause SECONDS] [--first SECONDS]
                  [words of smirun live: --capacity C, --max-starts M, --sync]

It starts `smirun live FILE`, with --log through supervise.py, which starts it again where it is killed. It prints its
port and a secret, and writes both to --contact, a file that its user alone can read. The secret is made at each start;
with --secret-file it is the one in that file, which is made if it is not there, and it is not printed. A client sends
the secret as its first line. Each client has a session of its own, @1 to @6, the lowest that is free.

What a client may write, one line each, at most 8,192 bytes:

  request OBJECT ACTION [(NAME = VALUE, ..)]     the gateway puts the client's session in: request @3 OBJECT ..
  once K request OBJECT ACTION [(..)]            the same, for a request that is made once, whatever happens to its
                                                 answer: once S3 K request @3 OBJECT ..
  kill OBJECT                                    the session is put in: kill OBJECT @3
  answer OBJECT STATE, fault OBJECT              a device's driver; it has no session
  answer OBJECT STATE SENDER NUMBER              the same of a request, as its `start` names it: `= refused NotOpen`
  fault OBJECT SENDER NUMBER                     where the device has not this one in hand
  take OBJECT, release OBJECT, seize OBJECT      has OBJECT, and all that it commands, for this client alone; has it no
                                                 more; has it, whoever else has taken it
  ! remark                                       gets into the log; it has no answer, as a line of blanks alone
  ?                                              asks how all stands

What a client is told, one line each, with two bytes in front:

  # SENTENCE     of the gateway: the client's session at first; why it is turned away; what the manager complains of;
                 drivers, holders and times, as below
  = LINE         the answer to the oldest of its lines that has none yet; a line of none of these forms is answered
                 `= refused BadLine` by the gateway itself, and does not get into the log
  - LINE         any other line of the manager, but for the refusals of others' lines, and what was told to others of
                 requests that are made once
  ? LINE         how all stands, as the manager tells it, from `state ..` to `stands E`; `?` alone is its end. Who asks
                 again before it was told is told once. Where the manager tells nothing, it is `? not told` and `?`

At first a client is told by lines `-` how all stands, what open actions have `set`, and the `start` of what each
device has in hand; `# told` is the end of that. So what follows fits to it, and a driver that was started anew knows
what it has to do. Before `# told`, right after its session, stands `# last K` where the last K of the session is ahead
of the gateway's clock.

A driver's first line is `SECRET driver OBJECT..`, of names of devices, or beginnings of names and `*`. It is told at
first how all stands, then `# driver OBJECT..` with all that it drives, and of the manager's lines those that begin with
state, start, end or kill and one of these, `! restarted` and `! begun anew`; but no start of an action that the
object's state does not declare, since the manager skips it. It may answer for these alone, and request actions of these
alone (in session @7, which all drivers have); nobody else may answer for them. All are told

  # driver of OBJECT.. here           a driver has come
  # driver of OBJECT.. lost           it has gone
  # OBJECT ACTION: N s without an answer[, answered STATE]      as --timeouts says (see drivers.py for its lines)
  # log N %                           how full the log is, each time that another tenth is full
  # OBJECT is held by NAME, # OBJECT is held by nobody          as take, release and seize have it

A request of another to what NAME holds, or to what commands it, and a kill of it, are answered `= refused Held NAME`,
and what is not the client's to do `= refused NotYours`, by the gateway itself. With --operators, a file of lines `NAME
SECRET` that its user alone can read, whoever says such a secret is that operator; the others are called @1 to @6. What
operators have taken is kept in --holders. With --log the gateway writes, in front of a client's line, when it came and
of whom (see times.py).

K is a number in decimal, without a zero in front: the greater of the last K + 1 and the client's clock in microseconds
since 1970, so that numbers grow on where a session is lent again. The last K is at first that of the line `# last K`,
if there was one: a client before had a clock that was fast, or the machine's was set back. One that is more than an
hour ahead of the gateway's clock, and more than 1,000 after the session's last, is answered `= refused BadLine`: with a
clock for K all requests of the session's later clients would be old. The answer is `= once S3 K accept ..` or `= once
S3 K refused ..`; the line `accept ..` that the manager writes where it makes the request is told to all by `-`, to this
client too. After a line `once` nothing of its client is handed on until it has its answer.

Without the two bytes, `=` and `-` are what the manager wrote, in its order. Where it was killed and started again, `!
restarted` and how all stands come by `-`, and `= ! unanswered ..` is an answer: the line may have been made or not. But
a line `once` that the killed manager did not answer is asked again by the gateway, until there is the true answer: what
was made is not made twice. A last line without its line feed is not taken.

With --log the gateway outlives its manager: where supervise.py has ended, all are told `# the manager is away ..`, no
line is handed on, and it is started again after 1, 2, 4 .. 60 seconds (--pause is the first of them). It ends with the
manager where that ends by itself within five seconds of the first start (--first), or before it told anything (a wrong
domain or log), and where the log was moved, was written by another, or is gone. While a manager reads its log nobody is
told how all stands, and no line is handed on: both wait until it has told that, and what devices have in hand.
"""
from __future__ import annotations

import argparse
import os
import re
import secrets
import signal
import sys
import tempfile
from collections.abc import Callable
from typing import TypeVar

from domain import Domain
from drivers import Timeouts
from holders import Holders, Operators, read_own
from lines import HERE, PROGRAM
from serving import MOST_PAUSE, Gateway, Settings, Times

Made = TypeVar("Made")


def write_contact(path: str, gateway: Gateway) -> None:
    """Where the gateway is, and its secret, for this user's eyes alone."""
    if os.path.lexists(path):
        os.unlink(path)
    with os.fdopen(os.open(path, os.O_WRONLY | os.O_CREAT | os.O_EXCL, 0o600), "w") as file:
        file.write(f"127.0.0.1 {gateway.door.getsockname()[1]} {gateway.secret.decode()}\n")


def kept_secret(path: str) -> str:
    """The secret that a file keeps for this user's eyes alone; it is made, in one step, if it is not there."""
    if not os.path.lexists(path):
        descriptor, made = tempfile.mkstemp(dir=os.path.dirname(os.path.abspath(path)))
        with os.fdopen(descriptor, "w") as file:
            file.write(f"{secrets.token_hex(16)}\n")
        try:
            os.link(made, path)
        except FileExistsError:
            pass  # another has made it meanwhile
        finally:
            os.unlink(made)
    secret = read_own(path).strip()
    if not re.fullmatch("[!-~]{16,128}", secret):
        raise ValueError("a secret has 16 to 128 letters of ASCII, without blanks")
    return secret


def of_file(path: str | None, make: Callable[[str], Made]) -> Made | None:
    """What a file says; the program ends where it says something wrong."""
    try:
        return make(path) if path else None
    except (OSError, ValueError) as fault:  # (a UnicodeDecodeError is a ValueError)
        raise SystemExit(f"{path}: {getattr(fault, 'strerror', None) or fault}") from None


def text_of(path: str) -> str:
    with open(path, encoding="ascii") as file:
        return file.read()


def seconds(word: str) -> float:
    """ValueError, where a word is no time to wait for."""
    if not 0 < float(word) <= MOST_PAUSE:
        raise ValueError(word)
    return float(word)


def command_line() -> argparse.ArgumentParser:
    words = argparse.ArgumentParser(description=__doc__, formatter_class=argparse.RawDescriptionHelpFormatter,
                                    allow_abbrev=False)
    words.add_argument("file", metavar="FILE")
    words.add_argument("--log", metavar="PATH")
    words.add_argument("--port", type=int, default=0, help="0, if it is not given: one that is free")
    for name in ("contact", "secret-file", "timeouts", "operators", "holders"):
        words.add_argument(f"--{name}", metavar="PATH")
    for name, usual in vars(Times()).items():
        words.add_argument(f"--{name}", metavar="SECONDS", type=seconds, default=usual)
    return words


def settings_of(asked: argparse.Namespace, others: list[str]) -> Settings:
    domain = Domain(asked.file)
    live = [PROGRAM, "live", asked.file]
    if asked.log:
        live = [sys.executable, f"{HERE}/supervise.py", asked.file, asked.log]
    timeouts = of_file(asked.timeouts, lambda path: Timeouts(domain, text_of(path)))
    operators = of_file(asked.operators, lambda path: Operators(read_own(path)))
    holders = of_file(asked.holders, lambda path: Holders(domain, path))
    return Settings(live + others, domain, asked.port, of_file(asked.secret_file, kept_secret) or secrets.token_hex(16),
                    asked.log, timeouts or Timeouts(domain), operators or Operators(), holders or Holders(domain),
                    Times(asked.pause, asked.first))


def main() -> int:
    asked, others = command_line().parse_known_args()
    settings = settings_of(asked, others)
    try:
        gateway = Gateway(settings)
    except (OSError, OverflowError) as fault:
        raise SystemExit(f"port {asked.port}: {fault}") from None
    for number in (signal.SIGTERM, signal.SIGINT):
        signal.signal(number, gateway.leave)
    if asked.contact:
        write_contact(asked.contact, gateway)
    print(f"port {gateway.door.getsockname()[1]}", flush=True)
    if not asked.secret_file:
        print(f"secret {gateway.secret.decode()}", flush=True)
    status = gateway.run()
    return 128 - status if status < 0 else status


if __name__ == "__main__":
    sys.exit(main())
