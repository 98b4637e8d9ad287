"""usage: links check FILE                   looks at a description and all its domains
       links run FILE [NODE..]              starts these nodes on this machine, or all, and starts each again
       links node FILE NODE                 one node, as a unit of systemd runs it
       links broker FILE FOLDER             writes mosquitto.conf, nats.conf, rights and passwords
       links keys FILE HOST..               makes certificates for the broker at HOST, all nodes and operators
       links units FILE FOLDER              writes units of systemd, a folder for each machine
       links look FILE NAME [SECONDS]       shows, as operator NAME, how all managers and links stand
       links ask FILE NAME NODE OBJECT ACTION [ARGS] [SECONDS]    asks as operator NAME, and tells what came of it
       links panel FILE NAME [PORT]         a page for a browser of this machine, as operator NAME

`links` is `python3 -m links` in the repository, and `smirun-links` where it was installed. FILE is the description of a
hierarchy (links/description.py says what stands in it). `look` listens for 5 seconds, and `ask` asks for 600 at most,
if SECONDS are not given. The status is 0 where it was done, 1 where something is refused or faulty or what was asked
for did not end, and 2 for a wrong command line.
"""
from __future__ import annotations

import os
import subprocess
import sys

from . import access, description
from .description import Hierarchy
from .domain import Refused, read_domain

# Of each command how many words it needs after FILE, and how many it may have.
WORDS = {"check": (0, 0), "run": (0, 10_000), "node": (1, 1), "broker": (1, 1), "keys": (1, 10_000), "units": (1, 1),
         "look": (1, 2), "ask": (4, 6), "panel": (1, 2)}


def check(hierarchy: Hierarchy, path: str) -> int:
    links = hierarchy.links()
    devices = sum(len(hierarchy.domain_of(name).devices) for name in hierarchy.managers) - len(links)
    print(f"{path} ok: {len(hierarchy.managers)} managers, {len(links)} links, {devices} devices")
    return 0


def nodes_of(hierarchy: Hierarchy, names: list[str]) -> list[str]:
    for name in names:
        if name.upper() not in hierarchy.managers:
            raise Refused(f"there is no manager {name.upper()}")
    return [name.upper() for name in names] or [*hierarchy.managers]


def seconds_of(word: str) -> float:
    try:
        seconds = float(word)
    except ValueError:
        seconds = -1.0
    if not 0 < seconds <= description.MOST_SECONDS:
        raise Refused(f"{word} is no number of seconds, more than 0 and at most a million")
    return seconds


def port_of(word: str) -> int:
    if not word.isdecimal() or not 1 <= int(word) <= 65535:
        raise Refused(f"{word} is no port")
    return int(word)


def write(command: str, hierarchy: Hierarchy, path: str, rest: list[str]) -> int:
    """The commands that write files."""
    if command == "broker":
        access.write_broker(hierarchy, rest[0])
    elif command == "keys":
        if not hierarchy.broker.ca:
            raise Refused(f"{path}: broker: there is no `ca`")
        access.make_certificates(hierarchy, rest)
    else:
        from .units import write_units
        print("\n".join(write_units(hierarchy, rest[0])))
    return 0


def ask(hierarchy: Hierarchy, rest: list[str]) -> int:
    from .people import ASKS, ask
    name, node, target, action, *more = rest
    arguments = more.pop(0) if more and more[0].startswith("(") else ""
    if len(more) > 1:
        raise Refused(f"{more[0]} is no list of arguments; one is (A = 1, B = \"x\")")
    return ask(hierarchy, name, node, (target, action, arguments), seconds_of(more[0]) if more else ASKS)


def run_command(command: str, path: str, rest: list[str]) -> int:
    reads = None if command in ("ask", "look", "keys", "broker", "units") else read_domain
    hierarchy = description.read(path, rest[0].upper() if command == "node" else "", reads)
    if command == "check":
        return check(hierarchy, path)
    if command in ("run", "node"):
        from .run import run, run_node
        return run_node(hierarchy, rest[0].upper()) if command == "node" else run(hierarchy, nodes_of(hierarchy, rest))
    if command == "ask":
        return ask(hierarchy, rest)
    if command == "look":
        from .people import look
        return look(hierarchy, rest[0], seconds_of(rest[1]) if rest[1:] else 5.0)
    if command == "panel":
        from .panel import serve
        return serve(hierarchy, rest[0].upper(), port_of(rest[1]) if rest[1:] else 0)
    return write(command, hierarchy, path, rest)


def main(words: list[str]) -> int:
    if {"--help", "-h"} & set(words):
        print(__doc__, end="")
        return 0
    least, most = WORDS.get(words[0], (1, 0)) if words else (1, 0)
    if not least <= len(words) - 2 <= most:
        print(__doc__, end="", file=sys.stderr)
        return 2
    try:
        return run_command(words[0], words[1], words[2:])
    except Refused as fault:
        print(fault, file=sys.stderr)
    except BrokenPipeError:
        os.dup2(os.open(os.devnull, os.O_WRONLY), 1)
    except OSError as fault:
        print(f"{fault.filename}: {fault.strerror}" if fault.filename else fault, file=sys.stderr)
    except subprocess.CalledProcessError as fault:
        print(f"{fault.cmd[0]} ended with status {fault.returncode}: {(fault.stderr or b'').decode().strip()}",
              file=sys.stderr)
    return 1


if __name__ == "__main__":
    sys.exit(main(sys.argv[1:]))
