"""Nodes on this machine, as processes: each is a fork of one program that has read everything once."""
from __future__ import annotations

import os
import signal
import sys
import time
import traceback
from collections.abc import Iterable

from .client import end_with_its_thread
from .description import Hierarchy
from .domain import Refused
from .node import Node

AGAIN = 1.0
PATIENCE = 12.0


def run_node(hierarchy: Hierarchy, name: str) -> int:
    end_with_its_thread(name)
    Node(hierarchy, name).run()
    return 0


def fork_node(hierarchy: Hierarchy, name: str) -> int:
    sys.stdout.flush()
    sys.stderr.flush()
    if number := os.fork():
        return number
    status = 1
    try:
        os.setsid()
        signal.pthread_sigmask(signal.SIG_SETMASK, [])
        status = run_node(hierarchy, name)
    except (OSError, Refused) as fault:
        print(f"{name}: {fault}", file=sys.stderr)
    except BaseException:  # noqa: B902 (whatever it is, this process must not go on as its parent)
        traceback.print_exc()
    finally:
        sys.stderr.flush()
        os._exit(status)


def run(hierarchy: Hierarchy, names: Iterable[str]) -> int:
    """Starts nodes, and each again where it ends, a second later at the earliest."""
    waited = {signal.SIGCHLD, signal.SIGTERM, signal.SIGINT}
    signal.pthread_sigmask(signal.SIG_BLOCK, waited)
    nodes: dict[int, str] = {}
    due = dict.fromkeys(names, 0.0)
    while True:
        now = time.monotonic()
        for name in [name for name, time_of in due.items() if time_of <= now]:
            nodes[fork_node(hierarchy, name)] = name
            due[name] = float("inf")
        next_time = min(due.values())
        found = signal.sigtimedwait(waited, 60.0 if next_time == float("inf") else max(next_time - now, 0.01))
        if found is not None and found.si_signo != signal.SIGCHLD:
            return end(nodes)
        for number, _ in ended(nodes):
            due[nodes.pop(number)] = time.monotonic() + AGAIN


def ended(nodes: dict[int, str]) -> list[tuple[int, int]]:
    found = []
    for number in [*nodes]:
        done, status = os.waitpid(number, os.WNOHANG)
        if done:
            found.append((number, status))
    return found


def end(nodes: dict[int, str]) -> int:
    """Ends the nodes that run, and waits for them."""
    for number in nodes:
        os.kill(number, signal.SIGTERM)
    worst, ends = 0, time.monotonic() + PATIENCE
    while nodes:
        for number, status in ended(nodes):
            nodes.pop(number)
            worst = max(worst, os.waitstatus_to_exitcode(status) & 0xFF)
        if time.monotonic() > ends:
            for number in nodes:
                os.kill(number, signal.SIGKILL)
        time.sleep(0.02)
    return worst
