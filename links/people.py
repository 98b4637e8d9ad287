"""What people ask at a terminal: `ask` asks for an action as an operator, `look` shows the tree of managers."""
from __future__ import annotations

import signal
import sys
import time

from .asking import Asking, asking_of
from .client import Client, end_with_its_thread
from .description import Hierarchy
from .domain import Refused
from .messages import read_alive, read_outcome
from .seen import Seen, tree_of

# How long is asked, and how long a withdrawal is told before it is left to the broker.
ASKS, WITHDRAWS, AGAIN = 600.0, 4.0, 2.0
# After this many seconds without the broker it is said that it is not there.
PATIENCE = 5.0


class Connection:
    """What people are told of the connection: a refusal ends all, and that the broker is not there is said once."""

    def __init__(self, client: Client) -> None:
        self.client, self.says_at = client, time.monotonic() + PATIENCE

    def check(self) -> None:
        if self.client.refusal:
            raise Refused(f"the broker does not let {self.client.name} in: {self.client.refusal}")
        if self.client.is_connected:
            self.says_at = float("inf")
        elif time.monotonic() > self.says_at:
            self.says_at = float("inf")
            print(f"{self.absence()}; waiting", file=sys.stderr, flush=True)

    def absence(self) -> str:
        host, port = self.client.at
        return f"the broker at {host}, port {port}, is not there"


def interrupt(*_: object) -> None:
    raise KeyboardInterrupt


def ask(hierarchy: Hierarchy, name: str, at: str, words: tuple[str, str, str], seconds: float = ASKS) -> int:
    """An operator asks once: `words` are object, action and arguments. Ctrl-C, and a signal to end, withdraw what was
    asked."""
    name, at = name.upper(), at.upper()
    asking = asking_of(hierarchy, name, at, words, time.time_ns())
    root = f"{hierarchy.name}/{at}"
    topic = f"{root}/command/{name}"
    end_with_its_thread(name)
    signal.signal(signal.SIGTERM, interrupt)
    client = Client(hierarchy, name, [f"{root}/alive", f"{root}/outcome/{name}"])
    try:
        ask_until(client, topic, asking, seconds)
    except KeyboardInterrupt:
        asking.is_withdrawn = True
        command = asking.command()
        client.leave(topic if command else "", command.line() if command else "")
        print("withdrawn, if it was not accepted yet" if command else "not asked", file=sys.stderr)
        return 130
    client.leave()
    if not asking.is_over():
        print("no answer: it was accepted, and is late" if asking.kind else
              "no answer; it is withdrawn, if the broker is there", file=sys.stderr)
    return 0 if asking.kind == "ended" else 1


def ask_until(client: Client, topic: str, asking: Asking, seconds: float) -> None:
    """Asks until an outcome is told. Who gives up withdraws what was asked, so that it is not done when nobody waits
    for it any more."""
    begun, again, told, withdrawn = time.monotonic(), 0.0, None, 0.0
    node, connection = topic.split("/")[1], Connection(client)
    while not asking.is_over() and (not withdrawn or time.monotonic() < withdrawn + WITHDRAWS):
        time.sleep(0.01)
        connection.check()
        for heard, payload in client.take():
            said = asking.hear(read_alive(payload) if heard.endswith("/alive") else None, read_outcome(payload))
            if said:
                print(f"{node}.{asking.target} {said}", flush=True)
        now = time.monotonic()
        if now > begun + seconds and not withdrawn:
            asking.is_withdrawn, withdrawn, told = True, now, None
        command = asking.command()
        if command and client.is_connected and (command != told or now > again):
            client.publish(topic, command.line())
            told, again = command, now + AGAIN


def topics_to_look_at(hierarchy: Hierarchy) -> list[str]:
    return [f"{hierarchy.name}/+/{what}" for what in ("alive", "state/+", "command/+", "outcome/+")]


def look(hierarchy: Hierarchy, name: str, seconds: float) -> int:
    """Shows how all managers and their objects stand, by what is heard in some seconds."""
    name = name.upper()
    if name not in hierarchy.operators:
        raise Refused(f"there is no operator {name}")
    end_with_its_thread(name)
    client, seen = Client(hierarchy, name, topics_to_look_at(hierarchy)), Seen()
    ends, connection = time.monotonic() + seconds, Connection(client)
    while time.monotonic() < ends:
        time.sleep(0.02)
        connection.check()
        for topic, payload in client.take():
            seen.hear(topic, payload, time.monotonic())
    if not client.is_connected and not seen.alive:
        raise Refused(connection.absence())
    client.leave()
    print("\n".join(tree_of(hierarchy, seen, time.monotonic())))
    return 0
