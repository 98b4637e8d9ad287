"""The broker's client: registers that it sets again whenever it is connected, and messages that came."""
from __future__ import annotations

import os
import socket
import subprocess
import sys
import threading
from collections.abc import Iterable
from typing import Any

from .description import Hierarchy
from .domain import Refused

DEBIANS = "/usr/bin/python3"


def not_found(python: str) -> str:
    """What is said where a Python does not find the client: most often it is not Debian's, which does."""
    words = [DEBIANS, "-c", "import paho.mqtt.client"]
    try:
        has_it = subprocess.run(words, stderr=subprocess.DEVNULL).returncode == 0
    except OSError:
        has_it = False
    hint = f"{DEBIANS} finds it" if has_it else f"apt-get install python3-paho-mqtt, and call it by {DEBIANS}"
    return f"{python} does not find paho.mqtt: {hint}"


try:
    import paho.mqtt.client as mqtt
except ModuleNotFoundError:
    raise SystemExit(not_found(sys.executable)) from None

KEEPALIVE = 10


def client_of(name: str) -> Any:
    """paho 2 (Debian 13) wants the version of its callbacks first."""
    make: Any = mqtt.Client
    if hasattr(mqtt, "CallbackAPIVersion"):
        return make(mqtt.CallbackAPIVersion.VERSION1, client_id=name, clean_session=True)
    return make(client_id=name, clean_session=True)


def prove_who_it_is(client: Any, hierarchy: Hierarchy, name: str) -> None:
    """By a certificate, or by a secret."""
    broker, keys = hierarchy.broker, hierarchy.beside(hierarchy.broker.keys)
    try:
        if broker.ca:
            client.tls_set(hierarchy.beside(broker.ca), f"{keys}/{name}.crt", f"{keys}/{name}.key")
        elif broker.passwords:
            with open(os.path.join(hierarchy.beside(broker.passwords), name), encoding="ascii") as file:
                client.username_pw_set(name, file.read().strip())
    except (OSError, ValueError) as fault:
        what = "certificate" if broker.ca else "secret"
        raise Refused(f"{name} has no {what} that can be read ({fault}): see `links keys` and `links broker`") from None


class Client:
    def __init__(self, hierarchy: Hierarchy, name: str, subscriptions: list[str],
                 will: tuple[str, str] | None = None) -> None:
        # Of each topic what came last and was not looked at: a flood on one topic takes no room, and holds up no other.
        self.came: dict[str, bytes] = {}
        self.mutex = threading.Lock()
        self.name, self.subscriptions, self.is_connected = name, subscriptions, False
        # What the broker said where it did not let this name in.
        self.refusal = ""
        self.wake, self.waker = os.pipe2(os.O_NONBLOCK | os.O_CLOEXEC)
        self.client = client_of(f"{hierarchy.name}-{name}")
        if will:
            self.client.will_set(*will, qos=1, retain=True)
        prove_who_it_is(self.client, hierarchy, name)
        self.client.on_connect, self.client.on_disconnect = self.connected, self.disconnected
        self.client.on_subscribe = lambda *_: self.hand("", b"subscribed")
        self.client.on_message = lambda _client, _data, message: self.hand(message.topic, message.payload)
        # Without it each small message waits up to 40 ms for the receipt of the one before.
        self.client.on_socket_open = lambda _client, _data, link: link.setsockopt(
            socket.IPPROTO_TCP, socket.TCP_NODELAY, 1)
        self.client.reconnect_delay_set(1, 4)
        self.client.max_inflight_messages_set(1000)
        self.at = (hierarchy.broker.host, port_of(hierarchy))
        self.client.connect_async(*self.at, keepalive=KEEPALIVE)
        self.client.loop_start()

    def hand(self, topic: str, payload: bytes) -> None:
        with self.mutex:
            is_first = not self.came
            self.came.pop(topic, None)
            self.came[topic] = payload
        if is_first:
            try:
                os.write(self.waker, b"x")
            except OSError:
                pass

    def connected(self, client: Any, _data: Any, _flags: Any, code: int) -> None:
        if code == 0:
            self.refusal = ""
            client.subscribe([(topic, 1) for topic in self.subscriptions])
            self.hand("", b"connected")
        else:
            self.refusal = mqtt.connack_string(code)

    def disconnected(self, *_: Any) -> None:
        self.hand("", b"disconnected")

    def publish(self, topic: str, line: str) -> None:
        """Sets a register. Where the broker is away nothing waits: who calls sets all again when it is back."""
        if self.is_connected:
            self.client.publish(topic, line, qos=1, retain=True)

    def publish_all(self, registers: Iterable[tuple[str, str]]) -> None:
        for topic, line in registers:
            self.publish(topic, line)

    def take(self) -> list[tuple[str, bytes]]:
        """What came. The word of the connection itself has an empty topic."""
        try:
            os.read(self.wake, 65536)
        except BlockingIOError:
            pass
        with self.mutex:
            taken, self.came = self.came, {}
        if link := taken.get(""):
            self.is_connected = link != b"disconnected"
        return [*taken.items()]

    def leave(self, topic: str = "", line: str = "") -> None:
        """Ends the connection; with a last word, if there is one."""
        if topic and self.is_connected:
            try:
                self.client.publish(topic, line, qos=1, retain=True).wait_for_publish(1.0)
            except (RuntimeError, ValueError):
                pass  # the connection was cut right now
        self.client.disconnect()
        self.client.loop_stop()
        os.close(self.wake)
        os.close(self.waker)


def port_of(hierarchy: Hierarchy) -> int:
    """The broker's port; or that of what was put in front of it, which LINKS_PORT names."""
    named = os.environ.get("LINKS_PORT", "")
    if named and not named.isdecimal():
        raise Refused(f"LINKS_PORT is {named}, which is no port")
    return int(named or hierarchy.broker.port)


def end_with_its_thread(name: str) -> None:
    """The thread of the client may end by a fault of TLS, and would stay away: so the program ends with it, in a line.
    A node is started again."""
    def end(fault: threading.ExceptHookArgs) -> None:
        print(f"{name}: {fault.exc_type.__name__}: {fault.exc_value}", file=sys.stderr, flush=True)
        os._exit(1)

    threading.excepthook = end
