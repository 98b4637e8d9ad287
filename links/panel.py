"""The panel over a hierarchy: one page, served on loopback, with the tree of managers and their objects, from topics
alone. What an operator may ask for has buttons: each request is asked for as `links ask` does it, and made once.

It prints the address of the page. The secret in it is made at each start: whoever has the address may command.
"""
from __future__ import annotations

import hmac
import http.server
import json
import os
import queue
import re
import secrets
import signal
import socket
import threading
import time
from collections.abc import Iterator
from typing import Any

from .asking import Asking
from .board import Board, asked_of, known_of
from .client import Client, end_with_its_thread
from .description import Hierarchy
from .domain import Refused
from .messages import read_alive, read_outcome
from .people import interrupt, topics_to_look_at

HERE = os.path.dirname(os.path.realpath(__file__))
PATIENCE, LIFE_SECONDS, LEAST_SECONDS = 10.0, 15.0, 0.25
MOST_CONNECTIONS, MOST_STREAMS, LONGEST_BODY = 48, 16, 8192
# A request that nobody answers is withdrawn after the first number of seconds, and that is told for the second.
ASKS, WITHDRAWS, AGAIN = 120.0, 6.0, 2.0


class Request:
    """What a page asks for, and what is said of it, line by line; nothing more after an empty one."""

    def __init__(self, node: str, asking: Asking) -> None:
        self.node, self.asking = node, asking
        self.begun = time.monotonic()
        self.again = 0.0
        self.said: queue.SimpleQueue[str] = queue.SimpleQueue()


class Looker(threading.Thread):
    """Hears what is told, and asks. At each manager one request is on its way at most: a topic has one command."""

    def __init__(self, hierarchy: Hierarchy, name: str) -> None:
        super().__init__(daemon=True)
        self.root, self.name_of = hierarchy.name, name
        self.board, self.lock = Board(hierarchy), threading.Condition()
        self.client = Client(hierarchy, name, topics_to_look_at(hierarchy))
        self.waiting: dict[str, list[Request]] = {}

    def run(self) -> None:
        next_look = 0.0
        while True:
            time.sleep(0.02)
            now = time.monotonic()
            came = self.client.take()
            with self.lock:
                for topic, payload in came:
                    self.hear(topic, payload, now)
                before = self.board.serial
                self.board.refresh(now, now >= next_look)
                next_look = now + 1.0 if now >= next_look else next_look
                self.ask_on(now)
                if self.board.serial != before:
                    self.lock.notify_all()

    def hear(self, topic: str, payload: bytes, now: float) -> None:
        self.board.hear(topic, payload, now)
        words = topic.split("/")
        if len(words) < 3:
            return
        alive = read_alive(payload) if words[2] == "alive" else None
        outcome = read_outcome(payload) if words[2:] == ["outcome", self.name_of] else None
        for request in self.waiting.get(words[1], [])[:1]:
            if said := request.asking.hear(alive, outcome):
                request.said.put(said)

    def ask(self, node: str, asking: Asking) -> Request:
        with self.lock:
            if found := self.board.seen.alive.get(node):
                asking.log = found[0].log
            request = Request(node, asking)
            self.waiting.setdefault(node, []).append(request)
            return request

    def ask_on(self, now: float) -> None:
        """The first request at each manager is told, until it is over; then comes the next."""
        for node, requests in self.waiting.items():
            if not requests:
                continue
            request, asking = requests[0], requests[0].asking
            is_withdrawn_long = asking.is_withdrawn and now > request.begun + ASKS + WITHDRAWS
            if asking.is_over() or is_withdrawn_long or asking.kind == "accepted" and len(requests) > 1:
                if not asking.is_over():
                    request.said.put("late" if asking.kind else "no answer; withdrawn")
                request.said.put("")
                requests.pop(0)
                continue
            if now > request.begun + ASKS and not asking.is_withdrawn:
                asking.is_withdrawn, request.again = True, 0.0
            command = asking.command()
            if command and now >= request.again and self.client.is_connected:
                self.client.publish(f"{self.root}/{node}/command/{self.name_of}", command.line())
                request.again = now + AGAIN

    def leave(self) -> None:
        """Withdraws what is still asked for, so that it is not done when nobody waits for it any more."""
        with self.lock:
            for node, requests in self.waiting.items():
                for request in requests[:1]:
                    request.asking.is_withdrawn = True
                    if command := request.asking.command():
                        self.client.publish(f"{self.root}/{node}/command/{self.name_of}", command.line())
            self.client.leave()

    def pictures(self, serial: int, seconds: float) -> tuple[int, dict[str, Any]]:
        with self.lock:
            self.lock.wait_for(lambda: self.board.serial > serial, seconds)
            return self.board.changed_since(serial)


class Page(http.server.BaseHTTPRequestHandler):
    """One request of a browser."""

    timeout = PATIENCE
    server: Server
    server_version, sys_version = "panel", ""

    def setup(self) -> None:
        super().setup()
        self.deadline = threading.Timer(PATIENCE, self.hang_up)
        self.deadline.daemon = True
        self.deadline.start()

    def finish(self) -> None:
        self.deadline.cancel()
        super().finish()

    def hang_up(self) -> None:
        try:
            self.connection.shutdown(socket.SHUT_RDWR)
        except OSError:
            pass

    def is_ours(self) -> bool:
        """Whether the request is one of our own page: by the name of the server, by where it comes from, and by the
        secret. A page of another origin knows no secret; a name that was bound anew to loopback is another Host."""
        host, origin = self.headers.get("Host", ""), self.headers.get("Origin")
        names = {f"{name}:{self.server.server_port}" for name in ("127.0.0.1", "localhost")}
        secret = self.path.partition("/")[2].partition("/")[0].encode("latin1", "replace")
        return (host in names and (origin is None or origin == f"http://{host}")
                and self.headers.get("Sec-Fetch-Site", "none") in ("none", "same-origin")
                and hmac.compare_digest(secret, self.server.secret.encode()))

    def do_GET(self) -> None:
        served = self.path.split("/")[2:]
        if not self.is_ours() or served not in ([""], ["events"]):
            self.reply(403, "text/plain", b"this is not yours\n")
        elif served == ["events"]:
            self.stream()
        else:
            nonce = secrets.token_hex(16)
            page = self.server.page.replace("%%NONCE%%", nonce)
            self.reply(200, "text/html; charset=utf-8", page.encode(), nonce)

    def do_POST(self) -> None:
        length = self.headers.get("Content-Length", "")
        if not self.is_ours() or self.path.split("/")[2:] != ["ask"]:
            self.reply(403, "text/plain", b"this is not yours\n")
        elif not re.fullmatch("[0-9]{1,5}", length) or int(length) > LONGEST_BODY:
            self.reply(413, "text/plain", b"too long\n")
        else:
            body = self.rfile.read(int(length))
            self.deadline.cancel()
            self.begin(200, "text/plain")
            self.end_headers()
            for said in self.answers(body):
                self.wfile.write(said.encode() + b"\n")

    def answers(self, body: bytes) -> Iterator[str]:
        """What is said of what a page asks, line by line as it comes."""
        try:
            node, asking = asked_of(self.server.hierarchy, self.server.looker.name_of, json.loads(body),
                                    time.time_ns())
        except (ValueError, KeyError, TypeError, AttributeError, RecursionError) as fault:
            yield f"not asked: {fault}"
            return
        yield "sent"
        request = self.server.looker.ask(node, asking)
        while said := request.said.get():
            yield said

    def reply(self, status: int, kind: str, body: bytes, nonce: str = "none") -> None:
        self.begin(status, kind, nonce)
        self.send_header("Content-Length", str(len(body)))
        self.end_headers()
        self.wfile.write(body)

    def begin(self, status: int, kind: str, nonce: str = "none") -> None:
        self.send_response(status)
        policy = f"default-src 'none'; connect-src 'self'; script-src 'nonce-{nonce}'; style-src 'nonce-{nonce}'"
        for name, value in (
            ("Content-Type", kind), ("Cache-Control", "no-store"), ("Referrer-Policy", "no-referrer"),
            ("X-Content-Type-Options", "nosniff"), ("Cross-Origin-Resource-Policy", "same-origin"),
            ("Content-Security-Policy", f"{policy}; base-uri 'none'; form-action 'none'; frame-ancestors 'none'"),
        ):
            self.send_header(name, value)

    def stream(self) -> None:
        """Pictures of managers, as they change. Who reads slowly gets fewer, and the newest each time."""
        if not self.server.streams.acquire(blocking=False):
            self.reply(503, "text/plain", b"too many look on already\n")
            return
        self.deadline.cancel()
        try:
            self.begin(200, "text/event-stream")
            self.end_headers()
            serial = 0
            while True:
                serial, pictures = self.server.looker.pictures(serial, LIFE_SECONDS)
                client = self.server.looker.client
                told = {"now": round(time.monotonic(), 1), "connected": client.is_connected, "managers": pictures,
                        "refusal": client.refusal}
                self.wfile.write(f"data: {json.dumps(told)}\n\n".encode())
                time.sleep(LEAST_SECONDS)
        except OSError:
            pass
        finally:
            self.server.streams.release()

    def log_message(self, *_: object) -> None:
        """Nothing: addresses have the secret in them."""


class Server(http.server.ThreadingHTTPServer):
    daemon_threads = True

    def __init__(self, port: int, hierarchy: Hierarchy, looker: Looker) -> None:
        super().__init__(("127.0.0.1", port), Page)
        self.hierarchy, self.looker, self.secret = hierarchy, looker, secrets.token_hex(16)
        self.streams, self.connections = threading.Semaphore(MOST_STREAMS), threading.Semaphore(MOST_CONNECTIONS)
        with open(f"{HERE}/panel.html", encoding="utf-8") as page:
            known = json.dumps(known_of(hierarchy, looker.name_of)).replace("<", "\\u003c")
            self.page = page.read().replace("%%KNOWN%%", known)

    def process_request(self, request: Any, client_address: Any) -> None:
        if self.connections.acquire(blocking=False):
            super().process_request(request, client_address)
        else:
            self.shutdown_request(request)

    def process_request_thread(self, request: Any, client_address: Any) -> None:
        try:
            super().process_request_thread(request, client_address)
        finally:
            self.connections.release()

    def handle_error(self, request: Any, client_address: Any) -> None:
        """Nothing: a browser that went away is no news."""


def serve(hierarchy: Hierarchy, name: str, port: int) -> int:
    if name not in hierarchy.operators:
        raise Refused(f"there is no operator {name}")
    looker = Looker(hierarchy, name)
    try:
        server = Server(port, hierarchy, looker)
    except (OSError, OverflowError) as fault:
        raise Refused(f"no panel: {fault}") from None
    end_with_its_thread(name)
    signal.signal(signal.SIGTERM, interrupt)
    looker.start()
    print(f"http://127.0.0.1:{server.server_port}/{server.secret}/", flush=True)
    try:
        server.serve_forever()
    except KeyboardInterrupt:
        looker.leave()
    return 0
