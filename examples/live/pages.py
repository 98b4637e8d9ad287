"""The pages of a panel, served on loopback: who has the secret of its address may look on, and ask."""
from __future__ import annotations

import hmac
import http.server
import json
import os
import re
import secrets
import threading
import time
from collections.abc import Iterator
from typing import Any

from connections import shut
from domain import Domain
from lines import HERE
from metrics import lines_of
from panel_client import Manager
from view import tree_of

# Between two pictures at least; and after this many seconds a sign of life, where nothing has changed.
LEAST_SECONDS, LIFE_SECONDS = 0.1, 5.0
# A request has come whole within this many seconds, or it is cut off; so is one that does not read.
PATIENCE = 10.0
MOST_CONNECTIONS, MOST_STREAMS, LONGEST_BODY = 48, 16, 8192
HOLDS = ("take", "release", "seize")


def line_of(domain: Domain, asked: dict[str, Any]) -> str:
    """The line for the gateway of what a page asks; ValueError where the domain has no such thing."""
    name, action, arguments = asked["object"], asked.get("action"), asked.get("arguments", {})
    if name not in domain.objects:
        raise ValueError("no such object")
    if asked.get("deed") in HOLDS:
        return f"{asked['deed']} {name}"
    if action is None:
        return f"kill {name}"
    kinds = [actions[action] for actions in domain.classes[domain.objects[name]].states.values() if action in actions]
    if not kinds:
        raise ValueError("no such action")
    given = ", ".join(f"{word} = {value_of(kind, arguments[word])}"
                      for kind, word, _ in kinds[0] if word in arguments)
    return f"request {name} {action}" + (f" ({given})" if given else "")


def value_of(kind: str, value: object) -> str:
    """A value as a line has it."""
    form = r"-?[0-9]{1,19}" if kind == "int" else r'[ !#-~]{0,255}'
    if not isinstance(value, str) or not re.fullmatch(form, value):
        raise ValueError("a whole number, please" if kind == "int" else 'at most 255 letters of ASCII, without "')
    return value if kind == "int" else f'"{value}"'


class Page(http.server.BaseHTTPRequestHandler):
    """One request of a browser."""

    server: Server
    timeout = PATIENCE
    server_version, sys_version = "panel", ""

    def setup(self) -> None:
        super().setup()
        self.deadline = threading.Timer(PATIENCE, self.hang_up)
        self.deadline.daemon = True
        self.deadline.start()

    def finish(self) -> None:
        self.deadline.cancel()
        super().finish()

    def hang_up(self) -> None:
        shut(self.connection)

    def is_ours(self) -> bool:
        """Whether the request is one of our own page: by the name of the server, by where it comes from, and by the
        secret. A page of another origin knows no secret; a name that was bound anew to loopback is another Host."""
        host, origin = self.headers.get("Host", ""), self.headers.get("Origin")
        names = {f"{name}:{self.server.server_port}" for name in ("127.0.0.1", "localhost")}
        secret = self.path.partition("/")[2].partition("/")[0].encode("latin1", "replace")
        return (host in names and (origin is None or origin == f"http://{host}")
                and self.headers.get("Sec-Fetch-Site", "none") in ("none", "same-origin")
                and hmac.compare_digest(secret, self.server.secret.encode()))

    def do_GET(self) -> None:
        served = self.path.split("/")[2:]
        if not self.is_ours() or served not in ([""], ["events"], ["healthz"], ["metrics"]):
            self.reply(403, "text/plain", b"this is not yours\n")
        elif served == ["healthz"]:
            self.tell_health()
        elif served == ["metrics"]:
            with self.server.manager.changed:
                lines = [*lines_of(self.server.manager.view, time.time())]
            self.reply(200, "text/plain; version=0.0.4", "".join(f"{line}\n" for line in lines).encode())
        elif served == ["events"]:
            self.stream()
        else:
            nonce = secrets.token_hex(16)
            page = self.server.page.replace("%%NONCE%%", nonce)
            self.reply(200, "text/html; charset=utf-8", page.encode(), nonce)

    def tell_health(self) -> None:
        """Whether all is well; a start again of the manager, and no more, is well."""
        with self.server.manager.changed:
            wrongs = self.server.manager.view.wrongs(time.time())
        found = [wrong.sentence for wrong in wrongs if wrong.kind != "restarted"]
        text = "".join(f"{one}\n" for one in found or ["well"])
        self.reply(503 if found else 200, "text/plain; charset=utf-8", text.encode())

    def do_POST(self) -> None:
        length = self.headers.get("Content-Length", "")
        if not self.is_ours() or self.path.split("/")[2:] != ["ask"]:
            self.reply(403, "text/plain", b"this is not yours\n")
        elif not re.fullmatch("[0-9]{1,5}", length) or int(length) > LONGEST_BODY:
            self.reply(413, "text/plain", b"too long\n")
        else:
            body = self.rfile.read(int(length))
            self.deadline.cancel()
            self.begin(200, "text/plain")
            self.end_headers()
            for said in self.answers(body):
                self.wfile.write(said.encode() + b"\n")

    def answers(self, body: bytes) -> Iterator[str]:
        """What is said of what a page asks, line by line as it comes."""
        try:
            line = line_of(self.server.manager.domain, json.loads(body))
        except (ValueError, KeyError, TypeError, AttributeError, RecursionError) as fault:
            yield f"not asked: {fault}"
            return
        yield from self.server.manager.ask(line)

    def reply(self, status: int, kind: str, body: bytes, nonce: str = "none") -> None:
        self.begin(status, kind, nonce)
        self.send_header("Content-Length", str(len(body)))
        self.end_headers()
        self.wfile.write(body)

    def begin(self, status: int, kind: str, nonce: str = "none") -> None:
        self.send_response(status)
        policy = f"default-src 'none'; connect-src 'self'; script-src 'nonce-{nonce}'; style-src 'nonce-{nonce}'"
        for name, value in (
            ("Content-Type", kind), ("Cache-Control", "no-store"), ("Referrer-Policy", "no-referrer"),
            ("X-Content-Type-Options", "nosniff"), ("Cross-Origin-Resource-Policy", "same-origin"),
            ("Content-Security-Policy", f"{policy}; base-uri 'none'; form-action 'none'; frame-ancestors 'none'"),
        ):
            self.send_header(name, value)

    def stream(self) -> None:
        """Pictures, one after another as things change. Who reads slowly gets fewer, and the newest each time."""
        if not self.server.streams.acquire(blocking=False):
            self.reply(503, "text/plain", b"too many look on already\n")
            return
        self.deadline.cancel()
        try:
            self.begin(200, "text/event-stream")
            self.end_headers()
            while True:
                count, picture = self.server.manager.picture()
                self.wfile.write(f"data: {json.dumps(picture)}\n\n".encode())
                time.sleep(LEAST_SECONDS)
                # A sign of life is a picture too, since what is silent becomes so without a line.
                self.server.manager.wait_for_more(count, LIFE_SECONDS)
        except OSError:
            pass
        finally:
            self.server.streams.release()

    def log_message(self, *_: object) -> None:
        """Nothing: addresses have the secret in them."""


class Server(http.server.ThreadingHTTPServer):
    daemon_threads = True

    def __init__(self, port: int, manager: Manager, file: str, secret: str | None = None) -> None:
        super().__init__(("127.0.0.1", port), Page)
        self.manager, self.secret = manager, secret or secrets.token_hex(16)
        self.streams, self.connections = threading.Semaphore(MOST_STREAMS), threading.Semaphore(MOST_CONNECTIONS)
        with open(f"{HERE}/panel.html", encoding="utf-8") as page:
            known = json.dumps({"file": os.path.basename(file), "tree": tree_of(manager.domain)})
            self.page = page.read().replace("%%KNOWN%%", known.replace("<", "\\u003c"))

    def process_request(self, request: Any, client_address: Any) -> None:
        if self.connections.acquire(blocking=False):
            super().process_request(request, client_address)
        else:
            self.shutdown_request(request)

    def process_request_thread(self, request: Any, client_address: Any) -> None:
        try:
            super().process_request_thread(request, client_address)
        finally:
            self.connections.release()

    def handle_error(self, request: Any, client_address: Any) -> None:
        """Nothing: a browser that went away is no news."""
