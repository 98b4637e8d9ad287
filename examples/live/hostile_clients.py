#!/usr/bin/env python3
"""Tries the gateway and the panel against clients that mean no good.

usage: hostile_clients.py [NAME..]

It starts a gateway and a panel over examples/detector.sml, and plays clients without the secret, that do not read, that
are slow, that write nonsense, or that pretend to be another page. After each it looks whether an honest client still
has its answer within a second. A line is printed for each try; the last is 'N held, M not', and the status is 0 only
where M is 0. With NAMEs only those tries are made. It takes about a minute.
"""
import argparse
import os
import re
import socket
import subprocess
import sys
import tempfile
import time

from lines import HERE
from times import read

DOMAIN = f"{HERE}/../detector.sml"


class Line:
    """A connection of lines."""

    def __init__(self, port: int, *said: str, room: int | None = None) -> None:
        self.session = ""
        self.link = socket.socket()
        if room:
            self.link.setsockopt(socket.SOL_SOCKET, socket.SO_RCVBUF, room)
        self.link.connect(("127.0.0.1", port))
        self.link.settimeout(15)
        self.told = self.link.makefile("rb")
        for line in said:
            self.say(line)

    def say(self, line: str) -> None:
        self.link.sendall(line.encode("latin1") + b"\n")

    def hear(self, mark: bytes = b"") -> str:
        """The next line with this mark; an empty one at the end, or where the connection was cut."""
        try:
            while line := self.told.readline():
                if line.startswith(mark):
                    return line.decode().rstrip("\n")
        except OSError:
            pass
        return ""

    def leave(self) -> None:
        self.told.close()
        self.link.close()


class Served:
    """The gateway and the panel that are tried, and an honest client of each."""

    def __init__(self, folder: str) -> None:
        self.log, contact = f"{folder}/log", f"{folder}/contact"
        words = [sys.executable, f"{HERE}/gateway.py", DOMAIN, "--log", self.log, "--contact", contact]
        self.gateway = subprocess.Popen(words, stdout=subprocess.PIPE, text=True)
        assert self.gateway.stdout
        port, self.secret = (self.gateway.stdout.readline().split()[1] for _ in range(2))
        self.port = int(port)
        words = [sys.executable, f"{HERE}/panel.py", DOMAIN, "--gateway", contact]
        self.panel = subprocess.Popen(words, stdout=subprocess.PIPE, text=True)
        assert self.panel.stdout
        self.address = self.panel.stdout.readline().strip()
        found = re.fullmatch(r"http://127\.0\.0\.1:(\d+)(/\w+/)", self.address)
        assert found
        self.web, self.path = int(found[1]), found[2]
        self.honest = self.client()
        self.contact_mode = os.stat(contact).st_mode & 0o777

    def client(self, room: int | None = None) -> Line:
        """A client with a session. What it has not read takes so much room in the system, if that is given."""
        one = Line(self.port, self.secret, room=room)
        one.session = one.hear(b"# ")
        if one.session.startswith("# session"):
            one.hear(b"# told")
        return one

    def driver(self, *devices: str) -> Line:
        """A driver, and what it is told of what it drives, or why it is turned away."""
        one = Line(self.port, f"{self.secret} driver {' '.join(devices)}")
        one.session = one.hear(b"# ")
        return one

    def answers(self) -> bool:
        """Whether an honest client has its answer within a second, from the gateway and from the panel."""
        begun = time.monotonic()
        self.honest.say("fault DETECTOR")
        told = self.honest.hear(b"= ")
        status, _ = self.http("GET", self.path)
        return told == "= refused NotAssociated" and status == 200 and time.monotonic() - begun < 1.0

    def http(self, method: str, path: str, body: bytes = b"", **headers: str) -> tuple[int, bytes]:
        """A request to the panel: the status and the body of what is answered; 0 where nothing is."""
        sent = {"Host": f"127.0.0.1:{self.web}", "Content-Length": str(len(body))} | headers
        text = "".join(f"{name.replace('_', '-')}: {value}\r\n" for name, value in sent.items())
        with socket.create_connection(("127.0.0.1", self.web)) as link:
            link.settimeout(15)
            try:
                link.sendall(f"{method} {path} HTTP/1.1\r\n{text}\r\n".encode("latin1") + body)
                got = b""
                while piece := link.recv(65536):
                    got += piece
            except OSError:
                return 0, b""
        head, _, rest = got.partition(b"\r\n\r\n")
        return (int(head.split()[1]) if head else 0), rest

    def memory(self) -> int:
        """The memory of the gateway and of the panel, in MiB."""
        texts = [open(f"/proc/{process.pid}/status").read() for process in (self.gateway, self.panel)]
        return sum(int(size) for text in texts for size in re.findall(r"VmRSS:\s+(\d+)", text)) // 1024

    def end(self) -> None:
        for process in (self.panel, self.gateway):
            process.terminate()
            process.wait()


def loopback_alone(served: Served) -> bool:
    """Both listen on 127.0.0.1 and on nothing else; the contact file is its user's alone."""
    with open("/proc/net/tcp") as table:
        ends = [line.split()[1].split(":") for line in table.readlines()[1:] if line.split()[3] == "0A"]
    wanted = [address for address, port in ends if int(port, 16) in (served.port, served.web)]
    return wanted == ["0100007F"] * 2 and served.contact_mode == 0o600


def wrong_secret(served: Served) -> bool:
    """No secret, a wrong one, and a browser's request to the gateway's port."""
    for said in ("", "0" * 32, "GET / HTTP/1.1", "request DETECTOR SWITCH_ON", served.secret[:-1]):
        one = Line(served.port, said)
        if one.hear() != "# this is not the secret" or one.hear() != "":
            return False
        one.leave()
    return True


def one_too_many(served: Served) -> bool:
    """Sessions are @1 to @6; a seventh client is turned away; who leaves makes room."""
    others = [served.client() for _ in range(4)]
    seventh = served.client()
    others.pop().leave()
    time.sleep(0.5)
    next_one = served.client()
    sessions = {one.session for one in [*others, next_one]}
    is_turned_away = "6 clients" in seventh.session and seventh.hear() == ""
    for one in [*others, seventh, next_one]:
        one.leave()
    time.sleep(0.5)
    return is_turned_away and len(sessions) == 4


def foreign_drivers(served: Served) -> bool:
    """Nobody drives what another drives, nor answers for it; a driver asks for nothing else, and takes nothing."""
    first, client = served.driver("TRACKER_HV*"), served.client()
    tries: list[list[str]] = [["TRACKER_HV1"], ["*"], ["DETECTOR"], ["X*"], [], ["TRACKER_COOLER", "@1"],
                              ["X" * 64] * 100]
    told = [served.driver(*words).session for words in tries]
    answers = []
    for one, line in ((client, "answer TRACKER_HV1 ON"), (client, "fault tracker_hv1 ! by hand"),
                      (first, "answer TRACKER_COOLER COLD"), (first, "fault TRACKER_COOLER"),
                      (first, "request DETECTOR SWITCH_ON"), (first, "once 7 request DETECTOR SWITCH_ON"),
                      (first, "kill TRACKER_HV1"), (first, "take DETECTOR")):
        one.say(line)
        answers.append(one.hear(b"= "))
    for one in (first, client):
        one.leave()
    time.sleep(0.5)
    again = served.driver("TRACKER_HV1")
    is_free = again.session == "# driver TRACKER_HV1"
    again.leave()
    wrong = [line for line in told if line.startswith("# driver")]
    return is_free and wrong == [] and set(answers) == {"= refused NotYours"}


def many_drivers(served: Served) -> bool:
    """Twelve connections that want to drive the same two devices, and leave, again and again: the devices are free
    after them, and an honest client has its answers."""
    for _ in range(5):
        ones = [served.driver("TRACKER_CRATE1" if n == 0 else "TRACKER_CRATE2") for n in range(12)]
        if ones[0].session != "# driver TRACKER_CRATE1" or not served.answers():
            return False
        for one in ones:
            one.leave()
        time.sleep(0.3)
    return True


def held_parts(served: Served) -> bool:
    """What another has is not taken, asked for or killed, by whatever words; who leaves releases it."""
    one, other = served.client(), served.client()
    one.say("take TRACKER")
    is_taken = one.hear(b"= ") == "= taken TRACKER"
    who = one.session.split()[2]
    answers = []
    for line in ("take DETECTOR", "TAKE tracker_hv1", "request TRACKER SWITCH_OFF", " REQUEST  tracker_hv1 SWITCH_ON",
                 "request ! TRACKER\tSWITCH_ON", "once 9 request TRACKER SWITCH_OFF", "kill TRACKER",
                 "kill tracker ! now", "release TRACKER"):
        other.say(line)
        answers.append(other.hear(b"= "))
    one.leave()
    time.sleep(0.5)
    other.say("take TRACKER")
    is_released = other.hear(b"= ") == "= taken TRACKER"
    other.leave()
    good = [f"= refused Held {who}", "= refused BadLine"]
    return is_taken and is_released and all(answer in good for answer in answers)


def forged_times(served: Served) -> bool:
    """No client writes when a line came, or of whom."""
    one = served.client()
    for line in ("! 2026-11-29T03:12:07Z @1", "!  2026-11-29T03:12:07Z  @2 anna", " ! 2026-11-29T03:12:07Z driver HV1"):
        one.say(line)
        if one.hear(b"= ") != "= refused BadLine":
            return False
    one.leave()
    return True


def silent_strangers(served: Served) -> bool:
    """A hundred connections that say nothing are let go."""
    strangers = [socket.create_connection(("127.0.0.1", served.port)) for _ in range(100)]
    still = served.answers()
    time.sleep(11)
    one = served.client()
    session = one.session
    one.leave()
    for stranger in strangers:
        stranger.close()
    return still and session.startswith("# session")


def forged_sessions(served: Served) -> bool:
    """Nobody speaks for another session, or takes away the numbers of its requests that are made once."""
    one = served.client()
    other, name = ("@1", "S1") if one.session[-1] != "1" else ("@2", "S2")
    for line in (f"request {other} DETECTOR SWITCH_ON", f"kill TRACKER {other}", f"kill TRACKER {other} !", "start RUN",
                 f"request{other} TRACKER TUNE (TO = 1)", "! x\rkill TRACKER", "go TRACKER", "R\xe9quest", "\0",
                 f"once {name} 1 request DETECTOR SWITCH_ON", f"once 1 request {other} DETECTOR SWITCH_ON",
                 f"request DETECTOR SWITCH_ON ! once {name} 1", f"! x ! once {name} 1", "! smirun live 1",
                 f"once {2 ** 64 - 1} request DETECTOR SWITCH_ON"):
        one.say(line)
    one.say("kill NOBODY ! by me")
    answers = [one.hear(b"= ") for _ in range(15)]
    one.leave()
    with open(served.log) as log:
        # (but for when lines came, as the gateway writes it)
        lines = [line for line in log if not read(line.rstrip("\n"))]
    is_forged = any(other in line or f"once {name} " in line for line in lines)
    return answers == ["= refused BadLine"] * 14 + ["= refused UnknownObject"] and not is_forged


def long_line(served: Served) -> bool:
    """A line over 8,192 bytes, with and without its end; one of 8,192 is taken."""
    for said in ("x" * 8193, "! " + "x" * 20000):
        one = served.client()
        one.say(said)
        told = [one.hear(b"= "), one.hear()] if len(said) == 8193 else [one.hear(b"# ")]
        one.leave()
        if told[0] not in ("= refused BadLine", "# a line has 8192 bytes at most", ""):
            return False
    one = served.client()
    one.link.sendall(b"y" * 9000)
    last = one.hear(b"# ")
    one.leave()
    return "at most" in last


def torn_line(served: Served) -> bool:
    """A line without its line feed is not taken when the client goes."""
    before = os.path.getsize(served.log)
    one = served.client()
    one.link.sendall(b"request DETECTOR SWITCH_ON")
    one.leave()
    time.sleep(0.5)
    return os.path.getsize(served.log) == before


def slow_client(served: Served) -> bool:
    """A byte every tenth of a second: its line is taken when it is whole, and nobody waits for it."""
    one = served.client()
    for byte in b"fault DETECTOR":
        one.link.sendall(bytes([byte]))
        time.sleep(0.1)
    still = served.answers()
    one.say("")
    told = one.hear(b"= ")
    one.leave()
    return still and told == "= refused NotAssociated"


def never_reads(served: Served) -> bool:
    """A client writes for ever and does not read: it is let go within a minute, and memory stays small."""
    one = served.client(room=16384)
    ends, is_cut = time.monotonic() + 60, False
    while time.monotonic() < ends and not is_cut:
        try:
            one.link.sendall(b"nonsense\n" * 1000)
        except TimeoutError:
            pass
        except OSError:
            is_cut = True
    still = served.answers()
    one.leave()
    return is_cut and still and served.memory() < 120


def ten_thousand_bad_lines(served: Served) -> bool:
    """All are answered; others have their answers between them; the log does not grow by them."""
    before = os.path.getsize(served.log)
    one = served.client()
    one.link.sendall(b"open the pod bay doors\n" * 10000)
    still = served.answers()
    count = sum(one.hear(b"= ") == "= refused BadLine" for _ in range(10000))
    one.leave()
    return still and count == 10000 and os.path.getsize(served.log) - before < 100


def refused_lines(served: Served) -> bool:
    """Requests that the manager refuses: all are answered, in order, and others get their word in."""
    one = served.client()
    lines = [b"request NOBODY GO\n", b"request DETECTOR X\n", b"answer DETECTOR OFF\n", b"answer TRACKER_HV1 ON\n"]
    wanted = ["UnknownObject", "UnknownAction", "NotAssociated", "NotOpen"]
    one.link.settimeout(60)
    one.link.sendall(b"".join(lines) * 500)
    still = served.answers()
    told = [one.hear(b"= ") for _ in range(2000)]
    one.leave()
    return still and told == [f"= refused {kind}" for kind in wanted] * 500


def no_secret_at_panel(served: Served) -> bool:
    """Without the secret there is nothing to see and nothing to ask."""
    paths = ("/", "/ask", "/events", "/x/ask", served.path[:-2] + "/", "/favicon.ico", "//", "/../etc/passwd")
    statuses = {served.http(method, path)[0] for path in paths for method in ("GET", "POST")}
    return statuses == {403}


def other_host(served: Served) -> bool:
    """A name that was bound anew to loopback, even with the secret."""
    hosts = ("evil.example", f"evil.example:{served.web}", "127.0.0.1", "", f"127.0.0.1:{served.web}.evil.example")
    tries = [served.http(method, served.path + path, b"", Host=host)[0]
             for host in hosts for method, path in (("GET", ""), ("GET", "events"), ("POST", "ask"))]
    return set(tries) == {403}


def other_origin(served: Served) -> bool:
    """A page of another origin, even with the secret."""
    body, tries = b'{"object": "DETECTOR"}', []
    for origin in ("http://evil.example", "null", "http://127.0.0.1:1", f"https://127.0.0.1:{served.web}"):
        tries.append(served.http("POST", served.path + "ask", body, Origin=origin)[0])
    tries.append(served.http("POST", served.path + "ask", body, Sec_Fetch_Site="cross-site")[0])
    tries.append(served.http("GET", served.path, Sec_Fetch_Site="same-site")[0])
    return set(tries) == {403} and not killed(served, "DETECTOR")


def killed(served: Served, name: str) -> bool:
    with open(served.log) as log:
        return any(line.startswith(f"kill {name} ") for line in log)


def bad_bodies(served: Served) -> bool:
    """Bodies that ask for nothing that there is; none reaches the manager."""
    before, asked = os.path.getsize(served.log), [
        b"", b"[]", b"null", b"{}", b"{" * 8000, b"[" * 8000, b'{"object": ["DETECTOR"]}', b"\xff\xfe",
        b'{"object": "DETECTOR\\nkill TRACKER"}', b'{"object": "DETECTOR", "action": "SWITCH_ON\\nkill TRACKER @1"}',
        b'{"object": "DETECTOR", "action": "SWITCH_ON", "arguments": {"PURPOSE": "a\\nkill TRACKER"}}',
        b'{"object": "DETECTOR", "action": "SWITCH_ON", "arguments": {"PURPOSE": "\\" ) !"}}',
        b'{"object": "TRACKER", "action": "TUNE", "arguments": {"TO": 5}}',
    ]
    told = [served.http("POST", served.path + "ask", body) for body in asked]
    long = served.http("POST", served.path + "ask", b"x" * 9000)[0]
    return all(status == 200 and text.startswith(b"not asked") for status, text in told) and long == 413 \
        and os.path.getsize(served.log) == before


def slow_requests(served: Served) -> bool:
    """Sixty connections that never finish their request, a byte every second: they are cut off."""
    slow = [socket.create_connection(("127.0.0.1", served.web)) for _ in range(60)]
    for _ in range(11):
        for link in slow:
            try:
                link.send(b"G")
            except OSError:
                pass
        time.sleep(1)
    still = served.answers()
    for link in slow:
        link.close()
    return still


def streams_unread(served: Served) -> bool:
    """Twenty that ask for the stream and never read it: the page is served on, and memory stays small."""
    text = f"GET {served.path}events HTTP/1.1\r\nHost: 127.0.0.1:{served.web}\r\n\r\n".encode()
    links = [socket.create_connection(("127.0.0.1", served.web)) for _ in range(20)]
    for link in links:
        link.sendall(text)
    for _ in range(200):
        served.honest.say("request NOBODY GO")
        served.honest.hear(b"= ")
    still = served.answers()
    for link in links:
        link.close()
    return still and served.memory() < 120


def bad_requests(served: Served) -> bool:
    """Requests without the secret, one behind the other."""
    statuses = {served.http("POST", f"/{number}/ask", b"{}")[0] for number in range(2000)}
    return statuses == {403} and served.answers()


TRIES = [loopback_alone, wrong_secret, one_too_many, forged_sessions, long_line, torn_line, slow_client, never_reads,
         ten_thousand_bad_lines, refused_lines, silent_strangers, no_secret_at_panel, other_host, other_origin,
         bad_bodies, streams_unread, slow_requests, bad_requests, foreign_drivers, many_drivers, held_parts,
         forged_times]


def main() -> int:
    words = argparse.ArgumentParser(description=__doc__, formatter_class=argparse.RawDescriptionHelpFormatter)
    words.add_argument("names", metavar="NAME", nargs="*", help=", ".join(one.__name__ for one in TRIES))
    names = words.parse_args().names
    held = lost = 0
    with tempfile.TemporaryDirectory() as folder:
        served = Served(folder)
        try:
            for one in TRIES:
                if names and one.__name__ not in names:
                    continue
                is_held = one(served) and served.answers()
                held, lost = held + is_held, lost + (not is_held)
                print(f"{one.__name__}: {'held' if is_held else 'NOT HELD'}", flush=True)
        finally:
            served.end()
    print(f"{held} held, {lost} not")
    return 1 if lost else 0


if __name__ == "__main__":
    sys.exit(main())
