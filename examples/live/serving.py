"""The gateway itself: a manager, its clients, and what each of them is told. `gateway.py` starts it."""
from __future__ import annotations

import dataclasses
import hmac
import selectors
import socket
import sys
import time

from client_lines import ANSWERS, TAKE, Numbers, for_manager, object_of, request_of
from clients import LEAVING_SECONDS, NOT_TOLD, Asked, Client, Standings
from dispatch import UNANSWERED, Dispatch
from domain import Domain, Standing, tells_standing
from drivers import Drivers, Timeouts
from holders import Holders, Operators
from lines import has_answer, is_once_answer
from managers import LASTING, Log, Manager
from times import is_time

MOST_CLIENTS, MOST_DRIVERS = 6, 64
# In this session all drivers request what their devices report. (The last one, @8, is that of links.)
DRIVERS_SESSION = 7
# A manager that has ended is started again after this many seconds at most.
MOST_PAUSE = 60.0
# So does it where its log is no more what it wrote: another one would begin a new log while all is switched on.
LOG_IS_LOST = (b" was moved", b" was written by another")
# This many may be connected without a session.
MOST_STRANGERS = 16
# This many lines of a client are taken in one turn.
LINES_A_TURN = 16
# How long the manager may take to rest, once it is to end.
PATIENCE = 6.0


@dataclasses.dataclass
class Times:
    """After how many seconds a manager that has ended is started again at first, and within how many of the first start
    one that ends by itself has a wrong file or log, as one that has told nothing: then all ends."""

    pause: float = 1.0
    first: float = 5.0


@dataclasses.dataclass
class Settings:
    """What a gateway is started with: the words of its manager, and what its files say."""

    words: list[str]
    domain: Domain
    port: int
    secret: str
    log: str | None
    timeouts: Timeouts
    operators: Operators
    holders: Holders
    times: Times


class Gateway:
    """The manager, its clients, and whose line it answers next."""

    def __init__(self, settings: Settings) -> None:
        self.settings, self.domain, self.secret = settings, settings.domain, settings.secret.encode()
        self.timeouts, self.operators, self.holders = settings.timeouts, settings.operators, settings.holders
        self.drivers, self.log = Drivers(self.domain), Log(settings.log)
        self.door = socket.create_server(("127.0.0.1", settings.port), backlog=MOST_STRANGERS)
        self.door.setblocking(False)
        self.standing = Standing(self.domain)
        # Whether it is known how all stands. Where a log goes on, the manager has to tell it first.
        self.is_known, self.has_stood = self.log.size() == 0, False
        self.manager = Manager(settings.words)
        self.standings = Standings(next(iter(self.domain.objects)), self.manager.to)
        self.dispatch = Dispatch(self.manager.to, self.domain.devices, self.standing.in_hand, settings.log is not None)
        self.clients: list[Client] = []
        self.numbers = Numbers()
        self.leaving_since: float | None = None
        # What the manager complains of that is not over after a while: who comes later is told it too.
        self.complaints: dict[bytes, None] = {}
        # The manager has ended: when it is started again.
        self.again_at: float | None = None
        self.pause, self.is_first, self.is_in_use, self.is_log_lost = settings.times.pause, True, False, False

    # The manager, and where it has ended.

    def run(self) -> int:
        while True:
            while not self.manager.told.has_ended:
                self.turn()
            while not self.manager.complaints.has_ended:
                self.hear_complaints(0)
            status = self.manager.process.wait()
            if self.leaving_since or self.settings.log is None or self.is_log_lost or self.is_wrong(status):
                self.say_goodbye()
                return status
            if self.log.is_gone():
                self.say_all(f"{self.settings.log} is gone")
                self.say_goodbye()
                return 1
            self.be_away()

    def is_wrong(self, status: int) -> bool:
        """Whether a manager that has ended had a wrong file or log: on a busy machine it may take long to say so, but
        then it has told nothing else."""
        is_early = self.manager.seconds() < self.settings.times.first or not self.manager.has_told
        return self.is_first and status > 0 and is_early and not self.is_in_use

    def be_away(self) -> None:
        """The manager has ended, and this gateway goes on: until it is started again, or this one is to end too."""
        if self.manager.seconds() > MOST_PAUSE:
            self.pause = self.settings.times.pause
        self.lose(self.dispatch.lose())
        self.say_all(f"the manager is away; it is started again in {self.pause:g} s")
        self.again_at = time.monotonic() + self.pause
        self.pause = min(self.pause * 2, MOST_PAUSE)
        while time.monotonic() < self.again_at and not self.leaving_since:
            self.turn()
        self.again_at = None
        if not self.leaving_since:
            self.start_again()

    def start_again(self) -> None:
        self.manager.close()
        self.manager = Manager(self.settings.words)
        self.is_first, self.is_in_use, self.complaints = False, False, {}
        self.standings.manager = self.manager.to
        self.dispatch.begin_again(self.manager.to)
        self.standings.ask()
        self.say_all("the manager is started again")
        self.await_standing()
        self.tell_all(b"-", b"! restarted")

    def await_standing(self) -> None:
        """The manager tells anew how all stands, and then what devices have in hand. Until then no line is handed on:
        an answer might end another request than its own."""
        self.is_known, self.has_stood = False, False

    def lose(self, lost: list[Asked]) -> None:
        """Answers were lost with a manager; where they were the gateway's own, their actions will be late again."""
        for asked in lost:
            if asked.client is None:
                self.timeouts.forget(object_of(asked.line)[1])

    def say_all(self, sentence: str) -> None:
        print(f"! {sentence}", file=sys.stderr, flush=True)
        self.tell_all(b"#", sentence.encode())

    def say_goodbye(self) -> None:
        """The manager has ended. Who reads has two seconds to be told all."""
        for client in self.clients:
            client.leave("the manager has ended")
        ends = time.monotonic() + LEAVING_SECONDS
        while self.clients and time.monotonic() < ends:
            for client in self.clients:
                client.write()
            self.clients = [client for client in self.clients if client.outlet.waiting]
            time.sleep(0.01)

    def leave(self, *_: object) -> None:
        self.leaving_since = self.leaving_since or time.monotonic()
        self.manager.close_input()

    # A turn.

    def turn(self) -> None:
        """Waits until something can be read or written, and does it."""
        self.tell_late()
        if self.log.has_changed(time.monotonic()):
            self.tell_all(b"#", self.log.sentence())
        can_speak = any(client.may_speak() and self.may_speak(client) for client in self.clients)
        with selectors.PollSelector() as ready:
            self.watch(ready)
            for key, events in ready.select(0 if can_speak else self.patience()):
                key.data(events)
        for client in self.clients:
            if client.is_leaving:
                self.release(client)
        for client in [*self.clients]:
            self.let_speak(client)
            self.let_go(client)
        if self.leaving_since and time.monotonic() > self.leaving_since + PATIENCE:
            self.manager.process.kill()

    def patience(self) -> float:
        return max(0.0, min(0.5, self.timeouts.next() - time.monotonic())) if self.is_known else 0.5

    def tell_late(self) -> None:
        """Tells what is late, and answers it where a state is to be answered."""
        if self.again_at is not None or not self.is_known:
            return
        for name, action, seconds, state in self.timeouts.late(time.monotonic()):
            self.say_all(f"{name} {action}: {seconds:g} s without an answer" + (f", answered {state}" if state else ""))
            if state:
                request = self.standing.in_hand(name)
                self.dispatch.hand_on(Asked(None, f"answer {name} {state}".encode(), "timeouts", request))

    def watch(self, ready: selectors.BaseSelector) -> None:
        manager = self.manager
        if not manager.told.has_ended:
            ready.register(manager.told.descriptor, selectors.EVENT_READ, self.hear_manager)
        if not manager.complaints.has_ended:
            ready.register(manager.complaints.descriptor, selectors.EVENT_READ, self.hear_complaints)
        if manager.to.waiting and manager.reads():
            ready.register(manager.to.descriptor, selectors.EVENT_WRITE, lambda _: manager.to.write())
        ready.register(self.door, selectors.EVENT_READ, self.open_door)
        for client in self.clients:
            events = selectors.EVENT_READ if client.reads() else 0
            events |= selectors.EVENT_WRITE if client.outlet.waiting else 0
            if events:
                ready.register(client.link, events, lambda events, client=client: self.serve(client, events))

    def open_door(self, _: int) -> None:
        try:
            link, _ = self.door.accept()
        except OSError:
            return
        if sum(client.session is None for client in self.clients) >= MOST_STRANGERS:
            link.close()
        else:
            self.clients.append(Client(link))

    @staticmethod
    def serve(client: Client, events: int) -> None:
        if events & selectors.EVENT_READ:
            client.read()
        if events & selectors.EVENT_WRITE:
            client.write()

    # Who comes, and who goes.

    def may_speak(self, client: Client) -> bool:
        """Whether lines of a client may be looked at now. A stranger is told how all stands, so that must be known;
        others are to hand lines on, which waits while the manager does not read them, or is away."""
        if client.session is None:
            return self.is_known
        return self.is_known and self.again_at is None and not self.manager.to.is_full()

    def let_speak(self, client: Client) -> None:
        for _ in range(LINES_A_TURN):
            if not client.may_speak():
                return
            if not self.may_speak(client):
                client.since = time.monotonic()  # it is not late: it has to wait
                return
            line = client.lines.popleft()
            if client.session is None:
                self.greet(client, line)
            else:
                self.hear(client, line)

    def greet(self, client: Client, line: bytes) -> None:
        """A stranger's first line. Who does not know a secret is told nothing else."""
        secret, _, rest = line.rstrip(b"\r").partition(b" ")
        is_ours = hmac.compare_digest(secret, self.secret)
        name = self.operators.name_of(secret.decode("latin1"))
        words = rest.decode("latin1").split()
        if not is_ours and not name:
            client.leave("this is not the secret")
        elif not words:
            self.greet_client(client, name)
        elif words[0].lower() == "driver":
            self.greet_driver(client, words[1:])
        else:
            client.leave("after the secret stands nothing, or driver OBJECT..")

    def greet_client(self, client: Client, name: str) -> None:
        taken = {other.session for other in self.clients}
        client.session = next((number for number in range(1, MOST_CLIENTS + 1) if number not in taken), None)
        if client.session is None:
            client.leave(f"there are {MOST_CLIENTS} clients already; come back when one has left")
            return
        client.who = name or f"@{client.session}"
        client.tell(b"#", b"session @%d" % client.session + (b" " + name.encode() if name else b""))
        if (last := self.numbers.of(client.session)) >= time.time_ns() // 1000:
            client.tell(b"#", b"last %d" % last)
        for text in self.standing.lines():
            client.tell(b"-", text.encode())
        client.tell(b"#", b"told")
        for devices in self.drivers.lists():
            client.tell(b"#", f"driver of {' '.join(devices)} here".encode())
        for top, who in self.holders.held.items():
            client.tell(b"#", f"{top} is held by {who}".encode())
        if self.log.tenths > 0:
            client.tell(b"#", self.log.sentence())
        for line in self.complaints:
            client.tell(b"#", line)
        if self.again_at is not None:
            client.tell(b"#", b"the manager is away")

    def greet_driver(self, client: Client, words: list[str]) -> None:
        if sum(other.devices is not None for other in self.clients) >= MOST_DRIVERS:
            client.leave(f"there are {MOST_DRIVERS} drivers already")
            return
        try:
            devices = self.drivers.come(client, words)
        except ValueError as fault:
            client.leave(str(fault))
            return
        client.session, client.devices, client.who = DRIVERS_SESSION, set(devices), f"driver {devices[0]}"
        for line in self.standing.lines():
            if self.driver_of(line) is client:
                client.tell(b"-", line.encode())
        client.tell(b"#", f"driver {' '.join(devices)}".encode())
        self.tell_all(b"#", f"driver of {' '.join(devices)} here".encode(), client)

    def let_go(self, client: Client) -> None:
        """Lets go of who has left, is to leave, did not say the secret in time, or does not read."""
        if client.is_late() or client.is_deaf() or client.has_left() and not self.standings.has(client):
            self.clients.remove(client)
            client.link.close()
            self.release(client)

    def release(self, client: Client) -> None:
        """A client goes: its session and its devices are free for others, and what a session had taken too."""
        if lost := self.drivers.go(client):
            self.say_all(f"driver of {' '.join(lost)} lost")
        if client.who:
            self.tell_holders(self.holders.leave(client.who))
        client.who = ""

    # What clients say.

    def hear(self, client: Client, line: bytes) -> None:
        if line.startswith(b"?"):
            self.standings.want(client)
            return
        if found := TAKE.fullmatch(line):
            self.take(client, found[1].decode().lower(), found[2].decode().upper())
            return
        plain, request = request_of(line)
        session = client.session or 0
        made = for_manager(plain, session, time.time_ns() // 1000, self.numbers.of(session))
        if made is None or is_time(made):
            client.refuse("refused BadLine")
            return
        asked = Asked(client, made, client.name_in_log(), request)
        if refusal := self.refusal(client, *object_of(made)):
            client.refuse(refusal)
        elif not self.dispatch.is_open(asked):
            client.refuse("refused NotOpen")
        elif has_answer(made):
            self.numbers.take(made)
            client.asked.append(asked)
            self.dispatch.hand_on(asked)
        else:
            self.manager.to.put(made)

    def refusal(self, client: Client, word: str, name: str) -> str:
        """Why a client may not do this to an object; nothing, if it may. What the domain does not have, the manager
        refuses."""
        if client.devices is not None:
            return "" if name in client.devices and word != "kill" or not word else "refused NotYours"
        if word in ANSWERS:
            return "refused NotYours" if name in self.drivers.of else ""
        if not word or name not in self.domain.objects:
            return ""
        holder = self.holders.stands_against(word, name, client.who)
        return f"refused Held {holder}" if holder else ""

    def take(self, client: Client, word: str, name: str) -> None:
        """Takes, releases or seizes an object."""
        if client.devices is not None:
            client.refuse("refused NotYours")
            return
        answer, changed = self.holders.do(word, name, client.who)
        client.refuse(answer)
        self.tell_holders(changed)
        try:
            if changed:
                self.holders.keep()
        except OSError as fault:
            self.say_all(f"who has what cannot be kept: {fault.strerror}")

    def tell_holders(self, changed: list[tuple[str, str]]) -> None:
        for top, who in changed:
            self.tell_all(b"#", f"{top} is held by {who or 'nobody'}".encode())

    # What the manager says.

    def hear_manager(self, _: int) -> None:
        for line in self.manager.told.read():
            self.log.has_begun = self.manager.has_told = True
            text = line.decode("latin1")
            self.standing.take(text)
            self.numbers.take(line)
            self.timeouts.take(text, time.monotonic())
            if line in (b"! restarted", b"! begun anew"):
                self.await_standing()
            elif not self.is_known:
                self.hear_standing(line)
            settled = self.dispatch.take(line)
            if line.startswith(UNANSWERED):
                self.lose(settled)
            elif not line.startswith(b"refused ") and not is_once_answer(line):
                self.tell_all(b"-", line, settled[0].client if settled else None)

    def hear_standing(self, line: bytes) -> None:
        """How all stands is known once the starts of what devices have in hand are told too."""
        if line.startswith(b"stands "):
            self.has_stood = True
            self.timeouts.keep(self.standing.open)
        self.is_known = self.has_stood and not self.standing.lacks_starts()

    def driver_of(self, line: str) -> Client | None:
        """The driver that is told this line of the manager, as one of its device. What the state of its object does not
        declare, by the lines before, is not to be done."""
        words = line.split(" ", 2)
        if len(words) < 3 or words[0] not in ("state", "start", "end", "kill"):
            return None
        driver = self.drivers.of.get(words[1])
        return driver if isinstance(driver, Client) and not self.standing.is_skipped(line) else None

    def tell_all(self, mark: bytes, line: bytes, but: Client | None = None) -> None:
        """Tells a line to all that have a session; of drivers, where it is for them."""
        is_for_drivers = mark == b"-" and line in (b"! restarted", b"! begun anew")
        driver = self.driver_of(line.decode("latin1")) if mark == b"-" else None
        for client in self.clients:
            is_told = client.devices is None or is_for_drivers or client is driver
            if client.session is not None and client is not but and is_told:
                client.tell(mark, line)

    def hear_complaints(self, _: int) -> None:
        for line in self.manager.complaints.read():
            if line.startswith((b"! restarted", b"! begun anew")):
                self.standings.ask()
                self.complaints = {}
            if line == NOT_TOLD or tells_standing(line.decode("latin1")):
                self.standings.take(line)
                continue
            # The manager of a gateway that was killed may have the log for a while yet.
            self.is_in_use = self.is_in_use or line.endswith(b" is in use")
            self.is_log_lost = self.is_log_lost or line.endswith(LOG_IS_LOST)
            if LASTING.search(line.decode("latin1")):
                self.complaints[line] = None
            print(line.decode("latin1"), file=sys.stderr, flush=True)
            self.tell_all(b"#", line)
