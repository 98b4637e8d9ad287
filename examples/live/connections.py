"""The ways of a driver (driver.py) to a manager: at a gateway, or over two FIFOs."""
from __future__ import annotations

import os
import select
import socket
import threading
from collections.abc import Iterator
from typing import TYPE_CHECKING, TextIO

from lines import LONGEST_TOLD, Inlet, read_contact

if TYPE_CHECKING:
    from driver import Driver

# Between two tries to connect: at first, and at most.
LEAST_PAUSE, MOST_PAUSE = 0.5, 10.0
# A gateway that is there takes a connection within this many seconds.
PATIENCE = 10.0
# The session in which reports are requested; a gateway puts it in by itself.
SESSION = "@7"
# A manager writes `end OBJECT skipped` right after the start: over FIFOs it is waited for this many seconds.
SKIPPED_WITHIN = 0.02


def marked(told: TextIO) -> Iterator[tuple[str, str]]:
    """The lines of a gateway, each with its mark. One that was cut off is passed over."""
    for line in told:
        if line.endswith("\n"):
            yield line[:1], line[2:-1]


def shut(link: socket.socket) -> None:
    try:
        link.shutdown(socket.SHUT_RDWR)
    except OSError:
        pass  # it was cut already


def at_gateway(driver: Driver, contact: str) -> None:
    """Drives at a gateway, connection after connection, until the driver leaves."""
    pause = LEAST_PAUSE
    while not driver.ending.is_set():
        try:
            connect(driver, contact)
            pause = LEAST_PAUSE
            sentence = "the connection to the gateway is cut"
        except (OSError, SystemExit, ValueError) as why:  # (SystemExit where the contact tells of no gateway)
            sentence = f"no gateway: {why}; again in {pause:g} s"
        if driver.ending.is_set():
            return
        driver.say(sentence)
        driver.ending.wait(pause)
        pause = min(pause * 2, MOST_PAUSE)


def connect(driver: Driver, contact: str) -> None:
    """One connection, to its end. OSError where there was none, or where the gateway turns this driver away."""
    host, port, secret = read_contact(contact)
    with socket.create_connection((host, int(port)), PATIENCE) as link:
        link.settimeout(None)
        # A gateway whose machine is gone says nothing any more: the system asks now and then.
        link.setsockopt(socket.SOL_SOCKET, socket.SO_KEEPALIVE, 1)
        driver.link = link
        if driver.ending.is_set():
            return
        told = link.makefile("r", encoding="latin1", newline="\n")
        link.sendall(f"{secret} driver {' '.join(driver.devices)}\n".encode("ascii"))
        greet(driver, told, secret)
        writer = threading.Thread(target=write, args=[driver, link.fileno()], daemon=True)
        writer.start()
        try:
            hear(driver, told)
        finally:
            driver.sent.put(None)
            shut(link)
            writer.join()


def greet(driver: Driver, told: TextIO, secret: str) -> None:
    """Hears how all stands, up to the line `# driver ..`, and goes on with what is in hand."""
    starts: list[str] = []
    driver.known = {}
    for mark, line in marked(told):
        if mark == "#" and line.startswith("driver "):
            break
        if mark == "#":
            raise OSError(line)
        if line.startswith("start "):
            starts.append(line)
        elif line.startswith("state "):
            driver.hear(mark, line)
    else:
        raise OSError("the gateway says nothing")
    driver.go_on(secret, starts)


def hear(driver: Driver, told: TextIO) -> None:
    """Hears the gateway until the connection is cut."""
    try:
        for mark, line in marked(told):
            if mark == "#":
                driver.say(f"the gateway: {line}")
            else:
                driver.hear(mark, line)
    except OSError:
        pass


def at_pipes(driver: Driver, to_manager: str, from_manager: str) -> None:
    """Drives over two FIFOs. Opening waits until the manager has them too."""
    given = os.open(to_manager, os.O_WRONLY)
    told = os.open(from_manager, os.O_RDONLY)
    try:
        at_descriptors(driver, given, told)
    finally:
        os.close(told)


def at_descriptors(driver: Driver, given: int, told: int) -> None:
    """Drives over two descriptors, to the end of the second; the first is closed."""
    driver.session = f"{SESSION} "
    threading.Thread(target=write, args=[driver, given, True], daemon=True).start()
    inlet, starts = Inlet(told, LONGEST_TOLD), Starts(driver)
    while not inlet.has_ended:
        if not select.select([told], [], [], SKIPPED_WITHIN if starts.pending else None)[0]:
            starts.release()
            continue
        for line in inlet.read():
            starts.take(line.decode("latin1"))
    driver.sent.put(None)


class Starts:
    """The lines of a manager over FIFOs: a start waits until it is known whether it was skipped."""

    def __init__(self, driver: Driver) -> None:
        self.driver, self.is_again = driver, False
        # A start that waits, and whether it was told again.
        self.pending: tuple[str, bool] | None = None

    def take(self, line: str) -> None:
        self.driver.show(line)
        if self.pending and line == f"end {self.pending[0].split(' ')[1]} skipped":
            self.pending = None
        self.release()
        # After how all stands at --resume, starts are told again.
        self.is_again = line.startswith("stands ") or self.is_again and line.startswith("start ")
        if self.driver.may_be_skipped(line):
            self.pending = (line, self.is_again)
        else:
            self.driver.hear("-", line, self.is_again)

    def release(self) -> None:
        """The start that waits was not skipped."""
        if self.pending:
            line, is_again = self.pending
            self.pending = None
            self.driver.hear("-", line, is_again)


def write(driver: Driver, descriptor: int, closes: bool = False) -> None:
    """Writes what is put on its way, a line by one write, so that lines of several writers do not mix."""
    sent = driver.sent
    try:
        while (line := sent.get()) is not None:
            os.write(descriptor, line.encode("ascii") + b"\n")
    except OSError:
        pass  # the manager has ended
    if closes:
        os.close(descriptor)
