"""What the panel says of what it was asked, at a gateway that is played and cuts the connection: `panel_client.py`."""
import contextlib
import os
import socket
import sys
import tempfile
import threading
import time
import types
import unittest
from collections.abc import Callable, Iterator
from typing import Any
from unittest import mock

LIVE = os.path.dirname(os.path.dirname(os.path.realpath(__file__)))
sys.path.insert(0, LIVE)

import panel_client  # noqa: E402
from connections import shut  # noqa: E402
from domain import Class  # noqa: E402

# Nothing here takes longer, in seconds, unless it stands still.
LIMIT = panel_client.ANSWER_SECONDS = 60
REQUEST, KILL = "request HV1 SWITCH_ON", "kill HV1"
ACCEPTED, OLD = "once S3 7 accept @3 HV1 0 SWITCH_ON", "once S3 7 refused Old"
# An answer, whether it is that of a line that was sent again, and what is said of it.
SAID = (
    (ACCEPTED, False, "accepted"), (ACCEPTED, True, "accepted"), (OLD, False, "refused Old"), (OLD, True, "not known"),
    ("once S3 7 refused Full", False, "refused Full"), ("once S3 7 refused Full", True, "refused Full"),
    ("refused BadLine", False, "refused BadLine"), ("kill HV1 @3", False, "kill HV1 @3"),
    ("! unanswered kill HV1 @3", False, "! unanswered kill HV1 @3"),
)


def domain() -> Any:
    """One supply."""
    kind = Class(True)
    kind.states, kind.initial = {"OFF": {}}, "OFF"
    return types.SimpleNamespace(classes={"SUPPLY": kind}, objects={"HV1": "SUPPLY"}, sets={}, devices={"HV1"},
                                 commands={"HV1": []})


class Play:
    """A connection of the gateway: the session, how many lines it reads, what it tells then, and what is done last; and
    the last number that the session has had, where that is told."""

    def __init__(self, session: int, count: int, told: str = "", last: Callable[[str], None] = lambda _: None,
                 number: int | None = None) -> None:
        self.session, self.count, self.told, self.last, self.number = session, count, told, last, number
        self.heard: list[str] = []

    def run(self, link: socket.socket, contact: str, is_last: bool) -> None:
        link.settimeout(LIMIT)
        with link, link.makefile("r", encoding="ascii") as lines:
            lines.readline()  # the secret
            number = "" if self.number is None else f"# last {self.number}\n"
            link.sendall(f"# session @{self.session}\n{number}- state HV1 OFF\n# told\n".encode())
            self.heard += [lines.readline() for _ in range(self.count)]
            link.sendall(self.told.encode())
            self.last(contact)
            if is_last:
                lines.read()


def renew(contact: str, secret: str = "another") -> None:
    """The contact tells of a gateway at the same port with this secret."""
    with open(contact, encoding="ascii") as file:
        host, port, _ = file.read().split()
    with open(contact, "w", encoding="ascii") as file:
        file.write(f"{host} {port} {secret}\n")


def run_plays(door: socket.socket, contact: str, plays: tuple[Play, ...]) -> None:
    for one in plays:
        one.run(door.accept()[0], contact, one is plays[-1])


@contextlib.contextmanager
def at_gateway(*plays: Play) -> Iterator[panel_client.Manager]:
    """A panel at a gateway that does this, connection by connection."""
    with tempfile.TemporaryDirectory() as folder, socket.create_server(("127.0.0.1", 0)) as door:
        door.settimeout(LIMIT)
        contact = f"{folder}/contact"
        with open(contact, "w", encoding="ascii") as file:
            file.write(f"127.0.0.1 {door.getsockname()[1]} one\n")
        thread = threading.Thread(target=run_plays, args=[door, contact, plays], daemon=True)
        thread.start()
        manager = panel_client.Manager(domain(), contact)
        try:
            yield manager
        finally:
            leave(manager)
            thread.join(LIMIT)


def leave(manager: panel_client.Manager) -> None:
    with mock.patch.object(panel_client, "RETRY_SECONDS", 0.0), manager.changed:
        if manager.link:
            shut(manager.link)
        manager.changed.wait_for(lambda: manager.view.has_ended, LIMIT)


class Connections(unittest.TestCase):
    def test_answers_without_a_cut(self) -> None:
        told = f"- accept @3 HV1 0 SWITCH_ON\n= {ACCEPTED}\n= kill HV1 @3\n= once S3 8 refused Dead\n"
        play, begun = Play(3, 3, told), time.time_ns() // 1000
        with at_gateway(play) as manager:
            asked = [manager.ask(line) for line in (REQUEST, KILL, REQUEST)]
            self.assertEqual([next(one) for one in asked], ["sent"] * 3)
            self.assertEqual([next(one) for one in asked], ["accepted", "kill HV1 @3", "refused Dead"])
        first, kill, second = (line.rstrip("\n") for line in play.heard)
        numbers = [int(line.removeprefix("once ").removesuffix(f" {REQUEST}")) for line in (first, second)]
        self.assertEqual((kill, numbers), (KILL, sorted(set(numbers))))
        self.assertLess(abs(numbers[0] - begun), LIMIT * 1_000_000)

    def test_a_request_is_asked_again_with_the_same_session(self) -> None:
        """Also where its answer was cut off. A kill is not asked again."""
        answers = ((ACCEPTED, "accepted"), ("once S3 7 refused Full", "refused Full"), (OLD, "not known"))
        for cut in ("", f"= {ACCEPTED}"):
            for answer, said in answers:
                plays = Play(3, 2, cut), Play(3, 1, f"= {answer}\n")
                with self.subTest(cut=cut, answer=answer), at_gateway(*plays) as manager:
                    request, kill = manager.ask(REQUEST), manager.ask(KILL)
                    self.assertEqual([next(request), next(kill)], ["sent", "sent"])
                    self.assertEqual([next(request), next(kill)], [said, "not known"])
                    self.assertEqual(plays[1].heard, plays[0].heard[:1])

    def test_nothing_is_asked_again_of_another(self) -> None:
        """With another session it would be another request; another gateway may have another log."""
        tries: tuple[tuple[str, int, Callable[[str], None]], ...] = (
            ("session", 4, lambda _: None), ("gateway", 3, renew))
        for name, session, last in tries:
            plays = Play(3, 1, last=last), Play(session, 1, f"= {ACCEPTED}\n")
            with self.subTest(name), at_gateway(*plays) as manager:
                self.assertEqual([*manager.ask(REQUEST)], ["sent", "not known"])
                self.assertEqual([*manager.ask(REQUEST)], ["sent", "accepted"])
                self.assertNotEqual(plays[1].heard, plays[0].heard)

    def test_what_is_not_waited_for_is_not_asked_again(self) -> None:
        plays = Play(3, 2), Play(3, 1, f"= {ACCEPTED}\n")
        with at_gateway(*plays) as manager:
            with mock.patch.object(panel_client, "ANSWER_SECONDS", 0.01):
                self.assertEqual([*manager.ask(REQUEST)], ["sent", "no answer yet"])
            self.assertEqual([*manager.ask(REQUEST)], ["sent", "accepted"])
            self.assertEqual(plays[1].heard, plays[0].heard[1:])

    def test_numbers_go_on_from_the_last_one_of_the_session(self) -> None:
        """Where that is ahead of the clock. In another session they begin with the clock: there it may be too far."""
        ahead = time.time_ns() // 1000 + 7_200_000_000
        answer = f"= {ACCEPTED}\n"
        plays = Play(3, 1, answer, number=ahead), Play(3, 1, answer, number=ahead + 5), Play(4, 1, answer)
        links: list[socket.socket | None] = [None]
        with at_gateway(*plays) as manager:
            for _ in plays:
                with manager.changed:
                    self.assertTrue(manager.changed.wait_for(lambda: manager.link not in links, LIMIT))
                    links.append(manager.link)
                self.assertEqual([*manager.ask(REQUEST)], ["sent", "accepted"])
        numbers = [int(line.split(" ")[1]) for play in plays for line in play.heard]
        self.assertEqual(numbers[:2], [ahead + 1, ahead + 6])
        self.assertLess(abs(numbers[2] - time.time_ns() // 1000), LIMIT * 1_000_000)


class Answers(unittest.TestCase):
    def test_what_is_said_of_an_answer(self) -> None:
        for answer, is_again, said in SAID:
            with self.subTest(answer=answer, is_again=is_again):
                self.assertEqual(panel_client.said_of(answer, is_again), said)


if __name__ == "__main__":
    unittest.main()
