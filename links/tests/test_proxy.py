"""The proxy that disturbs: what it passes on of a message, between a client and a broker that are played here."""
import os
import socket
import subprocess
import sys
import unittest

from links.tests.sides import TESTS

ABOVE = os.path.dirname(os.path.dirname(TESTS))
# A message of quality 1 with the number 7 on the topic `t`, its receipt, and a ping.
PUBLISH, RECEIPT, PING = b"\x32\x06\x00\x01t\x00\x07x", b"\x40\x02\x00\x07", b"\xc0\x00"
# Nothing here takes longer, in seconds, unless it stands still.
LIMIT = 30.0


class Disturbs(unittest.TestCase):
    def setUp(self) -> None:
        self.broker = socket.create_server(("127.0.0.1", 0))
        self.addCleanup(self.broker.close)

    def through(self, *words: str) -> tuple[bytes, bytes, str]:
        """What the broker and the client have, and what the proxy counted, of a message and a ping after it."""
        command = [sys.executable, "-m", "links.trials.proxy", "0", str(self.broker.getsockname()[1])]
        proxy = subprocess.Popen([*command, *words], stdout=subprocess.PIPE, text=True,
                                 env=os.environ | {"PYTHONPATH": ABOVE})
        self.addCleanup(proxy.wait)
        self.addCleanup(proxy.kill)
        assert proxy.stdout
        with proxy.stdout, socket.create_connection(("127.0.0.1", int(proxy.stdout.readline()))) as client:
            self.broker.settimeout(LIMIT)
            with self.broker.accept()[0] as link:
                client.sendall(PUBLISH + PING)
                client.shutdown(socket.SHUT_WR)
                got = self.read(link), self.read(client)
            proxy.terminate()
            return (*got, proxy.stdout.read().strip())

    @staticmethod
    def read(link: socket.socket) -> bytes:
        link.settimeout(LIMIT)
        got = b""
        while more := link.recv(100):
            got += more
        return got

    def test_what_is_passed_on(self) -> None:
        for words, to_broker, to_client, counts in (
                ((), PUBLISH + PING, b"", "{'published': 1}"),
                (("--lose", "1"), PING, RECEIPT, "{'published': 1, 'lost': 1}"),
                (("--cut", "1"), PUBLISH, b"", "{'published': 1, 'cut': 1}")):
            with self.subTest(words=words):
                self.assertEqual(self.through(*words), (to_broker, to_client, counts))


if __name__ == "__main__":
    unittest.main()
