"""How long tests wait for what has to come: so long that it comes on a busy machine too."""
import signal
import time
import unittest
from collections.abc import Callable

# Nothing takes longer, in seconds, unless it stands still.
LIMIT = 60


def until(holds: Callable[[], object]) -> None:
    """Waits until this holds."""
    ends = time.monotonic() + LIMIT
    while not holds():
        if time.monotonic() > ends:
            raise TimeoutError(f"it does not hold within {LIMIT} seconds")
        time.sleep(0.005)


def stands_still(*_: object) -> None:
    raise TimeoutError(f"it is not over within {LIMIT} seconds")


class Limited(unittest.TestCase):
    """Tests that fail where they stand still, also while they read."""

    def setUp(self) -> None:
        signal.signal(signal.SIGALRM, stands_still)
        signal.alarm(LIMIT)
        self.addCleanup(signal.alarm, 0)
