"""Whether a machine was quiet: how long the same small work took, each time that somebody looked."""

import time
from typing import List

TURNS = 1_000_000
# A machine is quiet where no look took longer than so many times the shortest.
MOST_OF_A_QUIET_ONE = 1.25
# A look is the least of so many, since a single one may be broken off.
TRIES = 3


def work() -> float:
    """The processor seconds of a loop that takes no memory."""
    start = time.process_time()
    total = 0
    for number in range(TURNS):
        total += number
    return time.process_time() - start


class Looks:
    """What the work took at each look."""

    def __init__(self) -> None:
        self.seconds: List[float] = []

    def look(self) -> None:
        """Does the work once more."""
        self.seconds.append(min(work() for _ in range(TRIES)))

    def is_quiet(self) -> bool:
        """Whether all looks took about as long."""
        return max(self.seconds) <= MOST_OF_A_QUIET_ONE * min(self.seconds)

    def text(self) -> str:
        """A line that says what the looks found, which has to be once at least."""
        seconds = "%.3f to %.3f s in %d looks" % (min(self.seconds), max(self.seconds), len(self.seconds))
        told = "quiet" if self.is_quiet() else "not quiet, so a star may be the machine's"
        return "a loop of Python took %s: %s" % (seconds, told)
