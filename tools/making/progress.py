"""The line on standard error that says how far a build is."""

import os
import shutil
import sys
import time
from typing import Callable, Optional

MEMORY_OF_A_JOB = 3_000_000_000
# Seconds between two lines where standard error is no terminal.
PAUSE = 30.0


def say(text: str) -> None:
    """Writes a line of the build on standard error."""
    print("build: " + text, file=sys.stderr, flush=True)


def time_of(seconds: float) -> str:
    """A time in words."""
    return "%d s" % seconds if seconds < 60 else "%d min %02d s" % divmod(seconds, 60)


def left_of(seconds: Optional[float]) -> str:
    """What is left, in words, or that it isn't known yet."""
    return "what is left isn't known yet" if seconds is None else "about %d min left" % (seconds // 60 + 1)


def slots() -> int:
    """How many jobs may run side by side: one a core, as far as the memory goes."""
    with open("/proc/meminfo", encoding="ascii") as lines:
        free = next(int(line.split()[1]) * 1024 for line in lines if line.startswith("MemAvailable"))
    return max(1, min(len(os.sched_getaffinity(0)), free // MEMORY_OF_A_JOB))


class Teller:
    """Shows a line: at a terminal it is drawn anew each second, elsewhere a new one comes every half minute."""

    def __init__(self, line: Callable[[], str]) -> None:
        self.line, self.start, self.told = line, time.time(), 0.0
        self.is_terminal = sys.stderr.isatty()

    def tell(self) -> None:
        """Shows the line, where it is time to."""
        now = time.time()
        if self.is_terminal and now - self.told >= 1:
            width = shutil.get_terminal_size().columns
            sys.stderr.write("\r\033[K" + ("build: " + self.line())[:width - 1])
            sys.stderr.flush()
            self.told = now
        elif not self.is_terminal and now - max(self.told, self.start) >= PAUSE:
            say(self.line())
            self.told = now

    def clear(self) -> None:
        """Takes the line from the terminal."""
        if self.is_terminal and self.told:
            sys.stderr.write("\r\033[K")
            sys.stderr.flush()
