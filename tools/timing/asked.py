"""A program that waits for lines, and how many processor seconds it takes to answer each."""

import os
import subprocess
import time
from typing import List, NamedTuple

MOST_STEPS = 10_000_000


class Answered(NamedTuple):
    """The answer to a line, and the processor seconds that it took."""

    answer: List[str]
    seconds: float


class Broken(Exception):
    """A program that ended, or answered something else; in a line."""


def is_end(answer: str) -> bool:
    """Whether a line ends an answer."""
    return answer == "ok" or answer.startswith(("fault ", "refused "))


class Asked:
    """A run of the program on a stack, which is ended on leaving."""

    def __init__(self, program: str, stack: str, steps: int = MOST_STEPS) -> None:
        self.process = subprocess.Popen([program, stack, "--steps", str(steps)], stdin=subprocess.PIPE, bufsize=0,
                                        stdout=subprocess.PIPE, stderr=subprocess.DEVNULL)
        self.answers = os.fdopen(os.dup(self.process.stdout.fileno()), "r", encoding="latin-1", newline="\n")
        # The clock of another process is the one of this number.
        self.clock = ((-self.process.pid - 1) << 3) | 2

    def __enter__(self) -> "Asked":
        return self

    def __exit__(self, *_: object) -> None:
        self.process.stdin.close()
        self.answers.close()
        self.process.stdout.close()
        self.process.kill()
        self.process.wait()

    def ask(self, line: str) -> Answered:
        """What a line is answered, and what that took. Broken where the program ends first."""
        before = time.clock_gettime(self.clock)
        self.tell(line)
        answer: List[str] = []
        for found in self.answers:
            answer.append(found.rstrip("\n"))
            if is_end(answer[-1]):
                return Answered(answer, time.clock_gettime(self.clock) - before)
        raise Broken("the program ended at %s" % line[:60])

    def tell(self, line: str) -> None:
        """Hands a line over. Broken where nobody takes it."""
        try:
            self.process.stdin.write(line.encode("latin-1") + b"\n")
        except OSError as error:
            raise Broken("the program ended before %s" % line[:60]) from error

    def seconds(self, line: str, wanted: str = "ok") -> float:
        """What a line took whose last answer is this one. Broken where it is another."""
        answered = self.ask(line)
        if answered.answer[-1] != wanted:
            raise Broken("%s answered %s, and not %s" % (line[:60], answered.answer[-1][:60], wanted))
        return answered.seconds
