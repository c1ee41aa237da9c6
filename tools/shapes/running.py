"""Runs of the program on shapes, with a bound of its stack."""

import ctypes
import os
import resource
import subprocess
import tempfile
from typing import Callable, List, NamedTuple, Optional, Sequence

from .shape import Depths, Shape

# The bounds of the stack, in KiB, under which each shape has to answer: what `ulimit -s` says.
BOUNDS = (8192, 4096)
# The persona of a process whose addresses are the same in each run (Linux: ADDR_NO_RANDOMIZE).
NO_CHANCE = 0x0040000
# The bound under which the first shape that doesn't fit is told.
TOLD = 1024
MOST_SECONDS = 20.0
WORDS = ("--steps", "10000000", "--watch", "--explain")


class Ended(NamedTuple):
    """How a run ended."""

    status: int
    answers: List[str]


def can_bound(kib: int) -> bool:
    """Whether the stack of a program that is started here can get this bound."""
    _, hard = resource.getrlimit(resource.RLIMIT_STACK)
    return hard == resource.RLIM_INFINITY or kib * 1024 <= hard


def bounding(kib: int) -> Callable[[], None]:
    """What bounds the stack of a program before it starts, and lets that begin at the same place each time.

    Linux leaves up to 8 KiB of a stack unused, by chance. Where it can't be told not to, it goes on with that.
    """
    of_system = ctypes.CDLL(None)

    def bound() -> None:
        of_system.personality(NO_CHANCE)
        _, hard = resource.getrlimit(resource.RLIMIT_STACK)
        resource.setrlimit(resource.RLIMIT_STACK, (kib * 1024, hard))
    return bound


class Runner:
    """The program, in a folder."""

    def __init__(self, program: str, folder: str) -> None:
        self.program, self.stack = program, os.path.join(folder, "deep.stack")

    def run(self, stack: str, lines: Sequence[str], kib: int) -> Ended:
        """A run of lines on a stack with this bound. The environment would stand on it too, so it is empty."""
        with open(self.stack, "w", encoding="ascii", newline="") as file:
            file.write(stack)
        try:
            done = subprocess.run([self.program, self.stack, *WORDS], input="".join(line + "\n" for line in lines),
                                  stdout=subprocess.PIPE, stderr=subprocess.DEVNULL, universal_newlines=True,
                                  timeout=MOST_SECONDS, preexec_fn=bounding(kib), env={}, check=False)
        except subprocess.TimeoutExpired:
            return Ended(-1, ["no answer in %d seconds" % MOST_SECONDS])
        return Ended(done.returncode, done.stdout.split("\n")[:-1])

    def fits(self, shape: Shape, kib: int) -> bool:
        """Whether a shape is answered as it should under a bound."""
        return self.wrong(shape, kib) is None

    def wrong(self, shape: Shape, kib: int) -> Optional[str]:
        """What is wrong with a shape under a bound, or None."""
        return difference(self.run(shape.stack(), shape.lines(), kib), shape.answers())

    def wrong_if_deeper(self, shape: Shape, depths: Depths, kib: int) -> Optional[str]:
        """What is wrong with a shape that is deeper than the grammar allows, or None."""
        return difference(self.run(shape.stack(depths), shape.lines_of_deeper(), kib), shape.answers_of_deeper())

    def need(self, shape: Shape, most: int = 65536) -> Optional[int]:
        """How many KiB of stack a shape needs, a multiple of 16, by bisection; None where the most isn't enough."""
        if not self.fits(shape, most):
            return None
        low, high = 0, most // 16
        while low + 1 < high:
            middle = (low + high) // 2
            low, high = (low, middle) if self.fits(shape, middle * 16) else (middle, high)
        return high * 16


def difference(ended: Ended, wanted: Sequence[str]) -> Optional[str]:
    """How a run differs from what is wanted, or None."""
    if ended.answers != list(wanted):
        at = next((at for at, pair in enumerate(zip(ended.answers, wanted)) if pair[0] != pair[1]),
                  min(len(ended.answers), len(wanted)))
        found = ended.answers[at] if at < len(ended.answers) else "nothing, and the status %d" % ended.status
        return "answer %d is %s, and not %s" % (at + 1, found, wanted[at] if at < len(wanted) else "the end")
    return None if ended.status == 0 else "status %d" % ended.status


class Counts(NamedTuple):
    """How many runs were right, and how many wrong."""

    passed: int
    failed: int


def counted(outcomes: Sequence[bool]) -> Counts:
    """The counts of runs."""
    return Counts(outcomes.count(True), outcomes.count(False))


def told(name: str, how: str, wrong: Optional[str]) -> bool:
    """Whether a run was right; what was wrong is printed."""
    if wrong is not None:
        print("%s, %s: %s" % (name, how, wrong), flush=True)
    return wrong is None


def bounded(runner: Runner, shapes: Sequence[Shape], kib: int) -> List[bool]:
    """Which of the shapes are answered under a bound as they should."""
    if not can_bound(kib):
        print("the stack can't get a bound of %d KiB here, so no shape was run with it" % kib, flush=True)
        return []
    return [told(shape.name, "%d KiB of stack" % kib, runner.wrong(shape, kib)) for shape in shapes]


def too_deep(runner: Runner, shapes: Sequence[Shape]) -> List[bool]:
    """Which shapes are refused where a tree of theirs is one deeper."""
    return [told(shape.name, "one level deeper", runner.wrong_if_deeper(shape, depths, BOUNDS[0]))
            for shape in shapes for depths in shape.deeper()]


def first_that_does_not_fit(runner: Runner, shapes: Sequence[Shape]) -> Optional[Shape]:
    """The first shape that isn't answered under the bound that is only told."""
    return next((shape for shape in shapes if not runner.fits(shape, TOLD)), None)


def run_all(program: str, shapes: Sequence[Shape], others: Sequence[Shape]) -> Counts:
    """Runs the shapes under each bound and one level deeper, and others, whose trees aren't the deepest; tells what is wrong,
    and which is the first that the small bound stops."""
    with tempfile.TemporaryDirectory() as folder:
        runner = Runner(program, folder)
        every = [*shapes, *others]
        outcomes = [right for kib in BOUNDS for right in bounded(runner, every, kib)] + too_deep(runner, shapes)
        first = first_that_does_not_fit(runner, every)
    print("under %d KiB of stack %s" % (TOLD, "each shape fits" if first is None else "the first that doesn't fit is: " +
                                        first.name), flush=True)
    return counted(outcomes)
