"""Runs of the program and of other languages' in a folder, and what they use."""

import os
import subprocess
import tempfile
import threading
from typing import Dict, Iterable, List, Mapping, NamedTuple, Optional, Sequence, Tuple

from front import stack_text

from .asked import MOST_STEPS, Broken

HERE = os.path.dirname(os.path.dirname(os.path.dirname(os.path.realpath(__file__))))
DEMO = os.path.join(HERE, "crates", "card_cli", "data", "demo.stack")


class Used(NamedTuple):
    """What a run printed, and its processor seconds."""

    printed: List[str]
    seconds: float


def used(words: Sequence[str], text: str = "", environment: Optional[Mapping[str, str]] = None) -> Used:
    """Runs a program on a text. Broken where it doesn't end well."""
    with tempfile.TemporaryFile() as given, tempfile.TemporaryFile() as taken:
        given.write(text.encode())
        given.seek(0)
        with subprocess.Popen(words, stdin=given, stdout=taken, env=environment) as process:
            _, process.returncode, usage = os.wait4(process.pid, 0)
        taken.seek(0)
        printed = taken.read().decode().split("\n")[:-1]
    if process.returncode != 0:
        raise Broken("%s ended with status %d" % (words[0], process.returncode))
    return Used(printed, usage.ru_utime + usage.ru_stime)


def memory_at_rest(words: Sequence[str], text: str) -> int:
    """The memory of a program, in bytes, once it has answered these lines and waits for the next."""
    with subprocess.Popen(words, stdin=subprocess.PIPE, stdout=subprocess.PIPE) as process:
        assert process.stdin is not None and process.stdout is not None
        given = process.stdin
        # written beside the reading, since either pipe may be full
        writer = threading.Thread(target=lambda: (given.write(text.encode() + b'put "rest"\n'), given.flush()))
        writer.start()
        for line in process.stdout:
            if line == b"> rest\n":
                break
        process.stdout.readline()
        writer.join()
        with open("/proc/%d/status" % process.pid, encoding="ascii") as status:
            kilobytes = next(line.split()[1] for line in status if line.startswith("VmRSS:"))
        given.close()
    return int(kilobytes) * 1024


def least(times: Iterable[Tuple[float, float]]) -> float:
    """The least seconds of runs beside the least of starts, of pairs of the two."""
    ran, started = map(min, zip(*times))
    return max(0.001, ran - started)


def lines_of(line: str, count: int) -> str:
    """As many lines, each with its number."""
    return "".join(line % number + "\n" for number in range(count))


def written(path: str, stack: stack_text.Stack) -> int:
    """Writes a stack, and tells how many bytes it has."""
    text = stack_text.write(stack)
    with open(path, "wb") as file:
        file.write(text)
    return len(text)


def stack_with(*scripts: Sequence[str]) -> str:
    """The demo stack, with these scripts, each a list of lines: the stack's, the background's, the field's, a card's."""
    with open(DEMO, encoding="ascii") as file:
        first, *others = file.read().split("\nscript 0\n")
    given: List[Sequence[str]] = [*scripts, *[[] for _ in others[len(scripts):]]]
    texts = ["\nscript %d\n%s%s" % (len(lines), "".join("|%s\n" % line for line in lines), other)
             for lines, other in zip(given, others)]
    return first + "".join(texts)


class Runs:
    """Runs of the program and of other languages, with files in a folder. `others` is the environment of the latter."""

    def __init__(self, program: str, folder: str, others: Dict[str, str]) -> None:
        self.program, self.folder, self.others = program, folder, others

    def file(self, name: str, text: str) -> str:
        """The path of a file with a text."""
        path = os.path.join(self.folder, name)
        with open(path, "w", encoding="ascii") as file:
            file.write(text)
        return path

    def words(self, *scripts: Sequence[str]) -> List[str]:
        """The words that start the program on the demo stack with these scripts."""
        return [self.program, self.file("stack", stack_with(*scripts)), "--steps", str(MOST_STEPS)]

    def here(self, *scripts: Sequence[str], lines: str = "measure\n") -> Used:
        """A run of the program on the demo stack with these scripts."""
        return used(self.words(*scripts), lines)

    def other(self, language: str, program: str, lines: str = "") -> Used:
        """A run of a program in another language."""
        return used([language, self.file("program." + language, program)], lines, self.others)
