"""A program that runs: lines go in, and the lines of each answer and of standard error come out."""

import os
import re
import selectors
import signal
import time
from subprocess import Popen, TimeoutExpired
from typing import Dict, List, NamedTuple, Optional

_BLOCK = 1 << 16
# The system waits no longer than some days at once.
_MOST_SECONDS = 3600.0
_ENDING = re.compile(rb"ok|(?:fault|refused) [0-9]+")


class Ended(Exception):
    """The program has ended. `status` is its status, or minus the number of the signal that ended it.

    `said` has what it wrote on standard error and what belongs to no answer.
    """

    def __init__(self, status: int, said: List[str]) -> None:
        self.status, self.said = status, said
        how = "with status %d" % status if status >= 0 else "by signal %d, %s" % (-status, _signal_name(-status))
        super().__init__(": ".join(["the program ended " + how, *_last_of(said)]))


class Garbled(Exception):
    """What was started isn't the program: it wrote a line that is no answer."""


class Late(Exception):
    """There was no answer within the seconds that were given for it. The program still runs."""


class Heard(NamedTuple):
    """The lines of an answer, the last one its ending, and those of standard error that came before it."""

    answer: List[bytes]
    told: List[str]


def _last_of(said: List[str]) -> List[str]:
    """The last line of standard error, with the lines behind it that say more of it, which are indented."""
    starts = [at for at, line in enumerate(said) if line and not line.startswith(" ")]
    return [line.strip() for line in said[starts[-1] if starts else len(said):]]


def _left(until: Optional[float]) -> Optional[float]:
    """The seconds to wait, so that it is seen in time where none are left; None where there is no end. Raises Late."""
    if until is None:
        return None
    seconds = until - time.monotonic()
    if seconds <= 0:
        raise Late()
    return min(seconds, _MOST_SECONDS)


def _signal_name(number: int) -> str:
    try:
        return signal.Signals(number).name
    except ValueError:
        return "of no name"


class Running:
    """A process of the program, whose three streams are pipes without buffers. One line is in work at a time."""

    def __init__(self, process: "Popen[bytes]") -> None:
        if process.stdin is None or process.stdout is None or process.stderr is None:
            raise ValueError("the program has to be started with pipes")
        self._process, self._input = process, process.stdin
        self._outputs = {process.stdout.fileno(): process.stdout, process.stderr.fileno(): process.stderr}
        self._out, self._err = process.stdout.fileno(), process.stderr.fileno()
        self._read: Dict[int, bytearray] = {self._out: bytearray(), self._err: bytearray()}
        self._answer: List[bytes] = []
        self._is_open = True
        self._ended: Optional[Ended] = None
        self._selector = selectors.DefaultSelector()
        for number in self._outputs:
            os.set_blocking(number, False)
            self._selector.register(number, selectors.EVENT_READ)

    @property
    def pid(self) -> int:
        """The id of the process."""
        return self._process.pid

    def ask(self, line: bytes, seconds: Optional[float] = None) -> Heard:
        """Sends a line, without its line feed, and waits for the answer, at most so many seconds where they are given.

        The program writes to standard error before it answers, so all of that is there once the answer is. Raises Ended
        where the program has ended or ends, Garbled where it answers nothing that is an answer, and Late.
        """
        until = None if seconds is None else time.monotonic() + seconds
        if self._ended is not None:
            raise self._ended
        try:
            self._write(line + b"\n")
        except BrokenPipeError:
            raise self._end() from None
        while not self._has_answer():
            if not self._is_open:
                raise self._end()
            self._wait(_left(until))
        self._take(self._err)
        answer, self._answer = self._answer, []
        return Heard(answer, self._told())

    def _write(self, data: bytes) -> None:
        view = memoryview(data)
        while view:
            view = view[os.write(self._input.fileno(), view):]

    def _wait(self, seconds: Optional[float]) -> None:
        """Waits for bytes of either stream, at most so long, and takes them; sees whether standard output is still open
        behind them."""
        for key, _ in self._selector.select(seconds):
            if not self._take(key.fd):
                self._selector.unregister(key.fd)
                if key.fd == self._out:
                    self._is_open = False

    def _take(self, number: int) -> bool:
        """Takes all that stands in a pipe; whether it is still open."""
        while True:
            try:
                block = os.read(number, _BLOCK)
            except BlockingIOError:
                return True
            if not block:
                return False
            self._read[number] += block

    def _has_answer(self) -> bool:
        """Moves the whole lines that were read to the answer; whether its ending is among them."""
        read = self._read[self._out]
        if b"\n" not in read:
            return False
        lines = bytes(read).split(b"\n")
        read[:] = lines.pop()
        for line in lines:
            self._answer.append(line)
            if not line.startswith(b"> "):
                if not _ENDING.fullmatch(line):
                    raise Garbled("the program wrote a line that is no answer: %r" % line[:80])
                return True
        return False

    def _told(self) -> List[str]:
        """The whole lines of standard error so far."""
        read = self._read[self._err]
        lines = bytes(read).split(b"\n")
        read[:] = lines.pop()
        return [line.decode("utf-8", "backslashreplace") for line in lines]

    def _end(self) -> Ended:
        """How the program ended, with what it said; it is waited for."""
        status = self._process.wait()
        self._take(self._err)
        said = self._told()
        rest = bytes(self._read[self._err])
        self._ended = Ended(status, said + ([rest.decode("utf-8", "backslashreplace")] if rest else []))
        return self._ended

    def status(self) -> Optional[int]:
        """The status of the program, None while it runs."""
        return self._process.poll()

    def kill(self) -> None:
        """Ends the program at once, whatever it does. It may be called while another thread waits for an answer."""
        self._process.kill()

    def close(self, seconds: float = 2.0) -> int:
        """Ends the input, waits for the program's end so many seconds, and then kills it. Gives its status."""
        self._input.close()
        try:
            self._process.wait(seconds)
        except TimeoutExpired:
            self._process.kill()
            self._process.wait()
        self._selector.close()
        for stream in self._outputs.values():
            stream.close()
        self._ended = self._ended or Ended(self._process.returncode, [])
        return self._process.returncode
