"""The terminal's mode, and the signals of the person at it.

The terminal stays out of its line mode all the time, also while the program works. So no line is cut at 4,095 bytes and
no part of a paste gets lost; what is typed ahead appears when it is read. It gets its usual mode back for an editor,
for the shell, and in the end.
"""

import os
import signal
import sys
import termios
from contextlib import contextmanager
from types import FrameType
from typing import Any, Callable, Dict, Iterator, Optional

Signalled = Callable[[int, Optional[FrameType]], None]


class HungUp(Exception):
    """The terminal is gone, or the session is told to end."""


class Mode:
    """The mode of the terminal on standard input."""

    def __init__(self) -> None:
        self._usual = termios.tcgetattr(sys.stdin)

    def take_keys(self, shows: bool = False) -> None:
        """Bytes come as they are typed, and the system doesn't show them unless it is told. Control-C is a signal."""
        mode = self._now()
        mode[3] = (mode[3] & ~termios.ICANON & ~termios.ECHO) | (termios.ECHO if shows else 0)
        mode[6] = list(mode[6])
        mode[6][termios.VMIN], mode[6][termios.VTIME] = 1, 0
        self._set(mode)

    def give_back(self) -> None:
        """The mode in which it was found."""
        self._set(self._usual)

    @contextmanager
    def lent(self) -> Iterator[None]:
        """Where the terminal is in its usual mode, for another program."""
        now = self._now()
        self.give_back()
        try:
            yield
        finally:
            self._set(now)

    def _now(self) -> Any:
        try:
            return termios.tcgetattr(sys.stdin)
        except termios.error:
            return self._usual  # the terminal is gone

    @staticmethod
    def _set(mode: Any) -> None:
        try:
            termios.tcsetattr(sys.stdin, termios.TCSADRAIN, mode)
        except termios.error:
            pass  # the terminal is gone


class Interrupts:
    """Control-C, Control-Z and the signals that end. A KeyboardInterrupt comes only where it is let in, so that nothing
    is left half done. `resumed` is called where the session goes on after Control-Z."""

    ENDING = (signal.SIGHUP, signal.SIGTERM)

    def __init__(self, mode: Mode, resumed: Callable[[], None]) -> None:
        self._mode, self._resumed = mode, resumed
        self._allowed = False
        self._before: Dict[int, Any] = {}

    def __enter__(self) -> "Interrupts":
        handlers: Dict[int, Signalled] = {signal.SIGINT: self._interrupt, signal.SIGTSTP: self._pause}
        handlers.update({number: self._hang_up for number in self.ENDING})
        self._before = {number: signal.signal(number, handler) for number, handler in handlers.items()}
        return self

    def __exit__(self, *_: object) -> None:
        for number, handler in self._before.items():
            signal.signal(number, handler)

    @contextmanager
    def let_in(self) -> Iterator[None]:
        """Where Control-C raises KeyboardInterrupt."""
        self._allowed = True
        try:
            yield
        finally:
            self._allowed = False

    @contextmanager
    def left_to_others(self) -> Iterator[None]:
        """Where Control-C and Control-Z are another program's."""
        numbers = (signal.SIGINT, signal.SIGTSTP)
        before = {number: signal.signal(number, signal.SIG_IGN) for number in numbers}
        try:
            yield
        finally:
            for number, handler in before.items():
                signal.signal(number, handler)

    def _interrupt(self, _number: int, _frame: Optional[FrameType]) -> None:
        if self._allowed:
            raise KeyboardInterrupt

    def _pause(self, _number: int, _frame: Optional[FrameType]) -> None:
        with self._mode.lent():
            signal.signal(signal.SIGTSTP, signal.SIG_DFL)
            os.kill(os.getpid(), signal.SIGTSTP)
            signal.signal(signal.SIGTSTP, self._pause)
        self._resumed()

    def _hang_up(self, _number: int, _frame: Optional[FrameType]) -> None:
        for number in self.ENDING:
            signal.signal(number, signal.SIG_IGN)
        raise HungUp
