"""A program in a pseudo-terminal, as a person has it: what it draws, and keys that are pressed."""

import codecs
import fcntl
import os
import pty
import re
import select
import struct
import subprocess
import termios
import time
from typing import Dict, List, Optional

# What moves the cursor or sets a mode, and isn't text.
CONTROL = re.compile(r"\x1b\[[0-9;?]*[A-Za-z]|\x1b[=>]|\x1b\][^\x07]*\x07|[\x07\x00]")
PASTE, END_OF_PASTE = "\x1b[200~", "\x1b[201~"
CONTROL_C, CONTROL_D, TAB, RETURN, UP = "\x03", "\x04", "\t", "\r", "\x1b[A"


class NotSeen(AssertionError):
    """What was waited for didn't appear in time; the text has the end of what did."""


class Screen:
    """A program that runs in a pseudo-terminal of this many columns."""

    def __init__(self, words: List[str], environment: Dict[str, str], folder: str, columns: int = 200) -> None:
        self._master, slave = pty.openpty()
        self.resize(columns)
        self.process = subprocess.Popen(words, stdin=slave, stdout=slave, stderr=slave, cwd=folder, env=environment,
                                        start_new_session=True, preexec_fn=lambda: _own_terminal(slave))
        os.close(slave)
        self.seen = ""
        self._at = 0
        self._decoder = codecs.getincrementaldecoder("utf-8")("backslashreplace")
        self._rest = ""

    def resize(self, columns: int, rows: int = 40) -> None:
        """Sets the size of the window; the program is told by a signal."""
        fcntl.ioctl(self._master, termios.TIOCSWINSZ, struct.pack("HHHH", rows, columns, 0, 0))

    def type(self, text: str) -> None:
        """Presses these keys; takes what is drawn meanwhile, as a terminal does."""
        data = text.encode("utf-8")
        os.set_blocking(self._master, False)
        end = time.monotonic() + 60
        while data and time.monotonic() < end:
            self._take(0)
            try:
                data = data[os.write(self._master, data[:2048]):]
            except BlockingIOError:
                time.sleep(0.005)
        if data:
            raise NotSeen("%d bytes weren't taken" % len(data))

    def interrupt(self) -> None:
        """Presses Control-C, a while after what was drawn last: one that comes between the drawing of a prompt and the
        reading of its line is only noticed with the next key."""
        time.sleep(0.3)
        self.type(CONTROL_C)

    def enter(self, line: str) -> None:
        """Types a line with its Return."""
        self.type(line + RETURN)

    def wait(self, text: str, seconds: float = 10.0) -> str:
        """Waits until the text appears behind what was waited for before, and gives what was drawn up to its end."""
        end = time.monotonic() + seconds
        while True:
            found = self.seen.find(text, self._at)
            if found >= 0:
                start, self._at = self._at, found + len(text)
                return self.seen[start:self._at]
            if time.monotonic() > end or not self._take(0.05):
                if text not in self.seen[self._at:]:
                    raise NotSeen("%r didn't appear behind %r" % (text, self.seen[self._at:][-2000:]))

    def _take(self, seconds: float) -> bool:
        """Takes what was drawn; whether the terminal is still open."""
        if not select.select([self._master], [], [], seconds)[0]:
            return True
        try:
            block = os.read(self._master, 65536)
        except OSError:
            return False
        drawn = CONTROL.sub("", self._rest + self._decoder.decode(block))
        cut = drawn.rfind("\x1b")
        self.seen, self._rest = self.seen + drawn[:cut if cut >= 0 else None], drawn[cut:] if cut >= 0 else ""
        return bool(block)

    def status(self, seconds: float = 10.0) -> int:
        """The status of the program, which has to end."""
        end = time.monotonic() + seconds
        while self.process.poll() is None and time.monotonic() < end:
            self._take(0.02)
        return self.process.wait(0.1)

    def hang_up(self) -> None:
        """Closes the terminal, as a window that is closed."""
        os.close(self._master)
        self._master = -1

    def close(self) -> None:
        """Ends the program, where it still runs: by a signal that lets it clear up, or else at once."""
        end = time.monotonic() + 3
        if self.process.poll() is None:
            self.process.terminate()
        while self.process.poll() is None and time.monotonic() < end and self._master >= 0:
            self._take(0.02)
        if self.process.poll() is None:
            self.process.kill()
        self.process.wait()
        if self._master >= 0:
            os.close(self._master)


def _own_terminal(slave: int) -> None:
    fcntl.ioctl(slave, termios.TIOCSCTTY, 0)


def child_of(pid: int) -> Optional[int]:
    """The first child of a process."""
    with open("/proc/%d/task/%d/children" % (pid, pid)) as file:
        found = file.read().split()
    return int(found[0]) if found else None
