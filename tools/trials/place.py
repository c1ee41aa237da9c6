"""A folder with a stack, and the built program on it: what the cases of ./trial stand on.

The program is the one that ./card would run. Where something that a case needs isn't to be had, a Refusal says so.
"""

import os
import resource
import shutil
import signal
import stat
import subprocess
import threading
from typing import Any, Callable, Dict, Iterator, List, Optional, Sequence, Tuple

from making import tried

HERE = os.path.dirname(os.path.dirname(os.path.dirname(os.path.realpath(__file__))))
PROGRAM = tried.program()
DEMO = os.path.join(HERE, "crates", "card_cli", "data", "demo.stack")
NOBODY = 65534
MOST_SECONDS = 10.0  # that a program of a case may run
GROUP = 2000  # a group that nobody has, but where a case gives it

RENAME = 'set name of card 1 to "Renamed"'
SAVED = ["ok", "ok"]
REFUSED = ["ok", "refused 7"]
# What a case compares: what is, and what is wanted.
Pairs = Iterator[Tuple[Any, Any]]


def text_of(path: str) -> str:
    with open(path, encoding="latin-1", newline="") as file:
        return file.read()


def put_text(path: str, text: str) -> None:
    """Writes a text into a file that stays the one it was."""
    with open(path, "w", encoding="latin-1", newline="") as file:
        file.write(text)


def not_saved(reason: str) -> str:
    """The line on standard error."""
    return "card_cli: not saved: %s\n" % reason


CHANGED = not_saved("another program changed the file")
# What a session says at its end that has changes which weren't saved.
UNSAVED = "card_cli: changes weren't saved\n"


def before_end(told: str) -> str:
    """What came on standard error before the session's end: the cases of endings.py alone look at what it says there."""
    return told[:-len(UNSAVED)] if told.endswith(UNSAVED) else told


OLD = text_of(DEMO)
# A save writes version 2.
NEW = OLD.replace("htstack 1\n", "htstack 2\n", 1).replace("\nname |A\n", "\nname |Renamed\n", 1)


class Refusal(Exception):
    """Why nothing can be run, in a line."""


def built(folder: str, source: str) -> str:
    """A preload library, by the kit's compiler."""
    if not shutil.which("rt"):
        raise Refusal("there is no command rt: the Rattle kit has to be there, whose compiler builds tools/" + source)
    page = subprocess.run(["rt", "doc"], capture_output=True, text=True, check=True).stdout.strip()
    compiler = os.path.join(os.path.dirname(page), "toolchain", "bin", "clang")
    out = os.path.join(folder, source.replace(".c", ".so"))
    done = subprocess.run([compiler, "-O1", "-shared", "-fPIC", "-nostdlib", "-fuse-ld=lld",
                           os.path.join(HERE, "tools", source), "-o", out])
    if done.returncode != 0:
        raise Refusal("tools/%s was not built" % source)
    return out


def as_nobody() -> None:
    """Where the tests run as root, whom no permission stops, the program runs as nobody."""
    if os.geteuid() == 0:
        os.setgroups([])
        os.setresgid(NOBODY, NOBODY, NOBODY)
        os.setresuid(NOBODY, NOBODY, NOBODY)


def as_member() -> None:
    """As nobody, who is in a further group."""
    os.setgroups([GROUP])
    os.setresgid(NOBODY, NOBODY, NOBODY)
    os.setresuid(NOBODY, NOBODY, NOBODY)


def with_small_files() -> None:
    """No file grows, as on a full disk: a write to it fails."""
    signal.signal(signal.SIGXFSZ, signal.SIG_IGN)
    resource.setrlimit(resource.RLIMIT_FSIZE, (0, 0))


def with_memory(most: int) -> Callable[[], None]:
    """As nobody, with so many bytes of memory at most."""
    def before() -> None:
        as_nobody()
        resource.setrlimit(resource.RLIMIT_AS, (most, most))
    return before


class Stuck(Exception):
    """A program did something else than what a case waits for; in a line."""


class Talk:
    """A program that runs, line by line. It is killed after a while, so that a case that waits for it goes on."""

    def __init__(self, stack: str, before: Callable[[], None] = as_nobody,
                 env: Optional[Dict[str, str]] = None) -> None:
        self.program = subprocess.Popen([PROGRAM, stack], stdin=subprocess.PIPE, stdout=subprocess.PIPE,
                                        stderr=subprocess.PIPE, text=True, bufsize=1, preexec_fn=before, env=env)
        self.timer = threading.Timer(MOST_SECONDS, self.program.kill)
        self.timer.daemon = True
        self.timer.start()

    def tell(self, line: str) -> None:
        self.program.stdin.write(line + "\n")
        self.program.stdin.flush()

    def ask(self, line: str) -> str:
        """The answer to a line that shows nothing."""
        self.tell(line)
        return self.heard()

    def heard(self) -> str:
        return self.program.stdout.readline().rstrip("\n")

    def wait_till_stopped(self) -> None:
        """Until a signal has stopped it; Stuck where it ends instead."""
        _, status = os.waitpid(self.program.pid, os.WUNTRACED)
        if not os.WIFSTOPPED(status):
            raise Stuck("a program didn't stop where it was to")

    def go_on(self) -> None:
        os.kill(self.program.pid, signal.SIGCONT)

    def most_memory(self) -> int:
        """The most bytes of memory that it has had."""
        return self.status_of("VmPeak:")

    def memory(self) -> int:
        """The bytes of memory that it fills now."""
        return self.status_of("VmRSS:")

    def status_of(self, name: str) -> int:
        """What the system says of it in kilobytes, in bytes."""
        with open("/proc/%d/status" % self.program.pid, encoding="ascii") as status:
            return next(int(line.split()[1]) for line in status if line.startswith(name)) * 1024

    def page_faults(self) -> int:
        """How many pages of memory the system has given it so far."""
        with open("/proc/%d/stat" % self.program.pid, encoding="ascii", errors="replace") as stat_file:
            return int(stat_file.read().rpartition(")")[2].split()[7])

    def end(self) -> Tuple[int, str]:
        """The status and standard error, once its input has ended."""
        _, told = self.program.communicate()
        self.timer.cancel()
        return self.program.returncode, before_end(told)

    def kill(self) -> None:
        """Ends it, wherever it is."""
        self.timer.cancel()
        self.program.kill()
        self.program.communicate()


class Place:
    """A folder with the stack, and the preload library that sends signals."""

    def __init__(self, folder: str, library: str) -> None:
        self.folder, self.library = folder, library
        self.talks: List[Talk] = []
        self.stack = os.path.join(folder, "STACK")
        self.beside = self.stack + ".new"
        if os.geteuid() == 0:
            os.chown(folder, NOBODY, NOBODY)
        os.chmod(folder, 0o755)
        self.fill()

    def fill(self, mode: int = 0o644) -> None:
        """The demo stack, alone in the folder."""
        for name in self.names():
            os.remove(os.path.join(self.folder, name))
        shutil.copyfile(DEMO, self.stack)
        if os.geteuid() == 0:
            os.chown(self.stack, NOBODY, NOBODY)
        os.chmod(self.stack, mode)

    def run(self, lines: Sequence[str], words: Sequence[str] = (), before: Callable[[], None] = as_nobody,
            env: Optional[Dict[str, str]] = None) -> Tuple[List[str], int, str]:
        """The answers to lines, the status, and standard error."""
        done = subprocess.run([PROGRAM, self.stack, *words], input="".join(line + "\n" for line in lines), text=True,
                              capture_output=True, preexec_fn=before, restore_signals=False, env=env)
        return done.stdout.split("\n")[:-1], done.returncode, before_end(done.stderr)

    def talk(self, before: Callable[[], None] = as_nobody, env: Optional[Dict[str, str]] = None) -> Talk:
        """A program on the stack, which is renamed there and not saved."""
        talk = Talk(self.stack, before, env)
        self.talks.append(talk)
        talk.ask(RENAME)
        return talk

    def leave(self) -> None:
        """Ends the programs that a case left."""
        for talk in self.talks:
            if talk.program.returncode is None:
                talk.kill()

    def signalled(self, number: int, at: str, nth: int = 1) -> Dict[str, str]:
        """The environment in which a program sends itself a signal at the N-th call of a function."""
        return dict(os.environ, LD_PRELOAD=self.library, SIGNAL=str(int(number)), SIGNAL_AT=at, SIGNAL_NTH=str(nth))

    def names(self) -> List[str]:
        return sorted(os.listdir(self.folder))

    def look(self) -> Tuple[str, List[str]]:
        """The stack's text, and all names of the folder."""
        return text_of(self.stack), self.names()

    def mode(self) -> int:
        return stat.S_IMODE(os.stat(self.stack).st_mode)
