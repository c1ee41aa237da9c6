"""Where the program is, and how it is started."""

import contextlib
import os
import resource
import subprocess
import threading
from typing import Dict, Iterator, List, Optional, Sequence

HERE = os.path.dirname(os.path.dirname(os.path.realpath(__file__)))
# Where the program stands, the first that can be run. The environment variable goes before them.
PLACES = (os.path.join("release", "card_cli"), os.path.join("crates", "card_cli", "out", "card_cli"))
VARIABLE = "CARD_CLI"
# How much stack a run gets where the system sets no limit of its own, in bytes. Legal scripts nest deep.
MOST_STACK = 1 << 30
# What the C library is told of memory that the program gives back, as ./card tells it: it keeps blocks at hand that are as
# small as those of trees of texts, which come and go. It gives none of these to a list that grows, so larger ones aren't kept
# so. Lists of a command's changes it takes from the same room, of which it keeps 4 MiB.
TUNABLES = "GLIBC_TUNABLES"
KEPT_MEMORY = ("glibc.malloc.tcache_count=20000:glibc.malloc.tcache_max=128:glibc.malloc.mmap_threshold=33554432"
               ":glibc.malloc.trim_threshold=4194304:glibc.malloc.top_pad=1048576")
_LIMITS = threading.Lock()


class ProgramMissing(Exception):
    """There is no program to run; the text says where it was looked for."""


def _can_run(path: str) -> bool:
    return os.path.isfile(path) and os.access(path, os.X_OK)


def path() -> str:
    """The path of the program: what CARD_CLI says, else release/card_cli, else what was built here.

    Raises ProgramMissing where CARD_CLI names no file that can be run, or where neither of the two is there.
    """
    named = os.environ.get(VARIABLE)
    if named:
        if not _can_run(named):
            raise ProgramMissing("%s is %s, which can't be run" % (VARIABLE, named))
        return os.path.abspath(named)
    for place in PLACES:
        found = os.path.join(HERE, place)
        if _can_run(found):
            return found
    raise ProgramMissing("there is no program: neither %s can be run; tools/build builds it" % " nor ".join(PLACES))


def environment() -> Dict[str, str]:
    """The environment that the program gets: that of this process, where the C library is told what memory to keep. What stands
    there for the C library goes before that, as the last that is told counts."""
    told = os.environ.get(TUNABLES, "")
    if told.startswith(KEPT_MEMORY):
        return dict(os.environ)
    return {**os.environ, TUNABLES: KEPT_MEMORY + (":" + told if told else "")}


@contextlib.contextmanager
def deep_stack() -> Iterator[None]:
    """Raises the limit of the stack, as far as the system lets it, for what is started meanwhile.

    A limit that can't be raised stays: then only scripts that nest very deep are in danger. The limit is that of this
    process, whose own stack doesn't grow by it, and it is put back. No function is run in the child, since that isn't
    safe where there are threads.
    """
    with _LIMITS:
        soft, hard = resource.getrlimit(resource.RLIMIT_STACK)
        most = MOST_STACK if hard == resource.RLIM_INFINITY else min(hard, MOST_STACK)
        if soft != resource.RLIM_INFINITY and soft < most:
            with contextlib.suppress(OSError, ValueError):
                resource.setrlimit(resource.RLIMIT_STACK, (most, hard))
        try:
            yield
        finally:
            resource.setrlimit(resource.RLIMIT_STACK, (soft, hard))


def words(stack: str, steps: Optional[int] = None, depth: Optional[int] = None, watch: bool = False,
          explain: bool = False) -> List[str]:
    """The program's words for a stack. The path is made absolute, so that none is taken for an option."""
    said = [os.path.abspath(stack)]
    said += ["--steps", str(steps)] if steps is not None else []
    said += ["--depth", str(depth)] if depth is not None else []
    said += ["--watch"] if watch else []
    return said + (["--explain"] if explain else [])


def start(said: Sequence[str], program: Optional[str] = None) -> "subprocess.Popen[bytes]":
    """Starts the program with these words; its three streams are pipes that aren't buffered.

    It gets a session of its own, so that a Control-C of the terminal doesn't reach it. It ends where its input ends.
    Raises ProgramMissing, and OSError where the system can't start it.
    """
    with deep_stack():
        return subprocess.Popen([program or path(), *said], bufsize=0, start_new_session=True, env=environment(),
                                stdin=subprocess.PIPE, stdout=subprocess.PIPE, stderr=subprocess.PIPE)


def run(said: Sequence[str], given: bytes = b"", program: Optional[str] = None,
        seconds: Optional[float] = None) -> "subprocess.CompletedProcess[bytes]":
    """Runs the program with these words and this input to its end, and gives its status and what it wrote.

    Raises what `start` raises, and subprocess.TimeoutExpired where it takes longer than so many seconds.
    """
    with start(said, program) as process:
        try:
            written, told = process.communicate(given, seconds)
        except BaseException:
            process.kill()
            raise
    return subprocess.CompletedProcess(process.args, process.returncode, written, told)
