"""The cases of ./trial on how a session ends: whether it says that changes weren't saved, and on streams that don't block."""

import fcntl
import os
import subprocess
import threading
import time
from typing import Callable, List, Sequence, Tuple

from .place import NEW, OLD, PROGRAM, RENAME, UNSAVED, Pairs, Place, as_nobody, not_saved, put_text

# How long a stream isn't ready, in seconds: some tens of the program's pauses.
NOT_READY = 0.2
# The lines that are typed, and whether changes are unsaved at the end.
ENDINGS: Sequence[Tuple[Sequence[str], bool]] = (
    ((), False),
    ((RENAME,), True),
    ((RENAME, ".quit"), True),
    ((RENAME, ".save"), False),
    ((RENAME, ".save", ".quit"), False),
    ((RENAME, ".undo"), False),
    ((RENAME, ".undo", ".redo"), True),
    ((RENAME, ".save", ".undo"), True),
    ((RENAME, ".save", ".undo", ".redo"), False),
    (("put 1 into g", "go card 2", "put Count()"), False),
)
SHOWS = 20_000  # lines of one answer, more than a pipe takes at once


def told(place: Place, lines: Sequence[str]) -> Tuple[int, str]:
    """The status, and all that a session says on standard error."""
    done = subprocess.run([PROGRAM, place.stack], input="".join(line + "\n" for line in lines), text=True,
                          capture_output=True, preexec_fn=as_nobody, restore_signals=False, check=False)
    return done.returncode, done.stderr


def changes_that_were_not_saved(place: Place) -> Pairs:
    """The stack is of version 1, so what is saved isn't its text even where nothing changed; then of version 2."""
    for version in (OLD, NEW.replace("Renamed", "A")):
        for lines, is_unsaved in ENDINGS:
            place.fill()
            put_text(place.stack, version)
            yield (lines, told(place, lines)), (lines, (0, UNSAVED if is_unsaved else ""))


def a_save_that_failed(place: Place) -> Pairs:
    os.chmod(place.stack, 0o444)
    yield told(place, [RENAME, ".save"]), (0, not_saved("no permission") + UNSAVED)


def set_not_to_block(descriptor: int) -> None:
    flags = fcntl.fcntl(descriptor, fcntl.F_GETFL)
    fcntl.fcntl(descriptor, fcntl.F_SETFL, flags | os.O_NONBLOCK)


def read_all(descriptor: int, found: List[bytes]) -> None:
    """Reads a pipe to its end, after a while."""
    time.sleep(NOT_READY)
    with os.fdopen(descriptor, "rb") as pipe:
        found.append(pipe.read())


def streams_that_do_not_block(place: Place) -> Pairs:
    """The lines come late, and the answers are taken late, by pipes that neither end may wait for."""
    line = "repeat with i = 1 to %d\rput i\rend repeat" % SHOWS
    (taken, given), (answered, answers) = os.pipe(), os.pipe()
    set_not_to_block(taken)
    set_not_to_block(answers)
    program = subprocess.Popen([PROGRAM, place.stack], stdin=taken, stdout=answers, stderr=subprocess.PIPE,
                               preexec_fn=as_nobody)
    os.close(taken)
    os.close(answers)
    found: List[bytes] = []
    reader = threading.Thread(target=read_all, args=(answered, found))
    reader.start()
    for half in (line[:10], line[10:] + "\n"):
        time.sleep(NOT_READY)
        os.write(given, half.encode())
    os.close(given)
    _, said = program.communicate()
    reader.join()
    wanted = "".join("> %d\n" % number for number in range(1, SHOWS + 1)) + "ok\n"
    yield (program.returncode, said, b"".join(found).decode()), (0, b"", wanted)


CASES: Sequence[Callable[[Place], Pairs]] = (
    changes_that_were_not_saved, a_save_that_failed, streams_that_do_not_block)
