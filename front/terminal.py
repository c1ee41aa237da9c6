#!/usr/bin/env python3
"""The terminal: `front/terminal.py STACK [--steps N] [--depth D] [--watch] [--quiet] [--minutes=M]
[--mac-roman | --utf-8]`.

It opens a stack by the program, and takes lines as that does, with a prompt, line editing, completion, a history that
is kept, handlers of several lines, an editor for scripts, and faults in words. `.help` lists what can be typed.

`--quiet` leaves out the words of faults. A line that takes longer than M minutes, 60 unless they are given, is broken
off. With `--mac-roman` the bytes 128 to 255 are characters of Mac Roman, with `--utf-8` they are read and shown as
UTF-8; else the stack's own bytes decide, as on the page. All other words are the program's; where they are wrong, and
where standard input or output is no terminal, the program itself takes the place of this.

The status is the program's: 0; 2 where the words or the stack are wrong; 1 where anything else stops it.
"""

import os
import sys
from dataclasses import dataclass
from typing import List, Optional

HERE = os.path.dirname(os.path.dirname(os.path.realpath(__file__)))
# The folder of this file isn't to hide modules of Python's own behind those of the front.
sys.path[:] = [HERE] + [path for path in sys.path if os.path.realpath(path or ".") != os.path.join(HERE, "front")]

from front import program  # noqa: E402
from front.running import Garbled  # noqa: E402
from front.session import MINUTES, Ended, Session, minutes_of  # noqa: E402
from front.terminal_loop import Terminal  # noqa: E402
from front.terminal_text import Coding  # noqa: E402

CODINGS = {"--mac-roman": Coding.MAC_ROMAN, "--utf-8": Coding.UTF_8}
OWN = (*CODINGS, "--quiet", "--plain")
OWN_MINUTES = "--minutes="
JOINED = ("--steps=", "--depth=")
WRONG = 2


@dataclass
class Options:
    """What the words say."""

    stack: str = ""
    steps: Optional[int] = None
    depth: Optional[int] = None
    watch: bool = False
    explain: bool = True
    coding: Optional[Coding] = None
    minutes: float = MINUTES


def options_of(words: List[str]) -> Optional[Options]:
    """The options; None where the words are wrong, or ask for what isn't a session. Raises ValueError where the minutes
    are no number above 0."""
    found = Options()
    rest = [part for word in words for part in (word.split("=", 1) if word.startswith(JOINED) else [word])]
    while rest:
        word = rest.pop(0)
        if word in ("--steps", "--depth"):
            number = rest.pop(0) if rest else ""
            if not (number.isascii() and number.isdigit()):
                return None
            setattr(found, word[2:], int(number))
        elif word == "--watch":
            found.watch = True
        elif word in CODINGS:
            found.coding = CODINGS[word]
        elif word == "--quiet":
            found.explain = False
        elif word.startswith(OWN_MINUTES):
            found.minutes = minutes_of(word[len(OWN_MINUTES):])
        elif word != "--explain":
            if word.startswith("--") or found.stack:
                return None
            found.stack = word
    return found if found.stack else None


def main(words: List[str]) -> int:
    """Runs the terminal with the words of the command line, and gives its status."""
    try:
        options = options_of(words)
    except ValueError:
        print("terminal: --minutes wants a number above 0: how long a line may take", file=sys.stderr)
        return WRONG
    try:
        if options is None or not (sys.stdin.isatty() and sys.stdout.isatty()):
            path = program.path()
            os.execv(path, [path] + [word for word in words if word not in OWN and not word.startswith(OWN_MINUTES)])
        session = Session(options.stack, options.steps, options.depth, explain=options.explain, minutes=options.minutes)
    except Ended as ended:
        print(*(ended.said or [str(ended)]), sep="\n", file=sys.stderr)
        return ended.status if ended.status > 0 else 1
    except (program.ProgramMissing, OSError, Garbled) as error:
        print("terminal: %s" % error, file=sys.stderr)
        return WRONG
    with session:
        return Terminal(options.stack, session, options.coding, options.watch).run()


if __name__ == "__main__":
    sys.exit(main(sys.argv[1:]))
