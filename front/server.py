"""Serves a stack as a page to one's own browser.

    ./play [STACK] [--steps N] [--depth D] [--minutes M] [--port P] [--utf-8 | --mac-roman]

Without STACK it opens demo.stack in the current folder, a copy of the demo stack that is made where there is none. It
prints an address with a key, and serves the page there, on 127.0.0.1, at a free port or at P, to whoever has the key.
--steps and --depth are the program's. Texts are read as UTF-8, unless the stack has bytes that aren't; then, and with
--mac-roman, a byte is a character of Mac Roman.

It ends with the program, by `.quit`, and by Control-C; where changes aren't saved, a second one is asked for. The
status is 0 then, 2 where the words or the stack are wrong or there is no program, and 1 where the port can't be had.
"""

import argparse
import os
import secrets
import shutil
import signal
import sys
import threading
from types import FrameType
from typing import Optional, Sequence

from front.program import HERE
from front.server_desk import PageDesk
from front.server_door import Door
from front.server_play import BROKEN, Options, Play, words_of
from front.session import MINUTES, minutes_of
from front.terminal_text import Coding

DEMO = os.path.join(HERE, "crates", "card_cli", "data", "demo.stack")
IN_FOLDER = "demo.stack"
DONE, FAILED, WRONG = 0, 1, 2
# How long a page may take to fetch the news that the session has ended.
SECONDS_TO_PART = 0.5


def say(text: str) -> None:
    print("play: " + text, file=sys.stderr, flush=True)


def words() -> argparse.ArgumentParser:
    """The words that are taken."""
    parser = argparse.ArgumentParser(prog="play", description="Serves a stack as a page to your own browser.")
    parser.add_argument("stack", nargs="?", help="the stack's file; a copy of the demo stack where none is named")
    parser.add_argument("--steps", type=int, help="how many steps a command may take")
    parser.add_argument("--depth", type=int, help="how many commands can be undone")
    parser.add_argument("--minutes", type=minutes_of, default=MINUTES, metavar="M",
                        help="how long a line may take before it is broken off; %g unless it is given" % MINUTES)
    parser.add_argument("--port", type=int, default=0, help="the port; a free one where none is named")
    codings = parser.add_mutually_exclusive_group()
    codings.add_argument("--utf-8", dest="coding", action="store_const", const=Coding.UTF_8, help="texts are UTF-8")
    codings.add_argument("--mac-roman", dest="coding", action="store_const", const=Coding.MAC_ROMAN,
                         help="texts are Mac Roman")
    return parser


def stack_path(named: Optional[str]) -> str:
    """The file to open. Raises OSError where the copy of the demo stack can't be made."""
    if named is not None:
        return os.path.abspath(named)
    if not os.path.lexists(IN_FOLDER):
        shutil.copyfile(DEMO, IN_FOLDER)
    return os.path.abspath(IN_FOLDER)


class Interrupts:
    """Control-C ends; where changes aren't saved it asks first, once for the stack as it is then."""

    def __init__(self, play: Play, end: threading.Event) -> None:
        self._play, self._end, self._asked = play, end, b""

    def __call__(self, number: int, frame: Optional[FrameType]) -> None:
        text = self._play.known.text
        if number == signal.SIGINT and self._play.unsaved and self._asked != text:
            self._asked = text
            say("there are changes that aren't saved. Save them on the page, or press Control-C again to end without "
                "them")
            return
        self._end.set()


def serve(play: Play, port: int) -> int:
    """Serves the page until the end, and gives the status."""
    try:
        door = Door(PageDesk(play), secrets.token_urlsafe(24), port)
    except (OSError, OverflowError) as error:
        say("can't listen at port %d of 127.0.0.1: %s" % (port, error))
        return FAILED
    end = threading.Event()
    for number in (signal.SIGINT, signal.SIGTERM):
        signal.signal(number, Interrupts(play, end))
    thread = threading.Thread(target=door.serve_forever, daemon=True)
    thread.start()
    print(door.address, flush=True)
    say("open this address in a browser; Control-C ends")
    while not end.wait(0.2) and not play.ended:
        pass
    if play.ended:
        end.wait(SECONDS_TO_PART)
    play.close()
    door.shutdown()
    door.server_close()
    return DONE


def main(given: Optional[Sequence[str]] = None) -> int:
    """Opens the stack and serves it. Gives the status."""
    said = words().parse_args(given)
    options = Options(said.steps, said.depth, said.coding, said.minutes)
    try:
        play = Play(stack_path(said.stack), options)
    except (*BROKEN, MemoryError) as error:
        say(words_of(error))
        return WRONG
    return serve(play, said.port)


if __name__ == "__main__":
    sys.exit(main())
