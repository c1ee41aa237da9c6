#!/usr/bin/env python3
"""Runs the program as in a pipe, and tells by the status whether each line ended well: strict.py PROGRAM WORDS

Standard input, output and error are the program's own, to the byte. Where the program ends with 0, the status is 3 if a
line faulted or was refused, and else 0; where it ends otherwise, the status is the program's, or 128 and the number of
the signal that ended it.
"""

import os
import re
import subprocess
import sys
from typing import IO, List

BLOCK = 1 << 16
FAULTED = 3
# The last line of an answer that isn't `ok`. Lines that are shown begin with `> `.
WRONG = re.compile(rb"^(?:fault|refused) [0-9]+$", re.MULTILINE)


def passed_on(written: IO[bytes], to: IO[bytes]) -> bool:
    """Passes on what the program writes as it comes, and tells whether a line faulted or was refused."""
    has_wrong, rest = False, b""
    while True:
        block = os.read(written.fileno(), BLOCK)
        if not block:
            return has_wrong
        to.write(block)
        to.flush()
        lines, end, rest = (rest + block).rpartition(b"\n")
        has_wrong = has_wrong or WRONG.search(lines + end) is not None


def main(words: List[str]) -> int:
    """Runs the program with its words, and gives the status. What can't be started is status 127, with a line."""
    try:
        process = subprocess.Popen(words, stdout=subprocess.PIPE)
    except OSError as error:
        print("strict: %s can't be started: %s" % (words[0], error.strerror), file=sys.stderr)
        return 127
    assert process.stdout is not None
    try:
        has_wrong = passed_on(process.stdout, sys.stdout.buffer)
    except BrokenPipeError:
        process.stdout.close()
        has_wrong = False
    status = process.wait()
    if status < 0:
        return 128 - status
    return FAULTED if status == 0 and has_wrong else status


if __name__ == "__main__":
    sys.exit(main(sys.argv[1:]))
