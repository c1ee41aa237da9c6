"""Which program ./trial, ./stress, ./speed and tools/needs run: the one that ./card would.

It is the one that the environment variable CARD_CLI names, else the released one where that is of the sources that stand
here and this system can run it, else the one that tools/build proves and builds first. It gets the environment that ./card
gives it.
"""

import os
import subprocess
import sys

from . import sums

VARIABLE = "CARD_CLI"
HERE = os.path.dirname(os.path.dirname(os.path.dirname(os.path.realpath(__file__))))
RELEASED, BUILT = (os.path.join(HERE, place) for place in (sums.RELEASED, sums.BUILT))
if HERE not in sys.path:
    sys.path.insert(0, HERE)

from front.program import environment  # noqa: E402


def program() -> str:
    """The path of the program."""
    named = os.environ.get(VARIABLE)
    if named:
        return named
    checked = subprocess.run([os.path.join(HERE, "tools", "release"), "--check"], stdout=subprocess.DEVNULL, check=False)
    return RELEASED if checked.returncode == 0 else BUILT


def made_ready(path: str) -> int:
    """Sees that the program at this path, which `program` gave, is of the sources: builds it where tools/build is who makes
    it. The status of that, 0 where there is nothing to do. What is started later has the environment that ./card gives."""
    os.environ.update(environment())
    if os.environ.get(VARIABLE) or path != BUILT:
        return 0
    return subprocess.run([os.path.join(HERE, "tools", "build")], check=False).returncode
