"""Tells rt of twice the cores, where Python starts with this folder in PYTHONPATH.

`rt ci` shares the cores among the proofs that can begin, and counts the tests of a crate as one of them, also where it
has none. So a crate with nothing beside it would get half of the cores; told of twice as many, rt gives it all.
"""

import os

CORES = len(os.sched_getaffinity(0))
os.sched_getaffinity = lambda _: set(range(2 * CORES))
