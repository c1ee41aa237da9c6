"""Names of globals that the kit's hash doesn't tell apart, as whoever writes a stack can choose them."""

import ctypes
import tempfile
from typing import List

from trials.place import built

# What tools/alike.c gives each name of bytes.
LENGTH = 12


def names(count: int) -> List[str]:
    """So many names. A Refusal where there is no kit, whose compiler is needed."""
    with tempfile.TemporaryDirectory() as folder:
        library = ctypes.CDLL(built(folder, "alike.c"))
    found = ctypes.create_string_buffer(LENGTH * count)
    library.alike(found, ctypes.c_long(count))
    return [found.raw[at:at + LENGTH].decode("ascii") for at in range(0, LENGTH * count, LENGTH)]
