"""What the program says of the scripts of a stack without running them: those that aren't in the grammar, and the
messages that nothing handles."""

import os
import re
import tempfile
from dataclasses import dataclass, field
from typing import List, Optional

from front import program

HEAD = re.compile(r"(?P<object>.*) \(id (?P<id>[0-9]+)\), line (?P<line>[0-9]+)"
                  r"(?:, column (?P<column>[0-9]+))?: (?P<words>.*)")
ALL_READ, SOME_DONT = 0, 1


class NotChecked(Exception):
    """The program didn't check the stack; the text says what it said."""


@dataclass
class Remark:
    """One thing that the program says of a script: of which object, by its id, and at which line, from 1. An error has
    a column too, and the lines that show the place; a hint has neither."""

    words: str
    object: str
    id: int
    line: int
    column: Optional[int] = None
    shown: List[str] = field(default_factory=list)

    @property
    def is_error(self) -> bool:
        """Whether the script isn't in the grammar, so that none of its handlers runs."""
        return self.column is not None

    def text(self) -> List[str]:
        """The lines that the program wrote of it."""
        column = ", column %d" % self.column if self.column is not None else ""
        return ["%s (id %d), line %d%s: %s" % (self.object, self.id, self.line, column, self.words)] + self.shown


def check(stack: bytes, which: Optional[str] = None) -> List[Remark]:
    """What the program says of all scripts of a stack, from its text. `which` is the path of the program.

    Raises NotChecked where the program refuses the text, or doesn't know how to check; ProgramMissing where there is
    none; OSError where no temporary file can be written.
    """
    with tempfile.TemporaryDirectory(prefix="yarvekko-") as folder:
        path = os.path.join(folder, "checked.stack")
        with open(path, "wb") as file:
            file.write(stack)
        done = program.run(["--check", path], program=which)
    if done.returncode not in (ALL_READ, SOME_DONT):
        raise NotChecked(done.stderr.decode("utf-8", "replace").strip() or "it ended with status %d" % done.returncode)
    return remarks(done.stdout.decode("utf-8", "replace").splitlines())


def remarks(lines: List[str]) -> List[Remark]:
    """The remarks in the lines that `--check` wrote; a line that begins with spaces belongs to the remark above it."""
    found: List[Remark] = []
    for line in lines:
        head = HEAD.fullmatch(line)
        if head and not line.startswith(" "):
            column = head.group("column")
            place = int(head.group("id")), int(head.group("line")), int(column) if column else None
            found.append(Remark(head.group("words"), head.group("object"), *place))
        elif found:
            found[-1].shown.append(line)
    return found
