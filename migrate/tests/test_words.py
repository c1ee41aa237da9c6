"""Each line of the table of HyperCard's words in docs/MIGRATING.md, tried in the program."""

import os
import re
import unittest
from typing import Dict, List, Tuple

from front import checks
from front.program import HERE
from front.stack_text import BUTTON, FIELD, Background, Card, Part, Stack
from migrate import compat
from migrate.reading import Reading, read
from migrate.rewrite import rewrite

WAYS = ("Here", "Stand-in", "Rewriting", "Not at all")


def table() -> List[Tuple[str, str]]:
    """The lines of the table, each with its way."""
    with open(os.path.join(HERE, "docs", "MIGRATING.md"), encoding="utf-8") as file:
        part = file.read().partition("\n## HyperCard's words\n")[2].partition("\n## ")[0]
    rows = [line.split(" | ") for line in part.split("\n") if line.startswith("| `")]
    return [(words, row[1].strip(" |")) for row in rows for words in re.findall(r"`([^`]+)`", row[0])]


def stack_of(lines: List[str], rewritten: bool) -> Stack:
    """A stack with a button for each of these, which has it in a handler of its script."""
    parts = []
    for number, line in enumerate(lines, 10):
        body = "\r".join("  " + each.strip() for each in line.split("\u23ce"))
        script = ("on try\r%s\rend try" % body).encode("mac_roman")
        parts.append(Part(BUTTON, number, script=rewrite(script).script if rewritten else script))
    field = Part(FIELD, 2, b"Note")
    return Stack(10 + len(lines), backgrounds=[Background(1, parts=[field])], cards=[Card(3, 1, parts=parts)])


def good(reading: Reading, lines: List[str]) -> Dict[str, bool]:
    """For each line whether it reads and all that it calls is there."""
    bad = {*reading.unread, *(each.id for each in reading.unanswered)}
    return {line: number not in bad for number, line in enumerate(lines, 10)}


class Words(unittest.TestCase):
    """Each line goes the way that the table says, and no easier one."""

    def test_table(self) -> None:
        found = table()
        self.assertGreater(len(found), 150)
        self.assertEqual({way for _, way in found}, set(WAYS))
        lines = [line for line, _ in found]
        plain = stack_of(lines, False)
        helped = stack_of(lines, False)
        compat.put(helped)
        rewritten = stack_of(lines, True)
        compat.put(rewritten)
        results = [good(read(stack, checks.check), lines) for stack in (plain, helped, rewritten)]
        for line, way in found:
            with self.subTest(line=line, way=way):
                wanted = [WAYS.index(way) <= place for place in range(3)]
                wanted = [True, True, True] if line in READ_ANYHOW else wanted
                self.assertEqual([each[line] for each in results], wanted)


# They read and are answered here as they are, but mean something else: a variable, or an item that is no item here.
READ_ANYHOW = ('doMenu "Next"', "put 1 into msg", "put 1 into message")


if __name__ == "__main__":
    unittest.main()
