"""How the places that don't read are found one behind the other, by a checker of the test that knows one rule: the word
`wrong` isn't in the grammar, and neither is a handler whose `if`s aren't closed."""

import unittest
from typing import List

from front.checks import Remark
from front.handlers import handlers
from front.stack_text import BUTTON, Background, Card, Part, Stack, read as read_stack
from migrate.constructs import TABLE, construct_at
from migrate.reading import holders, read
from migrate.set_aside import set_aside


def check(data: bytes) -> List[Remark]:
    """The first `wrong` of each script, or the first handler with an `if` that isn't closed; and as a hint each line
    that says `lost`, unless its script has an error."""
    found: List[Remark] = []
    for number, holder in holders(read_stack(data)):
        lines = holder.script.split(b"\r")
        bad = [(place, line.index(b"wrong")) for place, line in enumerate(lines) if b"wrong" in line]
        for each in handlers(holder.script):
            body = [line.split() for line in lines[each.first : each.after]]
            if sum(line[:1] == [b"if"] for line in body) != sum(line[:2] == [b"end", b"if"] for line in body):
                bad.append((each.after - 1, 0))
        if bad:
            found.append(Remark("not in the grammar", "x", number, min(bad)[0] + 1, min(bad)[1] + 1))
        else:
            found += [Remark("nothing handles lost", "x", number, place + 1)
                      for place, line in enumerate(lines) if b"lost" in line]
    return found


def stack_of(*scripts: bytes) -> Stack:
    """A stack whose script is the first, and whose buttons have the others."""
    parts = [Part(BUTTON, 3 + place, script=script.replace(b"\n", b"\r")) for place, script in enumerate(scripts[1:])]
    return Stack(3 + len(scripts), b"", scripts[0].replace(b"\n", b"\r"), [Background(1)], [Card(2, 1, parts=parts)])


class Rounds(unittest.TestCase):
    """What is asked, and what comes of it."""

    def test_all_places_are_found(self) -> None:
        script = b"on a\n  wrong 1\n  put 1\n  if x then wrong 2\n  lost\nend a\n\non b\n  lost\nend b"
        stack = stack_of(b"", script, b"on c\n  lost\nend c")
        reading = read(stack, check)
        self.assertEqual([(each.id, each.line, each.column, each.last) for each in reading.blockers],
                         [(3, 2, 3, False), (3, 4, 13, False)])
        self.assertEqual([(each.id, each.line, each.name) for each in reading.unanswered],
                         [(3, 5, "lost"), (3, 9, "lost"), (4, 2, "lost")])
        self.assertEqual((reading.unread, reading.handlers, reading.running), ([3], 3, 0))
        self.assertEqual(stack.cards[0].parts[0].script, script.replace(b"\n", b"\r"))

    def test_a_line_that_goes_on(self) -> None:
        script = b"on a\n  visual effect \xc2\n    wrong\n  put 1\nend a"
        reading = read(stack_of(b"", script), check)
        self.assertEqual([(each.line, each.column, each.construct.name, each.helped) for each in reading.blockers],
                         [(3, 5, "visual effect", True)])

    def test_what_would_run(self) -> None:
        reading = read(stack_of(b"on a\n  put 1\nend a\non b\n  lost\nend b", b"on c\n  wrong\nend c"), check)
        self.assertEqual((reading.running, reading.handlers, reading.unread), (1, 3, [3]))

    def test_a_place_that_cant_be_taken_out_alone(self) -> None:
        script = b"on a\n  repeat wrong\n    wrong\n  end repeat\nend a\non b\n  wrong\nend b"
        reading = read(stack_of(script), check)
        self.assertEqual([(each.line, each.last) for each in reading.blockers], [(2, True), (7, False)])
        reading = read(stack_of(b"on a\n  if x then\n  lost\nend a\non wrong\nend wrong"), check)
        self.assertEqual([(each.line, each.last) for each in reading.blockers], [(4, True), (5, True)])
        reading = read(stack_of(b"on a\n  put 1\n  if x then wrong\n  else put 2\nend a\nwrong"), check)
        self.assertEqual([(each.line, each.last) for each in reading.blockers], [(3, True), (6, False)])

    def test_a_checker_that_never_ends(self) -> None:
        stack = stack_of(b"on a\nend a")
        reading = read(stack, lambda data: [Remark("no", "x", 0, 1, 1)])
        self.assertEqual((reading.unread, stack.script), ([0], b"on a\rend a"))

    def test_set_aside(self) -> None:
        stack = stack_of(b"wrong\non a\n  wrong\nend a\non b\n  put 1\nend b")
        aside, full = set_aside(stack, read(stack, check).blockers)
        self.assertEqual(([(each.line, each.head) for each in aside], full), ([(1, b"wrong"), (2, b"on a")], []))
        self.assertEqual(stack.script, b"--| wrong\r--| on a\r--|   wrong\r--| end a\ron b\r  put 1\rend b")
        stack = stack_of(b"on a\n  wrong\nend a\n-- " + b"x" * 29975)
        before = stack.script
        self.assertEqual(set_aside(stack, read(stack, check).blockers), ([], [0]))
        self.assertEqual(stack.script, before)


class Names(unittest.TestCase):
    """What stands at a place."""

    def test_names(self) -> None:
        for line, column, name in (
                ("  visual effect dissolve", 17, "visual effect"), ("put 3.5 into x", 6, "a decimal number"),
                ("if the shiftKey is down then beep", 4, "mouse and keys"), ('ask "3.5" with "y"', 11, "ask .. with"),
                ("wait 2 seconds", 8, "wait"), ("set cursor to watch", 5, "a property of looks"),
                ("if x then visual effect iris", 25, "visual effect"), ("else beep", 1, "an `if` of two forms"),
                ("sort by field 1", 6, "sort of cards"), ("put hilite of me", 12, "a property without `the`"),
                ('answer file "x"', 8, "answer file"), ("go back", 4, "go back"), ("put (3", 7, "something else"),
                ("put the loc of me", 5, "a property of looks"), ("put the sqrt of 2", 5, "a function of HyperCard"),
                ("put \xc8 of me -- visual", 5, "something else")):
            with self.subTest(line=line):
                self.assertEqual(construct_at(line.encode("latin-1"), column).name, name)

    def test_each_has_advice(self) -> None:
        self.assertTrue(all(each.name and each.advice for each in TABLE))


if __name__ == "__main__":
    unittest.main()
