"""That the shapes of ./stress are what they say, and how their runs are judged."""

import contextlib
import io
import os
import re
import sys
import tempfile
import unittest
from typing import List

from tree import HERE

sys.path[:0] = [HERE, os.path.join(HERE, "tools")]
from front import stack_text as reader  # noqa: E402
from shapes import nests, running  # noqa: E402
from shapes.nests import IF, PAREN, UP, Wrap, else_ifs, nested  # noqa: E402
from shapes.shape import SET, Depths, Shape, most_of, no_texts  # noqa: E402
from shapes.stack import Scripts, stack_text  # noqa: E402
from shapes.table import MANY_PARAMETERS, SHAPES  # noqa: E402

MOST_BYTES = 30_000
OPENS = re.compile(r"^(repeat\b.*|if\b.*then)$")


def depth_of_lines(lines: List[str]) -> int:
    """How many blocks are open at most."""
    depth = most = 0
    for line in lines:
        depth += bool(OPENS.match(line)) - line.startswith(("end repeat", "end if"))
        most = max(most, depth)
    return most


class Nests(unittest.TestCase):
    """What stands round what."""

    def test_wraps_in_turn(self) -> None:
        self.assertEqual(nested((PAREN, Wrap("- ", "")), 3, "x"), "(- (x))")

    def test_what_is_left_over_is_parentheses(self) -> None:
        self.assertEqual(nested((Wrap("0 + (", ")", 2),), 5, "x"), "0 + (0 + ((x)))")
        self.assertEqual(nested((Wrap("a of (", ")", 3),), 2, "x"), "((x))")

    def test_blocks(self) -> None:
        self.assertEqual(nested((IF, UP), 2, "g"), "if c then\rrepeat with i = 1 to 1\rg\rend repeat\rend if")
        for block in nests.BLOCKS:
            self.assertEqual(depth_of_lines(nested((block,), 99, "g").split("\r")), 99)

    def test_else_ifs(self) -> None:
        self.assertEqual(else_ifs(2, "g"), "if d then\relse if d then\relse\rg\rend if")
        self.assertEqual(else_ifs(99, "g").count("if d then"), 99)


class Stacks(unittest.TestCase):
    """The texts of the stacks."""

    def test_what_stands_where(self) -> None:
        stack = reader.read(stack_text(Scripts("a\rb", "c", "d", "e"), ("f\r\rg", ""), 3).encode())
        self.assertEqual((stack.script, stack.backgrounds[0].script), (b"a\rb", b"c"))
        first = stack.cards[0]
        self.assertEqual((len(stack.cards), first.name, first.script), (3, b"true", b"d"))
        self.assertEqual([part.text for part in first.parts], [b"", b"1", b"f\r\rg", b""])
        self.assertEqual(first.parts[0].script, b"e")

    def test_each_shape_is_a_stack(self) -> None:
        for shape in [*SHAPES, MANY_PARAMETERS]:
            for depths in [Depths(), *shape.deeper()]:
                with self.subTest(shape.name):
                    stack = reader.read(shape.stack(depths).encode("ascii"))
                    texts = [part.text for part in stack.cards[0].parts]
                    self.assertLessEqual(max(map(len, [stack.script, *texts])), MOST_BYTES)
                    self.assertLessEqual(max(map(len, shape.lines())), MOST_BYTES)

    def test_each_shape_has_a_name_of_its_own(self) -> None:
        names = [shape.name for shape in SHAPES]
        self.assertEqual(len(names), len(set(names)))
        self.assertGreaterEqual(len(names), 40)

    def test_many_parameters(self) -> None:
        lines = MANY_PARAMETERS.scripts(100).stack.split("\r")
        self.assertEqual((lines[0].count(",") + 1, depth_of_lines(lines)), (13_000, 96))


class Answers(unittest.TestCase):
    """What a shape has to answer."""

    def test_most_calls(self) -> None:
        self.assertEqual(most_of((1,)), 100)
        self.assertEqual(most_of((2,)), 50)
        # The levels 1, 2, 4, 5, .. 97, 98, 100 are those of handlers.
        self.assertEqual(most_of((1, 2)), 67)
        # The levels 2, 4, .. 100, and 3, .. 99.
        self.assertEqual((most_of((2,), 2), most_of((2,), 3)), (50, 49))

    def test_lines_and_answers(self) -> None:
        shape = Shape("s", lambda deep: Scripts("x" * deep), lambda deep: ("y" * deep,), "put f()", ("1",), 50)
        prepared = ["put card field 2 into t", *SET]
        self.assertEqual(shape.lines(), prepared + ["put 50 into k", "put f()", "put k", "put 51 into k", "put f()", "put k"])
        self.assertEqual(shape.answers(), ["ok"] * 5 + ["> 1", "ok", "> 0", "ok", "ok", "fault 12", "> 1", "ok"])
        self.assertEqual(shape.deeper(), [Depths(101, 100), Depths(100, 101)])
        self.assertEqual(shape.answers_of_deeper(), ["ok"] * 5 + ["fault 1"])

    def test_without_texts(self) -> None:
        shape = Shape("s", lambda _: Scripts(""), no_texts, "g", ())
        self.assertEqual(shape.deeper(), [Depths(101, 100)])
        self.assertEqual(shape.prepared(), list(SET))


class Runs(unittest.TestCase):
    """How runs are judged, with a program that only pretends."""

    def setUp(self) -> None:
        folder = tempfile.TemporaryDirectory()
        self.addCleanup(folder.cleanup)
        self.folder = folder.name

    def program(self, lines: str) -> str:
        """A program that is a script."""
        path = os.path.join(self.folder, "program")
        with open(path, "w", encoding="utf-8") as file:
            file.write("#!/bin/sh\n" + lines)
        os.chmod(path, 0o755)
        return path

    def test_the_bound_is_set(self) -> None:
        ended = running.Runner(self.program("ulimit -S -s\n"), self.folder).run("", [], 4096)
        self.assertEqual(ended, running.Ended(0, ["4096"]))

    def test_differences(self) -> None:
        ended = running.Ended
        self.assertIsNone(running.difference(ended(0, ["ok"]), ["ok"]))
        self.assertEqual(running.difference(ended(1, ["ok"]), ["ok"]), "status 1")
        self.assertEqual(running.difference(ended(0, ["ok", "ok"]), ["ok"]), "answer 2 is ok, and not the end")
        self.assertEqual(running.difference(ended(-11, ["ok"]), ["ok", "fault 12"]),
                         "answer 2 is nothing, and the status -11, and not fault 12")

    def test_a_need_is_found(self) -> None:
        shape = Shape("s", lambda _: Scripts(""), no_texts, "g", ())
        answers = "".join("echo '%s'\n" % answer for answer in shape.answers())
        runner = running.Runner(self.program('[ "$(ulimit -S -s)" -ge 5000 ] || kill -SEGV $$\n' + answers), self.folder)
        self.assertEqual(runner.need(shape), 5008)
        self.assertIsNone(runner.need(shape, most=4096))
        self.assertEqual((runner.fits(shape, 5000), runner.fits(shape, 4096)), (True, False))

    def test_a_shape_that_needs_more_is_told(self) -> None:
        shape = Shape("s", lambda _: Scripts(""), no_texts, "g", ())
        answers = "".join("echo '%s'\n" % answer for answer in shape.answers())
        runner = running.Runner(self.program('[ "$(ulimit -S -s)" -ge 5000 ] || kill -SEGV $$\n' + answers), self.folder)
        said = io.StringIO()
        with contextlib.redirect_stdout(said):
            self.assertEqual([running.bounded(runner, [shape], kib) for kib in running.BOUNDS], [[True], [False]])
        self.assertIn("s, 4096 KiB of stack: ", said.getvalue())


if __name__ == "__main__":
    unittest.main()
