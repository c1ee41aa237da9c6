"""The tables of ./speed: their stacks, their figures, the program that they ask, and whether a machine was quiet."""

import contextlib
import io
import itertools
import os
import shutil
import sys
import tempfile
import unittest
from typing import List
from unittest import mock

from tree import HERE

sys.path[:0] = [HERE, os.path.join(HERE, "tools")]
from front import stack_text  # noqa: E402
from timing import alike, growth, peers, quiet, ratios, runs, slow, start, texts  # noqa: E402
from timing.asked import Asked, Broken, is_end  # noqa: E402
from timing.rounds import Row, tell  # noqa: E402

# It answers each line with itself, and `ok`, but for a few.
PROGRAM = """#!/usr/bin/env python3
import sys
for line in sys.stdin:
    if line == "end\\n":
        break
    if line == "work\\n":
        sum(range(3_000_000))
    print("fault 3" if line == "bad\\n" else "> " + line + "ok", flush=True)
"""


class Stacks(unittest.TestCase):
    """The stacks and the lines before a measure."""

    def test_each_small_stack_is_one(self) -> None:
        for stack in (slow.with_hear(), slow.with_variables(), slow.with_parameters(), slow.with_buttons(), slow.with_cards(),
                      slow.with_fields()):
            self.assertLessEqual(len(stack.script), slow.MOST_BYTES)
            self.assertTrue(stack_text.write(stack))

    def test_parameters_have_names_of_their_own(self) -> None:
        names = slow.with_parameters().script.split(b"\r")[0][len(b"on hear "):].split(b",")
        self.assertEqual((len(names), len(set(names))), (slow.PARAMETERS, slow.PARAMETERS))

    def test_a_long_text(self) -> None:
        texts = [line[len('put "'):-len('" after g')] for line in slow.long_text("a", 30_000, "g")[1:]]
        self.assertEqual("".join(texts), "a" * 30_000)
        self.assertEqual(slow.long_text("a", 0, "g"), ["put empty into g"])

    def test_a_full_statement(self) -> None:
        count = slow.most_in_a_statement("abc")
        length = len("hear " + ",".join(["abc"] * count))
        self.assertTrue(length <= slow.MOST_BYTES < length + len(",abc"))


def folded(state: int, bytes_: int, length: int) -> int:
    """A step of the kit's hash of bytes."""
    product = (state ^ bytes_) * (0x9E3779B97F4A7C15 ^ 2 * length)
    return (product ^ product >> 64) & 0xFFFF_FFFF_FFFF_FFFF


def hashed(name: str) -> int:
    """The 32 bits by which the kit's maps find bytes."""
    state = folded(0x243F6A8885A308D3, len(name), 8)
    for byte in name.encode():
        state = folded(state, 0x10101 * byte, 1)
    return (state ^ state >> 32) & 0xFFFF_FFFF


@unittest.skipUnless(shutil.which("rt"), "the kit isn't there")
class Alike(unittest.TestCase):
    """Names that a hash doesn't tell apart."""

    def test_all_stand_in_one_group_with_one_tag(self) -> None:
        names = alike.names(40)
        self.assertEqual(len(set(names)), 40)
        self.assertTrue(all(name.isalpha() and name.islower() for name in names))
        # Room for 40 takes eight groups.
        self.assertEqual(len({hashed(name) & 0xFF00_0007 for name in names}), 1)
        self.assertGreater(len({hashed(name) for name in names}), 1)


class Texts(unittest.TestCase):
    """The texts that `value` reads."""

    def text_of(self, piece: str) -> str:
        """What the lines before a measure put into `t`."""
        text = ""
        for line in slow.of_pieces(piece):
            parts = line.split('"')
            if len(parts) == 3:
                count = int(parts[0].split("\r")[0].split()[1]) if parts[0].startswith("repeat") else 1
                text += count * parts[1]
        return text

    def test_each_is_full_of_its_kind_and_has_room_for_a_number(self) -> None:
        for name, piece in texts.KINDS.items():
            with self.subTest(name):
                text = self.text_of(piece)
                self.assertTrue(text.startswith("max(" + piece + ",") and text.endswith("," + "1)+"))
                self.assertTrue(slow.MOST_OF_PIECES - len(piece) - 1 <= len(text) <= slow.MOST_BYTES - len("1000000"))

    def test_calls_take_steps(self) -> None:
        self.assertEqual([texts.calls_in(piece) for piece in ("a", "a&a", "the length of a")], [0, 0, 0])
        copies = slow.MOST_OF_PIECES // len("length(abs(a)),")
        self.assertEqual(texts.calls_in("length(abs(a))"), 2 * copies)
        self.assertEqual(texts.operation("x", "length(abs(a))").steps, 5 + 2 * copies)

    def test_no_two_are_the_same(self) -> None:
        self.assertEqual(len(set(texts.KINDS.values())), len(texts.KINDS))


class Openings(unittest.TestCase):
    """How long a stack takes to open."""

    def test_the_large_stack_has_four_megabytes(self) -> None:
        self.assertAlmostEqual(len(start.large()) / 4e6, 1, delta=0.02)

    def test_the_first_answer_is_waited_for(self) -> None:
        self.assertGreater(start.once(["/bin/sh", "-c", "read line; sleep 0.05; echo ok"]), 50)
        with self.assertRaises(ValueError):
            start.once(["/bin/sh", "-c", "read line; echo no"])

    def test_a_row_has_a_star_past_its_bound(self) -> None:
        self.assertTrue(start.row("x", 3.5, 1.0, 2.0).endswith("2.5 ms, at most 2.0 *"))
        self.assertTrue(start.row("x", 3.0, 1.0, 2.0).endswith("2.0 ms, at most 2.0"))


class Tables(unittest.TestCase):
    """What a row says."""

    def test_stars(self) -> None:
        self.assertEqual(slow.starred(2.0, 2.0, "%.1f"), "2.0  ")
        self.assertEqual(slow.starred(2.1, 2.0, "%.1f"), "2.1 *")
        self.assertEqual(slow.starred(None, 2.0, "%.1f"), "-  ")

    def test_a_row(self) -> None:
        self.assertEqual(slow.row("x", slow.Figures(0.5, None, 30.0)).split(), ["x", "0.5000", "-", "30.00", "*"])

    def test_a_row_keeps_the_least(self) -> None:
        found = iter([slow.Figures(3.0, None, 3.0), slow.Figures(1.0, None, 1.0), slow.Figures(2.0, None, 2.0)])
        row = Row("x", lambda: next(found), slow.least, lambda it: slow.row("x", it))
        for _ in range(3):
            row.measure_again()
        self.assertEqual(row.line(), slow.row("x", slow.Figures(1.0, None, 1.0)))

    def test_a_row_that_broke_once_says_why(self) -> None:
        def broken() -> int:
            raise Broken("the program ended")

        row = Row("x", broken, min, str)
        row.measure_again()
        row.measure = lambda: 1
        row.measure_again()
        self.assertTrue(row.line().endswith(" the program ended *"))

    def test_rows_are_measured_in_rounds(self) -> None:
        measured: List[str] = []
        rows = [Row(name, lambda name=name: measured.append(name) or 1, min, lambda it: "found %d" % it) for name in "ab"]
        with contextlib.redirect_stdout(io.StringIO()) as said:
            tell(rows, 2, lambda: measured.append("-"))
        self.assertEqual(("".join(measured), said.getvalue()), ("ab-ab-", "found 1\nfound 1\n"))

    def test_a_machine_is_quiet_where_all_looks_are_alike(self) -> None:
        looks = quiet.Looks()
        looks.look()
        self.assertTrue(looks.is_quiet())
        self.assertTrue(looks.text().endswith("in 1 looks: quiet"))
        looks.seconds.append(2 * looks.seconds[0])
        self.assertFalse(looks.is_quiet())
        self.assertIn("in 2 looks: not quiet", looks.text())


class Growths(unittest.TestCase):
    """What bytes and changes take where there are more."""

    def setUp(self) -> None:
        folder = tempfile.TemporaryDirectory()
        self.addCleanup(folder.cleanup)
        self.path = os.path.join(folder.name, "stack")

    def test_a_stack_is_about_as_large_as_is_wanted(self) -> None:
        for size in growth.STACKS:
            self.assertAlmostEqual(runs.written(self.path, growth.with_texts(size)) / size, 1, delta=0.15)
        self.assertTrue(stack_text.write(growth.with_scripts(b"on hear\rend hear", growth.MOST_CARDS)))

    def test_a_star_where_the_dearest_size_is_too_dear(self) -> None:
        work = growth.Work("x", (1, 1_000), growth.saved, 2.0)
        self.assertEqual(growth.text(work, [5.0, 10.0]).split(), "x 5.0 at 1 10.0 at 1,000 2.0, at most 2.0".split())
        self.assertTrue(growth.text(work, [12.0, 5.0]).endswith("2.4, at most 2.0 *"))

    def test_each_size_is_the_least_of_some(self) -> None:
        taken = iter([3.0, 8.0])
        work = growth.Work("x", (1, 2), lambda program, path, size: growth.Taken(next(taken), 2_000_000_000))
        self.assertEqual(growth.nanoseconds("program", self.path, work), [1.5, 4.0])
        self.assertEqual(growth.least([1.5, 4.0], [2.0, 3.0]), [1.5, 3.0])


class Peers(unittest.TestCase):
    """Tasks beside other languages, where the program and a language only pretend."""

    def setUp(self) -> None:
        folder = tempfile.TemporaryDirectory()
        self.addCleanup(folder.cleanup)
        self.runs = runs.Runs("/bin/sh", folder.name, dict(os.environ, OTHER="7"))
        self.runs.words = lambda *_: ["/bin/sh", "-c", "while read line; do echo '> 7'; echo ok; done"]  # type: ignore
        self.task = peers.Task("x", [], {"sh": "echo $OTHER"}, "sh", 1.0)
        patched = mock.patch.dict(peers.EMPTY, {"sh": "exit"}, clear=True)
        patched.start()
        self.addCleanup(patched.stop)

    def test_a_task_runs_here_and_there(self) -> None:
        rounds: List[int] = []
        found = peers.compared(self.runs, [self.task], lambda: rounds.append(1))
        self.assertEqual(len(rounds), peers.ROUNDS)
        self.assertEqual({each: len(times) for each, times in found[0].items()}, {"here": peers.ROUNDS, "sh": peers.ROUNDS})

    def test_a_language_of_no_bound_runs_once(self) -> None:
        task = self.task._replace(language="none", programs={"none": "", "sh": "echo 7"})
        found = peers.compared(self.runs, [task], lambda: None)
        self.assertEqual(len(found[0]["sh"]), 1)
        self.assertNotIn("none", found[0])

    def test_what_another_language_finds_has_to_be_the_same(self) -> None:
        with self.assertRaises(Broken):
            peers.run_once(self.runs, self.task._replace(programs={"sh": "echo 8"}), ["sh"], {})

    def test_a_row_has_a_star_past_its_bound(self) -> None:
        times = {"here": [(3.0, 1.0), (2.5, 2.0)], "sh": [(1.5, 1.0), (1.25, 0.75)]}
        self.assertEqual(peers.row("x", times, "sh", 3.0).split(), "x 1.50 0.50 3.0 of sh, at most 3.0".split())
        self.assertTrue(peers.row("x", times, "sh", 2.9).endswith("at most 2.9 *"))
        self.assertEqual(peers.row("x", {"here": times["here"]}, "sh", 2.9).split(), "x 1.50 -".split())

    def test_a_program_that_fails(self) -> None:
        with self.assertRaises(Broken):
            runs.used(["/bin/sh", "-c", "exit 3"])
        self.assertEqual(runs.used(["/bin/cat"], "a\nb\n").printed, ["a", "b"])

    def test_scripts_of_the_demo_stack(self) -> None:
        found = stack_text.read(runs.stack_with(["on a", "end a"], [], ["on b", "end b"]).encode())
        self.assertEqual((found.script, found.backgrounds[0].script), (b"on a\rend a", b""))
        self.assertEqual(found.backgrounds[0].parts[0].script, b"on b\rend b")
        self.assertEqual(runs.lines_of("put %d", 2), "put 0\nput 1\n")

    def test_memory_at_rest(self) -> None:
        self.assertGreater(runs.memory_at_rest(["/bin/sh", "-c", "read line; echo '> rest'; echo ok; read line"], ""), 100_000)

    def test_rows_within_the_program(self) -> None:
        self.assertTrue(ratios.row("x", 2.0, 3.0, 1.5).endswith("1.5 of the first, at most 1.5"))
        self.assertTrue(ratios.row("x", 2.0, 3.1, 1.5).endswith(" *"))
        self.assertTrue(ratios.row_of_memory("x", 103.0, 38.0, True).endswith("at most 102 *"))
        self.assertTrue(ratios.row_of_memory("x", 103.0, 38.0, False).endswith("38 of weight"))


class Programs(unittest.TestCase):
    """A program that is asked, which only pretends."""

    def setUp(self) -> None:
        folder = tempfile.TemporaryDirectory()
        self.addCleanup(folder.cleanup)
        self.path = os.path.join(folder.name, "program")
        with open(self.path, "w", encoding="utf-8") as file:
            file.write(PROGRAM)
        os.chmod(self.path, 0o755)

    def test_answers_and_seconds(self) -> None:
        with Asked(self.path, "stack") as asked:
            self.assertEqual(asked.ask("one").answer, ["> one", "ok"])
            self.assertLess(asked.seconds("one"), asked.seconds("work"))
            with self.assertRaises(Broken):
                asked.seconds("bad")
            self.assertGreaterEqual(asked.seconds("bad", "fault 3"), 0.0)
            for _ in range(2):
                with self.assertRaises(Broken):
                    asked.ask("end")

    def test_figures(self) -> None:
        operation = slow.Operation("x", slow.with_hear, ["one"], "work", 2, "work", turns=4 * slow.MEASURES)
        with Asked(self.path, "stack") as asked:
            taken = itertools.chain([0.8] * (len(operation.before) + 3), [0.4], itertools.repeat(0.8))
            asked.seconds = lambda line, wanted="ok": next(taken)  # type: ignore
            found = slow.figures(asked, operation)
        self.assertAlmostEqual(found.milliseconds, 100.0)
        self.assertAlmostEqual(found.statement or 0.0, 0.1 * 5_999)
        self.assertAlmostEqual(found.all_steps, 5_000.0)

    def test_enough_turns(self) -> None:
        def seconds(line: str, wanted: str = "ok") -> float:
            return 0.001 * (int(line.split()[1]) if line.startswith("repeat ") else 1)

        with Asked(self.path, "stack") as asked:
            asked.seconds = seconds  # type: ignore
            count = slow.turns_for(asked, "work")
        self.assertTrue(slow.LEAST <= 0.001 * count <= 2 * slow.LEAST)

    def test_ends(self) -> None:
        self.assertTrue(all(map(is_end, ("ok", "fault 12", "refused 3"))))
        self.assertFalse(is_end("> ok"))


if __name__ == "__main__":
    unittest.main()
