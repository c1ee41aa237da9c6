"""What the program tells on standard error, and what `--check` and `--version` write."""

import os
import unittest
from typing import List, Tuple

from front import program
from front.tests.support import DEMO, FolderTest, there

HEAD = "htstack 2\nnext 3\nname |\nscript 0\n"
CARD = "backgrounds 1\nbackground 1\nname |\ncantDelete false\nscript 0\nparts 0\ncards 1\ncard 2 1\nname |\n"
WHOLE = HEAD + CARD + "cantDelete false\nscript 0\nparts 0\nend\n"
BAD_LINE = "BadLine: the line isn't of the form that is due there, or something stands after `end`"
BAD_ID = "BadId: an id is 0, not below `next`, used already, or not the one that is due; or a background has no card"
TRUNCATED = "Truncated: the file ends before the line feed of a line up to `end`"
TOO_MANY = "TooMany: `next` is above 1,000,001, a count is above 10,000, or an object is the 10,001st"
UNREADABLE = """\
on mouseUp
  visual effect dissolve
end mouseUp"""
SENDING = """\
on mouseUp
  beep
  go next
  put half(3) + abs(2)
  Bins 1,half(2)
end mouseUp"""


def with_script(script: str) -> str:
    """The smallest stack with a script of the stack."""
    lines = script.split("\n")
    block = "script %d\n" % len(lines) + "".join("|%s\n" % line for line in lines)
    return WHOLE.replace("script 0\n", block, 1)


class Told(FolderTest):
    def ran(self, text: str, words: List[str], given: bytes = b"") -> Tuple[int, str, str]:
        """The status, what was written and what was told, of a run on a stack's text."""
        path = os.path.join(self.folder, "told.stack")
        with open(path, "w", encoding="latin-1", newline="") as file:
            file.write(text)
        return self.ran_on(path, words, given)

    def ran_on(self, path: str, words: List[str], given: bytes = b"") -> Tuple[int, str, str]:
        done = program.run([path, *words], given, seconds=60)
        return done.returncode, done.stdout.decode("latin-1"), done.stderr.decode("latin-1")

    def test_a_stack_text_that_is_refused(self) -> None:
        wrong = (
            ("htstack 3\n", "1 at line 1", BAD_LINE + "\n    htstack 3"),
            (HEAD + "backgrounds x\n", "1 at line 5", BAD_LINE + "\n    backgrounds x"),
            (HEAD.replace("name |", "name |\\4a"), "1 at line 3", BAD_LINE + "\n    name |\\5c4a"),
            (WHOLE + "more\n", "1 at line 18", BAD_LINE + "\n    more"),
            (WHOLE.replace("card 2 1", "card 1 1"), "2 at line 12", BAD_ID + "\n    card 1 1"),
            (WHOLE[:-1], "3", TRUNCATED),
            (HEAD.replace("next 3", "next 1000002"), "4", TOO_MANY),
        )
        for text, number, words in wrong:
            with self.subTest(number=number, words=words):
                told = "card_cli: stack refused %s\n  %s\n" % (number, words)
                self.assertEqual(self.ran(text, []), (2, "", told))

    def test_a_file_that_is_not_there(self) -> None:
        path = os.path.join(self.folder, "none.stack")
        self.assertEqual(self.ran_on(path, []), (1, "", "card_cli: cannot read %s\n  there is no such file\n" % path))

    def test_a_folder(self) -> None:
        told = "card_cli: cannot read %s\n  it is a folder\n" % self.folder
        self.assertEqual(self.ran_on(self.folder, []), (1, "", told))

    def test_the_version(self) -> None:
        done = program.run(["--version"])
        self.assertEqual((done.returncode, done.stderr), (0, b""))
        self.assertRegex(done.stdout, rb"^card_cli [0-9.]+ \(HyperTalk 2\.x, stack text 2\)\n$")

    def test_scripts_that_read(self) -> None:
        self.assertEqual(self.ran_on(there(DEMO), ["--check"]), (0, "", ""))

    def test_a_script_that_is_not_in_the_grammar(self) -> None:
        status, written, told = self.ran(with_script(UNREADABLE), ["--check"])
        self.assertEqual((status, told), (1, ""))
        self.assertEqual(written, 'stack "" (id 0), line 2, column 17: not in the grammar\n'
                                  "      visual effect dissolve\n"
                                  "                    ^\n"
                                  "  there stands `dissolve`\n")

    def test_messages_that_nothing_handles(self) -> None:
        status, written, told = self.ran(with_script(SENDING), ["--check"])
        self.assertEqual((status, told), (0, ""))
        self.assertEqual(written, 'stack "" (id 0), line 2: nothing handles beep\n'
                                  'stack "" (id 0), line 4: nothing handles half\n'
                                  'stack "" (id 0), line 5: nothing handles half\n')

    def test_nothing_is_told_unasked(self) -> None:
        self.assertEqual(self.ran_on(there(DEMO), [], b'put "x" + 1\nput (\n'), (0, "fault 4\nrefused 3\n", ""))


if __name__ == "__main__":
    unittest.main()
