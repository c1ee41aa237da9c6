"""Tests of the handlers in scripts, and of what is typed in several lines."""

import unittest
from typing import List, Tuple

from front.handlers import handlers, with_handler
from front.terminal_input import Entry, Joiner

SCRIPT = b"-- tasks\ron mouseUp\r  if a then\r    put 1\r  end if\rend mouseUp\r\rfunction Box i\r  return i\rend box"


class Handlers(unittest.TestCase):
    def test_each_is_found_with_its_lines(self) -> None:
        found = [(each.kind, each.name, each.first, each.after) for each in handlers(SCRIPT)]
        self.assertEqual(found, [(b"on", b"mouseUp", 1, 6), (b"function", b"Box", 7, 10)])

    def test_one_without_its_end_is_none(self) -> None:
        self.assertEqual(handlers(b"on a\rput 1\rend b"), [])

    def test_the_one_of_its_name_is_replaced_and_all_else_stays(self) -> None:
        new, replaced = with_handler(SCRIPT, b"on MOUSEUP\r  beep\rend mouseUp")
        wanted = b"-- tasks\ron MOUSEUP\r  beep\rend mouseUp\r\rfunction Box i\r  return i\rend box"
        self.assertEqual((new, replaced), (wanted, True))

    def test_a_command_does_not_replace_a_function_of_its_name(self) -> None:
        new, replaced = with_handler(SCRIPT, b"on box\rend box")
        self.assertEqual((new, replaced), (SCRIPT + b"\ron box\rend box", False))

    def test_the_first_handler_of_an_empty_script(self) -> None:
        self.assertEqual(with_handler(b"", b"on a\rend a"), (b"on a\rend a", False))

    def test_a_last_empty_line_is_not_doubled(self) -> None:
        self.assertEqual(with_handler(b"-- x\r", b"on a\rend a"), (b"-- x\ron a\rend a", False))


def entries(*lines: bytes) -> Tuple[List[Entry], bool]:
    """The entries that lines make, and whether one is open in the end."""
    joiner = Joiner()
    found = [entry for entry in map(joiner.give, lines) if entry]
    return found, joiner.is_open


class Joined(unittest.TestCase):
    def is_one(self, *lines: bytes, handler: bytes = b"") -> None:
        self.assertEqual(entries(*lines), ([Entry(b"\r".join(lines), handler)], False))

    def test_a_line_is_an_entry(self) -> None:
        self.is_one(b"put 1")
        self.is_one(b"")
        self.is_one(b'put "on a"')
        self.is_one(b"if a then put 1 else put 2")
        self.is_one(b"if a then put 1 -- then")
        self.is_one(b"on")
        self.is_one(b"put the \xc2 -- \xc2")

    def test_a_handler_goes_on_to_its_end(self) -> None:
        self.is_one(b"on greet who", b"  repeat 2", b"", b"  end repeat", b"END Greet -- done", handler=b"greet")
        self.is_one(b"Function _two", b"  return 2 -- end _two", b"end _two", handler=b"_two")

    def test_blocks_go_on_to_their_ends(self) -> None:
        self.is_one(b"repeat with i = 1 to 3", b"if i = 2 then", b"put i", b"else if i = 3 then", b"put 3", b"end if",
                    b"end repeat")
        self.is_one(b"IF a THEN", b'put "end if"', b"end if")
        self.is_one(b"repeat", b"if a then exit repeat", b"else put 1", b"end repeat")

    def test_then_may_stand_in_the_next_line(self) -> None:
        self.is_one(b"if a", b"then put 1")
        self.is_one(b"if a", b"then", b"put 1", b"end if")

    def test_a_line_that_is_continued_takes_the_next_one(self) -> None:
        self.is_one(b"put 1 + \xc2 ", b"2")

    def test_what_is_open_can_be_dropped(self) -> None:
        joiner = Joiner()
        joiner.give(b"repeat 3")
        joiner.give(b"if a then")
        self.assertEqual(joiner.waits_for, b"end if")
        joiner.drop()
        self.assertEqual((joiner.is_open, joiner.waits_for), (False, b""))
        self.assertEqual(joiner.give(b"put 1"), Entry(b"put 1"))

    def test_an_end_of_another_block_ends_nothing(self) -> None:
        self.assertEqual(entries(b"repeat", b"end if"), ([], True))


if __name__ == "__main__":
    unittest.main()
