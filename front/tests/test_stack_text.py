"""The texts of stacks, read and written as the program does it."""

import os
import re
import subprocess
import sys
import unittest
from concurrent.futures import ThreadPoolExecutor
from random import Random
from threading import get_ident
from typing import List, Optional, Tuple, Union

from front import program
from front.stack_text import BUTTON, FIELD, Background, Card, Fault, Part, Stack, read, spell, unspell, write
from front.tests.support import Chance, FolderTest, bytes_of, texts, there

# The whole text that is written, or the number and the line of the fault.
Verdict = Union[bytes, Tuple[int, Optional[int]]]
# The line of a refusal; behind it stand its words, and the line of the text.
REFUSED = re.compile(rb"card_cli: stack refused ([1-4])(?: at line ([0-9]+))?\n(?:  .*\n)*")
SMALLEST = b"""htstack 2
next 3
name |
script 0
backgrounds 1
background 1
name |
cantDelete false
script 0
parts 0
cards 1
card 2 1
name |
cantDelete false
script 0
parts 0
end
"""
BROKEN_TEXTS = 2_500


def ours(data: bytes) -> Verdict:
    """What these modules make of a text."""
    try:
        return write(read(data))
    except Fault as fault:
        return fault.number, fault.line


class Judged(FolderTest):
    """A test that asks the program."""

    def theirs(self, data: bytes) -> Verdict:
        """What the program makes of a text."""
        path = self.put("%d.stack" % get_ident(), data)
        done = program.run([path], b".show\n", seconds=60)
        refused = REFUSED.fullmatch(done.stderr)
        if refused and done.returncode == 2:
            return int(refused.group(1)), int(refused.group(2)) if refused.group(2) else None
        self.assertEqual((done.returncode, done.stderr, done.stdout[-3:]), (0, b"", b"ok\n"))
        lines = done.stdout[:-3].splitlines(keepends=True)
        self.assertTrue(all(line.startswith(b"> ") for line in lines))
        return b"".join(line[2:] for line in lines)

    def agrees(self, data: bytes, name: str = "") -> Verdict:
        """Sees that both make the same of a text, and gives it."""
        verdict = self.theirs(data)
        self.assertEqual(ours(data), verdict, "%s:\n%s" % (name, data[:2000].decode("latin-1")))
        return verdict


class Spellings(unittest.TestCase):
    def test_each_byte_has_one_spelling(self) -> None:
        for number in range(256):
            spelling = spell(bytes([number]))
            plain = 32 <= number < 127 and number != 92
            self.assertEqual(spelling, bytes([number]) if plain else b"\\%02x" % number)
            self.assertEqual(unspell(spelling), bytes([number]))
        for number in range(256):
            wrong = [b"\\%02X" % number] if b"\\%02X" % number != b"\\%02x" % number else []
            wrong += [b"\\%02x" % number] if 32 <= number < 127 and number != 92 else [bytes([number])]
            for spelling in wrong:
                self.assertRaises(ValueError, unspell, spelling)

    def test_escapes_are_whole(self) -> None:
        for spelling in (b"\\", b"a\\5", b"\\5c5\\", b"\\\\5c5c", b"\\g0", b"\xe9", b"a\nb"):
            self.assertRaises(ValueError, unspell, spelling)
        self.assertEqual(unspell(b"\\5c5c \\5c\\5c|"), b"\\5c \\\\|")


class Model(unittest.TestCase):
    def test_smallest_stack_is_written_by_its_model(self) -> None:
        stack = Stack(3, backgrounds=[Background(1)], cards=[Card(2, 1)])
        self.assertEqual(write(stack), SMALLEST)
        self.assertEqual(read(SMALLEST), stack)

    def test_parts_are_read(self) -> None:
        stack = read(texts()["STACK_TEXT.md#rooms"])
        kitchen, cellar = stack.cards
        self.assertEqual([part.name for part in stack.backgrounds[0].parts], [b"Note", b"Light"])
        self.assertEqual(stack.background_of(cellar), stack.backgrounds[0])
        self.assertEqual((kitchen.texts, kitchen.hilites), ({3: b"Water the basil.\rBuy bread."}, {4: True}))
        self.assertEqual((cellar.parts[0].kind, cellar.parts[0].lock_text), (FIELD, True))
        self.assertEqual(cellar.parts[0].text.decode("mac_roman"), "Café in a tin")
        self.assertEqual(stack.backgrounds[0].parts[1].kind, BUTTON)
        self.assertFalse(stack.backgrounds[0].parts[1].shared_hilite)

    def test_version_1_shares_the_hilites(self) -> None:
        stack = read(texts()["STACK_TEXT.md#old"])
        light = stack.backgrounds[0].parts[0]
        self.assertEqual((light.shared_hilite, light.hilite, stack.cards[0].hilites), (True, True, {3: False}))

    def test_missing_texts_and_hilites_are_written_as_empty(self) -> None:
        parts = [Part(FIELD, 3), Part(BUTTON, 4)]
        text = write(Stack(5, backgrounds=[Background(1, parts=parts)], cards=[Card(2, 1)]))
        self.assertIn(b"\ntext 3 0\nhilite 4 false\nend\n", text)

    def test_what_is_no_stack_is_not_written(self) -> None:
        def fault_of(stack: Stack) -> Tuple[int, Optional[int]]:
            with self.assertRaises(Fault) as raised:
                write(stack)
            return raised.exception.number, raised.exception.line

        background = Background(1)
        self.assertEqual(fault_of(Stack(3, backgrounds=[background])), (1, 11))
        self.assertEqual(fault_of(Stack(3, backgrounds=[background], cards=[Card(1, 1)])), (2, 12))
        self.assertEqual(fault_of(Stack(3, backgrounds=[background], cards=[Card(2, 2)])), (2, 12))
        self.assertEqual(fault_of(Stack(3, b"x" * 30_001, b"", [background], [Card(2, 1)])), (1, 3))
        self.assertEqual(fault_of(Stack(1_000_002, b"", b"", [background], [Card(2, 1)])), (4, None))

    def test_nothing_is_left_out_unasked(self) -> None:
        for card in (Card(2, 1, texts={9: b"lost"}), Card(2, 1, hilites={9: True})):
            stack = Stack(10, backgrounds=[Background(1)], cards=[card])
            self.assertRaisesRegex(ValueError, "card 2 keeps something for 9", write, stack)
        stack = Stack(10, backgrounds=[Background(1)], cards=[Card(2, 1, parts=[Part("picture", 3)])])
        self.assertRaisesRegex(ValueError, "part 3 is neither", write, stack)


class Texts(Judged):
    def test_texts_of_the_repository(self) -> None:
        whole = 0
        for name, data in texts().items():
            verdict = self.agrees(data, name)
            whole += isinstance(verdict, bytes)
            if data.startswith(b"htstack 2") and isinstance(verdict, bytes):
                self.assertEqual(verdict, data, name)
        self.assertGreater(whole, 20)

    def test_stacks_made_by_chance(self) -> None:
        for seed in range(300):
            stack = Chance(seed).stack()
            text = write(stack)
            self.assertEqual(read(text), stack)
            self.assertEqual(self.theirs(text), text)

    def test_version_1_made_by_chance(self) -> None:
        for seed in range(100):
            text = write(Chance(seed).stack())
            old = re.sub(rb"\n(sharedHilite (true|false)|hilite [0-9]+ (true|false))(?=\n)", b"", text)
            self.assertIsInstance(self.agrees(old.replace(b"htstack 2", b"htstack 1", 1)), bytes)

    def test_broken_texts(self) -> None:
        random = Random(46)
        whole = [data for data in texts().values() if isinstance(ours(data), bytes) and len(data) < 4000]
        whole += [write(Chance(seed).stack(2)) for seed in range(40)]
        made = [broken(random, random.choice(whole)) for _ in range(BROKEN_TEXTS)]
        with ThreadPoolExecutor(os.cpu_count()) as pool:
            verdicts = list(pool.map(self.agrees, made))
        numbers = [0 if isinstance(verdict, bytes) else verdict[0] for verdict in verdicts]
        for number in range(5):
            self.assertGreater(numbers.count(number), 20, number)


def broken(random: Random, data: bytes) -> bytes:
    """A text with something changed that may matter."""
    lines = data.split(b"\n")
    at, other = random.randrange(len(lines)), random.randrange(len(lines))
    line = lines[at]
    ways: List[List[bytes]] = [
        lines[:at] + lines[at + 1:],
        lines[:at] + [line, line] + lines[at + 1:],
        lines[:at] + [lines[other]] + lines[at + 1:],
        lines[:at] + [other_byte(random, line)] + lines[at + 1:],
        lines[:at] + [line + random.choice((b" ", b"\r", b"0", b"\\", b"\\0d", b"\\4A", b"\x80"))] + lines[at + 1:],
        lines[:at] + [line[:random.randrange(len(line) + 1)]],
    ]
    numbered = random.choice([number for number, each in enumerate(lines) if each[-1:].isdigit()])
    counted = lines[:numbered] + [other_number(random, lines[numbered])] + lines[numbered + 1:]
    return b"\n".join(random.choice(ways + [counted] * len(ways)))


def other_byte(random: Random, line: bytes) -> bytes:
    """A line with a byte in place of another one."""
    at = random.randrange(len(line) + 1)
    return line[:at] + bytes([random.randrange(256)]) + line[at + 1:]


def other_number(random: Random, line: bytes) -> bytes:
    """A line with another number in place of its last one."""
    numbers = (0, 1, 2, 3, 4, 5, 6, 7, 9, 30, 10_000, 10_001, 30_001, 30_002, 1_000_001, 1_000_002, 10_000_000)
    chosen = b"%d" % random.choice(numbers)
    return re.sub(rb"[0-9]+(?=[^0-9]*$)", random.choice((chosen, chosen, chosen, b"0" + chosen, b"")), line)


class Page(Judged):
    """The scripts of the page on stack texts."""

    def test_scripts_of_the_page_run(self) -> None:
        page = bytes_of(there("docs/STACK_TEXT.md")).decode()
        making, showing, mending = re.findall(r"^```python\n(.*?)^```$", page, re.MULTILINE | re.DOTALL)
        text = self.python(making, "Ada\tLondon\t10 \\ Dec\nZoë\n\t\n".encode())
        self.assertEqual(self.agrees(text), text)
        self.assertEqual([(card.name, card.texts[2]) for card in read(text).cards],
                         [(b"Ada", b"London\r10 \\ Dec"), (b"Zo\x91", b""), (b"", b"")])
        self.put("people.stack", text)
        shown = self.python(showing, b"").decode().splitlines()
        self.assertEqual(shown, ["Ada ['London', '10 \\\\ Dec']", "Zoë ['']", " ['']"])
        path = self.put("people.stack", text.replace(b"\n", b"\r\n"))
        self.assertEqual(self.agrees(bytes_of(path)), (1, 1))
        self.python(mending, b"")
        self.assertEqual(bytes_of(path), text)

    def python(self, script: str, given: bytes) -> bytes:
        """What a script writes that runs in the test's folder."""
        environment = {**os.environ, "PYTHONPATH": program.HERE, "PYTHONIOENCODING": "utf-8"}
        return subprocess.run([sys.executable, "-B", "-c", script], input=given, cwd=self.folder, env=environment,
                              stdout=subprocess.PIPE, check=True).stdout


class Limits(Judged):
    def stack(self, **named: bytes) -> Stack:
        field = Part(FIELD, 3, text=named.get("text", b""))
        return Stack(4, named.get("name", b""), named.get("script", b""), [Background(1, parts=[field])], [Card(2, 1)])

    def test_longest_texts(self) -> None:
        longest = (b"\xff" * 30_000, b"\r" * 30_000, (b"\r" + b"x" * 29_999), (b"x" * 29_999 + b"\r"))
        for text in longest:
            for key in ("text", "script") + (() if b"\r" in text else ("name",)):
                written = write(self.stack(**{key: text}))
                self.assertEqual(self.agrees(written), written)

    def test_texts_that_are_too_long(self) -> None:
        whole = write(self.stack())
        text = whole.replace(b"script 0", b"script 2\n|" + b"x" * 29_999 + b"\n|y", 1)
        self.assertEqual(self.agrees(text), (1, 6))
        text = whole.replace(b"script 0", b"script 30001" + b"\n|" * 30_001, 1)
        self.assertIsInstance(self.agrees(text), bytes)
        text = whole.replace(b"script 0", b"script 30001" + b"\n|" * 30_000 + b"\n|x", 1)
        self.assertEqual(self.agrees(text), (1, 30_005))
        self.assertEqual(self.agrees(whole.replace(b"script 0", b"script 30002" + b"\n|" * 30_002, 1)), (1, 4))
        self.assertEqual(self.agrees(whole.replace(b"name |", b"name |" + b"x" * 30_001, 1)), (1, 3))

    def test_edges_of_lines(self) -> None:
        whole = write(self.stack(script=b"a\rb"))
        edges = [(b"next 4", b"next 04", (1, 2)), (b"next 4", b"next 2", (1, 2)), (b"next 4", b"next 0", (1, 2)),
                 (b"next 4", b"next 3", (2, 13)), (b"next 4", b"next 1000002", (4, None)),
                 (b"next 4", b"next 9999999", (4, None)), (b"next 4", b"next 10000000", (1, 2)),
                 (b"|a", b"|a\\0d", (1, 5)), (b"|a", b"|a\r", (1, 5)), (b"|a", b"a", (1, 5)),
                 (b"|a", b"|a\\4a", (1, 5)), (b"script 2", b"script 2 ", (1, 4)), (b"script 2", b"script -1", (1, 4)),
                 (b"backgrounds 1", b"backgrounds 0", (1, 7)), (b"backgrounds 1", b"backgrounds 10001", (4, None)),
                 (b"cards 1", b"cards 0", (1, 20)), (b"cards 1", b"cards 10001", (4, None)),
                 (b"parts 1", b"parts 10001", (4, None)), (b"cantDelete false", b"cantDelete no", (1, 10)),
                 (b"background 1\n", b"background 0\n", (2, 8)), (b"field 3", b"field 1", (2, 13)),
                 (b"field 3", b"Field 3", (1, 13)), (b"card 2 1", b"card 2 3", (2, 21)),
                 (b"card 2 1", b"card 2", (1, 21)), (b"card 2 1", b"card 4 01", (1, 21)),
                 (b"text 3 0", b"text 2 0", (2, 26)), (b"text 3 0", b"end", (1, 26)),
                 (b"text 3 0", b"text 2 30002", (1, 26)), (b"text 3 0", b"hilite 3 true", (1, 26))]
        for old, new, verdict in edges:
            self.assertIn(old, whole)
            self.assertEqual(self.agrees(whole.replace(old, new, 1)), verdict, new)
        for number in (b"5", b"1000001"):
            self.assertIsInstance(self.agrees(whole.replace(b"next 4", b"next " + number, 1)), bytes)

    def test_most_objects(self) -> None:
        parts = [Part(BUTTON if number % 2 else FIELD, number) for number in range(3, 10_001)]
        stack = Stack(10_002, backgrounds=[Background(1)], cards=[Card(2, 1, parts=parts)])
        text = write(stack)
        self.assertEqual(self.agrees(text), text)
        parts.append(Part(FIELD, 10_001))
        with self.assertRaises(Fault) as raised:
            write(stack)
        self.assertEqual((raised.exception.number, raised.exception.name), (4, "TooMany"))
        text = text.replace(b"next 10002", b"next 1000001", 1).replace(b"parts 9998", b"parts 9999", 1)
        self.assertEqual(self.agrees(text.replace(b"end\n", b"button 10001\n")), (4, None))

    def test_bytes_behind_the_end(self) -> None:
        for rest in (b"\n", b"x", b"\0", b"end\n"):
            self.assertEqual(self.agrees(SMALLEST + rest), (1, 18))
        for length in range(0, len(SMALLEST), 7):
            self.assertEqual(self.agrees(SMALLEST[:length]), (3, None))


if __name__ == "__main__":
    unittest.main()
