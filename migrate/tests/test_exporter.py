"""The handlers of stacks/export.txt, run in the program: what they write is imported, and gives the same stack again.

What only HyperCard has stands in four of them; here these are replaced by handlers that show what is written.
"""

import os
from typing import List

from front import program
from front.handlers import handlers, with_handler
from front.program import HERE
from front.stack_text import BUTTON, FIELD, Background, Card, Part, Stack, read, unspell, write
from migrate.convert import convert
from migrate.dump_stack import read_dump
from migrate.tests.helpers import Folder

REPLACED = (b"on emit what\r  put what\rend emit", b"function more what, reference\r  return empty\rend more",
            b"function contentsOf reference\r  return empty\rend contentsOf", b"on exportStack\rend exportStack")


def exporter() -> bytes:
    """The handlers, with those of HyperCard replaced."""
    with open(os.path.join(HERE, "stacks", "export.txt"), "rb") as file:
        script = file.read().rstrip(b"\n").replace(b"\n", b"\r")
    names = [each.name for each in handlers(script)]
    for each in REPLACED:
        script, replaced = with_handler(script, each)
        assert replaced, each
    assert [each.name for each in handlers(script)] == names
    return script


def fields_first(parts: List[Part]) -> List[Part]:
    return sorted(parts, key=lambda part: part.kind != FIELD)


class Exporter(Folder):
    """Stacks of the repository, and one with all kinds of texts."""

    def dump(self, stack: Stack) -> bytes:
        """What the handlers write of a stack."""
        path = self.put("a.stack", write(stack))
        done = program.run([path, "--steps", "10000000"], b"set the lockMessages to true\rexportAll\n")
        lines = done.stdout.split(b"\n")
        self.assertEqual(lines[-2:], [b"ok", b""], done.stderr)
        self.assertTrue(all(line.startswith(b"> ") for line in lines[:-2]))
        return b"".join(unspell(line[2:]) + b"\r" for line in lines[:-2])

    def same_again(self, stack: Stack) -> None:
        """Sees that a stack is the same after it was exported and imported, with its fields before its buttons."""
        stack.script += b"\r" * bool(stack.script) + exporter()
        old = read_dump(self.dump(stack), "a", "mac_roman")
        self.assertEqual((old.unknown, old.notes), ({}, []))
        again = convert(old).stack
        again.next_id = stack.next_id
        for layer in [*stack.backgrounds, *stack.cards]:
            layer.parts = fields_first(layer.parts)
        for each in again.cards:
            each.hilites = {number: each.hilites.get(number, False) for number in stack_hilites(stack, each)}
        self.assertEqual(write(again), write(stack))

    def test_stacks_of_the_repository(self) -> None:
        for name in ("address_book", "calculator", "quiz", "to_do"):
            with self.subTest(name=name), open(os.path.join(HERE, "stacks", name + ".stack"), "rb") as file:
                self.same_again(read(file.read()))

    def test_texts(self) -> None:
        texts = [b"", b"\r", b"a\r", b"\r\ra", b".", b"|x", b"a.\r.", bytes(range(128, 256)), b" a ", b"end",
                 b"a\tb\r\r"]
        background = Background(1, b"", False, b"-- x\r", [
            Part(BUTTON, 2, b"A.", shared_hilite=False), Part(FIELD, 3, b"|", text=b"all\r", shared_text=True)])
        background.parts += [Part(FIELD, 100 + place) for place in range(len(texts))]
        cards = [Card(4, 1, b"card id 5", True, b"", [Part(FIELD, 6, b" ", False, lock_text=True, text=b"\r\r")],
                      {3: b"", **{100 + place: text for place, text in enumerate(texts)}}, {2: True}),
                 Card(5, 1, b"", hilites={2: False}, texts={3: b""})]
        self.same_again(Stack(200, b"T", b"", [background], cards))


def stack_hilites(stack: Stack, card: Card) -> List[int]:
    """The buttons of a card's background."""
    return [part.id for part in stack.background_of(card).parts if part.kind == BUTTON]
