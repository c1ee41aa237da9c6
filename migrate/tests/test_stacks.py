"""Each stack of the folder stacks at a size of 1,000: what is done with it ends well, with the steps of a command."""

import os
import re
from typing import List

from front.program import HERE
from front.stack_text import BUTTON, Card, Part, Stack, read, write
from migrate.tests.helpers import Folder

SIZE = 1000
# A line of an answer in a stored session.
ANSWER = re.compile(r"> |>$|ok$|(fault|refused) \d+$")


def stack_of(name: str) -> Stack:
    """A stack of the folder."""
    with open(os.path.join(HERE, "stacks", name + ".stack"), "rb") as file:
        return read(file.read())


def person(number: int) -> bytes:
    """A name; in the order of the numbers the last words aren't in theirs."""
    return b"Pat%d Q%03d" % (number, number * 7919 % SIZE)


class Sizes(Folder):
    """A thousand people, questions, tasks and lines of a tape."""

    def answers(self, stack: Stack, lines: List[str]) -> List[str]:
        return self.run_stack(write(stack), lines)

    def people(self, count: int) -> Stack:
        """An address book with so many people."""
        stack = stack_of("address_book")
        stack.cards = stack.cards[:2]
        names = [person(number) for number in range(count)]
        for name in names:
            texts = {part.id: b"" for part in stack.backgrounds[1].parts if part.kind != BUTTON}
            texts[4] = name
            stack.cards.append(Card(stack.next_id, 3, name, texts=texts))
            stack.next_id += 1
        stack.cards[0].texts[2] = b"\r".join(sorted(names, key=lambda name: name.split()[1] + b" " + name))
        return stack

    def test_address_book(self) -> None:
        stack = self.people(SIZE)
        order = stack.cards[0].texts[2].split(b"\r")
        got = self.answers(stack, [
            ".open", 'newPerson "Ada Q500x"', 'put field "Name" && the number of cards',
            'put line 502 of field "Names" of card "Index" && the number of lines of field "Names" of card "Index"',
            '.type "Zoe Aaa" into field "Name"', 'put line 1 of field "Names" of card "Index"',
            'search "Q999"', ".click bg button \"Next\"", 'put field "Name"'])
        last = order[-1].decode()
        self.assertEqual(got, ["> 1000 people", "ok", "ok", "> Ada Q500x 1003", "ok", "> Ada Q500x 1001", "ok", "ok",
                               "> Zoe Aaa", "ok", "> " + last, "ok", "ok", "> Zoe Aaa", "ok"])

    def test_address_book_sorts_anew(self) -> None:
        stack = self.people(SIZE)
        names, stack.cards[0].texts[2] = stack.cards[0].texts[2].decode().split("\r"), b""
        lines = ['put line %d of field "Names" of card "Index"' % number for number in (1, 500, 1000)]
        got = self.answers(stack, [
            "sortNames", 'put the number of lines of field "Names" of card "Index"', *lines])
        self.assertEqual(got, ["ok", "> 1000", "ok", "> " + names[0], "ok", "> " + names[499], "ok",
                               "> " + names[999], "ok"])

    def test_address_book_fails_whole(self) -> None:
        stack = self.people(3)
        names = b"\r".join(b"x" * 99 + b" %d" % number for number in range(290))
        stack.cards[0].texts[2] = names[: 29_990].rpartition(b"\r")[0] + b"\r" + b"z" * 20
        got = self.answers(stack, ['put field "Names" of card "Index" into old', 'newPerson "%s"' % ("y" * 999),
                                   'put (old = field "Names" of card "Index") && the number of cards'])
        self.assertEqual(got, ["ok", "fault 8", "> true 5", "ok"])

    def test_quiz(self) -> None:
        stack = stack_of("quiz")
        first = stack.cards[0]
        while len(stack.cards) < SIZE:
            stack.cards.append(Card(stack.next_id, 1, b"Q%d" % stack.next_id, texts=dict(first.texts)))
            stack.next_id += 1
        score = 'put field "Score"'
        got = self.answers(stack, ['.click bg button "B"', score, "go last card", '.click bg button "A"', score,
                                   '.click bg button "Start Again"', score])
        shown = [line for line in got if " of " in line]
        self.assertEqual(shown, ["> 1 of 1", "> 1 of 2", "> 0 of 0"])
        self.assertNotIn("fault 11", got)

    def test_to_do(self) -> None:
        stack = stack_of("to_do")
        parts = stack.cards[0].parts
        while len(parts) < SIZE:
            parts.append(Part(BUTTON, stack.next_id, b"Task %d" % stack.next_id, hilite=stack.next_id % 2 == 0))
            stack.next_id += 1
        lit = sum(part.hilite for part in parts)
        lit += -1 if parts[-1].hilite else 1
        status = 'put field "Status"'
        got = self.answers(stack, [".click last button", status, 'newTask "One more"', status, "hideDone", "showTasks"])
        self.assertEqual([line for line in got if not line.startswith("> [") and "Today" not in line],
                         ["ok", "> %d of 1000 done" % lit, "ok", "ok", "> %d of 1001 done" % lit, "ok", "ok", "ok"])
        self.assertEqual(sum(line.startswith("> [") for line in got), 1001 - lit)

    def test_calculator(self) -> None:
        stack = stack_of("calculator")
        lines = ['.type "2" into card field "Entry"', *[".click button \"+\""] * SIZE,
                 'put card field "Total" && the number of lines of card field "Tape"']
        self.assertEqual(self.answers(stack, lines)[-2:], ["> 2000 1001", "ok"])

    def test_stored_sessions_among_a_thousand_cards(self) -> None:
        for name in ("calculator", "to_do"):
            with self.subTest(name=name):
                stack = stack_of(name)
                while len(stack.cards) < SIZE:
                    stack.cards.append(Card(stack.next_id, stack.backgrounds[0].id, b"More %d" % stack.next_id))
                    stack.next_id += 1
                with open(os.path.join(HERE, "stacks", name + ".session"), encoding="utf-8") as file:
                    stored = file.read().splitlines()
                wanted = [line for line in stored if ANSWER.match(line)]
                self.assertEqual(self.answers(stack, [line for line in stored if not ANSWER.match(line)]), wanted)

    def test_compat(self) -> None:
        stack = stack_of("compat")
        while len(stack.cards) < SIZE:
            stack.cards.append(Card(stack.next_id, 1, b"", texts={2: b"%d" % stack.next_id}))
            stack.next_id += 1
        words = b"\r".join(person(number) for number in range(SIZE // 2))
        stack.cards[0].texts[2] = words
        got = self.answers(stack, ['find "nowhere"', 'find "1001"', "put field 1 && the number of this card",
                                   "go first card", 'put sortedLines(field 1, "descending") into x', "put line 1 of x"])
        last = max(words.split(b"\r")).decode()
        self.assertEqual(got, ["ok", "ok", "> 1001 998", "ok", "ok", "ok", "> " + last, "ok"])
