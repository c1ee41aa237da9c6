"""Answers of the program: what was shown, how the line ended, and what was said of it on standard error."""

import re
from dataclasses import dataclass, field
from typing import List, Sequence, Tuple

from front.stack_lines import unspell

OK, FAULT, REFUSED = "ok", "fault", "refused"
# A line that isn't in the grammar is refused; and so is one where no memory was left, or the file couldn't be written,
# which says nothing of the stack.
NOT_IN_GRAMMAR, NO_MEMORY, NOT_SAVED = 3, 4, 7

_WATCHED = re.compile(r"([A-Za-z_][A-Za-z0-9_]*) ([0-9]+)")
_EXPLAINED = re.compile(r"(?:fault|refused) [0-9]+, ")


@dataclass(frozen=True)
class Answer:
    """The answer to one line.

    `shown` has the texts behind `> `, as the program spells them. `ending` is OK, FAULT or REFUSED, and `number` the
    number behind it, 0 for OK. `explained` has the lines that explain a fault or a refusal; it is empty for OK, and
    where the program wasn't asked to explain. `watched` has the messages that were sent, with the ids of their objects.
    `told` has what else came on standard error, such as why a file wasn't saved. `seconds` is how long it took.
    """

    shown: List[bytes]
    ending: str = OK
    number: int = 0
    explained: List[str] = field(default_factory=list)
    watched: List[Tuple[str, int]] = field(default_factory=list)
    told: List[str] = field(default_factory=list)
    seconds: float = 0.0

    @property
    def verdict(self) -> str:
        """The last line of the answer: `ok`, `fault N` or `refused N`."""
        return self.ending if self.ending == OK else "%s %d" % (self.ending, self.number)

    def texts(self) -> List[bytes]:
        """What was shown, not spelled. Not for `.show`, whose lines are spelled in the stack's text already."""
        return [unspell(spelling) for spelling in self.shown]

    def lines(self) -> List[bytes]:
        """The lines of the answer, as the program writes them."""
        return [b"> " + line for line in self.shown] + [self.verdict.encode()]

    def is_refused(self, *numbers: int) -> bool:
        """Whether the line was refused, with one of these numbers."""
        return self.ending == REFUSED and self.number in numbers

    def says_as(self, other: "Answer") -> bool:
        """Whether both say the same of the stack, whatever else was told and however long it took."""
        return (self.shown, self.verdict, self.watched) == (other.shown, other.verdict, other.watched)


def answer_of(lines: Sequence[bytes], heard: Sequence[str], seconds: float) -> Answer:
    """The answer of the program's lines and of the lines of standard error that came with it.

    The last line is the ending, as `Running.ask` and `answers_of` give it.
    """
    ending, _, number = lines[-1].decode().partition(" ")
    answer = Answer([line[2:] for line in lines[:-1]], ending, int(number or 0), seconds=seconds)
    for line in heard:
        watched = _WATCHED.fullmatch(line)
        if watched:
            answer.watched.append((watched.group(1), int(watched.group(2))))
        elif _EXPLAINED.match(line) or (answer.explained and line.startswith("  ")):
            answer.explained.append(line)
        else:
            answer.told.append(line)
    return answer
