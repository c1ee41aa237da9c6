"""Which scripts of a stack read, and what keeps the others from it, as the program tells.

The program tells the first place of a script that isn't in the grammar. To find those behind it, the statement at that
place is blanked in a copy, and the program is asked again, until all that is left reads. So every place that is told
was told by the program; only its name comes from the table of constructs. Where a place can't be taken out alone, the
rest of its handler isn't looked at, and that is told.
"""

from dataclasses import dataclass, field
from typing import Callable, Dict, Iterator, List, Tuple, Union

from front.checks import Remark
from front.handlers import Handler, handlers
from front.stack_text import Background, Card, Part, Stack, write
from migrate.constructs import Construct, construct_at
from migrate.hyper_text import Line, bare, lines_of
from migrate.rewrite import Rewriting, rewrite

Holder = Union[Stack, Background, Card, Part]
Check = Callable[[bytes], List[Remark]]
MOST_ROUNDS = 200
STACK_ID = 0


@dataclass(frozen=True)
class Blocker:
    """A place that isn't in the grammar: the object's id, line and column from 1, the line, what stands there, whether
    a rewriting changes the line, and whether the rest of the handler wasn't looked at."""

    id: int
    line: int
    column: int
    text: bytes
    construct: Construct
    helped: bool = False
    last: bool = False


@dataclass(frozen=True)
class Unanswered:
    """A command or a call that nothing handles: the object's id, the line of its script from 1, and the name."""

    id: int
    line: int
    name: str


@dataclass
class Reading:
    """What the program says of all scripts of a stack.

    `scripts` has how many handlers stand in each script that isn't empty, by the object's id; `unread` those that
    aren't in the grammar. `running` counts the handlers that stand in a script that reads and call nothing that
    nothing handles.
    """

    scripts: Dict[int, int] = field(default_factory=dict)
    unread: List[int] = field(default_factory=list)
    blockers: List[Blocker] = field(default_factory=list)
    unanswered: List[Unanswered] = field(default_factory=list)
    running: int = 0

    @property
    def handlers(self) -> int:
        """How many handlers there are."""
        return sum(self.scripts.values())


def holders(stack: Stack) -> Iterator[Tuple[int, Holder]]:
    """All that has a script, with its id; that of the stack is 0."""
    yield STACK_ID, stack
    layers: List[Union[Background, Card]] = [*stack.backgrounds, *stack.cards]
    for layer in layers:
        yield layer.id, layer
        for part in layer.parts:
            yield part.id, part


class _Copy:
    """A stack whose scripts are blanked bit by bit. At the end they are put back."""

    def __init__(self, stack: Stack, check: Check) -> None:
        self.stack, self.check = stack, check
        self.holders = dict(holders(stack))
        self.scripts = {number: each.script for number, each in self.holders.items() if each.script}
        self.seen: Dict[Tuple[int, int], int] = {}
        self.made: Dict[int, List[Rewriting]] = {}

    def rewritings(self, number: int) -> List[Rewriting]:
        """What a rewriting would change in a script."""
        if number not in self.made:
            self.made[number] = rewrite(self.scripts[number]).made
        return self.made[number]

    def remarks(self) -> List[Remark]:
        return self.check(write(self.stack))

    def put_back(self) -> None:
        for number, script in self.scripts.items():
            self.holders[number].script = script

    def blank(self, number: int, first: int, after: int) -> None:
        """Takes the lines from the first up to the one behind out of a script; they stay as empty lines."""
        lines = self.holders[number].script.split(b"\r")
        lines[first:after] = [b""] * (after - first)
        self.holders[number].script = b"\r".join(lines)

    def take_out(self, error: Remark) -> bool:
        """Blanks what is wrong at a place; whether the rest of the handler went with it."""
        place = error.line - 1
        times = self.seen.get((error.id, place), 0)
        self.seen[error.id, place] = times + 1
        script = self.holders[error.id].script
        handler = next((each for each in handlers(script) if each.first <= place < each.after), None)
        line = next((each for each in lines_of(script) if each.first <= place < each.first + each.count), None)
        if handler is None or times > 1:
            count = len(script.split(b"\r"))
            alone = handler is None and not times and line is not None
            self.blank(error.id, *((line.first, line.first + line.count) if alone and line else (0, count)))
            return not alone
        return self.in_handler(error.id, script, handler, line, times)

    def in_handler(self, number: int, script: bytes, handler: Handler, line: Union[Line, None], times: int) -> bool:
        """Blanks a statement of a handler, or all of its body, or all of it."""
        inside = line is not None and handler.first < line.first and line.first + line.count < handler.after
        if line is not None and inside and not times and _stands_alone(script, line):
            self.blank(number, line.first, line.first + line.count)
            return False
        whole = bool(times) or line is None or line.first <= handler.first or handler.after - handler.first <= 2
        self.blank(number, handler.first + (not whole), handler.after - (not whole))
        return True


def _stands_alone(script: bytes, line: Line) -> bool:
    """Whether a line is a whole statement, so that the handler is well formed without it."""
    words = bare(line.body).split()
    if not words or words[0] in ("repeat", "else", "end", "on", "function", "then"):
        return False
    below = next((each for each in lines_of(script) if each.first >= line.first + line.count and each.body), None)
    if words[0] == "if":
        return "then" in words[:-1] and not (below is not None and below.begins("else"))
    return True


def _text_of(script: bytes, line: int) -> bytes:
    lines = script.split(b"\r")
    return lines[line - 1] if line <= len(lines) else b""


def _construct(script: bytes, line: int, column: int) -> Construct:
    """What stands at a place of a script, in its line with those that it goes on from."""
    whole = next((each for each in lines_of(script) if each.first < line <= each.first + each.count), None)
    before = script.split(b"\r")[whole.first : line - 1] if whole else []
    joined = b"".join(each + b" " for each in before)
    return construct_at(joined + _text_of(script, line), len(joined) + column)


def _blocker(error: Remark, script: bytes, made: List[Rewriting], last: bool) -> Blocker:
    """The place that the program tells, with the name of what stands there."""
    column = error.column or 1
    helped = any(error.line in each.lines for each in made)
    return Blocker(error.id, error.line, column, _text_of(script, error.line), _construct(script, error.line, column),
                   helped, last)


def _running(reading: Reading, scripts: Dict[int, bytes]) -> int:
    """How many handlers would run."""
    silent = {(each.id, each.line) for each in reading.unanswered}
    unread = set(reading.unread)
    return sum(not any((number, line + 1) in silent for line in range(each.first, each.after))
               for number, script in scripts.items() if number not in unread for each in handlers(script))


def read(stack: Stack, check: Check) -> Reading:
    """What the program says of the scripts. `check` gives its remarks on the text of a stack: front.checks.check."""
    copy = _Copy(stack, check)
    reading = Reading({number: len(handlers(script)) for number, script in copy.scripts.items()})
    try:
        for _ in range(MOST_ROUNDS):
            remarks = copy.remarks()
            errors = [each for each in remarks if each.is_error]
            if not errors:
                break
            for error in errors:
                reading.unread += [error.id] if error.id not in reading.unread else []
                last = copy.take_out(error)
                reading.blockers.append(_blocker(error, copy.scripts[error.id], copy.rewritings(error.id), last))
        reading.unanswered = [Unanswered(each.id, each.line, each.words.rpartition(" ")[2])
                              for each in remarks if not each.is_error]
    finally:
        copy.put_back()
    order = {number: place for place, number in enumerate(copy.scripts)}
    reading.blockers.sort(key=lambda each: (order[each.id], each.line, each.column))
    reading.running = _running(reading, copy.scripts)
    return reading
