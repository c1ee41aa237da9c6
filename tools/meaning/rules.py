"""Reads the table of the rules of the language, meaning.rules, and writes out what it leaves to its reader.

The head of the table says how it is written. What it leaves out is written out here: the rule that a family may be out
of memory; the rules by which a whole stops where one of its parts does; and the parts with which several rules begin.
"""

import re
from typing import Callable, Dict, List, NamedTuple, Sequence, Tuple

STOPS, OUT_OF_MEMORY, ENDS_WELL = "(Err z)", "(Err Memory)", "(Ok "
HEAD = re.compile(r"# (\w+(?: \w+)*) \|(?: (\w+) \|)? (.+)$")


class BadTable(Exception):
    """A line of the table that can't be read; the text says which and why."""


class Rule(NamedTuple):
    """A rule: where the premises hold, in the order of time, so does the conclusion."""

    name: str
    premises: List[str]
    conclusion: str


class Part(NamedTuple):
    """A part of a rule, and the names of the rules by which the whole stops where the part does."""

    text: str
    stops: List[str]


class Family(NamedTuple):
    """A family: what stands where in its conclusions, what it is, and its rules."""

    name: str
    indices: List[str]
    words: str
    section: str
    block: int
    rules: List[Rule]


class Table(NamedTuple):
    """The families, what each letter stands for, and for each form the lines of the grammar."""

    families: List[Family]
    letters: List[Tuple[str, str]]
    grammar: Dict[str, List[str]]


def words(text: str) -> List[str]:
    """The words of a premise or a conclusion; what stands in brackets is one."""
    found, depth = [""], 0
    for letter in text:
        depth += (letter in "([{") - (letter in ")]}")
        if letter == " " and depth == 0:
            found.append("")
        else:
            found[-1] += letter
    return found


def part_of(text: str) -> Part:
    """A part with the names behind it."""
    part, *stops = text.strip().split(" ! ")
    return Part(part, stops)


def parts_of(text: str) -> List[Part]:
    """Parts in their order."""
    return [part_of(each) for each in text.split(" ; ") if each.strip()]


def stopped(part: str) -> str:
    """A part that ends well, where it stops in place of that."""
    found = words(part)
    places = [at for at, word in enumerate(found) if word.startswith(ENDS_WELL)]
    if len(places) != 1:
        raise BadTable("no one end of this part stops: %s" % part)
    found[places[0]] = STOPS
    return " ".join(found)


def distinct(letters: Sequence[str]) -> List[str]:
    """Letters, of which one that comes again has a number."""
    return [letter + (str(letters[:at].count(letter)) if letter in letters[:at] else "")
            for at, letter in enumerate(letters)]


class Reader:
    """The table as it is read, line by line."""

    def __init__(self, types: Dict[str, str], variables: Callable[[str], List[str]]) -> None:
        self.types, self.variables = types, variables
        self.families: List[Family] = []
        self.letters: List[Tuple[str, str]] = []
        self.grammar: Dict[str, List[str]] = {}
        self.section, self.block = "", 0
        # The parts that the rules below begin with, each with the column behind which these stand.
        self.shared: List[Tuple[int, List[Part]]] = []

    def read(self, text: str) -> Table:
        """The whole table."""
        for number, line in enumerate(text.splitlines(), 1):
            try:
                self.line(line)
            except BadTable as wrong:
                raise BadTable("meaning.rules, line %d: %s" % (number, wrong)) from wrong
        return Table(self.families, self.letters, self.grammar)

    def line(self, line: str) -> None:
        """Takes a line."""
        if not line.strip():
            self.shared = []
        elif line.startswith("@ "):
            named, _, told = line[2:].partition(": ")
            self.letters.append((named, told))
        elif line.startswith("> "):
            form, _, said = line[2:].partition(": ")
            self.grammar.setdefault(form, []).append(said)
        elif line.startswith(("= ", "== ")):
            self.block += line.startswith("==")
            self.section = line.split(" ", 1)[1]
        elif line.startswith("# "):
            self.family(line)
        elif not line.startswith("--"):
            self.rules(line)

    def family(self, line: str) -> None:
        """Begins a family."""
        found = HEAD.match(line)
        if not found:
            raise BadTable("this is no head of a family")
        (name, *indices), memory, told = found.group(1).split(), found.group(2), found.group(3)
        self.families.append(Family(name, indices, told, self.section, self.block, []))
        self.section = ""
        if memory:
            at = self.outcome()
            left = [index + "1" for index in indices[at + 1:]]
            self.add(memory, [], " ".join([name, *distinct(indices[:at]), OUT_OF_MEMORY, *left]))

    def rules(self, line: str) -> None:
        """Takes a rule, or the parts that those below share."""
        column = len(line) - len(line.lstrip())
        while self.shared and self.shared[-1][0] >= column:
            self.shared.pop()
        if line.endswith(" .."):
            self.shared.append((column, parts_of(line[:-3])))
            return
        name, colon, rest = line.strip().partition(": ")
        parts, arrow, conclusion = rest.partition("=> ")
        if not (colon and arrow and self.families):
            raise BadTable("this is no rule")
        if words(conclusion)[0] != self.families[-1].name:
            raise BadTable("it is a rule of another family")
        self.whole(name, [part for _, parts in self.shared for part in parts] + parts_of(parts), conclusion)

    def whole(self, name: str, parts: Sequence[Part], conclusion: str) -> None:
        """Adds a rule, and before it those by which it stops where one of its parts does."""
        told = {rule.name for rule in self.families[-1].rules}
        for at, part in enumerate(parts):
            for stop in part.stops:
                if stop not in told:
                    before = [each.text for each in parts[:at]] + [stopped(part.text)]
                    self.add(stop, before, self.handed_on(before, conclusion))
        self.add(name, [part.text for part in parts], conclusion)

    def handed_on(self, before: Sequence[str], conclusion: str) -> str:
        """How a whole ends where the last of these parts stops: so, with what was left at that moment."""
        family, at = self.families[-1], self.outcome()
        left = [self.last(before, letter) for letter in family.indices[at + 1:]]
        return " ".join([*words(conclusion)[:at + 1], STOPS, *left])

    def last(self, parts: Sequence[str], letter: str) -> str:
        """The last variable of a letter that these parts name."""
        named = [each for part in parts for each in self.variables(part) if each.rstrip("0123456789") == letter]
        return named[-1] if named else letter

    def outcome(self) -> int:
        """Which index of the family is its outcome, from 0."""
        family = self.families[-1]
        for at, index in enumerate(family.indices):
            if self.types[index].startswith("Result "):
                return at
        raise BadTable("%s has no outcome" % family.name)

    def add(self, name: str, premises: List[str], conclusion: str) -> None:
        """Adds a rule as it is written out."""
        if any(rule.name == name for family in self.families for rule in family.rules):
            raise BadTable("two rules are called %s" % name)
        self.families[-1].rules.append(Rule(name, premises, conclusion))
