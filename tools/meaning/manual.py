#!/usr/bin/env python3
"""Writes docs/MEANING.md, the rules of the language form by form, from the table meaning.rules and the words of
manual.md. With --check it writes nothing, and ends with 1 where the page is stale.

In manual.md a line of one of these kinds is replaced; all else stands as it is written:

    @ contents                     links to the parts of the page
    @ letters                      the legend: the letters of variables, their types, and what they stand for
    @ leaves                       what rules name that is no family of the table
    @ family F                     the line of a family whose forms stand apart
    @ grammar                      the lines of the grammar that the table has for the heading above; tools/grammar.md
                                   has to have them
    @ rules F: FORM ..             the rules of these forms of a family; without forms, all of its rules
    @ row NAME | TEXT              a row of crates/rows/data, which has to have this text
    @ word NAME: W                 the words of a definition that has none where it stands

Each rule is shown once, or folded, which means named alone: a rule that only says out of memory, and one that is another,
cut behind a part that stops. What a rule names is told below it in the words of the definitions.
"""

import os
import re
import sys
from importlib.machinery import SourceFileLoader
from importlib.util import module_from_spec, spec_from_loader
from types import ModuleType
from typing import Any, Dict, Iterable, List, NamedTuple, Optional, Sequence, Set, Tuple

sys.dont_write_bytecode = True

from rules import Rule, Table  # noqa: E402
from table import TYPES, USE, forms, letters, read, table, variables, words  # noqa: E402

TOP = os.path.join(os.path.dirname(os.path.abspath(__file__)), "..", "..")
PAGE = os.path.join(TOP, "docs", "MEANING.md")
LANGUAGE = os.path.join(TOP, "docs", "LANGUAGE.md")
WRITTEN = ("<!-- Written by tools/meaning/manual.py from tools/meaning/meaning.rules and manual.md, and the words of"
           " crates/*/specs. -->\n")
STOPS, OUT_OF_MEMORY = "(Err z)", "(Err Memory)"
DEFINITION = re.compile(r"(?<![\w.])[A-Za-z_]\w+")
HEADING = re.compile(r"^(##|###) (.+)$", re.MULTILINE)


class Wrong(Exception):
    """What is wrong with the words of the page."""


def text_of(path: str) -> str:
    """The text of a file."""
    with open(path, encoding="utf-8", newline="") as file:
        return file.read()


def shown(rule: Rule) -> str:
    """A rule as the page has it."""
    return "".join("%s\n" % line for line in [rule.name, *("    " + premise for premise in rule.premises),
                                              "  => " + rule.conclusion])


class Family(NamedTuple):
    """A family of rules."""

    name: str
    indices: List[str]
    words: str
    rules: List[Rule]
    forms: Dict[str, List[str]]

    def of_forms(self, wanted: Sequence[str]) -> List[Rule]:
        """The rules of these forms, in their order; all where none is named."""
        if not wanted:
            return self.rules
        for form in wanted:
            if form not in self.forms:
                raise Wrong("%s has no form %s" % (self.name, form))
        names = {name for form in wanted for name in self.forms[form]}
        return [rule for rule in self.rules if rule.name in names]


def by_name(found: Table) -> Dict[str, Family]:
    """The families by their names."""
    return {each.name: Family(each.name, each.indices, each.words, each.rules, forms({"rules": each.rules})[0])
            for each in found.families}


# ---- what is folded

def is_memory(rule: Rule) -> bool:
    """Whether a rule only says that it may be out of memory."""
    return not rule.premises and OUT_OF_MEMORY in rule.conclusion


def after(rule: Rule, letter: str) -> str:
    """The last variable of the history, the run or the frame that the premises of a rule name."""
    named = [variable for premise in rule.premises for variable in variables(premise) if letters(variable) == letter]
    return named[-1] if named else letter


def is_cut(short: Rule, whole: Rule) -> bool:
    """Whether a rule is another one, cut behind a part that stops there and goes on here."""
    at = len(short.premises) - 1
    if at >= len(whole.premises) or short.premises[:at] != whole.premises[:at]:
        return False
    there, here = words(short.premises[at]), words(whole.premises[at])
    return len(there) == len(here) and [a for a, b in zip(there, here) if a != b] == [STOPS]


def hands_on(rule: Rule) -> bool:
    """Whether a rule ends as its last part, which stops, with what is left at that moment."""
    parts = words(rule.conclusion)
    if STOPS not in parts or not rule.premises or STOPS not in words(rule.premises[-1]):
        return False
    left = parts[parts.index(STOPS) + 1:]
    return left == [after(rule, letters(variable)) for variable in left]


def is_folded(rule: Rule, family: Family) -> bool:
    """Whether the page only names a rule."""
    return is_memory(rule) or (hands_on(rule) and any(is_cut(rule, other) for other in family.rules if other != rule))


# ---- the words of definitions

def definitions() -> ModuleType:
    """The tool that reads the words of definitions."""
    loader = SourceFileLoader("definitions", os.path.join(TOP, "tools", "definitions"))
    spec = spec_from_loader("definitions", loader)
    assert spec is not None
    module = module_from_spec(spec)
    loader.exec_module(module)
    return module


def said() -> Dict[str, Tuple[str, str]]:
    """For each name that the rules import: its crate, and the words above its definition."""
    found, tool = {}, definitions()
    for line in read("meaning.head").splitlines():
        use = USE.match(line)
        if use is None or not use.group(2) or ".declared." in line or ".std." in line:
            continue
        _, crate, _, name = use.group(1).split(".")
        path = os.path.join(TOP, "crates", crate, "specs", name + ".antt")
        entries: Iterable[Any] = tool.Page(text_of(path).split("\n")).entries
        of_file = {each: told for _, names, told in entries for each in names}
        for each in use.group(2).split(", "):
            found[each.split()[0]] = (crate, of_file.get(each.split()[0], ""))
    return found


def anchor(heading: str) -> str:
    """The anchor that a heading gets."""
    return re.sub(r"[^\w\- ]", "", heading.lower()).replace(" ", "-")


def alternatives(line: str) -> List[str]:
    """A line of the grammar, and those of its alternatives that stand in no brackets."""
    found, depth = [""], 0
    for letter in line:
        depth += (letter in "([{") - (letter in ")]}")
        if letter in "|," and depth == 0:
            found.append("")
        else:
            found[-1] += letter
    return [line, *(each.strip() for each in found)]


def printed() -> Set[str]:
    """The lines of the printed grammar."""
    rows = [line for line in text_of(os.path.join(TOP, "tools", "grammar.md")).splitlines() if line.startswith("|")]
    cells = [re.split(r"(?<!\\)\|", row)[1] for row in rows]
    lines = [re.sub(r"^\\?\| ", "", cell.strip()).replace("\\|", "|").replace("`", "") for cell in cells]
    return {each for line in lines for each in alternatives(line)}


# ---- the page

class Manual:
    """The page as it is written: what each line of manual.md becomes."""

    def __init__(self, text: str, rules: Table) -> None:
        self.text, self.table, self.said, self.printed = text, rules, said(), printed()
        self.families = by_name(self.table)
        self.shown: List[str] = []
        self.here, self.heading = "", ""
        self.left = dict(self.table.grammar)
        self.legend: Dict[str, str] = {}
        self.anchors: Dict[str, str] = {}
        self.more = dict(re.findall(r"^@ word (\w+): (.+)$", text, re.MULTILINE))
        self.find_anchors()

    def find_anchors(self) -> None:
        """Where each family stands: below the heading that is next above it."""
        here = ""
        for line in self.text.splitlines():
            heading, family = HEADING.match(line), re.match(r"@ (?:family|rules) (\w+)", line)
            if heading:
                here = anchor(heading.group(2))
            elif family:
                self.anchors.setdefault(family.group(1), here)
        if set(self.anchors) != set(self.families):
            raise Wrong("one of these is missing: %s" % ", ".join(sorted(set(self.anchors) ^ set(self.families))))

    def page(self) -> str:
        """The page."""
        lines = [self.line(line) for line in self.text.splitlines()]
        self.see_that_all_is_told()
        text = "\n".join(line for line in lines if line is not None)
        return WRITTEN + re.sub("\n{3,}", "\n\n", text).rstrip("\n") + "\n"

    def line(self, line: str) -> Optional[str]:
        """What a line becomes; none where it isn't shown."""
        heading = HEADING.match(line)
        if heading:
            self.here, self.heading = anchor(heading.group(2)), heading.group(2)
        if not line.startswith("@ "):
            return line
        kind, _, rest = line[2:].partition(" ")
        kinds = {"contents": self.contents, "letters": self.letters, "leaves": self.leaves, "family": self.family,
                 "grammar": self.grammar, "rules": self.rules, "row": self.row}
        if kind == "word":
            return None
        if kind not in kinds:
            raise Wrong("there are no lines of the kind %s" % kind)
        return kinds[kind](rest)

    def contents(self, _: str) -> str:
        """A line for each part, with links to what stands in it."""
        found: List[Tuple[str, List[str]]] = []
        for mark, heading in HEADING.findall(self.text):
            link = "[%s](#%s)" % (heading, anchor(heading))
            if mark == "##":
                found.append((link, []))
            else:
                found[-1][1].append(link)
        return "\n".join("- %s%s" % (part, ": " + ", ".join(rest) if rest else "") for part, rest in found)

    def letters(self, _: str) -> str:
        """The legend."""
        return "\n".join(["| Letter | Type | What it is |", "|---|---|---|",
                          *(self.letter(named, told) for named, told in self.table.letters)])

    def letter(self, named: str, told: str) -> str:
        """A line of the legend."""
        for each in named.split() + re.findall(r"`(o\w+)`", told):
            if each not in TYPES:
                raise Wrong("no variable is called %s" % each)
            self.legend[each] = told
        types = sorted({TYPES[each] for each in named.split()}, key=[TYPES[each] for each in named.split()].index)
        return "| %s | %s | %s |" % (", ".join("`%s`" % each for each in named.split()),
                                     ", ".join("`%s`" % each for each in types), told)

    def leaves(self, _: str) -> str:
        """What rules name that is no family of the table."""
        used = {word for family in self.families.values() for rule in family.rules
                for premise in rule.premises for word in words(premise)}
        named = [name for name in self.said if name[0].isupper() and name in used]
        rows = ["| `%s` | `%s` | %s |" % (name, self.said[name][0], lowered(self.said[name][1]).rstrip("."))
                for name in named]
        return "\n".join(["| Name | Crate | What it is |", "|---|---|---|", *rows])

    def family(self, name: str) -> str:
        """The line of a family."""
        family = self.families[name]
        folded = [rule.name for rule in family.rules if is_memory(rule)]
        return "\n`%s`: %s%s\n" % (" ".join([name, *family.indices]), lowered(family.words), self.folded(folded))

    def folded(self, names: Sequence[str]) -> str:
        """The rules that are only named."""
        self.shown.extend(names)
        return " Folded: %s." % ", ".join("`%s`" % name for name in names) if names else ""

    def grammar(self, _: str) -> str:
        """The lines of the grammar that the table has for the heading."""
        lines = self.left.pop(self.heading, [])
        if not lines:
            raise Wrong("the table has no line of the grammar for %s" % self.heading)
        for line in lines:
            if line not in self.printed:
                raise Wrong("tools/grammar.md has no line %s" % line)
        return "\n".join("`%s`\n" % line for line in lines)

    def rules(self, rest: str) -> str:
        """Rules in full, or named."""
        name, _, wanted = rest.partition(":")
        line = "" if wanted else self.family(name)
        family = self.families[name]
        rules = [rule for rule in family.of_forms(wanted.split()) if not is_memory(rule)]
        full = [rule for rule in rules if not is_folded(rule, family)]
        self.shown.extend(rule.name for rule in full)
        told = "".join("%s\n\n" % each for each in (self.parts(full), self.named(full)) if each)
        folded = self.folded([rule.name for rule in rules if rule not in full]).strip()
        return "%s\n```text\n%s```\n\n%s%s\n" % (line, "\n".join(shown(rule) for rule in full), told, folded)

    def parts(self, rules: Sequence[Rule]) -> str:
        """Links to the families that rules name."""
        named = {words(premise)[0] for rule in rules for premise in rule.premises}
        own = {words(rule.conclusion)[0] for rule in rules}
        links = ["[%s](#%s)" % (name, self.anchors[name]) if self.anchors[name] != self.here else "%s (below)" % name
                 for name in self.families if name in named - own]
        return "Parts: %s." % ", ".join(links) if links else ""

    def named(self, rules: Sequence[Rule]) -> str:
        """The words of what rules name."""
        text = " ".join(part for rule in rules for part in [*rule.premises, rule.conclusion])
        found = []
        for name in dict.fromkeys(DEFINITION.findall(text)):
            told = self.said[name][1] or self.more.get(name, "") if name in self.said and name[0].islower() else ""
            if told:
                found.append("`%s`: %s" % (name, lowered(told).rstrip(".")))
        return "Words: %s." % "; ".join(found) if found else ""

    def row(self, rest: str) -> str:
        """The row that shows a form."""
        name, _, text = rest.partition(" | ")
        path = os.path.join(TOP, "crates", "rows", "data", name + ".row")
        if not os.path.exists(path):
            raise Wrong("there is no row %s" % name)
        if text not in text_of(path):
            raise Wrong("the row %s hasn't the text %s" % (name, text))
        return "\nRow: [%s](../crates/rows/data/%s.row)%s" % (name, name, ", `%s`" % text if text else "")

    def see_that_all_is_told(self) -> None:
        """Sees that each rule is told once, and each letter and definition that is shown has words."""
        every = [rule for family in self.families.values() for rule in family.rules]
        for rule in every:
            if self.shown.count(rule.name) != 1:
                raise Wrong("the rule %s is told %d times" % (rule.name, self.shown.count(rule.name)))
        if self.left:
            raise Wrong("no heading has the lines of the grammar for %s" % ", ".join(self.left))
        text = " ".join(part for rule in every for part in [*rule.premises, rule.conclusion])
        missing = {letters(variable) for variable in variables(text)} - set(self.legend)
        if missing:
            raise Wrong("the legend lacks %s" % ", ".join(sorted(missing)))
        wordless = {name for name in DEFINITION.findall(text) if name in self.said and not self.said[name][1]}
        if wordless != set(self.more):
            raise Wrong("words are wanted of %s" % ", ".join(sorted(wordless ^ set(self.more))))


def lowered(told: str) -> str:
    """Words that follow others: their first letter is small, unless it is a word of its own."""
    return told[:1].lower() + told[1:] if re.match(r"[A-Z]?[a-z ]", told) else told


def lost_links(page: str) -> List[str]:
    """The links of LANGUAGE.md into the page that lead nowhere."""
    anchors = {anchor(heading) for _, heading in HEADING.findall(page)}
    return [link for link in re.findall(r"\(MEANING\.md#([^)]*)\)", text_of(LANGUAGE)) if link not in anchors]


def main(arguments: List[str]) -> int:
    """Writes the page, or with --check sees that it is fresh, and gives the status."""
    try:
        page = Manual(read("manual.md"), table()).page()
        lost = lost_links(page)
        if lost:
            raise Wrong("docs/LANGUAGE.md leads to what the page hasn't: " + ", ".join(lost))
    except Wrong as wrong:
        print("tools/meaning/manual.md: %s" % wrong, file=sys.stderr)
        return 1
    if "--check" not in arguments:
        with open(PAGE, "w", encoding="utf-8") as file:
            file.write(page)
        return 0
    if not os.path.exists(PAGE) or text_of(PAGE) != page:
        print("docs/MEANING.md is stale: run tools/meaning/manual.py", file=sys.stderr)
        return 1
    return 0


if __name__ == "__main__":
    sys.exit(main(sys.argv[1:]))
