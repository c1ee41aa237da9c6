#!/usr/bin/env python3
"""Writes the rules of the language, specs/Meaning.antt of the crate meaning, from the table meaning.rules, and the
rulesets for proofs, proofs/Rules.antt, of which only those stand there that a file of the crates names. With --check it
writes nothing, and ends with 1 where a file isn't what it would write.
"""

import glob
import os
import re
import sys
from typing import Any, Dict, Iterator, List, Sequence, Set

sys.dont_write_bytecode = True

from derivations import MEANING
from lines import MOST
from table import CRATES, TYPES, binders, families, forms, imports, letters, read, write

Family = Dict[str, Any]

# How a ruleset is named: Rules::NAME in a program, Rules.{NAMES} in the import of a proof.
NAMED = re.compile(r"\bRules(?:::|\.)(\w+|\{[^}]*\})")
HEAD = "-- The rules of the meaning, for `search`: the sets that a file of the crates names.\n"


def meaning(table: Sequence[Family]) -> str:
    """The file of rules."""
    text = read("meaning.head").rstrip() + "\n\nmutual\n"
    for family in table:
        if family["section"]:
            text += "  -- ---- %s\n\n" % family["section"]
        types = " → ".join("(%s)" % t if "→" in t else t for t in (TYPES[letters(i)] for i in family["indices"]))
        text += "  -- %s\n  pub data %s : %s → Type 0 where\n" % (family["words"], family["name"], types)
        for name, premises, conclusion in family["rules"]:
            parts = premises + [conclusion]
            text += "    %s : %s →\n        %s\n" % (name, binders(parts), " →\n        ".join(parts))
        text += "\n"
    return text.rstrip() + "\n"


def named_in(text: str) -> Set[str]:
    """The rulesets that a text names."""
    return {name for names in NAMED.findall(text) for name in re.findall(r"\w+", names)}


def named() -> Set[str]:
    """The rulesets that a file of the crates names."""
    found: Set[str] = set()
    for part in ("src/**/*.rt", "proofs/**/*.antt", "must-fail/*.edit"):
        for path in glob.glob(os.path.join(CRATES, "*", part), recursive=True):
            with open(path, encoding="utf-8") as file:
                found |= named_in(file.read())
    return found


def ruleset(family: str, form: str, rules: Sequence[str]) -> str:
    """A ruleset of rules of a family, in one line where that isn't too long."""
    head, names = "pub ruleset %s_%srules = (" % (family.lower(), form), ["%s.%s" % (family, rule) for rule in rules]
    line = head + ", ".join(names) + ")"
    return line if len(line) <= MOST else "%s\n%s)" % (head, "".join("  %s,\n" % name for name in names))


def all_rulesets(table: Sequence[Family]) -> Iterator[str]:
    """The rulesets that there can be: those of rules.leaves, one for each family, and one for each form of a large
    family, with the rules that have no form.
    """
    yield from read("rules.leaves").strip().split("\n\n")
    for family in table:
        name = family["name"]
        yield ruleset(name, "", [rule[0] for rule in family["rules"]])
        found, rest = forms(family)
        if len(found) > 3:
            for form, rules in found.items():
                yield ruleset(name, form.lower() + "_", rest + rules)


def rulesets(table: Sequence[Family], names: Set[str]) -> str:
    """The file of those rulesets that have one of these names."""
    text = "".join("\n%s\n" % each for each in all_rulesets(table) if each.split()[2] in names)
    return HEAD + imports("", text, [MEANING]) + text


def main() -> None:
    table: List[Family] = families()
    write("meaning", {"specs/Meaning.antt": meaning(table)}, "gen.py", "meaning.rules and meaning.head")
    write("meaning", {"proofs/Rules.antt": rulesets(table, named())}, "gen.py", "meaning.rules and rules.leaves")
    print("%d families, %d rules" % (len(table), sum(len(family["rules"]) for family in table)))


if __name__ == "__main__":
    main()
