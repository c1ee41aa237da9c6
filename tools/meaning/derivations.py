"""The families of rules of the table meaning.rules, and how the parts of a rule end."""

from itertools import groupby

from table import TYPES, families, letters, snake, words

# The changes and turns of a rule: their name in functions, and which word says how they end, where they may fail.
LEAVES = {
    "Made": ("made", None), "TookTurn": ("turn", None), "Stores": ("stores", None), "Assigns": ("assigns", None),
    "DeclaresAll": ("declares_all", None), "Edits": ("edits", 6), "Sets": ("sets", 5), "Adds": ("adds", 3),
}

TABLE = families()
FAMILIES = {family["name"]: family for family in TABLE}
MEANING = "use Rattle.meaning.specs.Meaning.{%s}" % ", ".join(FAMILIES)
BLOCKS = [list(block) for _, block in groupby(TABLE, lambda family: family["block"])]


def label(name):
    return LEAVES[name][0] if name in LEAVES else snake(name)


def end_at(family):
    """Which of a family's indices says how a derivation ends."""
    return next(at for at, index in enumerate(family["indices"]) if TYPES[letters(index)].startswith("Result"))


def end_of(part):
    """How a part ends, with its type; None where it always goes well."""
    head, *rest = words(part)
    if head in FAMILIES:
        at = end_at(FAMILIES[head])
        return rest[at], TYPES[letters(FAMILIES[head]["indices"][at])]
    at = LEAVES[head][1]
    return at and (rest[at - 1], TYPES["ot"])


def memory_of(part, whole):
    """Why a part had memory, where the whole has it."""
    (end, of_type), (whole_end, whole_type) = end_of(part), end_of(whole)
    if end.startswith("(Ok"):
        return "given"
    if end == whole_end:
        return "has" if of_type == whole_type else "(stopped has)"
    return "faulted" if end.startswith("(Err (Faults") else "exited"


def indices_of(family):
    """The variables of a family; the second of a letter has a 2."""
    found = []
    for index in family["indices"]:
        found.append(index + "2" if index in found else index)
    return found


def split(family):
    """The variables that a family starts with, the end, and those that it leaves."""
    found, at = indices_of(family), end_at(family)
    return found[:at], found[at], found[at + 1:]
