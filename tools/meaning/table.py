"""What is written from the table of the rules of the language, meaning.rules, whose head says how it is written.

The letters of a variable tell its type (TYPES); digits may follow.
"""

import os
import re
import sys

from lines import fitted
from rules import BadTable, Reader, words  # noqa: F401

HERE = os.path.dirname(os.path.abspath(__file__))
CRATES = os.path.join(HERE, "..", "..", "crates")

TYPES = {
    "w": "History", "r": "RunState", "f": "Frame",
    "d": "ℕ", "i": "ℕ", "k": "ℕ", "is": "List ℕ",
    "e": "tree.Expr", "x": "tree.Expr", "y": "tree.Expr", "es": "tree.Exprs", "hd": "tree.Chunk", "ct": "tree.Container",
    "wh": "tree.Which", "sl": "tree.Selector", "ow": "tree.Owner", "pa": "tree.Part", "rf": "tree.Ref",
    "s": "stm.Stmt", "ss": "stm.Stmts", "de": "stm.Destination",
    "n": "List ℕ", "v": "List ℕ", "p": "List ℕ", "q": "List ℕ", "t": "List ℕ", "vs": "List (List ℕ)",
    "o": "Result (List ℕ) Stop", "os": "Result (List (List ℕ)) Stop", "ob": "Result Bool Stop", "ou": "Result ℤ Stop",
    "oc": "Result Chunk Stop", "opl": "Result PlaceView Stop", "opi": "Result Pick Stop", "osk": "Result Sought Stop",
    "osc": "Result PartScope Stop", "om": "Result Referent Stop", "oi": "Result ℕ Stop", "oh": "Result How Stop",
    "oco": "Result CounterState Stop", "odn": "Result Conversed Stop", "oin": "Result Input Stop",
    "ot": "Result (Unit {0}) Stop",
    "z": "Stop", "fa": "Fault", "b": "Bool", "u": "ℤ", "op": "Op", "un": "UnOp", "cn": "Constant", "fw": "FunctionWord",
    "fu": "Func", "pr": "Prop", "rp": "RunProp", "od": "Ordinal", "kd": "ChunkKind", "wr": "Where", "pk": "PartKind",
    "ly": "Layer", "oly": "Option Layer", "c": "Chunk", "pl": "PlaceView", "pi": "Pick", "sk": "Sought", "sc": "PartScope",
    "m": "Referent", "h": "How", "co": "CounterState", "on": "Option (List ℕ)", "cl": "HandlerKind", "fd": "HandlerFound",
    "it": "Item", "la": "LayerId", "dn": "Conversed", "inp": "Input", "ask": "Ask", "mg": "SystemMessage", "ms": "List SystemMessage",
    "ac": "Action",
}
VARIABLE = re.compile(r"(?<![.\w])([a-z]+)(\d*)(?![\w(])")
FORM = re.compile(r"\w+ ≡ (?:(?:tree|stm)\.)?([A-Za-z_]+)(?: \((?:tree|stm)\.(\w+)| (?:tree|stm)\.(\w+))?")
USE = re.compile(r"use (\S+?)(?:\.\{(.*)\}| as \w+)$")
# The first line of what is written; tools/definitions leaves it out.
WRITTEN = "-- Written by tools/meaning/%s from tools/meaning/%s.\n"


def read(name):
    with open(os.path.join(HERE, name), encoding="utf-8") as file:
        return file.read()


def letters(variable):
    return re.match(r"[a-z]+", variable).group(0)


def variables(text):
    """The variables of a premise or a conclusion; the fields of a record are none."""
    found = VARIABLE.finditer(text)
    return [m.group(0) for m in found if m.group(1) in TYPES and not text[m.end():].startswith(" = ")]


def table():
    """The table, with its rules written out."""
    try:
        return Reader(TYPES, variables).read(read("meaning.rules"))
    except BadTable as wrong:
        sys.exit(str(wrong))


def families():
    """The families of the table, each with its rules."""
    return [dict(family._asdict(), section=family.section or None) for family in table().families]


def forms(family):
    """The rules of each form, the first premise tells it, and those that have no form."""
    found, rest = {}, []
    for name, premises, _ in family["rules"]:
        match = FORM.match(premises[0]) if premises else None
        if match:
            found.setdefault("_".join(part.strip("_") for part in match.groups() if part), []).append(name)
        else:
            rest.append(name)
    return found, rest


def binders(parts):
    """The variables of a rule with their types, those of one type together."""
    groups = {}
    for part in parts:
        for variable in variables(part):
            group = groups.setdefault(TYPES[letters(variable)], [])
            if variable not in group:
                group.append(variable)
    return " ".join("{%s : %s}" % (" ".join(names), of_type) for of_type, names in groups.items())


def snake(name):
    return re.sub(r"(?<!^)([A-Z])", r"_\1", name).lower()


def imports(uses, text, more=()):
    """The lines that import what a text names, of these uses, of those that the rules have, and of more."""
    lines = uses.splitlines() + [line for line in read("meaning.head").splitlines() if line.startswith("use ")] + list(more)
    # A field of a record is no name that is imported.
    used = set(re.findall(r"(?<![\w.])\w+|[^\s\w(){}]+", re.sub(r"^  pub \w+ :", "", text, flags=re.M)))
    modules, taken = {}, set()
    for line in lines:
        module, names = USE.match(line).groups()
        named = {name.split()[-1].strip("◌"): name for name in names.split(", ")} if names else {}
        found = [name for short, name in named.items() if short in used - taken]
        taken.update(named)
        if found:
            modules.setdefault(module, []).extend(found)
        elif not named and line.split()[-1] + "." in text:
            modules[line[4:]] = None
    return "".join("use %s\n" % (module if names is None else "%s.{%s}" % (module, ", ".join(names))) for module, names in modules.items())


def write(crate, texts, writer, sources="meaning.rules", fits=fitted):
    """Writes the files of a crate, each with a first line that says by what and from what, or with --check sees that they
    are so, and ends with 1 where one isn't. Lines that are too long are broken, or whatever `fits` does.
    """
    is_check, is_stale = "--check" in sys.argv[1:], False
    for path, text in texts.items():
        path, text = os.path.join(CRATES, crate, path), fits(WRITTEN % (writer, sources) + text)
        if is_check:
            with open(path, encoding="utf-8") as file:
                is_stale |= file.read() != text
        else:
            with open(path, "w", encoding="utf-8") as file:
                file.write(text)
    if is_stale:
        sys.exit("%s isn't what tools/meaning/%s writes" % (crate, writer))
