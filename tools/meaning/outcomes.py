#!/usr/bin/env python3
"""Writes the meanings of the families of rules with fuel, specs/Families.antt and specs/Meanings.antt of the crate
definitional_interpreter, and the proof that they are what the rules allow, proofs/Outcomes.antt: an induction over the rules of the
table meaning.rules. With --check it writes nothing, and ends with 1 where a file isn't what it would write.
"""

import re
import sys

sys.dont_write_bytecode = True

from derivations import BLOCKS, FAMILIES, MEANING, TABLE, split
from table import TYPES, binders, imports, letters, snake, words, write

FILES = {
    "Expressions": "Val Vals NumberVal TruthVal TextVal ChunkOf Resolves Picks Seeks Owns PartMet Meets Leads",
    "Statements": "Form Alters Block DoText Endless While Bounds Counts",
    "Messages": "Calls SendsText Sends Along Outside BuiltInGives System Systems Goes Menu Converses Talks CallsBack",
    "Commands": "Line Message Refers Tells TellsAll Clicks TypesOver TypesInto Acts",
}


def computed_type(family):
    starts, end, left = split(family)
    kinds = ["Visible" if index == "w" else TYPES[letters(index)] for index in starts]
    of = TYPES[letters(end)][len("Result "):-len(" Stop")]
    return " → ".join(kinds + ["%s %s" % ("ToldIn" if len(left) == 3 else "Told", of)])


def families_file():
    text = "pub record Meanings : Type 0 where\n"
    text += "".join("  pub %s : %s\n" % (snake(family["name"]), computed_type(family)) for family in TABLE)
    uses = "use Rattle.definitional_interpreter.specs.Told.{Visible, Told, ToldIn}"
    return "-- What each family of rules comes to, computed: from a state, a run, a frame and a tree.\n" + imports(uses, text) + "\n" + text


def made(fields):
    """A record of the meanings, a line each."""
    return "record {\n%s}" % "".join("  %s = %s;\n" % field for field in fields)


def unknown(family):
    """What a family comes to where there is no fuel."""
    starts, _, left = split(family)
    return "λ %s. %s" % (" ".join("_" for _ in starts), "unknown_in" if len(left) == 3 else "unknown")


def meanings_file():
    names = [snake(family["name"]) for family in TABLE]
    nothing = made([(name, unknown(family)) for name, family in zip(names, TABLE)])
    step = made([(name, name + "_of m") for name in names])
    text = "-- without fuel nothing is known\nabbrev pub nothing : Meanings\nnothing = %s\n" % nothing
    text += "\n-- each part from the meanings of its parts\nabbrev pub one_more : Meanings → Meanings\none_more m = %s\n" % step
    text += "\n-- the meanings that so many nested parts can tell\nunfoldable pub meanings : ℕ → Meanings\nmeanings zero = nothing\nmeanings (suc parts) = one_more (meanings parts)\n"
    uses = "use Rattle.std.specs.Prelude.{ℕ, zero, suc}\nuse Rattle.definitional_interpreter.specs.Told.{unknown, unknown_in}\nuse Rattle.definitional_interpreter.specs.Families.{Meanings}\n"
    for name, families in FILES.items():
        computed = ", ".join(snake(family) + "_of" for family in families.split())
        uses += "use Rattle.definitional_interpreter.specs.%s.{%s}\n" % (name, computed)
    return "-- The meaning of HyperTalk as a function with fuel.\n" + uses + "\n" + text


def bracketed(term):
    return "(%s)" % term if " " in term and not term.startswith(("(", "[")) else term


# The leaves: the lemma, what is computed, with the end, and the history after it; `run` is the run at that moment.
def leaf(premise, run, w):
    head, *rest = words(premise)
    told = lambda code, end, w1=w, r1=None: ("told", code, end, w1, r1 or run)
    if head == "Yields":
        return "yields", told("told (yielded %s) (sight g %s) %s" % (rest[0], w, run), rest[1])
    if head == "Parses":
        read = {"ReadsExpr": "expression", "ReadsLines": "typed_lines", "ReadsMessage": "sent_message"}[rest[0]]
        return "parses_" + read, told("told (parsed %s %s) (sight g %s) %s" % (read, rest[1], w, run), rest[2])
    if head == "Step":
        return "steps", told("step (sight g %s) %s" % (w, rest[0]), rest[1], w, rest[2])
    if head == "Finds":
        return "finds", told("told (first_found %s) (sight g %s) %s" % (" ".join(rest[:4]), w, run), rest[4])
    if head == "Made":
        return "makes {r = %s}" % run, told("make (sight g %s) %s %s" % (rest[0], run, rest[2]), "(Ok tt)", rest[1])
    if head == "TookTurn":
        return "takes_turn", told("turn (sight g %s) %s %s %s" % (rest[0], run, rest[2], rest[3]), "(Ok %s)" % rest[4], rest[1])
    if head == "Sets":
        return "sets", told("set_property (sight g %s) %s %s" % (rest[0], run, " ".join(rest[1:4])), rest[4], rest[5])
    if head == "Adds":
        return "adds", told("add_objects (sight g %s) %s %s" % (rest[0], run, rest[1]), rest[2], rest[3])
    if head == "Edits":
        return "edits", ("told_in", "edit (sight g %s) %s %s %s %s" % (rest[0], run, rest[1], rest[3], rest[4]), rest[5], rest[6], run, rest[7])
    if head == "Stores":
        return "stores", ("told_in", "store (sight g %s) %s %s %s %s" % (rest[0], run, *rest[1:4]), "(Ok tt)", rest[4], run, rest[5])
    if head == "Assigns":
        return "assigns", ("told_in", "assign (sight g %s) %s %s %s %s" % (rest[0], run, *rest[1:4]), "(Ok tt)", rest[4], run, rest[5])
    if head == "DeclaresAll":
        return "declares_all", ("told_in", "declare_all (sight g %s) %s %s %s" % (rest[0], run, rest[1], rest[2]), "(Ok tt)", rest[3], run, rest[4])
    return None


def family_part(premise):
    head, *rest = words(premise)
    starts, _, left = split(FAMILIES[head])
    given, end, after = rest[:len(starts)], rest[len(starts)], rest[len(starts) + 1:]
    code = "parts.%s %s" % (snake(head), " ".join("(sight g %s)" % t if at == 0 else t for at, t in enumerate(given)))
    return (snake(head) + "_comes", ("told_in" if len(left) == 3 else "told", code, end, after[0], after[1], *after[2:]))


def comes(w, part):
    kind, code, end, w1, r1, *f1 = part
    return "Comes g %s (λ parts. %s) (%s %s (sight g %s) %s%s) %s" % (w, code, kind, end, w1, r1, " " + f1[0] if f1 else "", w1)


def mentions(text, variable):
    return re.search(r"(?<![\w.])%s(?![\w(])" % variable, text)


def swap(variable, term, text):
    return re.sub(r"(?<![\w.])%s(?![\w(])" % variable, bracketed(term), text)


# The leaves that always go well.
SURE = ("makes", "takes_turn", "stores", "assigns", "declares_all")
DEFINES = re.compile(r"^([a-z]+\d*) ≡ (.*)$")
OPS = {("told", "told"): "after", ("told", "told_in"): "after_in", ("told_in", "told_in"): "after_run", ("told_in", "told"): "after_lines"}


def definitions(premises):
    """The variables that premises define: the term, and the premise that says so."""
    found = {}
    for at, premise in enumerate(premises, 1):
        match = DEFINES.match(premise)
        if match and match.group(2) not in ("true", "false") and not match.group(2).startswith("Some ("):
            found[match.group(1)] = (match.group(2), "p%d" % at)
    return found


def moved(variable, stated, way, proof):
    """The proof of what is stated, carried along an equation of a variable."""
    return "subst (λ (%s : %s). %s) %s %s" % (variable, TYPES[letters(variable)], stated, way, proof)


def condition(premise, place, defined):
    """A premise that is no part, of the variables that the premises define."""
    for variable, (_, equation) in defined.items():
        if mentions(premise, variable):
            place = "(%s)" % moved(variable, premise, equation, place)
    return ("case", premise, place)


def end_type(premise):
    head = words(premise)[0]
    return TYPES[letters(split(FAMILIES[head])[1])] if head in FAMILIES else None


def memory_of(premise, lemma, end, whole_end, whole_type):
    """Why a part had memory, where the whole has it."""
    if lemma.startswith(SURE):
        return ""
    if end.startswith("(Ok"):
        return " given"
    if end == whole_end:
        of_type, is_stop = end_type(premise), end.startswith("(Err")
        is_same = of_type == whole_type if of_type and is_stop else not is_stop
        return " has" if is_same else " (stopped has)"
    return " faulted" if end.startswith("(Err (Faults") else " exited"


def external_there(premise, lemma, family):
    """Why the external of a conversation or a turn is there."""
    if premise.startswith("Converses"):
        return " (named_there _ _ _ p1)"
    if premise.startswith("Talks") and family["name"] != "Converses":
        return " (there_after there p2 (calls_back_comes {g = g} p3 given).kept)"
    return " there" if premise.startswith("Talks") or lemma == "takes_turn" else ""


def part_of(premise, place, family, whole, whole_type, run, w, defined):
    """A premise that is a leaf or a derivation, and what it comes to."""
    lemma, part = leaf(premise, run, w) or family_part(premise)
    proof = "%s %s%s%s" % (lemma, place, memory_of(premise, lemma, part[2], whole[2], whole_type), external_there(premise, lemma, family))
    stated = comes(w, part)
    for variable, (term, equation) in defined.items():
        if mentions(stated, variable):
            proof = moved(variable, stated, equation, "(%s)" % proof)
            stated = swap(variable, term, stated)
    return ("part", premise, place, proof, part)


def steps_of(family, rule, whole, defined):
    """The premises of a rule in order, each with its proof."""
    _, premises, conclusion = rule
    w, run = words(conclusion)[1:3]
    for at, premise in enumerate(premises, 1):
        match, place = DEFINES.match(premise), "p%d" % at
        if match and match.group(1) in defined:
            continue
        if any(sign in premise for sign in (" ≡ ", " ≢ ", " < ", " ≤ ")):
            yield condition(premise, place, defined)
        else:
            step = part_of(premise, place, family, whole, end_type(conclusion), run, w, defined)
            yield step
            w, run = step[4][3:5]


def named(premises, conclusion, body):
    """The variables of a rule that the proof names, in the order of the rule."""
    texts = premises + [conclusion]
    found = {variable for text in texts for variable in re.findall(r"(?<![.\w])[a-z]+\d*(?![\w(])", text)
             if letters(variable) in TYPES and re.search(r"(?<![.\w])%s(?!\w)" % variable, body)}
    order = re.findall(r"\w+", " ".join(re.findall(r"\{([^:}]*) :", binders(texts))))
    return sorted(found, key=order.index)


def clause(family, rule):
    """The clause of a rule: what it allows is what the meanings come to."""
    name, premises, conclusion = rule
    _, whole = family_part(conclusion)
    has = " has there" if family["name"] in ("Converses", "Talks") else " has"
    if whole[2] == "(Err Memory)":
        return "%s.%s%s = absurd (has refl)" % (family["name"], name, has)
    defined = definitions(premises)
    body = "later (%s)" % chain(family, name, list(steps_of(family, rule, whole, defined)), whole)
    stated, ways = comes(words(conclusion)[1], whole), []
    for variable, (term, equation) in defined.items():
        if mentions(stated, variable):
            ways.append((variable, stated, "(sym %s)" % equation))
            stated = swap(variable, term, stated)
    for way in reversed(ways):
        body = moved(*way, "(%s)" % body)
    places = ["p%d" % at for at in range(1, len(premises) + 1)]
    pattern = " ".join(["%s.%s" % (family["name"], name), *("{%s = %s}" % (n, n) for n in named(premises, conclusion, body)), *places])
    return "%s(%s)%s = %s" % ("{g} " if re.search(r"\bg\b", body) else "", pattern, has, body)


# A condition on a number: the lemma, and what it takes.
BOUNDS = {"d ≡ 100": "choose_false _ _ (at_limit %s)", "d < 100": "choose_true _ _ (below %s)",
          "16 < length vs": "choose_true _ _ (below %s)", "length vs ≤ 16": "choose_false _ _ (at_least %s)"}
# A condition on a value: the lemma by what it is equal to.
CASES = {"true": "choose_true", "false": "choose_false", "None": "maybe_none", "Some": "maybe_some", "Ok": "computed_ok", "Err": "computed_err"}
# What these rules do with their one part.
WHOLES = {"there_is": "there_ok _ (%s)", "there_is_none": "there_none _ (%s)", "there_stops": "there_stop _ p3 (%s)"}


def under(premise, place, rest):
    """What follows from a condition and the rest."""
    if premise in BOUNDS:
        return "%s (%s)" % (BOUNDS[premise] % place, rest)
    if premise.startswith("returned "):
        return "gives_outcome %s" % place
    if " ≢ " in premise:
        return rest
    return "%s _ _ %s (%s)" % (CASES[premise.rsplit(" ≡ ", 1)[1].split()[0]], place, rest)


def statement(name, proof, rest):
    """What follows from a statement of a block and the rest."""
    if name == "block_stops":
        return "after_next_stop _ (%s)" % proof
    if name == "block_leaves":
        return "after_next_leaves _ p4 (%s)" % proof
    return "after_next_ok _ (%s) (%s)" % (proof, rest)


def joined(proof, part, whole, rest):
    """What follows from a part and the rest."""
    combined = OPS[part[0], whole[0]]
    holes = "_ _ " if combined == "after_in" else "_ "
    if part[2].startswith("(Ok"):
        return "%s_ok %s(%s) (%s)" % (combined, holes, proof, rest)
    return "%s_stop %s(%s)" % (combined, holes, proof) if part[2].startswith("(Err") else proof


def chain(family, name, steps, whole):
    """The proof of a rule by its premises, in order."""
    if not steps:
        return "done"
    (kind, premise, place, *proved), rest = steps[0], chain(family, name, steps[1:], whole)
    if kind == "case":
        return under(premise, place, rest)
    proof, part = proved
    for key in (name, family["name"]):
        if key in WHOLES:
            return WHOLES[key] % proof
    if family["name"] == "Block" and premise.startswith("Form"):
        return statement(name, proof, rest)
    found = joined(proof, part, whole, rest)
    if premise.startswith("CallsBack") and family["name"] == "Talks":
        return "talk_back (asks_back %s %s) (%s)" % (place, "given" if part[2].startswith("(Ok") else "(stopped has)", found)
    return found


def function(family):
    starts, end, left = split(family)
    whole = ("told_in" if len(left) == 3 else "told", "parts.%s %s" % (snake(family["name"]), " ".join("(sight g w)" if n == 0 else t for n, t in enumerate(starts))), end, left[0], left[1], *left[2:])
    extra = " → HasExternal w k" if family["name"] in ("Converses", "Talks") else ""
    says = "{g : Sight} %s → %s → HasMemory %s%s → %s" % (binders([" ".join(starts + [end] + left)]), " ".join([family["name"], *starts, end, *left]), end, extra, comes("w", whole))
    name = snake(family["name"]) + "_comes"
    return "".join("  %s%s\n" % (("pub " if n == 0 else "") + name + " ", line) for n, line in enumerate([": " + says] + [clause(family, rule) for rule in family["rules"]]))


def outcomes_file():
    blocks = ["\n".join(map(function, block)) for block in BLOCKS]
    text = "".join("\nmutual\n%s" % block for block in blocks)
    uses = """use Rattle.std.proofs.Common.{◌≡◌, refl, sym, subst}
use Rattle.ht_grammar.specs.Lines.{typed_lines}
use Rattle.ht_grammar.specs.Reading.{expression}
use Rattle.ht_grammar.specs.Whole.{sent_message}
use Rattle.preservation.specs.Laws.{HasMemory}
use Rattle.preservation.proofs.Ends.{given, stopped, faulted, exited}
use Rattle.definitional_interpreter.specs.Told.{told, told_in}
use Rattle.definitional_interpreter.specs.Changes.{yielded, step, make, edit, store, assign, declare_all, set_property, add_objects, turn}
use Rattle.definitional_interpreter.specs.Texts.{parsed, first_found}
use Rattle.definitional_interpreter.proofs.Comes.{Sight, sight, Comes, HasExternal}
use Rattle.definitional_interpreter.proofs.Chain.{done, later, after_ok, after_stop, after_in_ok, after_in_stop, after_run_ok, after_run_stop, after_lines_ok, after_lines_stop, after_next_ok, after_next_stop, after_next_leaves, choose_true, choose_false, maybe_some, maybe_none, computed_ok, computed_err, below, at_least, at_limit, gives_outcome, there_ok, there_none, there_stop}
use Rattle.definitional_interpreter.proofs.Leaves.{yields, parses_expression, parses_typed_lines, parses_sent_message, steps, finds, makes, takes_turn, sets, adds, edits, stores, assigns, declares_all, named_there, there_after, asks_back, talk_back}
""" + MEANING
    return "-- What the rules allow is what the meanings come to.\n" + imports(uses, text) + text


def main():
    write("definitional_interpreter", {"specs/Families.antt": families_file(), "specs/Meanings.antt": meanings_file(), "proofs/Outcomes.antt": outcomes_file()}, "outcomes.py")
    print("one outcome over %d families" % len(TABLE))


main()
