#!/usr/bin/env python3
"""Writes what runs replace, specs/Replaced.antt of the crate preservation, and the proofs of its laws, each an induction over
the rules of the table meaning.rules: proofs/Bases.antt, proofs/Rises.antt, proofs/Runs.antt and proofs/Wholes.antt. With
--check it writes nothing, and ends with 1 where a file isn't what it would write.

A law gives each family of rules a function over derivations, and each rule a clause, which puts together what the law
says of the rule's parts: of its derivations, and of what else it makes (LEAVES, and Runs.LEAVES).
"""

import re
import sys

sys.dont_write_bytecode = True

from derivations import BLOCKS, FAMILIES, LEAVES, MEANING, TABLE, end_at, end_of, indices_of, label, memory_of
from table import binders, imports, snake, words, write


class Law:
    """What is said of each derivation, and how that of a rule follows from that of its parts."""

    is_proof = True

    def call(self, premise, place, whole, premises):
        """What the law says of a premise, the variable of which is given, or None."""
        head = words(premise)[0]
        if head not in FAMILIES and head not in LEAVES:
            return None
        memory = [memory_of(premise, whole)] if self.is_proof and end_of(premise) else []
        return " ".join(["%s_%s" % (self.prefix, label(head)), *self.before(premise, premises), place, *memory])

    def before(self, premise, premises):
        """What a lemma on a premise is given before it."""
        return []

    def named(self, premises):
        """The variables of a rule that its clause names."""
        return []

    def joined(self, part, rest):
        return self.join.format(part=part, rest=rest)

    def whole(self, parts):
        """What is said of a rule, by what is said of its parts."""
        if not parts:
            return self.nothing
        found = parts[-1]
        for part in reversed(parts[:-1]):
            found = self.joined(part, found)
        return found

    def clause(self, family, rule):
        name, premises, conclusion = rule
        calls = [self.call(premise, "p%d" % at, conclusion, premises) for at, premise in enumerate(premises, 1)]
        used = set(re.findall(r"\bp\d+\b", " ".join(call for call in calls if call)))
        places = ["p%d" % at if "p%d" % at in used else "_" for at in range(1, len(premises) + 1)]
        order = re.findall(r"\w+", binders([*premises, conclusion]))
        named = ["{%s = %s}" % (variable, variable) for variable in sorted(self.named(premises), key=order.index)]
        pattern = " ".join(["%s.%s" % (family["name"], name), *named, *places])
        is_memory = self.is_proof and end_of(conclusion)[0] == "(Err Memory)"
        body = "absurd (has refl)" if is_memory else self.whole([call for call in calls if call])
        return "%s%s = %s" % ("(%s)" % pattern if " " in pattern else pattern, " has" if self.is_proof else "", body)

    def function(self, family):
        indices, name = indices_of(family), snake(family["name"])
        says = self.says.format(
            binders=binders([" ".join(indices)]), derivation=" ".join([family["name"], *indices]),
            end=indices[end_at(family)], name=name)
        lines = [": " + says] + [self.clause(family, rule) for rule in family["rules"]]
        return "".join("  %s%s_%s %s\n" % ("pub " if at == 0 else "", self.prefix, name, line) for at, line in enumerate(lines))

    def file(self):
        head = "mutual" if self.is_proof else "abbrev mutual"
        blocks = ["\n".join(map(self.function, block)) for block in BLOCKS]
        return self.title + imports(self.uses, "\n".join(blocks), [MEANING]) + "".join("\n%s\n%s" % (head, block) for block in blocks)


class Replaced(Law):
    prefix, path, is_proof = "replaced", "specs/Replaced.antt", False
    title = "-- What a run replaces, in order: its derivation says it.\npub use Rattle.preservation.specs.Rising.{RisesBy}\n"
    uses = """use Rattle.std.specs.Prelude.{List, [], ◌++◌}
use Rattle.journal_entries.specs.Replaced.{Replacement}
use Rattle.preservation.specs.Changes.{replaced_made, replaced_turn, replaced_edits, replaced_stores, replaced_assigns, replaced_declares_all, replaced_sets, replaced_adds}"""
    says = "{binders} → {derivation} → List Replacement"
    nothing = "[]"

    def joined(self, part, rest):
        return "%s ++ %s" % (part, "(%s)" % rest if "++" in rest else rest)


class Bases(Law):
    prefix, path = "base", "proofs/Bases.antt"
    title = "-- The history round the open batch is kept.\n"
    uses = """use Rattle.std.proofs.Common.{◌≡◌, refl, ◌∙◌}
use Rattle.containers.specs.Base.{base}
use Rattle.containers.proofs.Bases.{made_keeps as base_made, took_keeps as base_turn}
use Rattle.preservation.specs.Laws.{HasMemory}
use Rattle.preservation.proofs.Ends.{given, stopped, faulted, exited}
use Rattle.preservation.proofs.Kept.{base_edits, base_stores, base_assigns, base_declares_all, base_sets, base_adds}"""
    says = "{binders} → {derivation} → HasMemory {end} → base w2 ≡ base w"
    nothing, join = "refl", "{rest} ∙ {part}"


class Rises(Law):
    prefix, path = "rises", "proofs/Rises.antt"
    title = "-- What is open rises by what is replaced.\n"
    uses = """use Rattle.std.proofs.Common.{refl}
use Rattle.preservation.specs.Laws.{HasMemory}
use Rattle.preservation.specs.Rising.{RisesBy}
use Rattle.preservation.specs.Replaced.{%s}
use Rattle.preservation.proofs.Ends.{given, stopped, faulted, exited}
use Rattle.preservation.proofs.Risen.{rises_nothing, rises_trans, rises_made, rises_turn, rises_edits, rises_stores, rises_assigns, rises_declares_all, rises_sets, rises_adds}""" % ", ".join("replaced_" + snake(name) for name in FAMILIES)
    says = "{binders} (v : {derivation}) → HasMemory {end} → RisesBy (replaced_{name} v) w.start w2.start"
    nothing, join = "rises_nothing", "rises_trans ({part}) ({rest})"


class Runs(Law):
    prefix, path = "goes", "proofs/Runs.antt"
    title = "-- A run goes on: no step comes back, and what is shown and sent only grows.\n"
    uses = """use Rattle.std.proofs.Common.{refl}
use Rattle.preservation.specs.Laws.{HasMemory, GoesOn}
use Rattle.preservation.proofs.Ends.{given, stopped, faulted, exited}
use Rattle.preservation.proofs.Going.{goes_nowhere, goes_trans, goes_by_step, goes_by_shows, goes_by_noted, goes_by_property, goes_by_ends, goes_by_returned}"""
    says = "{binders} → {derivation} → HasMemory {end} → GoesOn r r2"
    nothing, join = "goes_nowhere", "goes_trans ({part}) ({rest})"
    # What makes another run of one, beside derivations, and what it is made by.
    LEAVES = {
        "goes_by_step": r"Step ",
        "goes_by_shows": r"r\d* ≡ shows r\d* (\w+)$",
        "goes_by_noted": r"r\d* ≡ noted r\d* (\w+) (\w+)$",
        "goes_by_property": r"run_property_set r\d* (\w+) (\w+) ≡ Ok r\d*$",
        "goes_by_ends": r"ends (\w+) (\w+) r\d* ≡ Some ",
        "goes_by_returned": r"returned (\w+) ([\w.]+) r\d* ≡ ",
    }

    def leaf(self, premise):
        """The lemma on a premise and what it is made by, where it makes another run."""
        found = ((lemma, re.match(form, premise)) for lemma, form in self.LEAVES.items())
        return next(((lemma, match.groups()) for lemma, match in found if match), None)

    def call(self, premise, place, whole, premises):
        if words(premise)[0] in FAMILIES:
            return super().call(premise, place, whole, premises)
        leaf = self.leaf(premise)
        return leaf and " ".join([leaf[0], *leaf[1], place])

    def named(self, premises):
        return [each.split(".")[0] for leaf in map(self.leaf, premises) if leaf for each in leaf[1]]


class Wholes(Law):
    prefix, path = "whole", "proofs/Wholes.antt"
    title = "-- Whole states lead to whole ones.\n"
    uses = """use Rattle.std.proofs.Common.{refl}
use Rattle.preservation.specs.Laws.{HasMemory}
use Rattle.preservation.specs.Whole.{KeepsWhole}
use Rattle.preservation.specs.Replaced.{%s}
use Rattle.preservation.proofs.Ends.{given, stopped, faulted, exited}
use Rattle.meaning.specs.Places.{it_name}
use Rattle.preservation.proofs.Placed.{placed_variable, placed, placed_at, placed_by_name, placed_part}
use Rattle.preservation.proofs.StaysWhole.{whole_nothing, whole_trans, may_go, whole_made, whole_turn, whole_edits, whole_stores, whole_assigns, whole_declares_all, whole_sets, whole_adds}""" % ", ".join("replaced_" + snake(name) for name in FAMILIES)
    says = "{binders} (v : {derivation}) → HasMemory {end} → KeepsWhole (replaced_{name} v) w w2"
    nothing, join = "whole_nothing", "whole_trans ({part}) ({rest})"
    # What tells of a place that a global there is named by a folded name, and of a change that it fits: a premise, or the
    # place itself; the variables that the term names are its groups. P is the premise, INNER is told of another place.
    PLACES = (
        (r"\(named (f\d*)\.variables (\w+)\)$", "(placed_variable {0}.variables {1})"),
        (r"Resolves .* \(Ok PLACE\) \S+ \S+$", "(placed P)"),
        (r"field_place (w\d*)\.now (m\d*) ≡ Ok PLACE$", "(placed_at {0}.now {1} P)"),
        (r"Yields \(field_named_place (w\d*)\.now (f\d*)\.variables (b\d*) (n\d*)\) \(Ok PLACE\)$",
         "(placed_by_name {0}.now {1}.variables {2} {3} P)"),
        (r"PLACE ≡ chunk_of_place (pl\d*) (c\d*)$", "(placed_part {0} {1} P INNER)"),
    )
    CHANGES = {
        "(Current i)": ((r"has_kind is_card (w\d*)\.now\.stack i ≡ true$", "P"),),
        "DeleteCard": ((r"may_delete (w\d*)\.now\.stack \S+ ≡ true$", "(may_go {0}.now P)"),),
    }

    def told(self, place, forms, premises):
        """The term that tells this of a place or a change, and the variables that it names."""
        for at, each in enumerate([place, *premises]):
            for form, term in forms:
                match = re.match(form.replace("PLACE", re.escape(place)), each)
                if not match:
                    continue
                term, named = term.replace("P", "p%d" % at), match.groups() if "{0}" in term else ()
                inner, more = self.told(match.group(1), forms, premises) if "INNER" in term else ("", ())
                return term.replace("INNER", inner).format(*match.groups()), (*named, *more)
        sys.exit("nothing tells of %s in %s" % (place, " ; ".join(premises)))

    def evidence(self, premise, premises):
        """What is told of an edit or a change before it, and the variables that this names."""
        head, *rest = words(premise)
        if head in ("Edits", "Stores"):
            place = rest[3] if head == "Edits" else re.sub(r"\.storage$", "", rest[2])
            return self.told(place, self.PLACES, premises)
        return self.told(rest[2], self.CHANGES[rest[2]], premises) if head == "Made" else None

    def before(self, premise, premises):
        found = self.evidence(premise, premises)
        return [found[0]] if found else []

    def named(self, premises):
        found = [each for each in (self.evidence(premise, premises) for premise in premises) if each]
        return [name for name in dict.fromkeys(name for _, names in found for name in names) if name.isalnum()]


def main():
    laws = [Replaced(), Bases(), Rises(), Runs(), Wholes()]
    write("preservation", {law.path: law.file() for law in laws}, "laws.py")
    print("%d laws over %d families" % (len(laws), len(TABLE)))


main()
