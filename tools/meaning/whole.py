#!/usr/bin/env python3
"""Writes the proof that runs lead from whole states to whole states, proofs/Sound.antt of the crate whole_states, an
induction over the rules of the table meaning.rules. With --check it writes nothing, and ends with 1 where the file isn't
what it would write.

Each family has a function over derivations, and each rule a clause, which gathers evidence: that a history is whole, that
a run, a frame, a tree or a value has texts, that an external stands in a history. It begins with what its function is
given, each premise adds what it tells of the variables that it names (TOLD, EQUATIONS, COMPUTED), and its end takes what
it needs.
"""

import os
import re
import sys

sys.dont_write_bytecode = True

from derivations import BLOCKS, FAMILIES, MEANING, TABLE, end_of, indices_of, memory_of, split
from lines import MOST, broken
from table import CRATES, TYPES, binders, imports, letters, snake, variables, words, write

# What stands before the steps of a clause.
DEEPER = " " * 8

# What is given of a variable before a derivation, by its letters.
TREES = {
    "e": "ExprTexts", "x": "ExprTexts", "y": "ExprTexts", "es": "ExprsTexts", "hd": "ChunkTexts", "ct": "ContainerTexts",
    "wh": "WhichTexts", "sl": "SelectorTexts", "ow": "OwnerTexts", "pa": "PartTexts", "rf": "RefTexts", "s": "StmtTexts",
    "ss": "StmtsTexts", "de": "DestinationTexts", "ask": "AskTexts", "ac": "ActionTexts",
}
GIVEN = {**TREES, "t": "IsText", "vs": "AreTexts", "on": "IfSome {} IsText", "inp": "InputTexts", "f": "FrameTexts"}
# What is known of the value after it.
PLACE = "(λ p. StorageTexts p.storage)"
KNOWN = {
    "o": "IsText", "os": "AreTexts", "opl": PLACE, "oh": "HowTexts", "odn": "(λ dn. IsText dn.value)", "oin": "InputTexts",
}
# The families whose external has to stand in the history; and those after which it still does.
STANDING = ("Converses", "Talks")
KEEPING = ("CallsBack",)

# In what follows {0} is the first group of a form, the variables of which the clause names, [0] its evidence, [0 in 1] that
# an external stands in a history, <words> the premise that begins so, HERE the premise itself, HAS why it had memory.

# The evidence of a term.
TERMS = (
    (r"\[\]|None|Delete", "tt"),
    (r"it_name", "it_text"),
    (r"\(Some (\w+)\)", "[0]"),
    (r"\((?:Put|Alter) \w+ (\w+)\)", "[0]"),
    (r"\(named (\w+)\.variables (\w+)\)", "(named_texts {0}.variables {1} [1])"),
    (r"(\w+)\.storage", "[0]"),
    (r"\((\w+) \+\+ (\w+) ∷ \[\]\)", "(texts_push {0} {1} [0] [1])"),
    (r"\(lines_of (\w+)\.handler\)", "(lines_texts {0}.handler [0])"),
)
# What a premise tells, and of which of its groups.
TOLD = (
    (r"Step (\w+) .* (\w+)", "sound_step HERE [0]", "1"),
    (r"Made (\w+) (\w+) DeleteCard", "sound_made (may_go {0}.now <may_delete>) tt HERE [0]", "1"),
    (r"Made (\w+) (\w+) \(Current \w+\)", "sound_made <has_kind is_card> tt HERE [0]", "1"),
    (r"TookTurn (\w+) (\w+) (\w+) (\w+) (\w+)", "sound_turn [2 in 0] [3] HERE [0]", "1", "4"),
    (r"TookTurn (\w+) (\w+) (\w+) (\w+) (\w+)", "stands_after {0} {1} (base_turn HERE) [2 in 0]", "2 in 1"),
    (r"Edits (\w+) (\w+) (\w+)\.delimiter (\w+|\(.*?\)) (\w+|\(.*?\)) \(.*\) (\w+) (\w+)",
     "sound_edits cut [3] [4] [2].delimiter HERE HAS [0] [1]", "5", "6"),
    (r"Stores (\w+) (\w+) (\w+\.storage|\(.*?\)) (\w+) (\w+) (\w+)", "sound_stores [2] [3] HERE [0] [1]", "4", "5"),
    (r"Assigns (\w+) (\w+) (\w+) \(numeral (\w+)\.at\) (\w+) (\w+)",
     "sound_assigns [2] (numeral_text {3}.at) HERE [0] [1]", "4", "5"),
    (r"DeclaresAll (\w+) (\w+) (\w+) (\w+) (\w+)", "sound_declares_all [2] HERE [0] [1]", "3", "4"),
    (r"Sets (\w+) \w+ \w+ (\w+) \(.*\) (\w+)", "sound_sets [1] HERE HAS [0]", "2"),
    (r"Adds (\w+) .* (\w+)", "sound_adds tt HERE HAS [0]", "1"),
    (r"Parses ReadsExpr (\w+) \(Ok (.+)\)", "sound_parses {P = ExprTexts} expressions_have_texts HERE [0]", "1"),
    (r"Parses ReadsLines (\w+) \(Ok (.+)\)", "sound_parses {P = StmtsTexts} lines_have_texts HERE [0]", "1"),
    (r"Parses ReadsMessage (\w+) \(Ok (.+)\)", "sound_parses {P = MessageTexts} messages_have_texts HERE [0]", "1"),
    (r"Finds (\w+)\.now\.stack .* \(Ok \(Some (\w+)\)\)", "sound_finds HERE [0].history.now.state.stack", "1"),
    (r"(f\d*) ≡ handler_frame (\w+)\.object (\w+) \(parameters_of \w+\.handler\) (\w+)",
     "sound_handler_frame {1}.object {2} (parameters_of {1}.handler) {3} HERE [3]", "0"),
    (r"(f\d*) ≡ typed_frame \w+", "same_frame HERE tt", "0"),
    (r"(r\d*) ≡ shows (\w+) (\w+)", "sound_shows {2} HERE [1]", "0"),
    (r"(r\d*) ≡ noted (\w+) (\w+) (\w+)", "sound_noted {2} {3} HERE [1]", "0"),
    (r"run_property_set (\w+) (\w+) (\w+) ≡ Ok (\w+)", "sound_property {1} {2} HERE [2] [0]", "3"),
    (r"ends (\w+) (\w+) (\w+) ≡ Some .*value = (\w+).*run = (\w+).*", "sound_ends {0} {1} HERE [1] [2]", "3", "4"),
    (r"returned (\w+) (\w+)\.value (\w+) ≡ .*value = (\w+).*run = (\w+).*",
     "sound_returned {0} {1}.value HERE [1] [2]", "3", "4"),
    (r"leaves_repeat (\w+) ≡ Some (\w+)", "sound_leaves {0} HERE [0]", "1"),
    (r"only (\w+) ≡ Some (\w+)", "sound_only {0} HERE [0]", "1"),
    (r"external_named (\w+)\.now\.externals (\(.*\)) (\w+) ≡ Some (\w+)", "named_stands {0} {1} {2} HERE", "3 in 0"),
    (r"field_place (\w+)\.now (\w+) ≡ Ok (\w+)",
     "subst (λ o. IfOk o %s) HERE (field_place_texts {0}.now {1})" % PLACE, "2"),
)
# What a variable is equal to, by its letters.
EQUATIONS = {
    "v": ("IsText", (
        (r"constant_text (\w+)", "(constant_is {0})"),
        (r"13 ∷ \[\]", "return_text"),
        (r"read_name (\w+)\.now (\w+)\.variables (\w+)",
         "(read_name_text {0}.now {1}.variables {2} [0].history.now.state [1] [2])"),
        (r"word_of (.+)", "(word_text {0})"),
        (r"read (\w+)\.delimiter (\w+) (\w+)", "(read_text {0}.delimiter {1} {2} [2])"),
        (r"(\w+)\.result", "[0].result"),
        (r"numeral (.+)", "(numeral_text {0})"),
        (r"run_property (\w+) (\w+)", "(property_read {0} {1} [0])"),
    )),
    "pl": ("(λ (x : PlaceView). StorageTexts x.storage)", (
        (r"variable_place (\w+)\.variables (\w+)", "(named_texts {0}.variables {1} [1])"),
        (r"chunk_of_place (\w+) \w+", "[0]"),
    )),
    "inp": ("InputTexts", (
        (r"Start (\w+)", "[0]"),
        (r"Answer (\w+) \[\]", "([0], no_bytes)"),
        (r"Answer (\w+) (\w+)", "([0], [1])"),
    )),
    "dn": ("(λ (x : Conversed). IsText x.value)", ((r".*value = (\w+).*", "[0]"),)),
}
# What is computed, may fail and is a text or a place.
COMPUTED = (
    (r"binary (\w+) (\w+) (\w+)", "IsText", "binary_text {0} {1} {2} [1] [2]"),
    (r"unary (\w+) (\w+)", "IsText", "unary_text {0} {1}"),
    (r"built_in (\w+) (.+)", "IsText", "built_in_text {0} {1}"),
    (r"field_text (\w+)\.now (\w+)\.variables (\w+)\.delimiter (\w+)", "IsText",
     "field_is_text {0}.now {1}.variables {2}.delimiter {3} [0].history.now.state [1]"),
    (r"name_of (\w+)\.now\.stack \S+ (\S+)", "IsText",
     "name_text {0}.now.stack {0}.now.current {1} [0].history.now.state.stack"),
    (r"property_of (\w+)\.now\.stack (\w+)\.card \S+ (\w+)", "IsText",
     "property_text {0}.now.stack {1}.card {1}.object {2} [0].history.now.state.stack"),
    (r"field_place (\w+)\.now (\w+)", PLACE, "field_place_texts {0}.now {1}"),
    (r"field_named_place (\w+)\.now (\w+)\.variables (\w+) (\w+)", PLACE,
     "named_place_texts {0}.now {1}.variables {2} {3}"),
)
# The ends that go well and have no text of their own.
ENDS = {
    "[]": "no_bytes", "(Returns [])": "no_bytes", "Next": "tt", "ExitRepeat": "tt", "NextRepeat": "tt", "Exit": "tt",
    "Pass": "tt",
}

TITLE = """-- Each run leads from whole states to whole states, where its lines are texts: an induction over the rules.
"""
USES = """use Rattle.std.specs.Prelude.{IfSome}
use Rattle.std.proofs.Common.{◌≡◌, ◌<◌, length, refl, sym, subst, IfOk, [], ◌++◌, ◌∷◌}
use Rattle.ht_values.specs.Text.{IsText}
use Rattle.chunks.specs.Laws.{PartsCut}
use Rattle.meaning.specs.Places.{it_name}
use Rattle.meaning.specs.Messages.{parameters_of, lines_of}
use Rattle.preservation.specs.Laws.{HasMemory}
use Rattle.preservation.proofs.Bases.{base_calls_back}
use Rattle.containers.proofs.Bases.{took_keeps as base_turn}
use Rattle.preservation.proofs.Ends.{given, stopped, faulted, exited}
use Rattle.preservation.proofs.StaysWhole.{may_go}
use Rattle.change_journal.specs.History.{History}
use Rattle.externals.specs.Turns.{AskTexts}
use Rattle.whole_states.specs.Texts.{AreTexts, RunTexts, FrameTexts, StorageTexts, HowTexts, InputTexts, ActionTexts, ExprTexts, ExprsTexts, ChunkTexts, ContainerTexts, WhichTexts, SelectorTexts, OwnerTexts, PartTexts, RefTexts, StmtTexts, StmtsTexts, DestinationTexts, MessageTexts}
use Rattle.whole_states.proofs.TreeTexts.{expressions_have_texts, lines_have_texts, messages_have_texts}
use Rattle.object_table.proofs.Empty.{no_bytes}
use Rattle.whole_states.proofs.ValueTexts.{word_text, constant_is, numeral_text, binary_text, unary_text, built_in_text, read_text}
use Rattle.whole_states.proofs.StateTexts.{named_texts, read_name_text, field_is_text, property_text, name_text}
use Rattle.whole_states.proofs.Leaves.{IsWhole, sound_made, sound_turn, stands_after, named_stands, same_frame, sound_edits, sound_stores, sound_assigns, sound_declares_all, sound_sets, sound_adds, sound_step, sound_shows, sound_noted, sound_property, property_read, sound_returned, sound_ends, sound_leaves, sound_yields, sound_parses, sound_finds, sound_handler_frame, sound_only, field_place_texts, named_place_texts, lines_texts, texts_push, it_text, return_text}"""


def shapes():
    """Which arguments of a constructor have texts, in the order of the evidence, as the specs of these crates say it."""
    found = {}
    for crate, name in (("whole_states", "Texts.antt"), ("externals", "Turns.antt")):
        with open(os.path.join(CRATES, crate, "specs", name), encoding="utf-8") as file:
            lines = re.findall(r"^ *\w+Texts \(?(\w+\.\w+|[A-Z]\w*)((?: \w+)*)\)? = (.*)$", file.read(), re.M)
        for constructor, args, says in lines:
            named = [part.split()[-1] for part in says.split(" × ")]
            found[constructor] = [args.split().index(each) for each in named if each in args.split()]
    return found


SHAPES = shapes()


def says(told, variable):
    return (told if "{}" in told else told + " {}").format(variable)


def is_standing(family, start):
    return family["name"] in STANDING and letters(start) == "k"


def givens(family):
    """The variables of which a derivation is given more than that its history is whole and its run has texts."""
    return [start for start in split(family)[0] if letters(start) in GIVEN or is_standing(family, start)]


def has_value(family):
    return letters(split(family)[1]) in KNOWN


class Clause:
    """A rule's clause: the evidence of terms, what comes before the end, and which premises and variables it names."""

    def __init__(self, family, rule):
        self.family, (self.name, self.premises, self.conclusion) = family, rule
        self.evidence, self.lets, self.used, self.named = {}, [], set(), set()
        self.arguments = ["whole", "run"] + ["given%d" % at for at, _ in enumerate(givens(family), 1)]
        of = dict(zip(split(family)[0], words(self.conclusion)[1:]))
        for start, argument in zip(["w", "r", *givens(family)], self.arguments):
            self.learn("%s in %s" % (of[start], of["w"]) if is_standing(family, start) else of[start], argument)

    def learn(self, term, evidence):
        """Keeps the evidence of a term, or of the parts of one that is built."""
        head, *parts = words(term[1:-1] if term.startswith("(") else term)
        places = SHAPES.get(head)
        if places is None:
            self.evidence[term] = evidence
            return
        for at, place in enumerate(places):
            self.learn(parts[place], evidence if len(places) == 1 else "%s.%d" % (evidence, at))

    def of(self, term):
        """The evidence of a term."""
        if term in self.evidence:
            return self.evidence[term]
        for form, lemma in TERMS:
            match = re.fullmatch(form, term)
            if match:
                return self.filled(lemma, match)
        return sys.exit("%s: nothing is known of %s" % (self.name, term))

    def place(self, at):
        self.used.add(at)
        return "p%d" % at

    def mention(self, term):
        self.named.update(variables(term))
        return term

    def filled(self, lemma, match, at=0):
        """A lemma on what a form matched, at a premise."""
        def begins(found):
            return self.place(next(n for n, premise in enumerate(self.premises, 1) if premise.startswith(found[1])))

        def stands(found):
            return self.of(re.sub(r"\d", lambda digit: match[int(digit[0]) + 1], found[1]))

        lemma = re.sub(r"\{(\d)\}", lambda found: self.mention(match[int(found[1]) + 1]), lemma)
        lemma = re.sub(r"\[(\d(?: in \d)?)\]", stands, lemma)
        lemma = re.sub(r"<(.+?)>", begins, lemma)
        if "HAS" in lemma:
            lemma = lemma.replace("HAS", memory_of(self.premises[at - 1], self.conclusion))
        return lemma.replace("HERE", self.place(at)) if "HERE" in lemma else lemma

    def after(self, at, targets, told):
        """Names what a premise tells of several terms."""
        self.lets.append("let after%d = %s in" % (at, told))
        for n, target in enumerate(targets):
            self.learn(target, "after%d.%d" % (at, n))

    def derivation(self, at, premise):
        head, *terms = words(premise)
        family = FAMILIES[head]
        starts, _, left = split(family)
        of, end, after = dict(zip(starts, terms)), terms[len(starts)], terms[len(starts) + 1:]
        needs = [of[start] + " in " + of["w"] if is_standing(family, start) else of[start] for start in givens(family)]
        told = ["sound_" + snake(head), self.place(at), memory_of(premise, self.conclusion),
                *map(self.of, [of["w"], of["r"], *needs])]
        value = re.fullmatch(r"\(Ok (.*)\)", end)
        ends = [value[1] if value else end] if has_value(family) and not end.startswith("(Err") else []
        self.after(at, after + ends, " ".join(told))
        if head in KEEPING:
            self.still(at, premise, of["w"], after[0])

    def still(self, at, premise, before, after):
        """The externals that stood in a history before a derivation stand in that after it."""
        for key, evidence in list(self.evidence.items()):
            external, _, history = key.partition(" in ")
            if history == before:
                kept = "base_%s %s %s" % (snake(words(premise)[0]), self.place(at), memory_of(premise, self.conclusion))
                self.learn("%s in %s" % (external, after), "(stands_after %s %s (%s) %s)" % (
                    self.mention(before), self.mention(after), kept, evidence))

    def equation(self, at, variable, term):
        """What a variable's equation tells of it, or of the parts of the tree that it is."""
        kind = letters(variable)
        if kind in TREES and variable in self.evidence:
            self.learn(term, "(subst %s %s %s)" % (TREES[kind], self.place(at), self.evidence[variable]))
        told, forms = EQUATIONS.get(kind, ("", ()))
        for form, lemma in forms:
            match = re.fullmatch(form, term)
            if match:
                self.learn(variable, "(subst %s (sym %s) %s)" % (told, self.place(at), self.filled(lemma, match)))
                return

    def computed(self, at, term, end):
        for form, told, lemma in COMPUTED:
            match = re.fullmatch(form, term)
            if match:
                value = re.fullmatch(r"\(Ok (\w+)\)", end)
                evidence = "(sound_yields %s (%s) %s)" % (told, self.filled(lemma, match), self.place(at))
                self.learn(value[1] if value else end, evidence)

    def premise(self, at, premise):
        if words(premise)[0] in FAMILIES:
            self.derivation(at, premise)
            return
        for form, lemma, *targets in TOLD:
            match = re.fullmatch(form, premise)
            if match:
                told = self.filled(lemma, match, at)
                terms = [re.sub(r"\d", lambda digit: match[int(digit[0]) + 1], target) for target in targets]
                if len(terms) == 1:
                    self.learn(terms[0], "(%s)" % told)
                else:
                    self.after(at, terms, told)
        yields = re.fullmatch(r"Yields \((.*?)\) (\w+|\(\w+ \w+\))", premise)
        equation = re.fullmatch(r"([a-z]+\d*) ≡ (.*)", premise)
        if yields:
            self.computed(at, *yields.groups())
        elif equation and letters(equation[1]) in TYPES:
            self.equation(at, *equation.groups())

    def end(self):
        """What the rule tells of what it leaves, and of its value."""
        starts, _, left = split(self.family)
        terms = words(self.conclusion)[1 + len(starts):]
        told = [self.of(term) for term in terms[1:]]
        if has_value(self.family):
            value = re.fullmatch(r"\(Ok (.*)\)", terms[0])
            if terms[0].startswith("(Err"):
                told.append("tt")
            elif value:
                of = re.sub(r"^\(Returns (\w+)\)$", r"\1", value[1])
                told.append(ENDS[of] if of in ENDS else self.of(of))
            else:
                told.append(self.of(terms[0]))
        return told

    def body(self):
        """The steps of the clause behind its pattern, and what it tells; where a last derivation tells that, it is a step."""
        for at, premise in enumerate(self.premises, 1):
            self.premise(at, premise)
        told = self.end()
        last = re.fullmatch(r"let (after\d+) = (sound_(\w+) .*) in", self.lets[-1]) if self.lets else None
        whole = last and next((family for family in TABLE if snake(family["name"]) == last[3]), None)
        same = last and ["%s.%d" % (last[1], at) for at in range(len(told))]
        if whole and len(conclusions(whole)) == len(told) and told == same:
            return [*self.lets[:-1], last[2]], []
        return list(self.lets), told

    def text(self):
        """The clause, on one line where it fits, else with a line for each step, and for each part of what it tells."""
        head, steps, told = self.parts()
        end = ["(%s)" % ", ".join(told)] if told else []
        whole = " ".join([head, *steps, *end])
        if len("    sound_%s %s" % (snake(self.family["name"]), whole)) <= MOST:
            return whole
        lines = [DEEPER + line.strip() for step in steps for line in broken(DEEPER + step)]
        if not end or len(DEEPER + end[0]) <= MOST:
            return "\n".join([head, *lines, *(DEEPER + each for each in end)])
        margin = DEEPER if steps else DEEPER[4:]
        return "\n".join([head, *lines]) + "\n".join([" (", *("%s  %s," % (margin, each) for each in told), margin + ")"])

    def parts(self):
        """The pattern of the clause, its steps, and what it tells."""
        name = "%s.%s" % (self.family["name"], self.name)
        if end_of(self.conclusion)[0] == "(Err Memory)":
            return "%s has %s =" % (name, " ".join("_" for _ in self.arguments)), ["absurd (has refl)"], []
        steps, told = self.body()
        body = " ".join([*steps, *told])
        order = re.findall(r"\w+", binders([*self.premises, self.conclusion]))
        named = [each for each in self.named if re.search(r"(?<![\w.{])%s(?![\w(])" % each, body)]
        places = ["p%d" % at if at in self.used else "_" for at, _ in enumerate(self.premises, 1)]
        pattern = " ".join([name, *("{%s = %s}" % (each, each) for each in sorted(named, key=order.index)), *places])
        head = "%s has %s =" % ("(%s)" % pattern if " " in pattern else pattern, " ".join(self.arguments))
        return head, steps, told


def conclusions(family):
    """What a family's function tells."""
    _, end, left = split(family)
    told = ["IsWhole begin " + left[0], "RunTexts " + left[1], *("FrameTexts " + frame for frame in left[2:])]
    return told + ["IfOk %s %s" % (end, KNOWN[letters(end)])] if has_value(family) else told


def function(family):
    indices, name = indices_of(family), snake(family["name"])
    needs = ["%s < length w.now.externals" % start if is_standing(family, start) else says(GIVEN[letters(start)], start)
             for start in givens(family)]
    given = [
        binders([" ".join(indices)]), " ".join([family["name"], *indices]), "HasMemory " + split(family)[1],
        "IsWhole begin w", "RunTexts r", *needs]
    lines = ["pub sound_%s : %s" % (name, " → ".join([*given, " × ".join(conclusions(family))]))]
    lines += ["sound_%s %s" % (name, Clause(family, rule).text()) for rule in family["rules"]]
    return "".join("    %s\n" % line for line in lines)


def main():
    blocks = ["\n  mutual\n" + "\n".join(map(function, block)) for block in BLOCKS]
    text = "\nmodule _ (begin : History) (cut : PartsCut) where" + "".join(blocks)
    write("whole_states", {"proofs/Sound.antt": TITLE + imports(USES, text, [MEANING]) + text}, "whole.py")
    print("a law over %d families" % len(TABLE))


main()
