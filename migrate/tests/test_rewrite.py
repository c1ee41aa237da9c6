"""Rewritings of scripts: what each makes, what stays as it is, and what the report says."""

import random
import unittest
from typing import List, Tuple

from front.stack_text import BUTTON, Background, Card, Part, Stack
from migrate import compat, ids
from migrate.convert import convert
from migrate.old import OldBackground, OldCard, OldPart, OldStack
from migrate.rewrite import rewrite

IFS: List[Tuple[str, str]] = [
    # What stands in one of the two forms stays.
    ("if a then b", "if a then b"),
    ("if a then b else c", "if a then b else c"),
    ("if a then b\nelse c -- d", "if a then b\nelse c -- d"),
    ("if a\nthen b\nelse c", "if a\nthen b\nelse c"),
    ("if a then\n  b\nelse if c then\n  d\nelse\n  e\nend if",
     "if a then\n  b\nelse if c then\n  d\nelse\n  e\nend if"),
    # What is mixed is written in lines.
    ("if a then if b then c", "if a then\n  if b then c\nend if"),
    ("if a then if b then c\nelse d", "if a then\n  if b then c\n  else d\nend if"),
    ("if a then b\nelse if c then d\nelse e", "if a then\n  b\nelse if c then\n  d\nelse\n  e\nend if"),
    ("if a then b\nelse\n  c\nend if", "if a then\n  b\nelse\n  c\nend if"),
    ("if a then\n  b\nelse c", "if a then\n  b\nelse\n  c\nend if"),
    ("if a then\n  b\nelse c\nend if", "if a then\n  b\nelse\n  c\nend if"),
    ("if a then\n  b\nelse if c then d\nend if", "if a then\n  b\nelse if c then\n  d\nend if"),
    ("if a then\n  if b then\n    c\n  else d\nend if",
     "if a then\n  if b then\n    c\n  else\n    d\n  end if\nend if"),
    ("repeat 2\n  if a then if b then c\nend repeat", "repeat 2\n  if a then\n    if b then c\n  end if\nend repeat"),
    # Words in strings, comments and parentheses are none.
    ('if a then put "then if else" -- if', 'if a then put "then if else" -- if'),
    # Two statements in place of one need lines.
    ('if a then ask "b" with "c"', 'if a then\n  askFor "b","c"\n  get theReply()\nend if'),
    ("if a then visual effect iris else b", "if a then visual -- effect iris\nelse b"),
]

LINES: List[Tuple[str, str]] = [
    ("visual effect dissolve to black", "visual -- effect dissolve to black"),
    ('play "boing"', 'play "boing"'),
    ('play "boing" tempo 200 "c e"', 'play -- "boing" tempo 200 "c e"'),
    ("wait 20", "wait 20"),
    ("wait 2 * n seconds", 'wait 2 * n,"seconds"'),
    ("wait for 3 ticks", 'wait 3,"ticks"'),
    ("wait until the mouse is up", "repeat until mouse() is up\nend repeat"),
    ('answer "a" & ("b" or c) with "Yes" or "No"', 'answerWith "a" & ("b" or c),"Yes","No"\nget theReply()'),
    ('ask "Name?" with line 1 of field "x"', 'askFor "Name?",line 1 of field "x"\nget theReply()'),
    ('answer file "Which?"', 'answer file "Which?"'),
    ("push this card", "pushCard"),
    ('push card "Home"', 'pushCard the short id of card "Home"'),
    ("pop card", "popCard"),
    ('hide card button "A"', 'set the visible of card button "A" to false'),
    ("show the target at 10,20", "set the visible of the target to true"),
    ("hide menubar", "decorate -- hide menubar"),
    ("show tool window", "decorate -- show tool window"),
    ("lock screen", "lock screen"),
    ("unlock screen with iris open", "unlock screen -- with iris open"),
    ("put it into the message box", "put it"),
    ("put it into msgs", "put it into msgs"),
    ('doMenu "Delete Card" without dialog', 'doMenu "Delete Card"'),
    ("sort lines of field 1 descending numeric", 'put sortedLines(field 1,"descending numeric") into field 1'),
    ("sort items of x", "sort items of x"),
    ("set cursor to watch -- slow", "decorate -- set cursor to watch -- slow"),
    ("set the hilite of me to true", "set the hilite of me to true"),
    ("put the abbr name of me && the long date", 'put the name of me && date("long")'),
    ("put short name of me && name of x", "put the short name of me && the name of x"),
    ("set highlight of me to not highlight of me", "set hilite of me to not the hilite of me"),
    ("put the random of (the random of 6)", "put random(random(6))"),
    ("put the random of the number of cards", "put the random of the number of cards"),
    ("go any card", "go card (random(the number of cards))"),
    ('put "the date" -- the time', 'put "the date" -- the time'),
    ("put 1 + \u00ac\n  the ticks", "put 1 + ticks()"),
]


def handler(body: str) -> bytes:
    """A handler with this body."""
    indented = "\n".join("  " + line for line in body.split("\n"))
    return ("on try\n%s\nend try" % indented).replace("\n", "\r").encode("mac_roman")


class Rewriting(unittest.TestCase):
    """Each rewriting, by the script before and after."""

    def check(self, table: List[Tuple[str, str]]) -> None:
        for before, after in table:
            with self.subTest(before=before):
                made = rewrite(handler(before))
                self.assertEqual(made.script.decode("mac_roman"), handler(after).decode("mac_roman"))
                self.assertEqual(bool(made.made), before != after)
                self.assertEqual(rewrite(made.script).script, made.script, "a second time changes it again")

    def test_ifs(self) -> None:
        self.check(IFS)

    def test_lines(self) -> None:
        self.check(LINES)

    def test_what_is_told(self) -> None:
        made = rewrite(b"-- x\r" + handler("beep\nwait 2 seconds")).made
        self.assertEqual([(each.line, each.name, each.before, each.after) for each in made],
                         [(4, "wait by a stand-in", b"wait 2 seconds", b'wait 2,"seconds"')])

    def test_which_lines_are_told(self) -> None:
        script = handler("if a then\n  print card\n  wait 2 seconds\nelse if the ticks > 3 then\n  b\nelse c\nput 1")
        made = rewrite(script).made
        self.assertEqual([(each.name, sorted(each.lines)) for each in made],
                         [("wait by a stand-in", [4]), ("date and time by a stand-in", [2, 5, 7]),
                          ("an `if` of two forms", [2, 5, 7])])

    def test_ifs_that_cant_be_followed(self) -> None:
        script = handler("if a then\n  wait 2 seconds")
        made = rewrite(script)
        self.assertEqual((made.script, made.made, made.left), (script, [], [(1, b"a")]))
        self.assertEqual(rewrite(handler("if a then " * 200 + "b")).made, [])

    def test_any_words(self) -> None:
        """Whatever stands in a handler, the rewriting ends, and what is changed is told."""
        dice = random.Random(7)
        said = [word for line, _ in LINES + IFS for word in line.split(" ")]
        said += ["if", "then", "else", "end if", *"\n\n\n()\"", "--", "\u00ac\n", "the", "of", "repeat"]
        for _ in range(1500):
            script = handler(" ".join(dice.choice(said) for _ in range(dice.randint(1, 30))))
            made = rewrite(script)
            self.assertEqual(made.script != script, bool(made.made), script)
            self.assertTrue(made.script.startswith(b"on try\r") and made.script.endswith(b"\rend try"), script)

    def test_outside_of_handlers_all_stays(self) -> None:
        self.assertEqual(rewrite(b"wait 2 seconds\r-- pop card").script, b"wait 2 seconds\r-- pop card")


class StandIns(unittest.TestCase):
    """Which stand-ins a stack gets, and how switches are lit."""

    def test_what_is_needed(self) -> None:
        stack = Stack(3, script=b"on beep\rend beep\ron a\r  beep\r  askFor 1\rend a", backgrounds=[Background(1)],
                      cards=[Card(2, 1)])
        names, why = compat.put(stack)
        self.assertEqual((names, why), (["askFor", "takeReply"], ""))
        self.assertEqual(stack.script.count(b"on beep"), 1)
        self.assertEqual(compat.put(stack), ([], ""))

    def test_no_room(self) -> None:
        stack = Stack(3, script=b"on a\r  askFor 1\rend a\r-- " + b"x" * 29900, backgrounds=[Background(1)])
        before = stack.script
        names, why = compat.put(stack)
        self.assertEqual((names, stack.script), ([], before))
        self.assertIn("at most 30000 fit", why)

    def test_switches(self) -> None:
        radio = [OldPart("button", number, style="radioButton", family=2, auto_hilite=True) for number in (1, 2)]
        box = OldPart("button", 3, style="checkBox", auto_hilite=True, script=b"on mouseDown\r  x\rend mouseDown")
        plain = OldPart("button", 4, style="roundRect", auto_hilite=True)
        card = OldCard(2, parts=[*radio, box, plain], background=1)
        old = OldStack("test", backgrounds=[OldBackground(1)], cards=[card])
        converted = convert(old)
        self.assertEqual(len(compat.light_switches(converted)), 3)
        scripts = [part.script for part in converted.stack.cards[0].parts]
        self.assertIn(b"  set the hilite of card button id %d to false\r  pass mouseDown"
                      % converted.parts["card", 2, 2], scripts[0])
        self.assertEqual(scripts[2],
                         b"on mouseDown\r  set the hilite of me to not the hilite of me\r  x\rend mouseDown")
        self.assertEqual(scripts[3], b"")


class Ids(unittest.TestCase):
    """Ids in scripts, where the parts have others now."""

    def test_references(self) -> None:
        background = OldBackground(5, parts=[OldPart("field", 1), OldPart("button", 2)])
        cards = [OldCard(6, background=5, parts=[OldPart("button", 1)],
                         script=b"put field id 1\rsend 1 to card button id 1"),
                 OldCard(7, background=5, parts=[OldPart("button", 1), OldPart("button", 3)])]
        old = OldStack("test", script=b'go card id 6\rput bg button id 2 & "field id 1" & card button id 1',
                       backgrounds=[background], cards=cards)
        converted = convert(old)
        found = ids.references(converted)
        new = converted.parts
        self.assertEqual([(each.holder, each.line, each.words, each.new) for each in found],
                         [(0, 2, "card button id 1", None), (6, 2, "card button id 1", new["card", 6, 1])])
        self.assertEqual((new["background", 5, 1], new["background", 5, 2]), (1, 2))
        ids.rewrite(converted, found)
        self.assertEqual(converted.stack.cards[0].script,
                         b"put field id 1\rsend 1 to card button id %d" % new["card", 6, 1])
        self.assertEqual(converted.stack.script, old.script)

    def test_ids_that_are_all_different_stay(self) -> None:
        old = OldStack("test", backgrounds=[OldBackground(9, parts=[OldPart(BUTTON, 4)])],
                       cards=[OldCard(3, background=9, parts=[OldPart(BUTTON, 12)])])
        stack = convert(old).stack
        self.assertEqual((stack.next_id, stack.backgrounds[0].parts, stack.cards[0].parts),
                         (13, [Part(BUTTON, 4)], [Part(BUTTON, 12)]))

    def test_ids_that_dont_fit(self) -> None:
        old = OldStack("test", backgrounds=[OldBackground(-1)], cards=[OldCard(2000000, background=-1)])
        stack = convert(old).stack
        self.assertEqual((stack.backgrounds[0].id, stack.cards[0].id, stack.next_id), (2, 1, 3))
        self.assertEqual(len(old.notes), 2)


if __name__ == "__main__":
    unittest.main()
