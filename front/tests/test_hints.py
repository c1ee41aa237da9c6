"""What a person may have meant, as the terminal and the page say it behind the program's explanation."""

import os
import unittest
from typing import Sequence, Tuple

from front.hints import hints
from front.hints_of_dot_lines import OF_PROGRAM, OF_TERMINAL, DotLines
from front.server_objects import Objects
from front.server_told import entry_view
from front.session import Session
from front.stack_text import read
from front.terminal_text import Coding
from front.tests.at_terminal import AtATerminal
from front.tests.support import FolderTest, bytes_of, there

QUIZ = os.path.join("stacks", "quiz.stack")
NO_DOT = "  did you mean .%s? A line that begins with no dot is HyperTalk."
BUTTON_OF_CARD = '  did you mean background button "%s"? A button is one of the card where nothing else is said.'
QUESTION = '  did you mean background "Question"?'
FIELD_OF_BACKGROUND = '  did you mean card field "%s"? A field is one of the background where nothing else is said.'

DOT_LINES: Sequence[Tuple[str, str]] = (
    ("quit", "quit"), ("Quit", "quit"), ("exit", "quit"), ("bye", "quit"), ("?", "help"), ("help", "help"),
    ("undo", "undo"), ("  undo  2 ", "undo 2"), ("undo to 3", "undo to 3"), ("redo", "redo"), ("save", "save"),
    ("show", "show"), ("history", "history"), ("cards", "cards"), ("card", "card"),
    ('click button "A"', 'click button "A"'), ("click bg btn 2", "click bg btn 2"), ("cells Count", "cells Count"),
    ('type "x" into field 1', 'type "x" into field 1'), ("script this card", "script this card"),
    ("log my.session", "log my.session"),
)
DOTTED: Sequence[Tuple[str, str]] = (
    (".histroy", "history"), (".sav", "save"), (".shw", "show"), (".clik button 1", "click button 1"),
    (".Undo 2", "undo 2"), (".undoo to 3", "undo to 3"), (".exit", "quit"), (".q", "quit"), (".save as new", "save"),
    ('.click "Go"', 'click button "Go"'), (".type milk into field 1", 'type "milk" into field 1'),
)
NO_HINT = (".frob", ".cells Nobody", ".undo all", ".click", ".",
           "frob", "undo it", "card field", "put", "put 1 div 0", "put the foo of button 1", "if it then", "put foo(3)",
           "delete card", "go to card 99", "put 1 into total extra", "put counter 5")
SPELLING: Sequence[Tuple[str, str, str]] = (
    ('put "x" into feild "Note"', "field", "feild"), ('put the lenght of "x"', "length", "lenght"),
    ("put 1 inot x", "into", "inot"), ("repat with i = 1 to 3", "repeat", "repat"),
    ("put the nmae of bg", "name", "nmae"),
    ("set the visble of bg btn 1 to true", "visible", "visble"), ("pikAnswer", "pickAnswer", "pikAnswer"),
    ("put chioce(1)", "choice", "chioce"), ('put legnth("abc")', "length", "legnth"), ("retrun 5", "return", "retrun"),
)
# What HyperCard has, by the name that the importers' report gives it.
OF_HYPERCARD: Sequence[Tuple[str, str]] = (
    ('answer "hi"', "answer .. with"), ('answer "Sure?" with "Yes" or "No"', "answer .. with"), ("beep 3", "beep"),
    ("show button 1", "hide or show"), ('find "x"', "find"), ("put 1.5 + 2", "a decimal number"),
    ("put the date", "date and time"), ("visual effect dissolve", "visual effect"), ("go back", "go back"),
    ("sort cards by field 1", "sort of cards"), ("click at 10,20", "click, drag or type"),
    ("put name of button 1", "a property without `the`"), ("set the loc of button 1 to 10,10", "a property of looks"),
    ("put x is within y", "is within"), ("animate", "visual effect"),
)
PARTS: Sequence[Tuple[str, str]] = (
    ('.click button "A"', BUTTON_OF_CARD % "A"),
    ('get the name of btn "start again"', BUTTON_OF_CARD % "Start Again"),
    ('put card field "score"', '  did you mean background field "Score"?'),
    ('put 1 into field "Mine"', FIELD_OF_BACKGROUND % "Mine"),
    ('put bg fld "mine"', '  did you mean card field "Mine"?'),
    ('get the name of button "Z"', ""), ('put field "Mine" of card 1', ""),
    ('get the name of button 7', ""), ('go to card "Zebra"', ""),
    ('go card "Mon"', '  did you mean card "Moon"?'), ('put field "Scroe"', '  did you mean background field "Score"?'),
    ('.click bg button "Nxt"', '  did you mean background button "Next"?'), ('go to bg "Qestion"', QUESTION),
    ('put 1 into field "Mien"', '  did you mean card field "Mine"?'),
)
# A field of the card, a handler that sends a message which nobody handles, and one that runs a text which isn't in the
# grammar.
MADE = (
    b'doMenu "New Field"', b'set the name of card field 1 to "Mine"',
    b'put quote & "visual effect dissolve" & quote into drawn',
    b'put return & "on animate" & return & "do " & drawn & return & "end animate" into animate',
    b'set the script of this card to "on greet" & return & "frob" & return & "end greet" & animate')


class Hints(FolderTest):
    def setUp(self) -> None:
        super().setUp()
        self.session = Session(self.put("quiz.stack", bytes_of(there(QUIZ))), explain=True)
        self.addCleanup(self.session.close)
        for line in MADE:
            self.assertEqual(self.session.send(line).verdict, "ok")

    def hints(self, line: str, known: DotLines = OF_TERMINAL) -> str:
        answer = self.session.send(line.encode())
        return "\n".join(hints(line.encode(), answer, self.objects, Coding.UTF_8, known))

    def objects(self) -> Objects:
        return Objects(read(self.session.text()), self.session.where())

    def test_a_dot_line_without_its_dot(self) -> None:
        for line, meant in DOT_LINES:
            with self.subTest(line=line):
                self.assertEqual(self.hints(line), NO_DOT % meant)

    def test_a_dot_line_that_is_misspelt(self) -> None:
        for line, meant in DOTTED:
            with self.subTest(line=line):
                self.assertEqual(self.hints(line), "  did you mean .%s?" % meant)
        self.assertIn("opens no other stack: start ./card my.stack for that", self.hints(".open my.stack"))
        self.assertEqual(self.hints(".hepl", OF_PROGRAM), "")

    def test_other_lines_have_no_hint(self) -> None:
        for line in NO_HINT:
            with self.subTest(line=line):
                self.assertEqual(self.hints(line), "")

    def test_what_hypercard_has(self) -> None:
        for line, name in OF_HYPERCARD:
            with self.subTest(line=line):
                self.assertIn("  HyperCard knows this (%s), and this program doesn't: " % name, self.hints(line))
        self.assertIn("HyperCard has random built in", self.hints("put random(5)"))

    def test_a_word_that_is_misspelt(self) -> None:
        for line, meant, word in SPELLING:
            with self.subTest(line=line):
                self.assertEqual(self.hints(line), "  did you mean `%s`? There stands `%s`." % (meant, word))

    def test_an_item_of_the_menu(self) -> None:
        self.assertEqual(self.hints('doMenu "New Crad"'), '  did you mean doMenu "New Card"?')
        self.assertEqual(self.hints('domenu "Undo"'),
                         "  the menu has New Card, New Background, New Button, New Field, Delete Card")
        self.assertEqual(self.hints('doMenu "New Card",1'), "")
        self.assertEqual(self.hints("put 1 into char 0 of x"), "")

    def test_lines_of_the_terminal_are_not_those_of_the_page(self) -> None:
        self.assertIn("HyperCard has help built in", self.hints("help", OF_PROGRAM))
        self.assertEqual(self.hints("undo", OF_PROGRAM), NO_DOT % "undo")

    def test_the_page_is_told_them_too(self) -> None:
        answer = self.session.send(b"undo")
        told = entry_view(1, b"undo", answer, False, self.objects(), Coding.UTF_8)["explained"]
        self.assertEqual(told, [{"text": line} for line in [*answer.explained, NO_DOT % "undo"]])

    def test_an_object_of_the_other_layer_or_of_another_name(self) -> None:
        for line, meant in PARTS:
            with self.subTest(line=line):
                self.assertEqual(self.hints(line), meant)

    def test_a_message_of_a_handler_is_not_the_line(self) -> None:
        self.assertEqual(self.hints("greet"), "")

    def test_what_is_not_explained_has_no_hint(self) -> None:
        with Session(self.put("quiet.stack", bytes_of(there(QUIZ))), explain=False) as quiet:
            answer = quiet.send(b"quit")
        self.assertEqual(hints(b"quit", answer, self.objects, Coding.UTF_8, OF_TERMINAL), [])


class AtTheTerminal(AtATerminal):
    def test_hints_stand_behind_the_explanation(self) -> None:
        screen = self.open()
        screen.enter("quit")
        screen.wait('  sent: "quit"\r\n' + NO_DOT % "quit" + "\r\nA> ")


if __name__ == "__main__":
    unittest.main()
