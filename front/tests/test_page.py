"""The page in a real headless browser: a script clicks, types, moves the slider, edits scripts, and saves; and what is
saved is what the same lines make without a page.

Where no browser with a driver is here, one line says so, and each test is told as skipped.
"""

import os
import unittest

from front.stack_text import BUTTON, Background, Card, Part, Stack, write
from front.tests.browser import DOWN, ENTER, ESCAPE, LEFT, RIGHT, TAB, UP
from front.tests.page import PageTest
from front.tests.support import bytes_of, there

FAULTY = b"on mouseUp\r  get 1\r  put it + nothing\rend mouseUp"


class TestUse(PageTest):
    """What people do."""

    def test_quiz_is_played_and_saved(self) -> None:
        self.open_stack("quiz")
        browser = self.browser
        self.assertEqual(browser.attribute("#button-6", "aria-pressed"), "false")
        browser.click("#button-6")
        self.until("the hilite", lambda: browser.attribute("#button-6", "aria-pressed") == "true")
        self.assertEqual(browser.text("#answer"), "Right.")
        self.assertEqual(browser.value("#field-4"), "1 of 1")
        browser.click("#button-8")
        self.until("the next card", lambda: "Sea" in browser.text("#card-title"))
        self.assertEqual(browser.attribute("#button-6", "aria-pressed"), "false")
        self.assertIn("not saved", browser.text("#stack-state"))
        browser.click("#save")
        self.until("saved", lambda: browser.text("#stack-state") == "saved")
        self.assertEqual(self.lines(), [b".click bkgnd button id 6", b".click bkgnd button id 8", b".save"])
        self.assert_as_by_lines()
        self.assertNotEqual(bytes_of(self.path), bytes_of(there("stacks/quiz.stack")))

    def test_typing_into_fields(self) -> None:
        self.open_stack("address_book")
        browser = self.browser
        self.say('go card "Ada Lovelace"')
        self.until("the card", lambda: browser.has("#field-6"))
        browser.type("#field-6", " (UK)")
        browser.click("#field-7")
        self.until("the text", lambda: self.field("City") == "London (UK)")
        self.assertEqual(self.lines()[-1], b'.type "London (UK)" into bkgnd field id 6')
        self.rest()
        browser.write("#field-5", 'He said "hi"\nand left\u00e9')
        browser.keys(TAB)
        self.until("the text of two lines", lambda: self.field("Street").startswith("He said \"hi\"\rand left"))
        count = len(self.lines())
        self.rest()
        browser.type("#field-7", "0")
        browser.keys(ESCAPE, TAB)
        browser.click("#field-6")
        self.rest()
        self.assertEqual(len(self.lines()), count)
        browser.click("#save")
        self.until("saved", lambda: browser.text("#stack-state") == "saved")
        self.assert_as_by_lines()

    def test_renaming_by_a_field_renames_the_card(self) -> None:
        self.open_stack("address_book")
        self.say('go card "Mary Shelley"')
        self.until("the card", lambda: self.browser.has("#field-4"))
        self.browser.write("#field-4", "Mary Godwin")
        self.browser.click("#button-8")
        self.until("the click", lambda: self.lines()[-1] == b".click bkgnd button id 8")
        self.assertIn(b"|Mary Godwin", self.play.known.text)
        self.assertEqual(len([line for line in self.lines() if line.startswith(b".type")]), 1)

    def test_a_locked_field_is_clicked(self) -> None:
        self.open_stack("to_do")
        self.say("set the script of field 1 to \"on mouseUp\" & return & \"put 42\" & return & \"end mouseUp\"")
        self.rest()
        self.assertTrue(self.browser.run("return document.querySelector('#field-2').readOnly"))
        self.browser.click("#field-2")
        self.until("the answer", lambda: self.browser.text("#answer") == "42")
        self.browser.type("#line", "x")
        self.browser.run("document.querySelector('#field-2').focus()")
        self.browser.keys(ENTER)
        self.until("another click", lambda: self.lines()[-2:] == [b".click bkgnd field id 2"] * 2)

    def test_message_box_and_its_history(self) -> None:
        self.open_stack("calculator")
        browser = self.browser
        for line in ("put 6 * 7", "put 1 div 0", 'put "x" into y\nput y & y'):
            self.say(line)
        self.until("the answer", lambda: browser.text("#answer") == "xx")
        browser.type("#line", UP)
        self.assertEqual(browser.value("#line"), 'put "x" into y\nput y & y')
        browser.keys(UP, UP)
        self.assertEqual(browser.value("#line"), "put 1 div 0")
        browser.keys(UP, UP, DOWN)
        self.assertEqual(browser.value("#line"), "put 1 div 0")
        browser.write("#line", "")
        browser.type("#line", "no ( grammar" + ENTER)
        self.until("the refusal", lambda: "refused 3" in browser.text("#answer"))
        self.say("put \u00e9 is it")
        self.assertEqual(self.lines()[2], b'put "x" into y\rput y & y')

    def test_history_by_the_slider(self) -> None:
        self.open_stack("to_do")
        browser = self.browser
        texts = [self.play.known.text]
        for line in ('newTask "Wash"', 'newTask "Dry"', "hideDone"):
            self.say(line)
            texts.append(self.play.known.text)
        self.rest()
        self.assertIn('Place 3 of 3: hideDone', browser.text("#place"))
        browser.run("document.querySelector('#slider').focus()")
        for place in (2, 1, 0, 1, 2, 3, 2):
            browser.keys(LEFT if self.play.places.cursor > place else RIGHT)
            self.until("place %d" % place, lambda: self.play.known.text == texts[place])
            self.rest()
        self.assertIn('Place 2 of 3: newTask "Dry"', browser.text("#place"))
        self.assertTrue(browser.text("#answer"))
        browser.click("#redo")
        self.until("redone", lambda: self.play.known.text == texts[3])
        self.assertEqual(self.lines()[-1], b".redo 1")
        browser.click("#tab-history")
        self.until("the places", lambda: "hideDone" in browser.text("#places"))
        self.assertEqual(browser.attribute("#places li:first-child button", "aria-current"), "true")
        browser.write("#diff-from", "1")
        browser.write("#diff-to", "2")
        browser.click("#compare button")
        self.until("the difference", lambda: "+ name |Dry" in browser.text("#diff"))
        self.assertIn("card 3, button 10", browser.text("#diff"))
        self.assertEqual(self.play.known.text, texts[3])
        self.assertEqual(self.play.places.cursor, 3)

    def test_script_is_edited(self) -> None:
        self.open_stack("calculator")
        browser = self.browser
        browser.click("#part-6 .more")
        self.until("the inspector", lambda: browser.has("#object-visible"))
        self.assertEqual(browser.value("#object-name"), "+")
        browser.click("#edit-script")
        self.until("the script", lambda: "add card field" in browser.value("#script"))
        self.assertEqual(browser.text("#numbers").split(), ["1", "2", "3", "4"])
        new = 'on mouseUp\n  put "plus"\n  add card field "Entry" to card field "Total"\nend mouseUp'
        browser.write("#script", new)
        self.assertIn("not set yet", browser.text("#script-title"))
        browser.click("#set-script")
        self.until("the script is set", lambda: new.replace("\n", "\r").encode() in
                   [part.script for part in self.play.known.objects.card.parts])
        self.assertTrue(self.lines()[-1].startswith(b"set the script of card button id 6 of card id 2 to "))
        self.until("the title", lambda: "not set yet" not in browser.text("#script-title"))
        browser.click("#button-6")
        self.until("the new script", lambda: browser.text("#answer") == "plus")
        browser.click("#undo")
        browser.click("#undo")
        self.until("the old script", lambda: "plus" not in browser.value("#script"))

    def test_properties(self) -> None:
        self.open_stack("to_do")
        browser = self.browser
        browser.click("#tab-object")
        browser.click("[data-item='New Button']")
        self.until("a new button", lambda: "New Button" in browser.text("#card-parts"))
        number = self.play.known.objects.card.parts[-1].id
        browser.click("#part-%d .more" % number)
        self.until("the inspector", lambda: browser.value("#object-name") == "New Button")
        browser.retype("#object-name", 'Say "hi"' + ENTER)
        self.until("the name", lambda: 'Say "hi"' in browser.text("#button-%d" % number))
        self.rest()
        browser.click("#object-hilite")
        self.until("the hilite", lambda: browser.attribute("#button-%d" % number, "aria-pressed") == "true")
        self.rest()
        browser.click("#object-visible")
        self.until("hidden", lambda: not browser.has("#button-%d" % number))
        browser.click("#hidden-parts")
        self.until("shown again", lambda: browser.has("#button-%d" % number))
        browser.click("#on-background")
        browser.click("[data-item='New Field']")
        self.until("a field", lambda: len(self.play.known.objects.background.parts) == 2)
        self.assertEqual(self.lines()[-1], b'set the editBkgnd to true\rdoMenu "New Field"')

    def test_cards_by_click(self) -> None:
        self.open_stack("address_book")
        browser = self.browser
        self.until("the cards", lambda: "Template" in browser.text("#cards"))
        browser.click("#cards li:nth-child(4) button")
        self.until("the card", lambda: "Grace Hopper" in browser.text("#card-title"))
        self.assertEqual(self.lines(), [b"go card id 13"])
        browser.click("[data-way=previous]")
        self.until("the card", lambda: "Ada Lovelace" in browser.text("#card-title"))
        browser.click("#backgrounds li:nth-child(1) button")
        self.until("the index", lambda: "Index" in browser.text("#card-title"))
        browser.write("#find", "shel")
        self.until("one card", lambda: browser.run("return document.querySelectorAll('#cards li').length") == 1)
        browser.click("[data-item='New Card']")
        self.until("a new card", lambda: len(self.play.known.objects.stack.cards) == 6)
        self.rest()
        browser.click("[data-item='Delete Card']")
        self.until("it is gone", lambda: len(self.play.known.objects.stack.cards) == 5)

    def test_lines_values_and_messages(self) -> None:
        self.open_stack("calculator")
        browser = self.browser
        self.say("put 5 into total")
        browser.click("#button-6")
        self.until("the click", lambda: len(self.lines()) == 2)
        browser.click("#tab-values")
        self.until("the globals", lambda: "total" in browser.text("#globals"))
        self.assertIn("5", browser.text("#globals"))
        self.assertIn("Count 0", browser.text("#cells"))
        browser.click("#tab-lines")
        self.until("the lines", lambda: ".click card button id 6" in browser.text("#lines"))
        self.assertNotIn(".show", browser.text("#lines"))
        browser.click("#looks")
        self.until("the looks", lambda: ".show" in browser.text("#lines") and ".globals" in browser.text("#lines"))
        browser.click("#lines details summary")
        self.assertIn('mouseUp to card button "+"', browser.text("#lines"))
        browser.click("#save-session")
        path = os.path.join(browser.downloads, "calculator.session")
        self.until("the session", lambda: os.path.exists(path))
        self.assertEqual(bytes_of(path), b"put 5 into total\nok\n.click card button id 6\nok\n")


def faulty_stack() -> bytes:
    """A stack with a button whose script fails at its third line."""
    stack = Stack(4, b"Faulty", backgrounds=[Background(1)], cards=[Card(2, 1, b"One")])
    stack.cards[0].parts = [Part(BUTTON, 3, b"Fail", script=FAULTY)]
    return write(stack)


class TestFaults(PageTest):
    """Where a fault was, and what isn't in the grammar."""

    def test_link_to_the_line(self) -> None:
        self.open(faulty_stack())
        browser = self.browser
        browser.click("#button-3")
        self.until("the fault", lambda: "NotANumber" in browser.text("#answer"))
        browser.click("#answer .explained button")
        self.until("the script", lambda: "put it + nothing" in browser.value("#script"))
        chosen = browser.run("const e = document.querySelector('#script');"
                             "return e.value.slice(e.selectionStart, e.selectionEnd)")
        self.assertTrue(chosen)
        self.assertIn(chosen, "  put it + nothing")
        self.assertIn("line 3", browser.text("#script-place"))

    def test_errors_stand_at_their_place(self) -> None:
        self.open(faulty_stack())
        browser = self.browser
        browser.click("#part-3 .more")
        browser.click("#edit-script")
        self.until("the script", lambda: "mouseUp" in browser.value("#script"))
        browser.write("#script", "on mouseUp\n  put (\nend mouseUp")
        browser.click("#check-script")
        self.until("the error", lambda: "not in the grammar" in browser.text("#remarks"))
        self.assertEqual(browser.text("#numbers b").strip() in ("2", "3"), True)
        browser.write("#script", "on mouseUp\n  put 2\nend mouseUp")
        browser.click("#check-script")
        self.until("no error", lambda: "is in the grammar" in browser.text("#remarks"))


if __name__ == "__main__":
    unittest.main()
