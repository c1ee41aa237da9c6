"""The page at its edges: two tabs, dropped files, long commands, large stacks, the keyboard alone, the dark, and a
telephone."""

import os
import signal
import time
import unittest

from front.stack_text import Background, Card, Part, Stack, read, write
from front.tests.browser import ENTER, RIGHT, TAB
from front.tests.page import PageTest
from front.tests.support import ENDLESS, bytes_of, there
from front.tests.test_server_parts import large

DROP = """
const data = new DataTransfer();
data.items.add(new File([arguments[1]], arguments[0]));
document.dispatchEvent(new DragEvent("drop", {dataTransfer: data, bubbles: true, cancelable: true}));
"""
NAMELESS = """
return [...document.querySelectorAll("button, input, select, textarea, a")].filter((each) => {
  const label = each.labels && each.labels.length ? each.labels[0].textContent : "";
  const by = each.getAttribute("aria-labelledby");
  const named = by ? document.getElementById(by).textContent : "";
  const own = each.tagName === "SELECT" ? "" : each.textContent;
  return !(own.trim() || each.getAttribute("aria-label") || label.trim() || named.trim());
}).map((each) => each.outerHTML.slice(0, 120));
"""
# The contrast of each text with what lies behind it, as the guidelines for accessible pages count it: those below 4.5.
PALE = """
const numbers = (color) => color.match(/[0-9.]+/g).map(Number);
const linear = (part) => part <= 0.03928 ? part / 12.92 : ((part + 0.055) / 1.055) ** 2.4;
const light = (color) => {
  const [r, g, b] = numbers(color).map((part) => linear(part / 255));
  return 0.2126 * r + 0.7152 * g + 0.0722 * b;
};
const behind = (each) => {
  for (let at = each; at; at = at.parentElement) {
    const color = getComputedStyle(at).backgroundColor;
    if (numbers(color).length < 4 || numbers(color)[3] > 0) return color;
  }
  return "rgb(255, 255, 255)";
};
const hasText = (each) => [...each.childNodes].some((node) => node.nodeType === 3 && node.textContent.trim());
const isSeen = (each) => each.offsetParent && !each.disabled && !each.closest(".skip");
const isPale = (each) => {
  const [a, b] = [light(getComputedStyle(each).color), light(behind(each))];
  return (Math.max(a, b) + 0.05) / (Math.min(a, b) + 0.05) < 4.5;
};
const texts = [...document.querySelectorAll("body *")].filter((each) => isSeen(each) && hasText(each));
return texts.filter(isPale).map((each) => each.outerHTML.slice(0, 120));
"""


class TestTabs(PageTest):
    """Two tabs of one session."""

    def test_what_one_does_the_other_shows(self) -> None:
        self.open_stack("to_do")
        browser, one = self.browser, self.browser.tabs()[0]
        two = browser.new_tab()
        browser.go(self.door.address)
        self.until("the card", lambda: browser.text("#card-title") != "Card")
        self.say('newTask "Wash"')
        browser.choose(one)
        self.until("the other tab's button", lambda: "Wash" in browser.text("#card-parts"))
        browser.choose(two)
        browser.click("#undo")
        browser.choose(one)
        self.until("undone", lambda: "Wash" not in browser.text("#card-parts"))

    def test_a_text_that_is_being_typed_stays(self) -> None:
        self.open_stack("address_book")
        browser = self.browser
        self.say('go card "Ada Lovelace"')
        self.until("the card", lambda: browser.has("#field-6"))
        browser.type("#field-6", "!")
        self.play.run(self.play.known.revision, [b'put "Rome" into field "City"'])
        self.until("the conflict", lambda: "changed meanwhile" in browser.text("#part-6"))
        self.assertEqual(browser.value("#field-6"), "London!")
        browser.click("#line")
        self.rest()
        self.assertEqual(self.field("City"), "Rome")
        browser.click("#part-6 .problem button")
        self.until("mine", lambda: self.field("City") == "London!")
        browser.type("#field-7", "9")
        self.play.run(self.play.known.revision, [b"go first card"])
        self.until("the draft", lambda: "isn't sent" in browser.text("#drafts"))
        browser.click("#drafts button")
        self.until("back there", lambda: browser.has("#field-7"))
        self.assertEqual(browser.value("#field-7"), "555 01019")

    def test_the_program_is_killed(self) -> None:
        self.open_stack("to_do")
        self.say('newTask "Wash"')
        self.rest()
        before = self.play.known.text
        os.kill(self.play.session.pid, signal.SIGKILL)
        self.browser.write("#line", "hideDone")
        self.browser.type("#line", ENTER)
        self.until("the notice", lambda: "was started again" in self.browser.text("#notices"))
        self.until("the line again", lambda: self.browser.value("#line") == "hideDone")
        self.assertEqual(self.play.known.text, before)
        self.browser.type("#line", ENTER)
        self.until("done now", lambda: self.lines()[-1] == b"hideDone")

    def test_an_endless_command_is_stopped(self) -> None:
        self.open_stack("to_do")
        self.browser.write("#line", "\n".join(ENDLESS))
        self.browser.type("#line", ENTER)
        self.until("at work", lambda: "at work" in self.browser.text("#work"))
        self.browser.click("#stop")
        self.until("stopped", lambda: "stopped" in self.browser.text("#notices"))
        self.say("put 3")
        self.until("the answer", lambda: self.browser.text("#answer") == "3")

    def test_the_session_ends(self) -> None:
        self.open_stack("to_do")
        self.say('newTask "Wash"')
        self.browser.write("#line", ".quit")
        self.browser.type("#line", ENTER)
        self.assertIn("aren't saved", self.browser.answer_question(False))
        self.rest()
        self.assertFalse(self.play.ended)
        self.browser.type("#line", ENTER)
        self.browser.answer_question(True)
        self.until("the end", lambda: "session has ended" in self.browser.text("#notices"))


class TestFiles(PageTest):
    """Files that are dropped, and downloads."""

    def test_a_file_is_dropped(self) -> None:
        self.open_stack("to_do")
        browser = self.browser
        browser.run(DROP, "bad.stack", "htstack 2\nnext 2\n")
        self.until("the refusal", lambda: "stack refused 1 at line 2" in browser.text("#notices"))
        self.assertIn("To Do", browser.text("#stack-name"))
        self.say('newTask "Wash"')
        quiz = bytes_of(there("stacks/quiz.stack"))
        browser.run(DROP, "my quiz.stack", quiz.decode())
        self.assertIn("aren't saved", browser.answer_question(True))
        self.until("the quiz", lambda: "Moon" in browser.text("#card-title"))
        browser.click("#button-6")
        self.until("the hilite", lambda: browser.attribute("#button-6", "aria-pressed") == "true")
        browser.click("#save")
        path = os.path.join(browser.downloads, "my quiz.stack")
        self.until("the download", lambda: os.path.exists(path))
        self.assertEqual(read(bytes_of(path)).cards[0].hilites[6], True)
        self.assertEqual(bytes_of(path), bytes_of(self.play.path))
        self.assertEqual(bytes_of(self.path), bytes_of(there("stacks/to_do.stack")))


class TestLarge(PageTest):
    """10,000 objects, and fields of 30,000 bytes."""

    def test_a_large_stack_stays_usable(self) -> None:
        stack = large()
        for part in stack.cards[0].parts[3:]:
            part.text = b""
        start = time.monotonic()
        self.open(write(stack))
        browser = self.browser
        self.assertLess(time.monotonic() - start, 40)
        self.until("the window", lambda: "1 to 200 of 1,002" in browser.text("#parts-shown"))
        self.assertEqual(len(browser.value("#field-6000")), 30_000)
        start = time.monotonic()
        browser.click("#button-3")
        self.until("the click", lambda: len(self.lines()) == 1)
        self.rest()
        self.assertLess(time.monotonic() - start, 30)
        browser.click("#parts-after")
        self.until("the next window", lambda: "201 to 400" in browser.text("#parts-shown"))
        browser.click("#cards-after")
        self.until("more cards", lambda: "101 to 200 of 5,000" in browser.text("#cards-shown"))
        browser.write("#find", "card 4321")
        self.until("the card", lambda: browser.text("#cards").strip().startswith("4312"))
        browser.click("#cards button")
        self.until("gone there", lambda: "Card 4321" in browser.text("#card-title"))
        self.assertLess(browser.run("return document.querySelectorAll('*').length"), 3_000)

    def test_a_long_text_is_typed(self) -> None:
        stack = Stack(4, b"Long", backgrounds=[Background(1)], cards=[Card(2, 1)])
        stack.cards[0].parts = [Part("field", 3, b"Text")]
        self.open(write(stack))
        text = "\n".join('line %d, "quoted"' % number for number in range(1_300))
        self.browser.write("#field-3", text)
        self.browser.keys(TAB)
        self.until("the text", lambda: self.field("Text") == text.replace("\n", "\r"))
        self.assertGreater(len(self.lines()), 1)
        self.rest()
        self.browser.write("#field-3", "x" * 30_001)
        self.browser.keys(TAB)
        self.until("too long", lambda: "at most 30000 bytes" in self.browser.text("#part-3 .problem"))
        self.assertEqual(len(self.browser.value("#field-3")), 30_001)


class TestEveryone(PageTest):
    """The keyboard, screen readers, the dark, a telephone."""

    def test_the_keyboard_alone(self) -> None:
        self.open_stack("quiz")
        browser = self.browser
        browser.keys(TAB)
        self.assertEqual(browser.run("return document.activeElement.textContent"), "To the card")
        browser.keys(ENTER)
        for _ in range(20):
            browser.keys(TAB)
            if browser.run("return document.activeElement.id") == "button-6":
                break
        browser.keys(ENTER)
        self.until("the hilite", lambda: browser.attribute("#button-6", "aria-pressed") == "true")
        self.assertEqual(browser.run("return document.activeElement.id"), "button-6")
        browser.run("document.querySelector('#tab-stack').focus()")
        for name in ("object", "script", "lines", "history", "values", "stack"):
            browser.keys(RIGHT)
            self.assertEqual(browser.run("return document.activeElement.id"), "tab-" + name)
            self.assertTrue(browser.has("#panel-" + name))

    def test_the_focus_stays(self) -> None:
        """What is done by a key leaves the focus where it is, also where the page draws anew."""
        self.open_stack("quiz")
        browser, focus = self.browser, "return document.activeElement.id"
        self.until("the cards", lambda: browser.has("#go-11"))
        browser.run("document.querySelector('#go-11').focus()")
        browser.keys(ENTER)
        self.until("the card", lambda: "Sea" in browser.text("#card-title"))
        self.rest()
        self.until("the mark", lambda: browser.attribute("#go-11", "aria-current") == "true")
        self.assertEqual(browser.run(focus), "go-11")
        browser.click("#part-6 .more")
        self.until("the inspector", lambda: browser.has("#object-hilite"))
        for value in ("true", "false"):
            browser.run("document.querySelector('#object-hilite').focus()")
            browser.keys(" ")
            self.until("the hilite", lambda: browser.attribute("#button-6", "aria-pressed") == value)
            self.rest()
            self.assertEqual(browser.run(focus), "object-hilite")
        browser.type("#line", "put 1" + ENTER)
        self.until("the answer", lambda: browser.text("#answer") == "1")
        self.rest()
        self.assertEqual(browser.run(focus), "line")

    def test_everything_has_a_name(self) -> None:
        for name in ("quiz", "address_book"):
            self.open_stack(name)
            for panel in ("object", "script", "lines", "history", "values", "stack"):
                self.browser.click("#tab-" + panel)
                self.rest()
                self.assertEqual(self.browser.run(NAMELESS), [])
            self.assertEqual(self.browser.attribute("#answer", "role"), "status")
            self.assertEqual(self.browser.attribute("#notices", "role"), "alert")

    def test_readable_in_the_light_and_in_the_dark(self) -> None:
        self.open_stack("quiz")
        self.browser.click("#button-6")
        self.say("no such command")
        colors = set()
        for scheme in ("light", "dark"):
            self.browser.scheme(scheme)
            time.sleep(0.3)
            colors.add(self.browser.run("return getComputedStyle(document.body).backgroundColor"))
            for panel in ("object", "script", "lines", "history", "values", "stack"):
                self.browser.click("#tab-" + panel)
                self.rest()
                self.assertEqual(self.browser.run(PALE), [], scheme)
        self.browser.scheme("light")
        self.assertEqual(len(colors), 2)

    def test_a_telephone(self) -> None:
        self.open_stack("address_book")
        self.browser.resize(390, 800)
        try:
            for panel in ("object", "script", "lines", "history", "values", "stack"):
                self.browser.click("#tab-" + panel)
                self.rest()
                width = self.browser.run("return [document.documentElement.scrollWidth, innerWidth]")
                self.assertEqual(width, [390, 390], panel)
        finally:
            self.browser.resize(1280, 900)


if __name__ == "__main__":
    unittest.main()
