"""What tests of the page share: a browser that shows the page of a stack."""

import sys
import threading
import unittest
from typing import Any, Callable, List

from front.server_desk import PageDesk
from front.server_door import Door
from front.server_play import Options, Play
from front.server_told import log_of
from front.session import Session
from front.stack_text import FIELD
from front.stored import steps_of
from front.tests.browser import ENTER, Browser, found
from front.tests.support import FolderTest, bytes_of, there

NO_BROWSER = "no browser with a driver is here (chromium, chromedriver): the page wasn't tried"
MOST_STEPS = 10_000_000

if found() is None:
    print("page: " + NO_BROWSER, file=sys.stderr, flush=True)


@unittest.skipIf(found() is None, NO_BROWSER)
class PageTest(FolderTest):
    """A browser that shows the page of a stack."""

    browser: Browser

    @classmethod
    def setUpClass(cls) -> None:
        cls.browser = Browser()
        cls.addClassCleanup(cls.browser.close)

    def open(self, text: bytes, name: str = "test.stack") -> None:
        """Serves a stack, and opens its page."""
        self.path = self.put(name, text)
        self.play = Play(self.path, Options(steps=MOST_STEPS))
        self.addCleanup(self.play.close)
        self.door = Door(PageDesk(self.play), "key-of-the-test")
        self.addCleanup(self.door.server_close)
        threading.Thread(target=self.door.serve_forever, kwargs={"poll_interval": 0.01}, daemon=True).start()
        self.addCleanup(self.door.shutdown)
        self.browser.complaints()
        self.addCleanup(self.leave)
        self.browser.go(self.door.address)
        self.browser.wait("the card", lambda: self.browser.text("#card-title") != "Card")

    def open_stack(self, name: str) -> None:
        self.open(bytes_of(there("stacks/%s.stack" % name)), name + ".stack")

    def leave(self) -> None:
        """Leaves the page, and closes all tabs but one."""
        tabs = self.browser.tabs()
        for tab in tabs[1:]:
            self.browser.choose(tab)
            self.browser.run("window.onbeforeunload = null; page.drafts.clear(); page.script = null; window.close()")
        self.browser.choose(tabs[0])
        self.browser.run("if (typeof page === 'object') { page.drafts.clear(); page.script = null; }")
        self.assert_no_complaints()
        self.browser.go("about:blank")

    def say(self, line: str) -> None:
        """Sends a line by the message box, and waits for its answer."""
        before = self.play.known.revision
        self.browser.write("#line", line)
        self.browser.type("#line", ENTER)
        self.until("the answer to " + line, lambda: self.play.known.revision > before)
        self.rest()

    def lines(self) -> List[bytes]:
        """The lines that the user sent."""
        return [entry.line for entry in self.play.session.lines if not entry.own]

    def until(self, what: str, holds: Callable[[], Any]) -> Any:
        return self.browser.wait(what, holds)

    def rest(self) -> None:
        """Waits until the page shows what the server knows, and no act is at work."""
        self.until("rest", lambda: self.browser.run(
            "return !page.working && !refreshing && page.state.revision === arguments[0]", self.play.known.revision))

    def field(self, name: str) -> str:
        """The text of the field of this name on the current card, by the stack."""
        objects = self.play.known.objects
        part = next(each for each in objects.background.parts + objects.card.parts
                    if each.kind == FIELD and each.name == name.encode())
        return objects.text(part).decode("mac_roman")

    def assert_as_by_lines(self) -> None:
        """The file has what the same lines make of the same stack, without a page."""
        steps = steps_of(log_of(self.play.session.lines))
        copy = self.put("copy.stack", self.play.session.file.bytes)
        with Session(copy, steps=MOST_STEPS) as session:
            for step in steps:
                self.assertEqual([line.rstrip(b" ") for line in session.send(step.line).lines()], step.answers)
        self.assertEqual(bytes_of(copy), bytes_of(self.path))

    def assert_no_complaints(self) -> None:
        self.assertEqual([each for each in self.browser.complaints() if " 409 " not in each], [])
