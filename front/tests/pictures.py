"""Makes the pictures of the page that stand in docs/: python3 -m front.tests.pictures [FOLDER]

It needs a browser with a driver and the program. It ends with 0, or with 1 where one of them isn't here.
"""

import os
import sys
import tempfile
import threading
from typing import List

from front import program
from front.server_desk import PageDesk
from front.server_door import Door
from front.server_play import Options, Play
from front.tests.browser import ENTER, Browser, found
from front.tests.support import bytes_of, there

SIZE = (1240, 830)


def show(browser: Browser, folder: str, stack: str) -> Play:
    """Opens the page of a copy of a stack."""
    path = os.path.join(folder, stack + ".stack")
    with open(path, "wb") as file:
        file.write(bytes_of(there("stacks/%s.stack" % stack)))
    play = Play(path, Options())
    door = Door(PageDesk(play), "key-of-the-pictures")
    threading.Thread(target=door.serve_forever, daemon=True).start()
    browser.go(door.address)
    browser.wait("the card", lambda: browser.text("#card-title") != "Card")
    return play


def say(browser: Browser, play: Play, line: str) -> None:
    """Sends a line by the message box."""
    before = play.known.revision
    browser.write("#line", line)
    browser.type("#line", ENTER)
    rest(browser, play, before)


def press(browser: Browser, play: Play, selector: str) -> None:
    """Clicks what changes the stack."""
    before = play.known.revision
    browser.click(selector)
    rest(browser, play, before)


def rest(browser: Browser, play: Play, before: int) -> None:
    """Waits until the page shows what comes after a revision."""
    browser.wait("the answer", lambda: play.known.revision > before and browser.run(
        "return !page.working && !refreshing && page.state.revision > arguments[0]", before))


def quiz(browser: Browser, folder: str, to: str) -> None:
    """The quiz in the light, with its history and what differs."""
    play = show(browser, folder, "quiz")
    for selector in ("#button-6", "#button-8", "#button-7"):
        press(browser, play, selector)
    browser.click("#tab-history")
    browser.wait("the places", lambda: browser.text("#places"))
    browser.click("#compare button")
    browser.wait("what differs", lambda: browser.text("#diff"))
    browser.run("document.activeElement.blur()")
    browser.picture(os.path.join(to, "page-quiz.png"))
    play.close()


def address_book(browser: Browser, folder: str, to: str) -> None:
    """The address book in the dark, with a script."""
    browser.scheme("dark")
    play = show(browser, folder, "address_book")
    say(browser, play, 'search "London"')
    browser.click("#tab-object")
    browser.wait("the inspector", lambda: browser.has("#edit-script"))
    browser.run("openScript(0)")
    browser.wait("the script", lambda: browser.value("#script"))
    browser.run("document.activeElement.blur()")
    browser.picture(os.path.join(to, "page-address-book.png"))
    play.close()


def main(words: List[str]) -> int:
    """Makes both pictures."""
    if found() is None:
        print("pictures: no browser with a driver is here", file=sys.stderr)
        return 1
    to = words[0] if words else os.path.join(program.HERE, "docs")
    browser = Browser(SIZE)
    try:
        with tempfile.TemporaryDirectory() as folder:
            browser.resize(*SIZE)
            quiz(browser, folder, to)
            address_book(browser, folder, to)
    finally:
        browser.close()
    return 0


if __name__ == "__main__":
    sys.exit(main(sys.argv[1:]))
