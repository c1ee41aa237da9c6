"""Tests of the terminal in a real pseudo-terminal: pastes, Control-C, Control-D, the end, and the window."""

import os
import signal
import sys
import time
import unittest

from front import program
from front.tests.at_terminal import MOST_STEPS, TERMINAL, AtATerminal, pasted
from front.tests.screen import CONTROL_D, TAB, Screen, child_of
from front.tests.support import ENDLESS, bytes_of


class Pastes(AtATerminal):
    HANDLER = "\r".join(["on count", *("  put %d into line %d of seen" % (n, n) for n in range(1, 38)),
                         "  put the number of lines of seen", "end count"])

    def is_set_for(self, screen: Screen, answer: str, script_of: str) -> None:
        """Answers the question, and sees that the handler stands where it belongs and runs."""
        screen.wait("For which object? [this card] ")
        screen.enter(answer)
        screen.wait('set the script of %s to ("on count" & return' % script_of)
        screen.wait("ok\r\nA> ")
        screen.enter("put the number of lines of the script of %s" % script_of)
        screen.wait("> 40\r\nok")

    def test_a_handler_of_40_lines(self) -> None:
        screen = self.open()
        screen.type(pasted(self.HANDLER))
        self.is_set_for(screen, "", "this card")
        screen.enter("count")
        screen.wait("\r\n> 37\r\nok")

    def test_a_handler_that_comes_as_if_it_was_typed(self) -> None:
        screen = self.open()
        screen.enter(self.HANDLER)
        self.is_set_for(screen, "stack", "this stack")
        screen.enter("count")
        screen.wait("\r\n> 37\r\nok")

    def test_a_handler_replaces_the_one_of_its_name(self) -> None:
        screen = self.open()
        screen.type(pasted('on greet\rput "one"\rend greet'))
        screen.wait("? [this card] ")
        screen.enter("field 1")
        screen.wait("It is added to the script of bkgnd field \"Note\"")
        screen.wait("ok\r\n")
        screen.type(pasted('on GREET\rput "two"\rend greet'))
        screen.wait("? [this card] ")
        screen.enter('field "Note"')
        screen.wait('It replaces the handler of its name in the script of bkgnd field "Note"')
        screen.wait('set the script of field "Note" to "on GREET" & return & "put " & quote & "two" & quote')
        screen.wait("ok\r\n")
        screen.enter('send "greet" to field 1')
        screen.wait("\r\n> two\r\nok")
        screen.enter(".undo 2")
        screen.enter('send "greet" to field 1')
        screen.wait("\r\n> one\r\nok")

    def test_what_is_pasted_behind_a_handler_is_no_answer_to_the_question(self) -> None:
        for around in (pasted, lambda text: text + "\r"):
            screen = self.open()
            screen.type(around('on ann\rput 11\rend ann\ron bob\rput 22\rend bob\rann\rbob'))
            screen.wait("? [this card] ")
            screen.enter("")
            screen.wait("? [this card] ")
            screen.enter("this stack")
            screen.wait("\r\n> 11\r\n")
            screen.wait("\r\n> 22\r\n")

    def test_handlers_of_one_paste_are_for_one_object_unless_told(self) -> None:
        screen = self.open()
        screen.type(pasted("on ann\rend ann\r\r-- and\ron bob\rend bob"))
        screen.wait("? [this card] ")
        screen.enter("stack")
        screen.wait("? [stack] ")
        screen.enter("")
        screen.wait('set the script of this stack to "on ann" & return & "end ann" & return & "on bob"')
        screen.wait("ok\r\n")
        screen.type(pasted("on ann\rend ann"))
        screen.wait("? [this card] ")

    def test_the_object_that_is_asked_for_is_completed(self) -> None:
        screen = self.open()
        screen.type(pasted("on ann\rend ann"))
        screen.wait("? [this card] ")
        screen.enter("fi" + TAB)
        screen.wait('It is added to the script of bkgnd field "Note"')

    def test_an_object_that_is_not_there_is_asked_for_again(self) -> None:
        screen = self.open()
        screen.type(pasted("on ann\rend ann"))
        screen.wait("? [this card] ")
        screen.enter('button "Go"')
        screen.wait("fault 3")
        screen.wait("? [this card] ")
        screen.enter("nonsense )")
        screen.wait("an object is named as in HyperTalk")
        screen.wait("? [this card] ")
        screen.interrupt()
        screen.wait("The handler isn't taken.")

    def test_a_paste_of_20000_bytes(self) -> None:
        lines = ["put %d * 10000 + 70" % number for number in range(1_000)]
        text = "\r".join(lines)
        self.assertGreater(len(text), 20_000)
        for whole in (pasted(text), text + "\r"):
            screen = self.open()
            screen.type(whole)
            for number in range(1_000):
                screen.wait("> %d\r\nok" % (number * 10000 + 70), 30)

    def test_a_line_of_20000_bytes(self) -> None:
        line = 'put the length of "%s"' % ("x" * 20_000)
        for whole in (pasted(line), line + "\r"):
            screen = self.open()
            screen.type(whole)
            screen.wait("> 20000\r\nok", 30)

    def test_a_long_line_while_the_program_works(self) -> None:
        screen = self.open("--steps", MOST_STEPS)
        screen.enter('do "repeat 300000" & return & "get 1" & return & "end repeat"')
        screen.enter('put the length of "%s"' % ("x" * 20_000))
        screen.wait("> 20000\r\nok", 60)

    def test_a_text_that_fits_no_line(self) -> None:
        screen = self.open()
        body = "\r".join('  put "' + "x" * 90 + '" into t' for _ in range(270))
        screen.type(pasted("on big\r" + body + "\r  put the length of t\rend big"))
        screen.wait("? [this card] ", 30)
        screen.enter("")
        screen.wait("It doesn't fit one line; these are 3 commands, so .undo 3 takes them back.")
        for _ in range(3):
            screen.wait("ok\r\n")
        screen.enter("big")
        screen.wait("\r\n> 90\r\nok")


class Control(AtATerminal):
    LOOP = "\r".join(ENDLESS).replace("into g", "into field 1")

    def test_control_c_breaks_a_command_off(self) -> None:
        screen = self.open("--steps", MOST_STEPS)
        screen.enter('put "kept" into field 1')
        screen.wait("ok\r\nA> ")
        screen.enter("put 5 into n")
        screen.wait("ok\r\nA> ")
        screen.type(pasted(self.LOOP))
        screen.wait("end repeat\r\n")
        start = time.monotonic()
        screen.interrupt()
        screen.wait("Broken off. All is as before that line.\r\nA> ")
        # It takes a fraction of a second; beside other work, on a slow machine, it may take longer.
        self.assertLess(time.monotonic() - start, 5.0)
        screen.enter("put field 1 && n")
        screen.wait("\r\n> kept 5\r\nok")
        screen.enter(".history")
        screen.wait("\r\n> 3 0\r\nok")

    def test_a_line_that_takes_too_long_is_broken_off(self) -> None:
        screen = self.open("--steps", MOST_STEPS, "--minutes=0.03")
        screen.enter("put 5 into n")
        screen.wait("ok\r\nA> ")
        screen.type(pasted(self.LOOP + "\rput 6 into n"))
        screen.wait("Broken off: it took longer than 0.03 minutes. All is as before that line.\r\n")
        screen.wait("What was pasted behind it isn't taken: 1 line.\r\nA> ")
        screen.enter("put n")
        screen.wait("\r\n> 5\r\nok")

    def test_control_c_keeps_what_was_saved_and_what_was_not(self) -> None:
        screen = self.open("--steps", MOST_STEPS)
        screen.enter('put "saved" into field 1')
        screen.enter(".save")
        screen.enter('put "later" into field 1')
        screen.wait("ok\r\nA> ")
        screen.type(pasted(self.LOOP))
        screen.interrupt()
        screen.wait("Broken off.")
        self.assertIn("|saved\n", self.saved())
        screen.enter(".save")
        screen.wait("ok\r\n")
        self.assertIn("|later\n", self.saved())

    def test_what_was_pasted_behind_is_dropped(self) -> None:
        screen = self.open("--steps", MOST_STEPS)
        screen.type(pasted(self.LOOP + "\rput 1\rput 2"))
        screen.interrupt()
        screen.wait("What was pasted behind it isn't taken: 2 lines.")

    def test_control_c_drops_a_line_and_a_block(self) -> None:
        screen = self.open()
        screen.type("put 1 + ")
        screen.interrupt()
        screen.wait("\r\nA> ")
        screen.enter("repeat 3")
        screen.wait(".. ")
        screen.interrupt()
        screen.wait("\r\nA> ")
        screen.enter("put 42")
        screen.wait("\r\n> 42\r\nok")

    def test_control_d_ends(self) -> None:
        screen = self.open()
        screen.enter("put 1")
        screen.wait("ok\r\nA> ")
        screen.type(CONTROL_D)
        self.assertEqual(screen.status(), 0)

    def test_control_d_in_a_block_drops_it(self) -> None:
        screen = self.open()
        screen.enter("repeat 3")
        screen.wait(".. ")
        screen.type(CONTROL_D)
        screen.wait("It isn't taken: end repeat was missing.\r\nA> ")

    def change(self) -> Screen:
        screen = self.open()
        screen.enter('put "changed" into field 1')
        screen.wait("ok\r\nA> ")
        return screen

    def test_quitting_asks_once_and_saves(self) -> None:
        screen = self.change()
        screen.enter(".quit")
        screen.wait("Save them? ")
        screen.enter("y")
        self.assertEqual(screen.status(), 0)
        self.assertIn("|changed\n", self.saved())

    def test_quitting_asks_once_and_does_not_save(self) -> None:
        screen = self.change()
        screen.type(CONTROL_D)
        screen.wait("Save them? ")
        screen.enter("n")
        self.assertEqual(screen.status(), 0)
        self.assertNotIn("|changed\n", self.saved())

    def test_quitting_can_be_thought_better_of(self) -> None:
        screen = self.change()
        screen.enter(".quit")
        screen.wait("Save them? ")
        screen.enter("")
        screen.wait("A> ")
        screen.enter(".undo")
        screen.wait("ok\r\nA> ")
        screen.enter(".quit")
        self.assertEqual(screen.status(), 0)

    def test_what_was_not_saved_is_kept_where_the_input_ends(self) -> None:
        screen = self.change()
        screen.type(CONTROL_D)
        screen.wait("Save them? ")
        screen.type(CONTROL_D)
        screen.wait("What wasn't saved is in my.stack.unsaved.")
        self.assertEqual(screen.status(), 0)
        with open(self.stack + ".unsaved") as file:
            self.assertIn("|changed\n", file.read())

    def test_what_was_not_saved_is_kept_where_the_terminal_goes(self) -> None:
        screen = self.change()
        screen.hang_up()
        self.assertEqual(screen.process.wait(10), 1)
        with open(self.stack + ".unsaved") as file:
            self.assertIn("|changed\n", file.read())

    def test_a_program_that_is_killed_is_started_again(self) -> None:
        screen = self.change()
        os.kill(child_of(screen.process.pid) or 0, signal.SIGKILL)
        screen.enter("put 1")
        screen.wait("the program ended by signal 9, SIGKILL")
        screen.wait("It is started again, and gets all lines again that were answered.\r\nA> ")
        screen.enter("put field 1")
        screen.wait("\r\n> changed\r\nok")

    def test_the_window_can_be_resized(self) -> None:
        screen = self.open()
        screen.resize(40, 10)
        time.sleep(0.1)
        screen.type('put "' + "a" * 60)
        time.sleep(0.1)
        screen.resize(120, 30)
        time.sleep(0.1)
        screen.enter('" & "b"')
        screen.wait("\r\n> " + "a" * 60 + "b\r\nok")

    def test_the_terminal_is_left_as_it_was(self) -> None:
        words = 'stty -a > before; "%s" -B "%s" my.stack; stty -a > after' % (sys.executable, TERMINAL)
        environment = {**os.environ, program.VARIABLE: program.path(), "HOME": self.folder, "TERM": "xterm"}
        screen = Screen(["sh", "-c", words], environment, self.folder)
        self.addCleanup(screen.close)
        screen.wait("A> ")
        screen.type(CONTROL_D)
        self.assertEqual(screen.status(), 0)
        before, after = (bytes_of(os.path.join(self.folder, name)) for name in ("before", "after"))
        self.assertEqual(before, after)
        self.assertIn(b" icanon", before)


if __name__ == "__main__":
    unittest.main()
