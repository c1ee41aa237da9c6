"""Tests of the terminal in a real pseudo-terminal: lines and their answers, looks, scripts in an editor."""

import os
import stat
import sys
import unittest
from typing import Optional

from front.tests.at_terminal import TERMINAL, AtATerminal
from front.tests.screen import CONTROL_D, TAB, UP, Screen


class Lines(AtATerminal):
    def test_the_prompt_is_the_name_of_the_current_card(self) -> None:
        screen = self.open()
        screen.enter("go next")
        screen.wait("ok\r\nB> ")
        screen.enter('set the name of this card to ""')
        screen.wait("ok\r\ncard id 4> ")

    def test_a_fault_is_told_in_words(self) -> None:
        screen = self.open()
        screen.enter("put 1 div 0")
        screen.wait("fault 6, DivideByZero: ")
        screen.enter("put filed 1")
        screen.wait("refused 3, ")

    def test_quiet_leaves_the_words_out(self) -> None:
        screen = self.open("--quiet")
        screen.enter("put 1 div 0")
        screen.wait("fault 6\r\n")

    def test_letters_are_utf_8(self) -> None:
        screen = self.open()
        screen.enter('put "é\\" & return')
        screen.wait("\r\n> é\\5c\\0d\r\nok")
        screen.enter('put the length of "é"')
        screen.wait("\r\n> 2\r\nok")

    def test_letters_are_utf_8_in_the_simplest_locale_too(self) -> None:
        screen = self.open(locale="C")
        screen.enter('put the length of "é" & "é"')
        screen.wait("\r\n> 2é\r\nok")

    def test_letters_are_mac_roman_on_request(self) -> None:
        screen = self.open("--mac-roman")
        screen.enter('put "é" & numToChar(165) & (2 ≤ 3)')
        screen.wait("\r\n> é•true\r\nok")
        screen.enter('put the length of "é"')
        screen.wait("\r\n> 1\r\nok")
        screen.enter('put "語"')
        screen.wait("The line isn't taken: the line has the character 語, which Mac Roman doesn't have.")
        screen.enter("put 1 + ¬")
        screen.wait(".. ")
        screen.enter("2")
        screen.wait("\r\n> 3\r\nok")

    def test_letters_are_as_the_stack_has_them(self) -> None:
        with open(self.stack, "rb") as file:
            text = file.read()
        with open(self.stack, "wb") as file:
            file.write(text.replace(b"name |A\n", b"name |\\8e\n", 1))
        screen = self.open(stack="my.stack")
        screen.wait("Its texts are read as Mac Roman, since some aren't UTF-8")
        screen.wait("\r\né> ")
        screen.enter('put the length of "é"')
        screen.wait("\r\n> 1\r\nok")
        self.open("--utf-8", stack="my.stack").wait("typed.\r\n\\8e> ")

    def test_messages_are_shown_on_request(self) -> None:
        screen = self.open("--watch")
        screen.enter(".open")
        screen.wait("openStack 2\r\nopenBackground 2\r\nopenCard 2\r\nok")

    def test_a_block_goes_on_to_its_end(self) -> None:
        screen = self.open()
        for line in ("repeat with i = 1 to 2", "if i = 2 then", 'put "two"', "end if"):
            screen.enter(line)
            screen.wait(".. ")
        screen.enter("end repeat")
        screen.wait("\r\n> two\r\nok\r\nA> ")
        screen.enter(".undo")
        screen.wait("ok")
        screen.enter(".history")
        screen.wait("> 0 1\r\nok")

    def test_undo_counts_the_lines_of_the_user(self) -> None:
        screen = self.open()
        for line in ('put "one" into field 1', ".nonsense", 'put "three" into field 1', ".undo to 2", "put field 1"):
            screen.enter(line)
        screen.wait("\r\n> one\r\nok")
        screen.enter(".undo to 99")
        screen.wait("refused 1")

    def test_a_line_is_found_again_in_the_next_session(self) -> None:
        screen = self.open()
        screen.enter('put "found" & "again"')
        screen.wait("> foundagain\r\nok")
        screen.type(CONTROL_D)
        self.assertEqual(screen.status(), 0)
        again = self.open()
        again.type(UP)
        again.wait('put "found" & "again"')

    def test_a_wrong_stack_is_told_by_the_program(self) -> None:
        with open(self.stack, "w") as file:
            file.write("htstack 3\n")
        screen = Screen([sys.executable, "-B", TERMINAL, "my.stack"], dict(os.environ), self.folder)
        self.addCleanup(screen.close)
        screen.wait("stack refused 1 at line 1")
        self.assertEqual(screen.status(), 2)

    def test_wrong_words_are_told_by_the_program(self) -> None:
        screen = Screen([sys.executable, "-B", TERMINAL, "--nonsense"], dict(os.environ), self.folder)
        self.addCleanup(screen.close)
        screen.wait("--nonsense")
        self.assertEqual(screen.status(), 2)


class Looks(AtATerminal):
    ORIGINAL = os.path.join("stacks", "to_do.stack")

    def open(self, *words: str, editor: str = "false", stack: Optional[str] = None) -> Screen:
        screen = super().open(*words, editor=editor, stack="my.stack")
        screen.wait("Today> ")
        return screen

    def test_cards_and_the_card(self) -> None:
        screen = self.open()
        screen.enter(".cards")
        screen.wait('* 1  card "Today" (id 3), bkgnd "List"\r\n  2  card "Some day" (id 7), bkgnd "List"\r\n')
        screen.enter(".card")
        screen.wait('card "Today" (id 3), card 1 of 2, bkgnd "List"\r\n'
                    '  bkgnd field "Status" (id 2), locked:\r\n    | 1 of 3 done\r\n'
                    '  [x] card button "Water the plants" (id 4)\r\n  [ ] card button "Call Ada" (id 5)\r\n')

    def test_a_script_with_its_numbers(self) -> None:
        screen = self.open()
        screen.enter(".script bg")
        screen.wait('bkgnd "List" (id 1)\r\n 1  on openCard\r\n 2    showTasks\r\n')
        screen.enter(".script this stack")
        screen.wait('stack "To Do" (id 0) has no script')

    def test_a_look_changes_nothing_that_can_be_undone_or_redone(self) -> None:
        screen = self.open()
        screen.enter("go next")
        screen.enter(".undo")
        for line in (".script bg", ".cards", ".card", ".diff", ".script card 2", ".script card (1 + 1)"):
            screen.enter(line)
        screen.enter(".history")
        screen.wait("\r\n> 0 1\r\nok")

    def test_the_difference_of_the_last_command(self) -> None:
        screen = self.open()
        screen.enter('.click button "Call Ada"')
        screen.wait("ok\r\n")
        screen.enter(".where")
        screen.wait("ok\r\n")
        screen.enter(".diff")
        screen.wait("- hilite false\r\n+ hilite true\r\n")
        screen.wait("- |1 of 3 done\r\n+ |2 of 3 done\r\n")
        screen.enter(".undo")
        screen.wait("ok\r\n")
        screen.enter(".diff")
        screen.wait("- |2 of 3 done\r\n+ |1 of 3 done\r\n")
        screen.enter("put 1")
        screen.wait("ok\r\n")
        screen.enter(".diff")
        screen.wait("The last command changed nothing")

    def test_the_log_is_a_session_that_runs(self) -> None:
        screen = self.open()
        lines = ['.click button "Call Ada"', "put 1 div 0", "go next", ".undo to 1", "put field 1", 'put ""']
        for line in lines:
            screen.enter(line)
            screen.wait(line)
            screen.wait("> ")
        screen.enter(".log my.session")
        screen.wait("Kept in my.session.")
        path = os.path.join(self.folder, "my.session")
        with open(path, "rb") as file:
            kept = file.read()
        wanted = (b'.click button "Call Ada"\nok\nput 1 div 0\nfault 6\ngo next\n> Some day: 0 of 1 done\n'
                  b'> [ ] Learn the cello\nok\n.undo to 1\nok\nput field 1\n> 2 of 3 done\nok\nput ""\n>\nok\n')
        self.assertEqual(kept, wanted)
        screen.enter(".log my.session")
        screen.wait("my.session is there. Write over it? ")
        screen.enter("n")
        screen.enter(".log /nowhere/a")
        screen.wait("The session isn't kept: ")

    def test_help_names_each_line(self) -> None:
        screen = self.open()
        screen.enter(".help")
        text = screen.wait("has the whole language.")
        for word in (".open", ".click", ".type", ".undo", ".redo", ".show", ".globals", ".where", ".cells", ".history",
                     ".save", ".quit", ".cards", ".card", ".script", ".edit", ".diff", ".log", ".help"):
            self.assertIn(word + " ", text)

    def test_tab_completes(self) -> None:
        screen = self.open()
        for typed, wanted in ((".his", "> 0 0\r\nok"), ('put the hilite of button "Wa', "> true\r\nok"),
                              ("put the short na\t of this card", "> Today\r\nok"), ("showT", "> [x] Water"),
                              ('.script card "So', "has no script")):
            screen.enter(typed if TAB in typed else typed + TAB)
            screen.wait(wanted)
            screen.wait("Today> ")


class Editing(AtATerminal):
    def editor(self, *bodies: str) -> str:
        """An editor that writes these scripts, one each time it is called, the last one from then on."""
        path = os.path.join(self.folder, "editor")
        with open(path, "w") as file:
            file.write("#!%s\nimport os, sys\nbodies = %r\n" % (sys.executable, bodies))
            file.write("count = path = os.path.join(os.path.dirname(sys.argv[0]), 'count')\n"
                       "at = int(open(path).read()) if os.path.exists(path) else 0\n"
                       "open(path, 'w').write(str(at + 1))\n"
                       "open(path + '.was', 'wb').write(open(sys.argv[1], 'rb').read())\n"
                       "open(sys.argv[1], 'w').write(bodies[min(at, len(bodies) - 1)])\n")
        os.chmod(path, os.stat(path).st_mode | stat.S_IXUSR)
        return path

    def test_a_script_is_edited(self) -> None:
        screen = self.open(editor=self.editor('on greet\n  put "é"\nend greet\n'))
        screen.enter(".edit this card")
        screen.wait('set the script of this card to "on greet" & return & "  put " & quote & "é" & quote & return')
        screen.wait("ok\r\nA> ")
        screen.enter("greet")
        screen.wait("\r\n> é\r\nok")
        screen.enter(".edit this card")
        screen.wait("The script is as it was.")

    def test_a_wrong_script_is_told_and_can_be_edited_again(self) -> None:
        screen = self.open(editor=self.editor("on greet\n  put (\nend greet\n", "on greet\n  put 5\nend greet\n"))
        screen.enter(".edit field 1")
        screen.wait('bkgnd field "Note" (id 3), line 2, column')
        screen.wait("not in the grammar")
        screen.wait("[e]dit it, [s]et it all the same, or [d]rop it? ")
        screen.enter("e")
        screen.wait("ok\r\nA> ")
        with open(os.path.join(self.folder, "count.was")) as file:
            self.assertEqual(file.read(), "on greet\n  put (\nend greet\n")
        screen.enter('send "greet" to field 1')
        screen.wait("\r\n> 5\r\nok")

    def test_a_wrong_script_can_be_dropped(self) -> None:
        screen = self.open(editor=self.editor("on greet\n  put (\nend greet\n"))
        screen.enter(".edit this card")
        screen.wait("[d]rop it? ")
        screen.enter("d")
        screen.wait("The script isn't set.\r\nA> ")
        screen.enter(".history")
        screen.wait("\r\n> 0 0\r\nok")

    def test_an_editor_that_fails_changes_nothing(self) -> None:
        screen = self.open(editor="false")
        screen.enter(".edit this card")
        screen.wait("The script isn't set: the editor false ended with status 1\r\nA> ")
        screen = self.open(editor="no-such-editor")
        screen.enter(".edit this card")
        screen.wait("The script isn't set: the editor no-such-editor can't be started")

    def test_a_script_that_is_too_long(self) -> None:
        screen = self.open(editor=self.editor("--" + "x" * 30_000 + "\n"))
        screen.enter(".edit this card")
        screen.wait("The script has 30002 bytes; 30000 is the most.")
        screen.wait("[e]dit it, or [d]rop it? ")
        screen.enter("d")
        screen.wait("The script isn't set.")


if __name__ == "__main__":
    unittest.main()
