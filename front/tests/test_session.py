"""Sessions: lines and answers, commands that are broken off, programs that end, and files that are saved."""

import fcntl
import os
import signal
import stat
import threading
import time
import unittest
from concurrent.futures import ThreadPoolExecutor
from typing import Optional

from front import program
from front.answers import Answer, answer_of
from front.running import Running
from front.session import Ended, Garbled, Interrupted, Session, TookTooLong, minutes_of
from front.stack_text import Background, Card, Part, Stack, read, write
from front.tests.support import DEMO, ENDLESS, FolderTest, bytes_of, there

MOST_STEPS = 10_000_000
# A break takes a fraction of a second; beside other work, on a slow machine, it may take longer.
MOST_SECONDS = 5.0
LOOP = "\r".join(ENDLESS).encode()
NEW_BUTTON = b'doMenu "New Button"'

# A program whose answers count its runs, as those of an external do that looks outside.
FREE = """#!/usr/bin/env python3
import os, sys
if "--version" in sys.argv:
    sys.exit(0)
count = sys.argv[0] + ".count"
number = int(open(count).read()) + 1 if os.path.exists(count) else 1
open(count, "w").write(str(number))
for line in sys.stdin:
    print({"outside": "> %d\\nok" % number, "garble": "what?"}.get(line.strip(), "> 2\\nok"), flush=True)
"""

# A program whose first run comes to no end after a save, or doesn't outlive it.
STUCK = """#!/usr/bin/env python3
import os, sys, time
if "--version" in sys.argv:
    sys.exit(0)
stack, runs = sys.argv[1], sys.argv[0] + ".runs"
is_first = not os.path.exists(runs)
open(runs, "w").close()
for line in sys.stdin:
    if line == ".save\\n":
        with open(stack + ".new", "w") as file:
            file.write("saved\\n")
        os.rename(stack + ".new", stack)
        if is_first and "dies" in stack:
            os.abort()
        if is_first:
            time.sleep(60)
    print("> 2\\nok", flush=True)
"""


class Sender(threading.Thread):
    """A thread that sends a line."""

    def __init__(self, session: Session, line: bytes) -> None:
        super().__init__()
        self._session, self._line = session, line
        self._raised: Optional[Exception] = None
        self.start()

    def run(self) -> None:
        try:
            self._session.send(self._line)
        except Exception as error:
            self._raised = error

    def ended(self) -> Optional[Exception]:
        """What the line raised, once the thread has ended."""
        self.join()
        return self._raised


class SessionTest(FolderTest):
    def opened(self, path: Optional[str] = None, steps: Optional[int] = None, depth: Optional[int] = None,
               watch: bool = True) -> Session:
        session = Session(path or self.put_demo(), steps, depth, watch)
        self.addCleanup(session.close)
        return session

    def says(self, session: Session, line: bytes, *wanted: str) -> Answer:
        """Sees what a line answers."""
        answer = session.send(line)
        self.assertEqual([each.decode() for each in answer.lines()], list(wanted), line)
        return answer


class Answers(SessionTest):
    def test_lines_are_answered(self) -> None:
        session = self.opened()
        self.says(session, b'put "a\\b" & tab', "> a\\5cb\\09", "ok")
        self.says(session, b"put 1 div 0", "fault 6")
        self.says(session, b"put (", "refused 3")
        self.says(session, b"", "ok")
        self.says(session, b"put 1\rput 2 -- and a return", "> 1", "> 2", "ok")
        self.assertEqual([entry.line for entry in session.lines[1:3]], [b'put "a\\b" & tab', b"put 1 div 0"])
        self.assertEqual(session.lines[1].answer.texts(), [b"a\\b\t"])
        self.assertEqual((session.lines[2].answer.ending, session.lines[2].answer.number), ("fault", 6))

    def test_looks_of_the_front_are_own_lines(self) -> None:
        session = self.opened()
        self.assertEqual([(entry.line, entry.own) for entry in session.lines], [(b".where", True)])
        session.send(NEW_BUTTON)
        self.assertEqual((session.where(), session.history()), (2, (1, 0)))
        self.assertEqual(write(read(session.text())), session.text())
        self.assertEqual([entry.own for entry in session.lines], [True, False, True, True, True, True])

    def test_numbers_of_the_users_lines(self) -> None:
        session = self.opened()
        for number in (b"1", b"2", b"3"):
            session.send(b"put %b into g" % number)
            session.history()
        self.assertEqual([session.number_of(mine) for mine in range(4)], [0, 2, 4, 6])
        self.assertRaises(ValueError, session.number_of, 4)
        self.assertRaises(ValueError, session.number_of, -1)
        self.says(session, b".undo to %d" % session.number_of(2), "ok")
        self.says(session, b".globals", "> g 2", "ok")

    def test_messages_are_watched(self) -> None:
        session = self.opened()
        self.assertEqual(session.send(b".open").watched, [("openStack", 2), ("openBackground", 2), ("openCard", 2)])
        self.assertEqual(self.opened(watch=False).send(b".open").watched, [])

    def test_many_messages_and_long_answers(self) -> None:
        session = self.opened(steps=MOST_STEPS)
        session.send(b'set the script of this card to "on m" & return & "end m"')
        answer = session.send(b"repeat 40000\rm\rend repeat")
        self.assertEqual((answer.verdict, len(answer.watched)), ("ok", 40_000))
        session.send(b'put "x" into g\rrepeat 14\rput g & g into g\rend repeat')
        answer = session.send(b"repeat 200\rput g\rend repeat")
        self.assertEqual(answer.shown, [b"x" * 2 ** 14] * 200)

    def test_threads_get_their_own_answers(self) -> None:
        session = self.opened()
        with ThreadPoolExecutor(8) as pool:
            answers = list(pool.map(lambda number: session.send(b"put %d" % number), range(400)))
        self.assertEqual([answer.shown for answer in answers], [[b"%d" % number] for number in range(400)])
        self.assertEqual(len(session.lines), 401)

    def test_faults_are_explained(self) -> None:
        session = self.opened()
        answer = session.send(b'put "three" + 4')
        self.assertTrue(answer.explained and answer.explained[0].startswith("fault 4, NotANumber: "), answer)
        answer = session.send(b"put filed 1 1")
        self.assertTrue(answer.explained and answer.explained[0].startswith("refused 3, "), answer)
        self.assertEqual(session.send(b"put 1").explained, [])

    def test_lines_that_are_long_or_odd(self) -> None:
        session = self.opened()
        self.says(session, b'put the length of "%b"' % (b"\xe9" * 29_980), "> 29980", "ok")
        self.says(session, b"-" * 30_000, "ok")
        self.says(session, b"-" * 30_001, "refused 5")
        self.says(session, b"-" * 1_000_000, "refused 5")
        self.says(session, b'put "\0"', "> \\00", "ok")
        self.says(session, b"put 1\0", "refused 3")
        before = len(session.lines)
        self.assertRaises(ValueError, session.send, b"put 1\nput 2")
        self.assertEqual(len(session.lines), before)
        self.says(session, b"put 1", "> 1", "ok")


class Sorted(unittest.TestCase):
    """What stands on standard error, sorted."""

    def test_messages_explanations_and_others(self) -> None:
        heard = ["mouseDown 5", "card_cli: not saved: no space left", "fault 4, NotANumber: a number is needed",
                 "  at line 2 of the script of card button \"Go\" (id 5), in on mouseUp:", "    mouseUp 5",
                 "  there stands x"]
        answer = answer_of([b"> a", b"> ", b"fault 4"], heard, 0.5)
        self.assertEqual((answer.shown, answer.ending, answer.number, answer.seconds), ([b"a", b""], "fault", 4, 0.5))
        self.assertEqual((answer.watched, answer.explained, answer.told), ([("mouseDown", 5)], heard[2:], heard[1:2]))
        self.assertEqual((answer.verdict, answer.lines()), ("fault 4", [b"> a", b"> ", b"fault 4"]))


class TakesTooLong(SessionTest):
    MINUTES = 0.02

    def late(self) -> Session:
        """A session with a line that was answered, another that took too long, and its text as it was between."""
        session = Session(self.put_demo(), steps=MOST_STEPS, minutes=self.MINUTES)
        self.addCleanup(session.close)
        session.send(b"put 7 into g")
        text, lines = session.text(), list(session.lines)
        with self.assertRaisesRegex(TookTooLong, "^it took longer than 0.02 minutes$") as raised:
            session.send(LOOP)
        self.assertEqual((raised.exception.differences, session.lines), ([], lines))
        self.assertEqual(session.text(), text)
        return session

    def test_it_is_as_if_not_typed(self) -> None:
        session = self.late()
        self.says(session, b"put g", "> 7", "ok")
        self.assertEqual(session.history(), (2, 0))

    def test_the_next_one_may_take_as_long(self) -> None:
        session = self.late()
        self.assertRaises(TookTooLong, session.send, LOOP)
        self.says(session, b"put g", "> 7", "ok")

    def test_minutes_are_a_number_above_0(self) -> None:
        self.assertEqual([minutes_of(word) for word in ("60", "0.5")], [60.0, 0.5])
        for word in ("0", "-1", "inf", "nan", "an hour", ""):
            with self.assertRaises(ValueError, msg=word):
                minutes_of(word)


class BrokenOff(SessionTest):
    def interrupted(self, session: Session) -> float:
        """Breaks an endless loop off from another thread, and gives the seconds that it took."""
        sender = Sender(session, LOOP)
        time.sleep(0.2)
        self.assertTrue(sender.is_alive())
        start = time.monotonic()
        self.assertEqual(session.interrupt(), [])
        seconds = time.monotonic() - start
        self.assertIsInstance(sender.ended(), Interrupted)
        return seconds

    def test_an_endless_loop_is_as_if_not_typed(self) -> None:
        session = self.opened(steps=MOST_STEPS)
        for line in (NEW_BUTTON, b"go next", b"put 7 into g", b"put 1 div 0", b"go next", b".undo", b"put ("):
            session.send(line)
        text, lines = session.text(), list(session.lines)
        self.assertLess(self.interrupted(session), MOST_SECONDS)
        self.assertEqual(session.lines, lines)
        self.assertEqual((session.text(), session.where(), session.history()), (text, 4, (4, 1)))
        self.says(session, b".globals", "> g 7", "ok")
        self.says(session, b".undo to %d" % session.number_of(1), "ok")
        self.says(session, b".where", "> 2", "ok")

    def test_control_c_takes_the_line_back(self) -> None:
        session = self.opened(steps=MOST_STEPS)
        session.send(b"put 7 into g")
        previous = signal.signal(signal.SIGALRM, signal.default_int_handler)
        try:
            signal.setitimer(signal.ITIMER_REAL, 0.2)
            self.assertRaises(KeyboardInterrupt, session.send, LOOP)
        finally:
            signal.setitimer(signal.ITIMER_REAL, 0)
            signal.signal(signal.SIGALRM, previous)
        self.says(session, b".globals", "> g 7", "ok")
        self.assertEqual([entry.line for entry in session.lines if not entry.own], [b"put 7 into g", b".globals"])

    def test_the_program_is_out_of_reach_of_the_terminal(self) -> None:
        session = self.opened()
        self.assertNotEqual(os.getpgid(session.pid), os.getpgrp())

    def test_answers_that_differ_are_told(self) -> None:
        path = self.put("free", FREE.encode())
        os.chmod(path, 0o755)
        session = Session(self.put_demo(), program=path)
        self.addCleanup(session.close)
        self.assertEqual(session.send(b"outside").shown, [b"1"])
        session.send(b"put 2")
        (difference,) = session.interrupt()
        self.assertEqual((difference.number, difference.line), (2, b"outside"))
        self.assertEqual((difference.before.shown, difference.after.shown), ([b"1"], [b"2"]))
        self.assertEqual(session.lines[1].answer.shown, [b"2"])
        self.assertRaises(Garbled, session.send, b"garble")


class Ends(SessionTest):
    def test_an_answer_counts_where_the_program_has_ended_behind_it(self) -> None:
        answers = "exec 3<&0; sleep 1 <&3 >/dev/null 2>&1 & echo mouseUp 5 >&2; echo '> last'; echo ok"
        process = program.start(["-c", answers], "/bin/sh")
        process.wait()  # The answer and the end of its pipe are both there then; what holds the input reads nothing.
        running = Running(process)
        self.addCleanup(running.close)
        self.assertEqual(running.ask(b"put 1"), ([b"> last", b"ok"], ["mouseUp 5"]))
        with self.assertRaises(Ended) as raised:
            running.ask(b"put 1")
        self.assertEqual(raised.exception.status, 0)

    def test_quit_ends_the_session(self) -> None:
        session = self.opened()
        self.says(session, b".quit", "ok")
        for _ in range(2):
            with self.assertRaises(Ended) as raised:
                session.send(b"put 1")
            self.assertEqual(raised.exception.status, 0)
        self.assertRaises(Ended, session.interrupt)
        self.assertEqual(session.close(), 0)

    def test_a_program_that_is_killed_can_be_begun_again(self) -> None:
        session = self.opened()
        session.send(NEW_BUTTON)
        text = session.text()
        os.kill(session.pid, signal.SIGKILL)
        for _ in range(2):
            with self.assertRaises(Ended) as raised:
                session.send(b"put 1 into g")
            self.assertEqual(raised.exception.status, -signal.SIGKILL)
            self.assertIn("SIGKILL", str(raised.exception))
        self.assertEqual((session.interrupt(), session.text()), ([], text))
        self.says(session, b".globals", "ok")

    def test_a_stack_that_is_refused(self) -> None:
        with self.assertRaises(Ended) as raised:
            Session(self.put("bad.stack", b"htstack 2\nnext 2\n"))
        self.assertEqual((raised.exception.status, raised.exception.said[0], raised.exception.said[2:]),
                         (2, "card_cli: stack refused 1 at line 2", ["    next 2"]))

    def test_words_that_are_wrong(self) -> None:
        with self.assertRaises(Ended) as raised:
            Session(self.put_demo(), steps=MOST_STEPS + 1)
        self.assertEqual(raised.exception.status, 2)
        self.assertTrue(raised.exception.said)

    def test_files_that_are_none(self) -> None:
        pipe = os.path.join(self.folder, "pipe")
        os.mkfifo(pipe)
        for path in (pipe, self.folder, os.path.join(self.folder, "none"), "/dev/null"):
            self.assertRaises(OSError, Session, path)

    def test_names_of_files(self) -> None:
        for name in ("--watch", "a b.stack", "é.stack", "x" * 250):
            self.assertEqual(self.opened(self.put_demo(name)).where(), 2)

    def test_no_program(self) -> None:
        before = os.environ.get(program.VARIABLE)
        os.environ[program.VARIABLE] = os.path.join(self.folder, "none")
        try:
            self.assertRaises(program.ProgramMissing, Session, self.put_demo())
        finally:
            os.environ.pop(program.VARIABLE)
            if before is not None:
                os.environ[program.VARIABLE] = before

    def test_deep_scripts_have_stack(self) -> None:
        session = self.opened()
        deep = b"put " + b"(" * 98 + b"1" + b")" * 98
        lines = (b"on again", deep + b" into x", b"again", b"end again")
        script = b" & return & ".join(b'"%b"' % line for line in lines)
        self.says(session, b"set the script of this card to " + script, "ok")
        self.says(session, b"again", "fault 12")


class Files(SessionTest):
    def test_a_session_that_has_not_saved_goes_on_with_the_file(self) -> None:
        path = self.put_demo()
        session = self.opened(path)
        session.send(b'set the name of this card to "Mine"')
        session.interrupt()
        self.assertEqual(bytes_of(path), bytes_of(there(DEMO)))
        self.says(session, b".save", "ok")
        self.assertIn(b"|Mine", bytes_of(path))
        self.assertEqual(os.listdir(self.folder), ["demo.stack"])

    def test_what_was_saved_stays_and_later_saves_follow(self) -> None:
        path = self.put_demo()
        os.chmod(path, 0o640)
        session = self.opened(path)
        for name in (b"One", b"Two", b"Three"):
            session.send(b'set the name of this card to "%b"' % name)
            if name != b"Three":
                self.says(session, b".save", "ok")
        self.assertEqual(session.interrupt(), [])
        self.assertIn(b"|Two\n", bytes_of(path))
        self.says(session, b"put the short name of this card", "> Three", "ok")
        for again in range(2):
            self.says(session, b".save ", "ok")
            self.assertEqual(bytes_of(path), session.text())
            self.assertEqual(stat.S_IMODE(os.stat(path).st_mode), 0o640)
            self.assertEqual(os.listdir(self.folder), ["demo.stack"])
            session.send(b'set the name of this card to "Later %d"' % again)
            self.assertEqual(session.interrupt(), [])
        self.says(session, b".undo to 0", "ok")
        self.assertEqual(session.text(), write(read(bytes_of(there(DEMO)))))

    def test_a_file_that_others_changed_is_left(self) -> None:
        path = self.put_demo()
        session = self.opened(path)
        session.send(b'set the name of this card to "Mine"')
        self.says(session, b".save", "ok")
        session.interrupt()
        self.put_demo()
        self.assertEqual(self.says(session, b".save", "refused 7").told,
                         ["card_cli: not saved: another program changed the file"])
        self.assertEqual(bytes_of(path), bytes_of(there(DEMO)))
        self.assertEqual(session.interrupt(), [])
        os.unlink(path)
        self.says(session, b".save", "ok")
        self.assertEqual(bytes_of(path), session.text())

    def test_a_file_that_others_lock_is_left(self) -> None:
        path = self.put_demo()
        session = self.opened(path)
        self.says(session, b".save", "ok")
        session.interrupt()
        session.send(NEW_BUTTON)
        saved = bytes_of(path)
        with open(path, "rb") as file:
            fcntl.flock(file, fcntl.LOCK_EX)
            self.assertEqual(self.says(session, b".save", "refused 7").told,
                             ["card_cli: not saved: another program has locked the file"])
        self.assertEqual(bytes_of(path), saved)
        self.says(session, b".save", "ok")
        self.assertEqual(bytes_of(path), session.text())

    def stuck(self, name: str) -> Session:
        """A session whose first save is made, but not answered."""
        path = self.put("stuck-" + name, STUCK.encode())
        os.chmod(path, 0o755)
        session = Session(self.put(name, b"first\n"), program=path)
        self.addCleanup(session.close)
        return session

    def test_a_save_that_was_broken_off_is_no_change_by_others(self) -> None:
        session = self.stuck("sticks")
        sender = Sender(session, b".save")
        while bytes_of(session.file.path) != b"saved\n":
            time.sleep(0.01)
        self.assertEqual(session.interrupt(), [])
        self.assertIsInstance(sender.ended(), Interrupted)
        self.assertEqual(session.send(b".save").verdict, "ok")

    def test_a_program_that_dies_in_a_save(self) -> None:
        session = self.stuck("dies")
        self.assertRaises(Ended, session.send, b".save")
        self.assertRaises(Ended, session.send, b"put 1")
        self.assertEqual(session.interrupt(), [])
        self.assertEqual(session.send(b".save").verdict, "ok")

    def test_a_link_stays_a_link(self) -> None:
        path, link = self.put_demo(), os.path.join(self.folder, "link")
        os.symlink("demo.stack", link)
        session = self.opened(link)
        self.says(session, b".save", "ok")
        session.interrupt()
        session.send(NEW_BUTTON)
        self.says(session, b".save", "ok")
        self.assertTrue(os.path.islink(link))
        self.assertEqual(bytes_of(path), session.text())

    def test_a_refused_save_is_not_made_when_lines_are_given_again(self) -> None:
        home = os.path.join(self.folder, "home")
        os.mkdir(home)
        path = self.put_demo("home/demo.stack")
        session = self.opened(path)
        session.send(NEW_BUTTON)
        os.rename(home, home + "2")
        self.says(session, b".save", "refused 7")
        os.rename(home + "2", home)
        self.assertEqual(session.interrupt(), [])
        self.assertEqual(bytes_of(path), bytes_of(there(DEMO)))
        self.says(session, b".save", "ok")
        self.assertEqual(bytes_of(path), session.text())

    def test_copies_are_removed(self) -> None:
        session = self.opened()
        session.send(b".save")
        session.interrupt()
        copy = session.file.place()
        self.assertTrue(os.path.exists(copy))
        session.close()
        self.assertFalse(os.path.exists(os.path.dirname(copy)))

    def test_large_stacks(self) -> None:
        fields = [Part("field", number, text=b"x" * 2_000) for number in range(3, 3_003)]
        path = self.put("large.stack", write(Stack(3_003, b"", b"", [Background(1)], [Card(2, 1, parts=fields)])))
        session = self.opened(path)
        start = time.monotonic()
        self.assertEqual(session.text(), bytes_of(path))
        self.assertLess(time.monotonic() - start, MOST_SECONDS)


if __name__ == "__main__":
    unittest.main()
