"""Runs stored sessions, and compares what is answered with what they say.

    ./session [--update] [--stack STACK] [--steps N] [--depth D] FILE.session..

A session is a file of lines, each with its answers below it. A line that is `ok`, `fault N`, `refused N` or `>`, or
that begins with `> `, is an answer; any other is typed; `>` alone shows an empty text. FILE.session runs on FILE.stack,
or on what --stack names; on a copy, so that nothing of the stack is changed by a `.save`.

For each session that differs the lines that differ are printed, with what explains a fault that wasn't wanted. The last
line is `N passed, M failed`. --update writes what is answered into the files in place of that. The status is 0 where
all passed, 1 where one failed, 2 where the words are wrong or there is no program, and 130 where it was interrupted.
"""

import argparse
import difflib
import os
import re
import shutil
import sys
import tempfile
from dataclasses import dataclass, field
from typing import List, Optional, Sequence

from front import program
from front.answers import OK, Answer, answer_of
from front.opened_file import replace
from front.running import Ended, Garbled, Running

_ENDING = re.compile(rb"ok|(?:fault|refused) [0-9]+")
STORED, STACK = ".session", ".stack"
# How an answer that shows an empty text stands in a file, and as the program writes it.
EMPTY, WRITTEN_EMPTY = b">", b"> "
# How long the program may take to end after its last answer, in seconds.
LONGEST_END = 30.0


class Broken(Exception):
    """A session that can't be run to its end, and why."""


@dataclass
class Step:
    """A line that is typed, and its answers below it, as a file has them."""

    line: bytes
    answers: List[bytes] = field(default_factory=list)


@dataclass(frozen=True)
class Options:
    """The words of the tool but for the files."""

    update: bool = False
    stack: Optional[str] = None
    steps: Optional[int] = None
    depth: Optional[int] = None


def shown(data: bytes) -> str:
    """Bytes of a session for people: what is no UTF-8 is spelled."""
    return data.decode("utf-8", "backslashreplace")


def is_answer(line: bytes) -> bool:
    """Whether a line of a session is an answer."""
    return line == EMPTY or line.startswith(WRITTEN_EMPTY) or _ENDING.fullmatch(line) is not None


def steps_of(data: bytes) -> List[Step]:
    """The steps of a stored session. Raises Broken where an answer stands before all lines."""
    lines = data.split(b"\n")
    if not lines[-1]:
        lines.pop()
    steps: List[Step] = []
    for line in lines:
        if not is_answer(line):
            steps.append(Step(line))
        elif steps:
            steps[-1].answers.append(EMPTY if line == WRITTEN_EMPTY else line)
        else:
            raise Broken("the first line is an answer, and nothing is typed above it")
    return steps


def step_of(line: bytes, answer: Answer) -> Step:
    """A line with what the program answered."""
    return Step(line, [EMPTY if each == WRITTEN_EMPTY else each for each in answer.lines()])


def lines_of(steps: Sequence[Step]) -> List[bytes]:
    """The lines of a file with these steps."""
    return [line for step in steps for line in (step.line, *step.answers)]


def stack_of(path: str, options: Options) -> str:
    """The stack of a session. Raises Broken where there is none."""
    stack = options.stack or (path[:-len(STORED)] if path.endswith(STORED) else path) + STACK
    if not os.path.isfile(stack):
        raise Broken("there is no stack %s for it" % stack)
    return stack


def ask(running: Running, line: bytes) -> Answer:
    """The answer to a line. Raises Broken where there is none."""
    try:
        heard = running.ask(line)
    except (Ended, Garbled) as error:
        raise Broken("no answer to the line %s: %s" % (shown(line), error)) from None
    return answer_of(heard.answer, heard.told, 0.0)


def answers_to(lines: Sequence[bytes], stack: str, options: Options) -> List[Answer]:
    """The answers to the lines on a copy of the stack. Raises Broken where one is missing or the program ends badly."""
    with tempfile.TemporaryDirectory(prefix="yarvekko-") as folder:
        copy = os.path.join(folder, os.path.basename(stack))
        shutil.copy(stack, copy)
        running = Running(program.start(program.words(copy, options.steps, options.depth, explain=True)))
        try:
            answers = [ask(running, line) for line in lines]
        except KeyboardInterrupt:
            running.kill()
            raise
        finally:
            status = running.close(LONGEST_END)
    if status != 0:
        raise Broken("the program ended with status %d" % status)
    return answers


def difference(path: str, wanted: Sequence[Step], answers: Sequence[Answer]) -> List[str]:
    """What differs, in lines for people; none where all is as wanted."""
    given = [step_of(step.line, answer) for step, answer in zip(wanted, answers)]
    if given == list(wanted):
        return []
    before, after = ([shown(line) for line in lines_of(steps)] for steps in (wanted, given))
    report = list(difflib.unified_diff(before, after, path + " (wanted)", path + " (answered)", lineterm=""))
    for step, now, answer in zip(wanted, given, answers):
        if now != step and answer.ending != OK and answer.explained:
            report += [shown(step.line), *("    " + line for line in answer.explained)]
    return report


def update(path: str, data: bytes, steps: Sequence[Step], answers: Sequence[Answer]) -> None:
    """Writes the answers into the file, where it has others, and says so. Raises OSError."""
    lines = lines_of([step_of(step.line, answer) for step, answer in zip(steps, answers)])
    text = b"".join(line + b"\n" for line in lines)
    if text != data:
        replace(os.path.realpath(path), text)
        print("%s is updated" % path)


def passes(path: str, options: Options) -> bool:
    """Runs one session and says whether it passes; prints what differs or was updated."""
    try:
        with open(path, "rb") as file:
            data = file.read()
        steps = steps_of(data)
        answers = answers_to([step.line for step in steps], stack_of(path, options), options)
        if options.update:
            update(path, data, steps, answers)
            return True
        report = difference(path, steps, answers)
    except (Broken, OSError) as error:
        report = ["%s: %s" % (path, error)]
    for line in report:
        print(line)
    return not report


def words() -> argparse.ArgumentParser:
    """The words that the tool takes."""
    parser = argparse.ArgumentParser(
        prog="session", description="Runs stored sessions on copies of their stacks, and compares the answers.")
    parser.add_argument("files", nargs="+", metavar="FILE.session", help="lines, each with its wanted answers below it")
    parser.add_argument("--update", action="store_true", help="write the answers into the files")
    parser.add_argument("--stack", help="the stack, in place of FILE.stack")
    parser.add_argument("--steps", type=int, help="how many steps a command may take")
    parser.add_argument("--depth", type=int, help="how many commands can be undone")
    return parser


def main(given: Optional[Sequence[str]] = None) -> int:
    """Runs the tool on these words, or on those of the process, and gives its status."""
    said = words().parse_args(given)
    try:
        program.path()
    except program.ProgramMissing as error:
        print("session: %s" % error, file=sys.stderr)
        return 2
    options = Options(said.update, said.stack, said.steps, said.depth)
    try:
        passed = sum([passes(path, options) for path in said.files])
    except KeyboardInterrupt:
        print("session: interrupted", file=sys.stderr)
        return 130
    print("%d passed, %d failed" % (passed, len(said.files) - passed))
    return 0 if passed == len(said.files) else 1
