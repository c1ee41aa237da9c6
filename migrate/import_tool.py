"""Imports a stack: reads a source, makes a stack of it, and reports what was lost and what will run.

Ends with 0 where the stack was written (or, without -o, could be), with 1 where the source can't be read or doesn't
fit, with 2 where the words are wrong.
"""

import argparse
import io
import os
import sys
import tempfile
from typing import List, Optional

from front import checks, program
from front.stack_text import Stack, write
from migrate import compat, ids, report
from migrate.convert import MOST_TEXT, convert
from migrate.dump_stack import FIRST_LINE, read_dump
from migrate.json_stack import read_json
from migrate.old import BadSource, OldStack
from migrate.reading import holders, read as read_scripts
from migrate.rewrite import rewrite
from migrate.set_aside import set_aside
from migrate.xml_stack import read_folder

MOST_TIMES_ASIDE = 4
ABOUT = """Makes a stack of what was brought from HyperCard, and reports what is lost and what will run.

SOURCE is the folder of XML files that the public tool stackimport writes, or a file in it; a JSON file of the form that
docs/MIGRATING.md describes; or the text that the handlers of stacks/export.txt write in HyperCard."""
TRIED = """What was tried: no real binary stack and no run of stackimport was at hand. The XML of the tests was written
by hand after the tool's public description; elements that aren't known are reported."""


def words(given: Optional[List[str]] = None) -> argparse.Namespace:
    """The words of the command line."""
    parser = argparse.ArgumentParser(prog="import", description=ABOUT, epilog=TRIED,
                                     formatter_class=argparse.RawDescriptionHelpFormatter)
    parser.add_argument("source", metavar="SOURCE")
    parser.add_argument("-o", metavar="STACK", dest="stack", help="where the stack is written; without it none is")
    parser.add_argument("--force", action="store_true", help="write over a stack that is there")
    parser.add_argument("--report", metavar="FILE", help="write the report there, and not on standard output")
    parser.add_argument("--page", metavar="FILE", help="write the report as a page of HTML too")
    parser.add_argument("--compat", action="store_true", help="put stand-ins for words of HyperCard into the scripts")
    parser.add_argument("--rewrite", action="store_true",
                        help="rewrite scripts where the meaning stays the same; puts the stand-ins too")
    parser.add_argument("--set-aside", action="store_true",
                        help="make comments of handlers that don't read, so that the others of their scripts run")
    parser.add_argument("--ids", action="store_true", help="write the new ids of parts and cards into the scripts")
    parser.add_argument("--cut", action="store_true", help="cut texts of more than 30,000 bytes")
    parser.add_argument("--encoding", choices=("auto", "mac_roman", "utf-8"), default="auto",
                        help="how the text of stacks/export.txt is written; UTF-8 where it is that, unless given")
    return parser.parse_args(given)


def source_of(path: str, encoding: str) -> OldStack:
    """The old stack of a source, known by what it is. Raises BadSource, and OSError where it can't be read."""
    if os.path.isdir(path):
        return read_folder(path)
    with open(path, "rb") as file:
        head = file.read(200)
        if head.startswith(FIRST_LINE) or head.startswith(b"\xef\xbb\xbf" + FIRST_LINE):
            return read_dump(head + file.read(), path, encoding)
        start = head.lstrip(b"\xef\xbb\xbf \t\r\n")[:1]
        if start == b"<":
            return read_folder(path)
        if start in (b"{", b"["):
            return read_json(head + file.read(), path)
    raise BadSource("%s: it is neither XML, nor JSON, nor a text of stacks/export.txt" % path)


def bring(old: OldStack, asked: argparse.Namespace) -> report.Done:
    """Makes the stack, with what was asked for, and checks its scripts. Raises BadSource."""
    done = report.Done(convert(old, asked.cut))
    stack = done.converted.stack
    done.ids = ids.references(done.converted)
    if asked.ids:
        ids.rewrite(done.converted, done.ids)
        done.ids_written = True
    if asked.rewrite:
        rewrite_all(stack, done)
    if asked.compat or asked.rewrite:
        done.lit = compat.light_switches(done.converted)
        done.stand_ins, done.no_stand_ins = compat.put(stack)
    try:
        done.reading = read_scripts(stack, checks.check)
        if asked.set_aside:
            put_aside(stack, done)
    except (checks.NotChecked, program.ProgramMissing) as wrong:
        done.unchecked = "The scripts weren't checked: %s" % str(wrong).split("\n")[0]
    return done


def put_aside(stack: Stack, done: report.Done) -> None:
    """Sets handlers aside that don't read, until all else reads. The places stay in the report."""
    first = done.reading
    for _ in range(MOST_TIMES_ASIDE):
        if done.reading is None or not done.reading.unread:
            break
        aside, full = set_aside(stack, done.reading.blockers)
        done.aside += aside
        for number in full:
            done.converted.old.note(done.converted.names[number], "there is no room to set its handlers aside")
        done.reading = read_scripts(stack, checks.check)
        if not aside:
            break
    if done.reading is not None and first is not None:
        done.reading.blockers = first.blockers


def rewrite_all(stack: Stack, done: report.Done) -> None:
    """Rewrites each script; one that would be too long afterwards stays."""
    for number, holder in holders(stack):
        made = rewrite(holder.script)
        done.left += [(number, *each) for each in made.left]
        if len(made.script) > MOST_TEXT:
            done.converted.old.note(done.converted.names[number],
                                    "rewritten it would have %d bytes, and stays as it was" % len(made.script))
            continue
        holder.script = made.script
        done.rewritings += [(number, each) for each in sorted(made.made, key=lambda each: each.line)]


def put_file(path: str, data: bytes) -> None:
    """Writes a file whole, or not at all. Raises OSError with its path."""
    try:
        handle, beside = tempfile.mkstemp(prefix=".import-", dir=os.path.dirname(os.path.abspath(path)))
    except OSError as wrong:
        raise OSError(wrong.errno, wrong.strerror, path) from None
    try:
        with os.fdopen(handle, "wb") as file:
            file.write(data)
        os.chmod(beside, 0o666 & ~_umask())
        os.replace(beside, path)
    except BaseException:
        os.unlink(beside)
        raise


def _umask() -> int:
    """The rights that new files are not to have."""
    mask = os.umask(0)
    os.umask(mask)
    return mask


def run(asked: argparse.Namespace) -> int:
    """Does what was asked. Raises BadSource and OSError."""
    if asked.stack and os.path.exists(asked.stack) and not asked.force:
        raise BadSource("%s is there already; --force writes over it" % asked.stack)
    done = bring(source_of(asked.source, asked.encoding), asked)
    found = report.sections(done)
    data = write(done.converted.stack)
    if asked.page:
        put_file(asked.page, report.page(found).encode())
    if asked.report:
        put_file(asked.report, report.text(found).encode())
    if asked.stack:
        put_file(asked.stack, data)
    if not asked.report:
        say(report.text(found))
    return 0


def say(text: str) -> None:
    """Writes the report on standard output. Who reads only its first lines closes the pipe, and that is no error."""
    try:
        sys.stdout.write(text)
        sys.stdout.flush()
    except BrokenPipeError:
        os.dup2(os.open(os.devnull, os.O_WRONLY), sys.stdout.fileno())


def said_of(wrong: Exception) -> str:
    """An error in words."""
    if isinstance(wrong, OSError) and wrong.filename is not None:
        return "%s: %s" % (os.fsdecode(wrong.filename), wrong.strerror)
    return str(wrong)


def main(given: Optional[List[str]] = None) -> int:
    """Runs the tool; an error is one text on standard error, and then no stack is written."""
    asked = words(given)
    if isinstance(sys.stdout, io.TextIOWrapper):
        sys.stdout.reconfigure(errors="backslashreplace")
    try:
        return run(asked)
    except (BadSource, OSError) as wrong:
        print("import: " + said_of(wrong), file=sys.stderr)
        return 1


if __name__ == "__main__":
    sys.exit(main())
