"""Exports a stack: the JSON form that ./import reads, or one page of HTML to read and to print.

Ends with 0 where it was written, with 1 where the stack or a file can't be read or written, with 2 for wrong words.
"""

import argparse
import sys
from typing import List, Optional

from front.stack_text import Fault, read
from migrate.export_json import json_of
from migrate.export_page import page_of
from migrate.import_tool import put_file, said_of


def words(given: Optional[List[str]] = None) -> argparse.Namespace:
    """The words of the command line."""
    parser = argparse.ArgumentParser(
        prog="export", description="Writes a stack as JSON, which ./import reads, and as a page of HTML to print. "
                                   "Without --json and --page it writes the JSON on standard output.")
    parser.add_argument("stack", metavar="STACK")
    parser.add_argument("--json", metavar="FILE", help="write the JSON there")
    parser.add_argument("--page", metavar="FILE", help="write a page of HTML with all cards and scripts there")
    return parser.parse_args(given)


def main(given: Optional[List[str]] = None) -> int:
    """Runs the tool; an error is one line on standard error."""
    asked = words(given)
    try:
        with open(asked.stack, "rb") as file:
            stack = read(file.read())
        if asked.json:
            put_file(asked.json, json_of(stack).encode())
        if asked.page:
            put_file(asked.page, page_of(stack).encode())
        if not asked.json and not asked.page:
            sys.stdout.buffer.write(json_of(stack).encode())
        return 0
    except Fault as wrong:
        print("export: %s: %s" % (asked.stack, wrong), file=sys.stderr)
    except OSError as wrong:
        print("export: " + said_of(wrong), file=sys.stderr)
    return 1


if __name__ == "__main__":
    sys.exit(main())
