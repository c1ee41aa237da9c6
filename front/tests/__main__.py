"""Runs the tests of the folders that are named, or else those of this one: python3 -m front.tests [FOLDER..]

What fails, and each test that is skipped with its reason, is printed. The last line is `N passed, M failed`; the status
is 0 where none failed and some were run, else 1.
"""

import os
import sys
import unittest
from typing import List

sys.dont_write_bytecode = True
HERE = os.path.dirname(os.path.realpath(__file__))
TOP = os.path.dirname(os.path.dirname(HERE))


def run(folder: str) -> unittest.TestResult:
    """Runs the tests of a folder."""
    tests = unittest.defaultTestLoader.discover(folder, top_level_dir=TOP)
    return unittest.TextTestRunner(stream=sys.stdout, verbosity=1).run(tests)


def main(folders: List[str]) -> int:
    """Runs the tests of the folders, and gives the status."""
    passed = failed = 0
    for folder in folders or [HERE]:
        result = run(folder)
        for test, reason in result.skipped:
            print("skipped: %s: %s" % (test, reason))
        wrong = len(result.failures) + len(result.errors) + len(result.unexpectedSuccesses)
        failed += wrong
        passed += result.testsRun - wrong - len(result.skipped)
    print("%d passed, %d failed" % (passed, failed))
    return 0 if passed and not failed else 1


if __name__ == "__main__":
    sys.exit(main(sys.argv[1:]))
