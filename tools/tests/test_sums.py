"""What the sum of the sources tells apart, and what a record may hold."""

import hashlib
import json
import os
import shutil
import sys
import unittest
from typing import Callable

from tree import HERE, TreeTest

sys.path.insert(0, os.path.join(HERE, "tools"))

from making import sums  # noqa: E402


class Sums(TreeTest):
    """The sum of the sources."""

    def changes(self, edit: Callable[[], object]) -> bool:
        """Whether an edit changes the sum."""
        before = sums.sum_of_sources(self.root)
        edit()
        return sums.sum_of_sources(self.root) != before

    def test_crates_are_the_programs_own(self) -> None:
        uses = sums.dependencies(self.root)
        self.assertEqual(sums.needed(uses), ["low", "middle", "card_cli"])
        self.assertEqual(sums.below(uses, "card_cli"), ["low", "middle"])

    def test_it_is_that_of_the_text_that_is_described(self) -> None:
        text = "card_cli: middle clap\nlow: itoa\nmiddle: low\n"
        for path in ("HANDLES", "crates/card_cli/src/main.rt", "crates/low/specs/Lib.antt", "crates/low/src/lib.rt",
                     "crates/middle/specs/Lib.antt", "crates/middle/src/lib.rt"):
            text += "%s  %s\n" % (hashlib.sha256(self.text(path).encode()).hexdigest(), path)
        self.assertEqual(sums.sum_of_sources(self.root), hashlib.sha256(text.encode()).hexdigest())

    def test_each_edit_of_a_source_changes_it(self) -> None:
        self.assertTrue(self.changes(lambda: self.add("crates/low/src/lib.rt", " ")), "a byte more")
        self.assertTrue(self.changes(lambda: self.put("crates/low/specs/Lib.antt", "-- lox\n")), "another byte")
        self.assertTrue(self.changes(lambda: self.put("crates/low/proofs/New.antt", "")), "an empty file more")
        self.assertTrue(self.changes(lambda: os.rename(self.at("crates/low/proofs/New.antt"),
                                                       self.at("crates/low/proofs/Old.antt"))), "another name")
        self.assertTrue(self.changes(lambda: os.remove(self.at("crates/low/proofs/Old.antt"))), "a file less")
        self.assertTrue(self.changes(lambda: self.add("HANDLES", "\n")), "the handles")
        more = self.text("crates.txt").replace("clap", "clap log")
        self.assertTrue(self.changes(lambda: self.put("crates.txt", more)), "a library of the kit more")

    def test_what_the_program_is_not_built_from_does_not(self) -> None:
        self.assertFalse(self.changes(lambda: self.add("crates/other/src/lib.rt", " ")), "a crate that it doesn't use")
        self.assertFalse(self.changes(lambda: self.add("crates.txt", "more: other\n")), "a crate more")
        self.assertFalse(self.changes(lambda: self.add("crates/low/must-fail/wrong.edit", " ")), "a must-fail edit")
        self.assertFalse(self.changes(lambda: self.put("crates/low/out/x", " ")), "what is built")
        self.assertFalse(self.changes(lambda: os.utime(self.at("crates/low/src/lib.rt"), (1, 1))), "a time")
        moved = os.path.join(self.top, "another folder")
        shutil.copytree(self.root, moved)
        self.assertEqual(sums.sum_of_sources(moved), sums.sum_of_sources(self.root))


class Records(TreeTest):
    """The record of a program."""

    def test_what_is_written_is_read(self) -> None:
        record = sums.Record("a", "b", "a kit")
        record.write(self.at("out/new/record.json"))
        self.assertEqual(sums.read(self.root, "out/new/record.json"), record)

    def test_bad_records_are_refused(self) -> None:
        good = {"program": "a", "sources": "b", "kit": "c"}
        for text in ("", "{", "[]", "3", "{}", '{"kit": "c"}', json.dumps({**good, "more": "d"}),
                     json.dumps({**good, "kit": 1})):
            with self.subTest(text=text):
                self.put("record.json", text)
                with self.assertRaises(sums.BadRecord):
                    sums.read(self.root, "record.json")
        with self.assertRaises(sums.BadRecord):
            sums.read(self.root, "nothing.json")


if __name__ == "__main__":
    unittest.main()
