"""In which order a build from nothing asks for crates."""

import os
import sys
import unittest
from typing import Set

from tree import HERE

sys.path.insert(0, os.path.join(HERE, "tools"))

from making import lanes, sums  # noqa: E402

# The way goes over a, c, d, e and f; b and g stand on a alone, and h on d.
USES = {"a": [], "b": ["a"], "c": ["a"], "d": ["c"], "g": ["b"], "h": ["d"], "e": ["d"], "f": ["e", "g", "h"]}
COSTS = {"a": 10.0, "b": 20.0, "c": 30.0, "d": 40.0, "g": 5.0, "h": 1.0, "e": 2.0, "f": 60.0}


LANES = lanes.Lanes(USES, COSTS)


class Order(unittest.TestCase):
    """The order of calls."""

    def test_the_way_is_the_longest(self) -> None:
        self.assertEqual(LANES.way, ["a", "c", "d", "e", "f"])

    def test_a_call_goes_up_to_what_lacks_a_library_off_the_way(self) -> None:
        self.assertEqual(LANES.next_of_way({"a"}), "e")
        uses = {**USES, "d": ["c", "g"]}
        found = [lanes.Lanes(uses, COSTS).next_of_way(done) for done in ({"a"}, {"a", "c"})]
        self.assertEqual(found, ["c", "d"])

    def test_a_crate_with_nothing_beside_it_is_asked_for_alone(self) -> None:
        self.assertEqual(LANES.next_of_way(set()), "a")
        self.assertEqual([LANES.is_alone(done) for done in (set(), {"a"}, {"a", "b", "g"})], [True, False, True])

    def test_no_call_goes_up_to_the_top_beside_others(self) -> None:
        uses = {**USES, "f": ["e"]}
        self.assertEqual(lanes.Lanes(uses, COSTS).next_of_way({"a"}), "c")

    def test_the_last_comes_with_all_the_rest(self) -> None:
        self.assertIsNone(LANES.next_of_way({"a", "c", "d", "e"}))
        self.assertIsNone(LANES.next_of_way({"a", "b", "c", "d", "g", "h"}))

    def test_beside_stands_what_has_its_libraries(self) -> None:
        found = [LANES.next_beside(done, set()) for done in (set(), {"a"}, {"a", "b"}, {"a", "b", "g"})]
        self.assertEqual(found, [None, "b", "g", None])

    def test_the_longest_way_up_comes_first(self) -> None:
        uses = {**USES, "d": ["c", "g"], "k": ["a"], "f": ["e", "g", "h", "k"]}
        found = lanes.Lanes(uses, {"a": 10.0, "k": 3.0, **COSTS})
        self.assertEqual(found.next_beside({"a"}, set()), "b")
        self.assertEqual(found.next_beside({"a"}, {"b"}), "k")

    def test_no_crate_is_asked_for_twice(self) -> None:
        self.assertIsNone(LANES.next_beside({"a"}, {"b"}))

    def test_all_crates_of_the_program_are_reached(self) -> None:
        uses = sums.dependencies(HERE)
        found = lanes.Lanes(uses, {crate: 1.0 for crate in sums.needed(uses)})
        done: Set[str] = set()
        while found.off_the_way(done):
            # What is of the way is proved as soon as it can be.
            done |= {it for it in found.way if all(each in done for each in uses[it])}
            beside = found.next_beside(done, done)
            self.assertTrue(beside or any(it not in done and all(each in done for each in uses[it]) for it in found.way))
            done |= {beside} if beside else set()
        self.assertIsNone(found.next_of_way(done))


if __name__ == "__main__":
    unittest.main()
