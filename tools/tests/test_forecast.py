"""How long a build is said to go on."""

import os
import sys
import unittest

from tree import HERE, TreeTest

sys.path.insert(0, os.path.join(HERE, "tools"))

from making import forecast  # noqa: E402
from making.forecast import Forecast, ends, length, way_up  # noqa: E402

# Two stand on the lowest, and a chain on them.
USES = {"a": [], "b": ["a"], "c": ["a"], "d": ["b", "c"], "e": ["d"]}
COSTS = {"a": 10.0, "b": 20.0, "c": 30.0, "d": 40.0, "e": 50.0}


class Forecasts(unittest.TestCase):
    """The play of a build, and what is left of it."""

    def test_the_longest_way_up(self) -> None:
        self.assertEqual(way_up(USES, COSTS), {"a": 130, "b": 110, "c": 120, "d": 90, "e": 50})

    def test_crates_wait_for_their_libraries(self) -> None:
        self.assertEqual([length(USES, COSTS, lanes) for lanes in (1, 2, 4)], [150, 130, 130])
        self.assertEqual(ends(USES, COSTS, 2), {"a": 10, "b": 30, "c": 40, "d": 80, "e": 130})
        self.assertEqual(length(USES, {**COSTS, "a": 0.0, "b": 0.0}, 2), 120)
        self.assertEqual(length(USES, dict.fromkeys(COSTS, 0.0), 2), 0)

    def test_a_build_at_an_even_pace_is_foretold(self) -> None:
        build = Forecast(USES, COSTS, 2, start=1000.0)
        self.assertIsNone(build.left(1001.0))
        for crate, now in (("a", 20.0), ("b", 60.0), ("c", 80.0), ("d", 160.0)):
            build.ended(crate, 1000.0 + now)
            if crate != "a":
                left = build.left(1000.0 + now)
                self.assertIsNotNone(left)
                self.assertAlmostEqual(left or 0, 260 - now, delta=1e-6, msg=crate)

    def test_a_slow_crate_does_not_bring_it_to_nothing(self) -> None:
        build = Forecast(USES, COSTS, 2, start=0.0)
        for crate, now in (("a", 10.0), ("b", 30.0), ("c", 40.0)):
            build.ended(crate, now)
        self.assertAlmostEqual(build.left(60.0) or 0, 70.0)
        # What stands on the slow one is still to come, however long that takes.
        self.assertGreaterEqual(build.left(10_000.0) or 0, 50.0)

    def test_kept_work_says_nothing_of_the_pace(self) -> None:
        build = Forecast(USES, COSTS, 2, start=0.0)
        build.ended("a", 0.1, was_kept=True)
        self.assertIsNone(build.left(1.0))
        build.ended("b", 40.1)
        self.assertAlmostEqual(build.left(40.1) or 0, 200, delta=1)
        build.ended("c", 60.1)
        self.assertAlmostEqual(build.left(60.1) or 0, 2 * 90, delta=1)

    def test_a_guess_needs_something_proved(self) -> None:
        build = Forecast(USES, {**COSTS, "e": 5000.0}, 2, start=0.0)
        build.ended("a", 10.0)
        self.assertIsNone(build.left(10.0))


class Costs(TreeTest):
    """What a crate costs."""

    def test_code_costs_more_than_statements(self) -> None:
        before = forecast.cost(self.root, "low")
        self.add("crates/low/specs/Lib.antt", "x" * 3000)
        more = forecast.cost(self.root, "low")
        self.add("crates/low/src/lib.rt", "x" * 3000)
        self.assertAlmostEqual(more - before, 100)
        self.assertAlmostEqual(forecast.cost(self.root, "low") - more, 3000)

    def test_the_program_costs_more(self) -> None:
        self.assertGreater(forecast.cost(self.root, "card_cli"), 5 * forecast.cost(self.root, "low"))


if __name__ == "__main__":
    unittest.main()
