"""A guess at how long a build goes on, from which crates are proved by now.

Crates wait for the libraries that they use, so what is left is no fixed part of what is gone: at the end one crate
after another stands alone. The forecast plays the build with so many crates at a time, and measures by the crates that
are proved how long a unit of the play takes.
"""

import os
from typing import Dict, List, Mapping, Optional, Sequence, Tuple

from . import sums

# What a crate costs, as measured: the bytes of its code, its statements and proofs at a small part, and a fixed cost.
PART_OF_A_PROOF = 1 / 30
OF_EACH_CRATE = 6_000
# The program links all that it reaches, and is compiled.
OF_THE_PROGRAM = 60_000
# How much of all there is must be proved before the rest is guessed from it.
LEAST_TO_GUESS_FROM = 0.1
# What is left at least of a crate that takes longer than it was thought to.
LEAST_OF_A_CRATE = 0.1


def cost(root: str, crate: str) -> float:
    """How much there is to prove in a crate, roughly, in bytes of code."""
    found = float(OF_EACH_CRATE + OF_THE_PROGRAM * (crate == sums.PROGRAM))
    for path in sums.sources(root, crate):
        size = os.path.getsize(os.path.join(root, path))
        found += size if path.endswith(".rt") else size * PART_OF_A_PROOF
    return found


def way_up(uses: Mapping[str, Sequence[str]], costs: Mapping[str, float]) -> Dict[str, float]:
    """For each crate what is to be proved from there up: the crate, and the longest way over those that stand on it."""
    found: Dict[str, float] = {}
    for crate in reversed(list(costs)):
        found[crate] = costs[crate] + max((found[it] for it in found if crate in uses[it]), default=0.0)
    return found


def ends(uses: Mapping[str, Sequence[str]], costs: Mapping[str, float], lanes: int) -> Dict[str, float]:
    """When each crate is proved, where each begins after its libraries, `lanes` at a time, the longest way up first.

    `costs` has each crate after those that it uses; one that costs nothing is proved already, and stands at 0.
    """
    up = way_up(uses, costs)
    done = {crate: 0.0 for crate in costs if costs[crate] <= 0}
    running: List[Tuple[float, str]] = []
    now = 0.0
    while len(done) < len(costs):
        busy = {crate for _, crate in running}
        ready = [it for it in costs if it not in done and it not in busy and all(each in done for each in uses[it])]
        ready.sort(key=lambda it: -up[it])
        running += [(now + costs[it], it) for it in ready[:lanes - len(running)]]
        now, ended = min(running)
        running.remove((now, ended))
        done[ended] = now
    return done


def length(uses: Mapping[str, Sequence[str]], costs: Mapping[str, float], lanes: int) -> float:
    """How long it takes to prove the crates."""
    return max(ends(uses, costs, lanes).values(), default=0.0)


class Forecast:
    """What is known of a build that goes on. Times are in seconds, of any one clock."""

    def __init__(self, uses: Mapping[str, Sequence[str]], costs: Mapping[str, float], lanes: int, start: float) -> None:
        """The crates with what each uses, and what each costs, the lowest first; how many are proved at a time."""
        self.uses, self.costs, self.lanes = uses, dict(costs), lanes
        self.ends: Dict[str, float] = {}
        self.start = start

    def ended(self, crate: str, now: float, was_kept: bool = False) -> None:
        """Takes up that a crate is proved; one whose proof was kept from an earlier build says nothing of the speed."""
        self.ends[crate] = now
        if was_kept:
            self.costs[crate] = 0.0

    def pace(self) -> Optional[float]:
        """How many seconds a unit of the play takes; None where too little is proved to tell."""
        played = ends(self.uses, self.costs, self.lanes)
        reached = [played[crate] for crate in self.ends]
        if max(reached, default=0.0) < max(LEAST_TO_GUESS_FROM * max(played.values()), 1.0):
            return None
        return sum(self.ends[crate] - self.start for crate in self.ends if self.costs[crate]) / sum(reached)

    def left(self, now: float) -> Optional[float]:
        """The seconds that are left; None where too little is proved to tell."""
        pace = self.pace()
        if not pace or pace < 0:
            return None
        rest = {crate: 0.0 if crate in self.ends else each for crate, each in self.costs.items()}
        for crate in rest:
            if rest[crate] and all(each in self.ends for each in self.uses[crate]):
                since = max([self.start, *(self.ends[each] for each in self.uses[crate])])
                rest[crate] = max(rest[crate] - (now - since) / pace, LEAST_OF_A_CRATE * rest[crate])
        return pace * length(self.uses, rest, self.lanes)
