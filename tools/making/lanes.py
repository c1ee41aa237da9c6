"""In which order a build from nothing asks the gate for crates.

`rt ci` gives a proof the cores that no other proof waits for when it begins, and never more. So a crate that begins
beside others goes on with one core while the rest have long ended. Asked for one crate alone, or for some of which each
waits for the one before, rt gives each of them half of the cores, and all where it is told of more (all_cores). What is
proved is kept on the machine, and the next call takes it over. So one lane goes up the longest way: each call goes as
far up as nothing off the way is lacking. Beside it, another asks for a crate off the way as soon as its libraries are
proved: first for the one with the longest way up.
"""

import itertools
import os
import shutil
from typing import Collection, Dict, List, Mapping, Optional, Sequence

from .forecast import way_up

# With fewer cores there is nothing to share out.
LEAST_CORES = 3
KEPT = "rattle-kept"


def way_of(uses: Mapping[str, Sequence[str]], up: Mapping[str, float]) -> List[str]:
    """The crates of the longest way, the lowest first. `up` has the way up of each crate, after those that it uses."""
    found = [max(up, key=lambda it: up[it])]
    while True:
        above = [it for it in up if found[-1] in uses[it]]
        if not above:
            return found
        found.append(max(above, key=lambda it: up[it]))


class Lanes:
    """Which crate is asked for next, in each lane. `costs` has each crate after those that it uses."""

    def __init__(self, uses: Mapping[str, Sequence[str]], costs: Mapping[str, float]) -> None:
        self.uses, self.costs = uses, costs
        ways: Dict[str, float] = way_up(uses, costs)
        # Those of `costs`, in its order.
        self.up = {crate: ways[crate] for crate in costs}
        self.way = way_of(uses, self.up)

    def off_the_way(self, done: Collection[str]) -> List[str]:
        """The crates off the longest way that aren't proved."""
        return [it for it in self.costs if it not in self.way and it not in done]

    def next_of_way(self, done: Collection[str]) -> Optional[str]:
        """How far up the way the next call goes; None where it proves all that is left.

        While crates off the way aren't proved, it goes up to a crate that lacks one of them. It proves one crate alone
        where the first one lacks one, where nothing can stand beside it, since something may once it is proved, and
        where it would go up to the top, since it would keep half of the cores to itself all the way.
        """
        left = [it for it in self.way if it not in done]
        lacking = set(self.off_the_way(done))
        if not lacking or len(left) == 1:
            return None
        whole = list(itertools.takewhile(lambda it: not lacking & set(self.uses[it]), left))
        return left[0] if not whole or whole == left or self.is_alone(done) else whole[-1]

    def is_alone(self, done: Collection[str]) -> bool:
        """Whether nothing off the way can be proved now, so that the next call has nothing beside it."""
        return not any(all(each in done for each in self.uses[it]) for it in self.off_the_way(done))

    def next_beside(self, done: Collection[str], asked: Collection[str]) -> Optional[str]:
        """The crate off the way to ask for beside it: its libraries are proved, and it wasn't asked for; None where none is."""
        ready = [it for it in self.off_the_way(done) if it not in asked and all(each in done for each in self.uses[it])]
        return max(ready, key=lambda it: self.up[it], default=None)


def is_kept() -> bool:
    """Whether rt keeps what it proves, beside its kit."""
    command = shutil.which("rt")
    if not command:
        return False
    kit = os.path.dirname(os.path.dirname(os.path.realpath(command)))
    place = os.path.join(os.path.dirname(kit), KEPT)
    return os.access(place if os.path.isdir(place) else os.path.dirname(kit), os.W_OK)
