"""Builds the program from nothing, in the gate's own way.

`rt ci` proves a copy of the crates that the program needs, and no others, without their must-fail edits. It hands the
crates above a library what that states, and not its proofs, which takes half the processor time of `rt lib`. It is
called for one crate after another, in two lanes, so that each gets the cores that are free (lanes). A kit whose `rt ci`
takes no crate's name is called once, for all. Where rt keeps what it proves, a build that was interrupted goes on from
there. The copy lies in a temporary folder outside the repository.
"""

import contextlib
import os
import re
import shutil
import signal
import subprocess
import tempfile
import time
from typing import Dict, List, Optional, Set

from . import lanes, sums
from .forecast import Forecast, cost
from .progress import Teller, left_of, say, slots, time_of

# What rt says of a crate: it is proved now, or an earlier call or build has proved it.
PROVED = re.compile(rb"^rt: (\w+) (?:proved$|is (kept):)", re.MULTILINE)
# How rt begins where it is called with words that it doesn't take.
USAGE = b"usage: rt "
# Where Python starts with this folder, rt gives a proof that nothing stands beside all cores.
ALL_CORES = os.path.join(os.path.dirname(os.path.realpath(__file__)), "all_cores")
LOG = os.path.join("out", "build", "gate.log")
LOG_BESIDE = os.path.join("out", "build", "beside.log")
# What `rt ci` runs the program with, beside its sources.
GIVEN = ("args", "stdin", "stdout", "status")


def copy_of(root: str, top: str) -> None:
    """Puts the crates that the program needs into a folder, as a repository of their own."""
    uses = sums.dependencies(root)
    crates = sums.needed(uses)
    for crate in crates:
        folder = os.path.join("crates", crate)
        for part in (*sums.PARTS, "data"):
            if os.path.isdir(os.path.join(root, folder, part)):
                shutil.copytree(os.path.join(root, folder, part), os.path.join(top, folder, part))
        for name in GIVEN:
            if os.path.isfile(os.path.join(root, folder, name)):
                shutil.copy(os.path.join(root, folder, name), os.path.join(top, folder, name))
    shutil.copy(os.path.join(root, "HANDLES"), top)
    listed = sums.listed(root)
    with open(os.path.join(top, "crates.txt"), "w", encoding="utf-8") as file:
        file.writelines("%s: %s\n" % (crate, " ".join(listed[crate])) for crate in crates)
    # rt ci looks upwards for the top of a repository; here it is.
    os.mkdir(os.path.join(top, ".git"))


class Anew:
    """A build from nothing."""

    def __init__(self, root: str, uses: Dict[str, List[str]], crates: List[str]) -> None:
        self.root, self.crates, self.log = root, crates, os.path.join(root, LOG)
        self.start = time.time()
        self.done: Set[str] = set()
        self.top = ""
        self.running: List["subprocess.Popen[bytes]"] = []
        self.side: Optional["subprocess.Popen[bytes]"] = None
        self.asked: Set[str] = set()
        costs = {crate: cost(root, crate) for crate in crates}
        self.has_cores = slots() >= lanes.LEAST_CORES
        self.lanes = lanes.Lanes(uses, costs) if self.has_cores and lanes.is_kept() else None
        self.forecast = Forecast(uses, costs, slots(), self.start)
        self.teller = Teller(self.line)

    def line(self) -> str:
        """How far it is."""
        now = time.time()
        return "%d of %d crates proved, %s gone, %s" % (
            len(self.done), len(self.crates), time_of(now - self.start), left_of(self.forecast.left(now)))

    def look(self) -> None:
        """Takes up which crates are proved by now, from what rt has said."""
        found: Dict[str, bool] = {}
        for path in (LOG, LOG_BESIDE):
            if os.path.exists(os.path.join(self.root, path)):
                with open(os.path.join(self.root, path), "rb") as log:
                    for name, kept in PROVED.findall(log.read()):
                        found[name.decode()] = bool(kept) and found.get(name.decode(), True)
        for crate in found.keys() - self.done:
            self.forecast.ended(crate, time.time(), was_kept=found[crate])
        self.done |= found.keys()

    def begin(self, log: str, crate: Optional[str], is_alone: bool = False) -> "subprocess.Popen[bytes]":
        """Calls rt for a crate and those below it, or for all, in the copy. What it says goes to a log."""
        env = {**os.environ, "TMPDIR": os.path.join(self.top, "room")}
        if is_alone:
            env["PYTHONPATH"] = ALL_CORES
        with open(os.path.join(self.root, log), "ab") as said:
            process = subprocess.Popen(
                ["rt", "ci", *([crate] if crate else [])], cwd=os.path.join(self.top, "tree"), stdin=subprocess.DEVNULL, stdout=said,
                env=env, stderr=subprocess.STDOUT, start_new_session=True)
        self.running.append(process)
        return process

    def go_on_beside(self) -> None:
        """Calls rt for the next crate beside the way, where the last such call has ended."""
        if self.lanes and (self.side is None or self.side.poll() is not None):
            crate = self.lanes.next_beside(self.done, self.asked)
            if crate:
                self.asked.add(crate)
                self.side = self.begin(LOG_BESIDE, crate)

    def wait(self, process: "subprocess.Popen[bytes]") -> int:
        """Tells how far it is until a call of rt ends, and gives its status."""
        while process.poll() is None:
            self.look()
            self.go_on_beside()
            self.teller.tell()
            time.sleep(0.2)
        self.look()
        self.running.remove(process)
        return process.returncode

    def took_no_name(self) -> bool:
        """Whether rt has said how it is used in place of proving the crate that it was called for."""
        with open(self.log, "rb") as log:
            return log.read(len(USAGE)) == USAGE

    def prove(self) -> int:
        """Proves the larger crates of the longest way, each alone, and the others beside, and then all.

        Gives the status of rt.
        """
        try:
            while True:
                crate = self.lanes.next_of_way(self.done) if self.lanes else None
                is_alone = self.lanes.is_alone(self.done) if self.lanes else self.has_cores
                status = self.wait(self.begin(LOG, crate, is_alone))
                if crate and self.took_no_name():
                    self.lanes = None
                    os.truncate(self.log, 0)
                elif status != 0 or not crate:
                    return status
        finally:
            self.end()

    def end(self) -> None:
        """Ends the calls of rt that still run."""
        for process in self.running:
            if process.poll() is None:
                os.killpg(process.pid, signal.SIGTERM)
            process.wait()
        self.teller.clear()

    def go(self) -> int:
        """Proves all, puts the program and its record in their places, and gives the status of rt."""
        os.makedirs(os.path.dirname(self.log), exist_ok=True)
        for path in (LOG, LOG_BESIDE):
            with contextlib.suppress(FileNotFoundError):
                os.remove(os.path.join(self.root, path))
        self.top = tempfile.mkdtemp(prefix="card-build-")
        try:
            tree, room = os.path.join(self.top, "tree"), os.path.join(self.top, "room")
            for folder in (tree, room):
                os.mkdir(folder)
            for folder in (self.top, room):
                # As root, rt runs the program as nobody, who has to come through.
                os.chmod(folder, 0o711)
            copy_of(self.root, tree)
            status = self.prove()
            if status != 0:
                say("%s was not built; what rt says stands in %s" % (sums.PROGRAM, os.path.relpath(self.log)))
                return status
            self.keep(tree)
            return 0
        finally:
            shutil.rmtree(self.top, ignore_errors=True)

    def keep(self, tree: str) -> None:
        """Takes the program out of the copy, with the record of the sources that stand in the copy."""
        to = os.path.join(self.root, sums.BUILT)
        os.makedirs(os.path.dirname(to), exist_ok=True)
        shutil.copy(os.path.join(tree, sums.BUILT), to + ".new")
        os.replace(to + ".new", to)
        record = sums.Record(sums.sum_of_file(to), sums.sum_of_sources(tree), sums.kit() or "unknown")
        record.write(os.path.join(self.root, sums.OF_BUILD))


def prove(root: str, uses: Dict[str, List[str]], crates: List[str]) -> int:
    """Builds the program from nothing, and gives the status: rt's, or 130 where it was interrupted."""
    say("proving and building %s from nothing, %d crates; a line says how far it is" % (sums.PROGRAM, len(crates)))
    build = Anew(root, uses, crates)
    try:
        status = build.go()
    except KeyboardInterrupt:
        say("interrupted")
        return 130
    if status == 0:
        say("%s is proved and built, after %s" % (sums.PROGRAM, time_of(time.time() - build.start)))
    return status
