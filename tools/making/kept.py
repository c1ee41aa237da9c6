"""Builds the program over what is kept of earlier work, so that after an edit only what it touches is proved again.

`rt lib` proves each library, as many side by side as there are cores and memory for, and `rt run` the program. While rt
works on a crate it keeps others from the libraries below it, so each library is proved in a tree of its own in
out/build, which has copies of the sources and links to the libraries. What rt says of a crate goes to
out/build/CRATE.log. A crate that is proved stays so, so an interrupted build goes on where it stopped.
"""

import glob
import os
import re
import shutil
import signal
import subprocess
import time
from typing import Dict, List, Optional, Tuple

from . import sums
from .forecast import Forecast, cost, way_up
from .progress import Teller, left_of, say, slots, time_of

MOST_JOBS = 4
SO_FAR = re.compile(rb"^so far: (\d+) of (\d+) functions", re.MULTILINE)
# A file that the prover keeps of each function whose check has begun. With one job it tells no more than that.
BEGUN = os.path.join("out", "incremental", "*", "*.Layout.oantt")


def has_most(root: str, crates: List[str]) -> bool:
    """Whether at least half of the crates stand built, so that it pays to go on from there."""
    stamps = [os.path.join(root, "crates", crate, "out", "rlib", "stamp") for crate in crates]
    return 2 * sum(map(os.path.isfile, stamps)) >= len(crates)


class Tree:
    """A tree for one library: its sources, with what was kept of earlier work on it, and the libraries that it uses."""

    def __init__(self, root: str, logs: str, uses: Dict[str, List[str]], crate: str) -> None:
        self.top = os.path.join(logs, "trees", crate)
        self.folder = os.path.join(self.top, "crates", crate)
        self.out = os.path.join(root, "crates", crate, "out")
        self.take_back()
        lower = sums.below(uses, crate)
        for each in (crate, *lower):
            for part in sums.PARTS:
                source = os.path.join(root, "crates", each, part)
                if os.path.isdir(source):
                    shutil.copytree(source, os.path.join(self.top, "crates", each, part))
        shutil.copy(os.path.join(root, "HANDLES"), self.top)
        listed = sums.listed(root)
        with open(os.path.join(self.top, "crates.txt"), "w", encoding="utf-8") as file:
            file.writelines("%s: %s\n" % (each, " ".join(listed[each])) for each in (crate, *lower))
        for each in lower:
            shutil.copytree(os.path.join(root, "crates", each, "out", "rlib"),
                            os.path.join(self.top, "crates", each, "out", "rlib"), copy_function=os.link)
        if os.path.isdir(self.out):
            os.rename(self.out, os.path.join(self.folder, "out"))

    def take_back(self) -> None:
        """Brings the library home, with what is kept of the work on it, and removes the tree."""
        made = os.path.join(self.folder, "out")
        if os.path.isdir(made) and not os.path.isdir(self.out):
            os.rename(made, self.out)
        shutil.rmtree(self.top, ignore_errors=True)


class Run:
    """A run of rt in a folder of a crate; what it says goes to a file."""

    def __init__(self, crate: str, folder: str, log: str, words: List[str], jobs: int, tree: Optional[Tree]) -> None:
        self.crate, self.folder, self.log, self.jobs, self.tree = crate, folder, log, jobs, tree
        with open(log, "wb") as file:
            self.process = subprocess.Popen(
                ["rt", words[0], "--jobs", str(jobs), *words[1:]], cwd=folder,
                stdin=subprocess.DEVNULL, stdout=file, stderr=subprocess.STDOUT, start_new_session=True)

    def has_ended(self) -> bool:
        """Whether rt has ended; then the library is at home."""
        if self.process.poll() is None:
            return False
        if self.tree:
            self.tree.take_back()
        return True

    def functions(self) -> Optional[Tuple[int, int]]:
        """How many functions of the crate are checked, and how many there are; None where the prover says nothing."""
        with open(self.log, "rb") as log:
            found = SO_FAR.findall(log.read())
        if not found:
            return None
        done, whole = map(int, found[-1])
        return max(done, min(self.begun(), whole) if self.jobs == 1 else 0), whole

    def begun(self) -> int:
        """How many functions of the crate the prover has begun to check, by what it keeps."""
        return len(glob.glob(os.path.join(glob.escape(self.folder), BEGUN)))

    def stop(self) -> None:
        """Ends rt, which ends what it started."""
        if self.process.poll() is None:
            os.killpg(self.process.pid, signal.SIGTERM)
            self.process.wait()
        if self.tree:
            self.tree.take_back()


class Build:
    """The crates that are to be proved, in the order of what stands on them."""

    def __init__(self, root: str, uses: Dict[str, List[str]], crates: List[str]) -> None:
        self.root, self.uses, self.crates = root, uses, crates
        self.logs = os.path.join(root, "out", "build")
        self.waiting, self.done = list(crates), []  # type: List[str], List[str]
        self.running: List[Run] = []
        costs = {crate: cost(root, crate) for crate in crates}
        self.up = way_up(uses, costs)
        self.free, self.start = slots(), time.time()
        self.forecast = Forecast(uses, costs, self.free, self.start)
        self.teller = Teller(self.line)

    def begin(self) -> None:
        """Starts each crate whose libraries stand, while there is room; the longest way gets what the others leave."""
        ready = [crate for crate in self.waiting if all(each in self.done for each in self.uses[crate])]
        ready.sort(key=lambda crate: -self.up[crate])
        for at, crate in enumerate(ready):
            if self.free == 0:
                return
            jobs = max(1, min(self.free - (len(ready) - at - 1), MOST_JOBS))
            self.waiting.remove(crate)
            self.running.append(self.run_of(crate, jobs))
            self.free -= jobs

    def run_of(self, crate: str, jobs: int) -> Run:
        """Starts rt for a crate."""
        log, folder = os.path.join(self.logs, crate + ".log"), os.path.join(self.root, "crates", crate)
        if crate == sums.PROGRAM:
            # It reads the demo stack and no input, so its status is 0 where it was built.
            return Run(crate, folder, log, ["run", "--", os.path.join(folder, "data", "demo.stack")], jobs, None)
        tree = Tree(self.root, self.logs, self.uses, crate)
        return Run(crate, tree.folder, log, ["lib"], jobs, tree)

    def end(self) -> Optional[Run]:
        """Takes up the runs that have ended, and gives the first that failed, or None."""
        for run in [run for run in self.running if run.has_ended()]:
            if run.process.returncode != 0:
                return run
            self.running.remove(run)
            self.done.append(run.crate)
            self.free += run.jobs
            self.forecast.ended(run.crate, time.time(), was_kept=run.functions() is None)
        return None

    def line(self) -> str:
        """How far it is."""
        now = time.time()
        parts = ["%d of %d crates proved" % (len(self.done), len(self.crates)), time_of(now - self.start) + " gone",
                 left_of(self.forecast.left(now))]
        for run in self.running:
            functions = run.functions()
            parts.append("%s %d of %d functions" % (run.crate, *functions) if functions else run.crate)
        return ", ".join(parts)

    def go(self) -> int:
        """Proves all, and gives the status."""
        try:
            while len(self.done) < len(self.crates):
                self.begin()
                failed = self.end()
                if failed:
                    self.teller.clear()
                    say("%s was not built; what rt says stands in %s" % (failed.crate, os.path.relpath(failed.log)))
                    return int(failed.process.returncode)
                self.teller.tell()
                time.sleep(0.1)
            return 0
        finally:
            self.teller.clear()
            for run in self.running:
                run.stop()


def prove(root: str, uses: Dict[str, List[str]], crates: List[str]) -> int:
    """Builds the program, and gives the status: rt's, or 130 where it was interrupted.

    The record of the program is written where no source was changed meanwhile.
    """
    os.makedirs(os.path.join(root, "out", "build"), exist_ok=True)
    say("proving and building %s, %d crates, over what is kept of earlier work" % (sums.PROGRAM, len(crates)))
    before, build = sums.sum_of_sources(root), Build(root, uses, crates)
    try:
        status = build.go()
    except KeyboardInterrupt:
        say("interrupted; what is proved is kept")
        return 130
    if status == 0:
        if sums.sum_of_sources(root) == before:
            program = sums.sum_of_file(os.path.join(root, sums.BUILT))
            sums.Record(program, before, sums.kit() or "unknown").write(os.path.join(root, sums.OF_BUILD))
        say("%s is proved and built, after %s" % (sums.PROGRAM, time_of(time.time() - build.start)))
    return status
