"""What the program is built from, and the record of a program that was built.

Three files hold a record: release/card_cli.json of the released program, out/gate.json of the one that the last gate
proved, and crates/card_cli/out/card_cli.json of the one that tools/build built. A record names no time and no folder,
so the same sources, built by the same kit, have the same record.
"""

import dataclasses
import hashlib
import json
import os
import subprocess
from typing import Dict, Iterator, List, Optional

PROGRAM = "card_cli"
PARTS = ("src", "specs", "proofs")
BLOCK = 1 << 20

RELEASED = os.path.join("release", PROGRAM)
BUILT = os.path.join("crates", PROGRAM, "out", PROGRAM)
OF_RELEASE = RELEASED + ".json"
OF_GATE = os.path.join("out", "gate.json")
OF_BUILD = BUILT + ".json"


class BadRecord(Exception):
    """A record isn't there or can't be read; the text says which and why."""


def listed(root: str) -> Dict[str, List[str]]:
    """Each crate with all libraries that it uses, the kit's too, from crates.txt."""
    with open(os.path.join(root, "crates.txt"), encoding="utf-8") as file:
        rows = [line.split("#")[0].partition(":") for line in file]
    return {head.split()[0]: rest.split() for head, _, rest in rows if head.strip()}


def dependencies(root: str) -> Dict[str, List[str]]:
    """The crates of the repository with the libraries of the repository that each uses."""
    found = listed(root)
    return {crate: [each for each in used if each in found] for crate, used in found.items()}


def needed(uses: Dict[str, List[str]]) -> List[str]:
    """The program and all that it stands on, the lowest first."""
    found: List[str] = []

    def add(crate: str) -> None:
        if crate not in found:
            for each in uses[crate]:
                add(each)
            found.append(crate)

    add(PROGRAM)
    return found


def below(uses: Dict[str, List[str]], crate: str) -> List[str]:
    """All that a crate stands on, each once, sorted."""
    found = set(uses[crate])
    for each in uses[crate]:
        found.update(below(uses, each))
    return sorted(found)


def sources(root: str, crate: str) -> Iterator[str]:
    """The files of a crate that its proof reads, by their paths in the repository."""
    for part in PARTS:
        for folder, _, files in os.walk(os.path.join(root, "crates", crate, part)):
            yield from (os.path.relpath(os.path.join(folder, file), root) for file in files)


def sum_of_file(path: str) -> str:
    """The SHA-256 of a file, in hexadecimal. Raises OSError where it can't be read."""
    found = hashlib.sha256()
    with open(path, "rb") as file:
        while True:
            block = file.read(BLOCK)
            if not block:
                return found.hexdigest()
            found.update(block)


def sum_of_sources(root: str) -> str:
    """The SHA-256 of all that the program is built from, beside the kit.

    It is that of a text: a line `CRATE: LIBRARY ..` for the program and each crate that it stands on, sorted by the
    crates' names, with the libraries as crates.txt lists them; and then a line as `sha256sum` prints it for HANDLES and
    for each source of these crates, sorted by the bytes of the paths. Raises OSError where a file can't be read.
    """
    crates, found = listed(root), hashlib.sha256()
    wanted = sorted(needed(dependencies(root)))
    for crate in wanted:
        found.update(("%s: %s\n" % (crate, " ".join(crates[crate]))).encode())
    paths = ["HANDLES", *(path for crate in wanted for path in sources(root, crate))]
    for path in sorted(map(os.fsencode, paths)):
        found.update(sum_of_file(os.path.join(root, os.fsdecode(path))).encode() + b"  " + path + b"\n")
    return found.hexdigest()


def kit() -> Optional[str]:
    """The one-line identity of the Rattle kit, or None where there is no command rt that tells it."""
    try:
        said = subprocess.run(["rt", "version"], stdin=subprocess.DEVNULL, stdout=subprocess.PIPE,
                              stderr=subprocess.DEVNULL, check=True, universal_newlines=True).stdout
    except (OSError, subprocess.CalledProcessError):
        return None
    return said.strip()


@dataclasses.dataclass(frozen=True)
class Record:
    """What a program is of: its SHA-256, the sum of its sources, and the kit that proved and built it."""

    program: str
    sources: str
    kit: str

    def write(self, path: str) -> None:
        """Puts the record into a file, whole or not at all. Raises OSError."""
        os.makedirs(os.path.dirname(path), exist_ok=True)
        with open(path + ".new", "w", encoding="utf-8") as file:
            json.dump(dataclasses.asdict(self), file, indent=2)
            file.write("\n")
        os.replace(path + ".new", path)


def read(root: str, name: str) -> Record:
    """The record that stands in a file of the repository. Raises BadRecord."""
    try:
        with open(os.path.join(root, name), encoding="utf-8") as file:
            said = json.load(file)
    except FileNotFoundError:
        raise BadRecord("there is no %s" % name) from None
    except (OSError, ValueError) as error:
        raise BadRecord("%s can't be read: %s" % (name, error)) from None
    names = [field.name for field in dataclasses.fields(Record)]
    if not isinstance(said, dict) or sorted(said) != sorted(names) or {*map(type, said.values())} != {str}:
        raise BadRecord("%s doesn't hold the texts %s alone" % (name, ", ".join(names)))
    return Record(**said)


def is_of(root: str, program: str, record: str, sources_now: str) -> bool:
    """Whether a program is there that a record names, and the record is of the sources with this sum."""
    try:
        said = read(root, record)
        return said.sources == sources_now and said.program == sum_of_file(os.path.join(root, program))
    except (BadRecord, OSError):
        return False


def is_built(root: str) -> bool:
    """Whether the program stands that the gate or tools/build has built from the sources that stand here."""
    path = os.path.join(root, BUILT)
    if not os.access(path, os.X_OK):
        return False
    now = sum_of_sources(root)
    return any(is_of(root, BUILT, record, now) for record in (OF_BUILD, OF_GATE))
