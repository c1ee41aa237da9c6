"""The cases of ./trial that end with each status, and with each line on standard error that tells a fault."""

import os
import subprocess
from typing import IO, Callable, Dict, List, Optional, Sequence, Tuple, Union

from .place import OLD, PROGRAM, Pairs, Place, as_nobody, before_end, built, put_text

# The status, standard output, and standard error.
Ended = Tuple[int, str, str]
Stream = Union[None, int, IO[bytes]]

TRY_HELP = "\nFor more information, try '--help'.\n\n"
USAGE = "\nUsage: card_cli [OPTIONS] <STACK>\n" + TRY_HELP
NO_MEMORY = (1, "", "card_cli: no memory\n")
TOO_MANY_LINES = "card_cli: too many lines\n"
MOST_LINES, MOST_BYTES = 1_000_000, 1_000_000_000
MOST_OF_NAME, MOST_OF_USAGE = 4_096, 30_000
# Words that aren't the program's, STACK being the stack, and what is said of them.
WRONG_WORDS: Sequence[Tuple[Sequence[str], str]] = (
    ((), "error: the following required arguments were not provided:\n  <STACK>\n\nUsage: card_cli <STACK>\n" + TRY_HELP),
    (("STACK", "more"), "error: unexpected argument 'more' found\n" + USAGE),
    (("--bogus", "STACK"), "error: unexpected argument '--bogus' found\n\n"
     "  tip: to pass '--bogus' as a value, use '-- --bogus'\n" + USAGE),
    (("STACK", "--steps"), "error: a value is required for '--steps <steps>' but none was supplied\n" + TRY_HELP),
    (("STACK", "--steps", "0"), "error: invalid value '0' for '--steps <steps>': 0 is not in 1..=10000000\n" + TRY_HELP),
    (("STACK", "--steps", "x"), "error: invalid value 'x' for '--steps <steps>': invalid digit found in string\n" + TRY_HELP),
    (("STACK", "--depth=1000001"),
     "error: invalid value '1000001' for '--depth <depth>': 1000001 is not in 1..=1000000\n" + TRY_HELP),
    (("STACK", "--watch", "--watch"), "error: the argument '--watch' cannot be used multiple times\n" + USAGE),
)
# An edit of the demo stack's text, and the fault that its reader finds.
WRONG_STACKS: Sequence[Tuple[Callable[[str], str], str]] = (
    (lambda text: text.replace("name |Demo", "name |J\\4a", 1), "1 at line 3"),
    (lambda text: text + "more\n", "1 at line 32"),
    (lambda text: text.replace("card 2 1", "card 3 1", 1), "2 at line 19"),
    (lambda text: text[:40], "3"),
    (lambda text: "", "3"),
    (lambda text: text.replace("next 5", "next 1000002", 1), "4"),
)


def ended(words: Sequence[str], text: Stream = subprocess.DEVNULL, out: Stream = subprocess.PIPE,
          before: Callable[[], None] = as_nobody, env: Optional[Dict[str, str]] = None) -> Ended:
    """How a run with these words ends; what it writes elsewhere counts as nothing."""
    done = subprocess.run([PROGRAM, *words], stdin=text, stdout=out, stderr=subprocess.PIPE, preexec_fn=before,
                          restore_signals=False, env=env, check=False)
    return done.returncode, (done.stdout or b"").decode("latin-1"), before_end(done.stderr.decode("latin-1"))


def first_line(found: Ended) -> Ended:
    """How a run ended, with the first line alone of what it says; where there are more, they are set in and say why."""
    status, out, told = found
    first, *others = told.splitlines(True) or [""]
    return status, out, first if all(line.startswith("  ") for line in others) else told


def with_lines(place: Place, lines: str) -> IO[bytes]:
    """A file with these lines, to be read."""
    path = os.path.join(place.folder, "lines")
    put_text(path, lines)
    return open(path, "rb")


def without(number: int) -> Callable[[], None]:
    """Who runs the program, with one of its streams closed."""
    def before() -> None:
        as_nobody()
        os.close(number)
    return before


def wrong_words(place: Place) -> Pairs:
    for words, said in WRONG_WORDS:
        given = [place.stack if word == "STACK" else word for word in words]
        yield (words, ended(given)), (words, (2, "", said))


def words_that_are_long(place: Place) -> Pairs:
    """What is said is cut."""
    status, out, said = ended([place.stack, "--" + "y" * 2 * MOST_OF_USAGE])
    yield (status, out, len(said)), (2, "", MOST_OF_USAGE + 1)
    yield said, ("error: unexpected argument '--" + "y" * MOST_OF_USAGE)[:MOST_OF_USAGE] + "\n"


def help_is_wrong_words(place: Place) -> Pairs:
    status, out, said = ended([place.stack, "--help"])
    yield (status, out, "Usage: card_cli [OPTIONS] <STACK>\n" in said), (2, "", True)


def missing_stack(place: Place) -> Pairs:
    missing = os.path.join(place.folder, "missing")
    os.chmod(place.stack, 0)
    for path in (missing, place.folder, place.stack):
        yield first_line(ended([path])), (1, "", "card_cli: cannot read %s\n" % path)


def stack_with_a_long_name(place: Place) -> Pairs:
    """The name is cut."""
    for length in (MOST_OF_NAME, MOST_OF_NAME + 1, 2 * MOST_OF_NAME):
        yield first_line(ended(["n" * length])), (1, "", "card_cli: cannot read %s\n" % ("n" * MOST_OF_NAME))


def refused_stacks(place: Place) -> Pairs:
    for edit, fault in WRONG_STACKS:
        put_text(place.stack, edit(OLD))
        yield first_line(ended([place.stack])), (2, "", "card_cli: stack refused %s\n" % fault)


def read_faults(place: Place) -> Pairs:
    """Standard input is a folder, or closed."""
    folder = os.open(place.folder, os.O_RDONLY)
    yield ended([place.stack], text=folder), (1, "", "card_cli: read fault\n")
    os.close(folder)
    yield ended([place.stack], text=None, before=without(0)), (1, "", "card_cli: read fault\n")


def write_faults(place: Place) -> Pairs:
    """Standard output is full, closed, or a pipe that nobody reads; where nothing is answered that doesn't matter."""
    with open("/dev/full", "wb") as full:
        with with_lines(place, ".where\n") as lines:
            yield ended([place.stack], lines, full), (1, "", "card_cli: write fault\n")
        yield ended([place.stack], out=full), (0, "", "")
    with with_lines(place, ".where\n") as lines:
        yield ended([place.stack], lines, None, without(1)), (1, "", "card_cli: write fault\n")
    read, write = os.pipe()
    os.close(read)
    with with_lines(place, ".where\n") as lines:
        yield ended([place.stack], lines, write), (1, "", "card_cli: write fault\n")
    os.close(write)


def closed_standard_error(place: Place) -> Pairs:
    """The status says what the line can't."""
    yield ended([place.folder], before=without(2)), (1, "", "")
    yield ended([], before=without(2)), (2, "", "")


def too_many_lines(place: Place) -> Pairs:
    """A million lines are answered, and one more isn't."""
    for count, status, told in ((MOST_LINES, 0, ""), (MOST_LINES + 1, 1, TOO_MANY_LINES)):
        with with_lines(place, ".x\n" * count) as lines:
            found = ended([place.stack], lines)
        yield (count, found[0], found[2]), (count, status, told)
        yield found[1] == "refused 3\n" * MOST_LINES, True


def too_many_bytes(place: Place) -> Pairs:
    """What is longer than a thousand million bytes isn't read to its end, though it is one line."""
    with with_lines(place, "") as lines:
        # A file with a hole takes no room.
        os.truncate(lines.name, MOST_BYTES + 1)
        yield ended([place.stack], lines), (1, "", TOO_MANY_LINES)


def no_memory(place: Place) -> Pairs:
    """Each allocation of a run that ends by wrong words, and of one that answers nothing, is refused in turn."""
    library, told = built(place.folder, "refuse.c"), os.path.join(place.folder, "told")
    os.chmod(library, 0o755)
    for words, well in (((), (2, "", WRONG_WORDS[0][1])), ((place.stack,), (0, "", ""))):
        nth = 1
        while True:
            env = dict(os.environ, LD_PRELOAD=library, REFUSE_NTH=str(nth), REFUSE_TOLD=told)
            found = ended(words, env=env)
            if not os.path.exists(told):
                break
            os.remove(told)
            yield (words, nth, found), (words, nth, NO_MEMORY if found != well else well)
            nth += 1
        yield (words, found, nth > 2), (words, well, True)


def ends_well(place: Place) -> Pairs:
    """At `.quit`, at the end of input, and at one behind a line without an end."""
    for lines, answers in ((".quit\n.where\n", "ok\n"), (".where\n", "> 2\nok\n"), (".where", "> 2\nok\n"), ("", "")):
        with with_lines(place, lines) as given:
            yield (lines, ended([place.stack], given)), (lines, (0, answers, ""))


CASES: List[Callable[[Place], Pairs]] = [
    wrong_words, words_that_are_long, help_is_wrong_words, missing_stack, stack_with_a_long_name, refused_stacks,
    read_faults, write_faults, closed_standard_error, too_many_lines, too_many_bytes, no_memory, ends_well,
]
