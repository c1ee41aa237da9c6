"""The same work here, in Rexx and in Tcl: processor seconds, and the ratio to the language that a bound names."""

import shutil
from typing import Callable, Dict, List, NamedTuple, Sequence, Tuple

from .asked import Broken
from .runs import Runs, least, lines_of

# How often each row is run, one row after the other, since a machine may be twice as fast some seconds later; and what is
# run fewer times, since it takes longer.
ROUNDS, FEW_ROUNDS = 16, 3
# A program that does nothing, in each other language.
EMPTY = {"regina": "exit\n", "tclsh": "exit\n"}
# A line full of sums, each as deep as may be, in turns.
OPERANDS, SUMS, TURNS = 90, 150, 100
# Texts that are new each time, as long as may be, full of sums of five.
NEW_TEXTS, PIECES = 200, 2_980
# Lines that are typed, here and in Tcl.
MANY = 200_000
TCL_READS_LINES = "while {[gets stdin l] >= 0} { eval $l; puts ok }\n"


class Task(NamedTuple):
    """What is timed: the handlers that do it on the message measure, the same in other languages, and how many times the time
    of which of these it may take."""

    name: str
    handlers: Sequence[str]
    programs: Dict[str, str]
    language: str
    most: float


TASKS: Sequence[Task] = (
    Task("1,000,000 sums of a local",
         ["on measure", "put 0 into x", "repeat with i = 1 to 1000000", "add i to x", "end repeat", "put x", "end measure"],
         {"regina": "numeric digits 12\nx = 0\ndo i = 1 to 1000000\n  x = x + i\nend\nsay x",
          "tclsh": "proc f {} { set x 0; for {set i 1} {$i <= 1000000} {incr i} { set x [expr {$x + $i}] }; puts $x }\nf"},
         "tclsh", 1.0),
    Task("1,000,000 sums of a global",
         ["on measure", "global g", "put 0 into g", "repeat with i = 1 to 1000000", "add i to g", "end repeat", "put g",
          "end measure"],
         {"regina": "numeric digits 12\nx = 0\ndo i = 1 to 1000000\n  x = x + i\nend\nsay x",
          "tclsh": "set x 0; for {set i 1} {$i <= 1000000} {incr i} { set x [expr {$x + $i}] }; puts $x"},
         "regina", 1.0),
    Task("75,000 calls, fib(24)",
         ["on measure", "put fib(24)", "end measure", "function fib n", "if n < 2 then return n",
          "return fib(n - 1) + fib(n - 2)", "end fib"],
         {"regina": "say fib(24)\nexit\nfib: procedure\n  parse arg n\n  if n < 2 then return n\n"
                    "  return fib(n - 1) + fib(n - 2)",
          "tclsh": "proc fib {n} { if {$n < 2} { return $n }; expr {[fib [expr {$n-1}]] + [fib [expr {$n-2}]]} }\nputs [fib 24]"},
         "tclsh", 1.0),
    Task("200,000 appends of 10 bytes",
         ["on measure", "repeat 200", "put empty into t", "repeat 1000", 'put "abcdefghij" after t', "end repeat",
          "end repeat", "put the length of t", "end measure"],
         {"regina": "do k = 1 to 200\n  t = ''\n  do i = 1 to 1000\n    t = t || 'abcdefghij'\n  end\nend\nsay length(t)",
          "tclsh": "proc f {} { for {set k 0} {$k < 200} {incr k} { set t {}; for {set i 0} {$i < 1000} {incr i} "
                   "{ append t abcdefghij } }; puts [string length $t] }\nf"},
         "regina", 2.0),
    Task("40,000 reads of a word of 2,000",
         ["on measure", "put empty into t", "repeat with i = 1 to 2000", "put i & space after t", "end repeat", "put 0 into n",
          "repeat 20", "repeat with i = 1 to 2000", "add word i of t to n", "end repeat", "end repeat", "put n", "end measure"],
         {"regina": "t = ''\ndo i = 1 to 2000; t = t || i || ' '; end\nn = 0\n"
                    "do k = 1 to 20; do i = 1 to 2000; n = n + word(t, i); end; end\nsay n",
          "tclsh": "proc f {} { set t {}; for {set i 1} {$i <= 2000} {incr i} { append t $i { } }; set n 0\n"
                   "for {set k 0} {$k < 20} {incr k} { for {set i 0} {$i < 2000} {incr i} { incr n [lindex [split $t] $i] } }; "
                   "puts $n }\nf"},
         "regina", 1.0),
    Task("%d lines of %d sums" % (TURNS, (OPERANDS - 1) * SUMS),
         ["on measure", "put 1 into a", "repeat %d" % TURNS, "take " + ",".join(["+".join(["a"] * OPERANDS)] * SUMS),
          "end repeat", "put a", "end measure", "on take", "end take"],
         {"regina": "a = 1\ndo %d\n%s\nend\nsay a" % (TURNS, "\n".join(["b = " + "+".join(["a"] * OPERANDS)] * SUMS)),
          "tclsh": "proc f {} { set a 1; for {set i 0} {$i < %d} {incr i} { list%s }; puts $a }\nf"
                   % (TURNS, (" [expr {%s}]" % "+".join(["$a"] * OPERANDS)) * SUMS)},
         "tclsh", 2.0),
    Task("%d new texts of %d operators" % (NEW_TEXTS, 4 * PIECES),
         ["on measure", "put 1 into a", 'put "max(" into t', "repeat %d" % PIECES, 'put "a+a+a+a+a," after t', "end repeat",
          'put "1)+" after t', "put 0 into n", "repeat with i = 1 to %d" % NEW_TEXTS, "add the value of (t & i) to n",
          "end repeat", "put n", "end measure"],
         {"tclsh": "proc f {} { set a 1; set t \"max([string repeat {$a+$a+$a+$a+$a,} %d]1)+\"; set n 0\n"
                   "for {set i 1} {$i <= %d} {incr i} { incr n [expr $t$i] }; puts $n }\nf" % (PIECES, NEW_TEXTS)},
         "tclsh", 1.0),
)
TYPED_NAME, TYPED_LANGUAGE, MOST_FOR_A_TYPED_LINE = "200,000 typed lines", "tclsh", 4.0
# The seconds of runs and of starts alone, in pairs, here and by language.
Times = Dict[str, List[Tuple[float, float]]]


def run_once(runs: Runs, task: Task, languages: Sequence[str], into: Times) -> None:
    """Runs a task once, here and in those of these languages that are there, and adds what it took. Broken where another
    language finds something else."""
    ran = runs.here(task.handlers)
    into.setdefault("here", []).append((ran.seconds, runs.here(task.handlers, lines="").seconds))
    for language in languages:
        if shutil.which(language):
            other = runs.other(language, task.programs[language])
            if ran.printed != ["> " + other.printed[-1], "ok"]:
                raise Broken("%s: %s here, %s in %s" % (task.name, ran.printed, other.printed, language))
            into.setdefault(language, []).append((other.seconds, runs.other(language, EMPTY[language]).seconds))


def compared(runs: Runs, tasks: Sequence[Task], after_a_round: Callable[[], None]) -> List[Times]:
    """What each task took in rounds over all of them; languages that no bound names run once."""
    found: List[Times] = [{} for _ in tasks]
    for turn in range(ROUNDS):
        for task, into in zip(tasks, found):
            run_once(runs, task, list(task.programs) if turn == 0 else [task.language], into)
        after_a_round()
    return found


def typed(runs: Runs) -> Times:
    """Lines that set a global, each read and answered by itself."""
    found: Times = {}
    for _ in range(FEW_ROUNDS):
        here = [runs.here(lines=lines_of("put %d into g", count)).seconds for count in (MANY, 0)]
        found.setdefault("here", []).append((here[0], here[1]))
        if shutil.which(TYPED_LANGUAGE):
            there = [runs.other(TYPED_LANGUAGE, TCL_READS_LINES, lines_of("set g %d", count)).seconds for count in (MANY, 0)]
            found.setdefault(TYPED_LANGUAGE, []).append((there[0], there[1]))
    return found


def row(name: str, times: Times, language: str, most: float) -> str:
    """A row of the table: the seconds, and the ratio to the language of the bound, if that is there."""
    seconds = {each: least(found) for each, found in times.items()}
    columns = "".join("%10s" % ("%.2f" % seconds[each] if each in seconds else "-") for each in ("here", *EMPTY))
    if language not in seconds:
        return "%-34s%s" % (name, columns)
    ratio = seconds["here"] / seconds[language]
    return "%-34s%s   %.1f of %s, at most %.1f%s" % (name, columns, ratio, language, most, " *" if ratio > most else "")


def table(runs: Runs, after_a_round: Callable[[], None]) -> None:
    """Prints the table."""
    print("%-34s%10s%10s%10s" % ("processor seconds", "here", *EMPTY), flush=True)
    for task, times in zip(TASKS, compared(runs, TASKS, after_a_round)):
        print(row(task.name, times, task.language, task.most), flush=True)
    print(row(TYPED_NAME, typed(runs), TYPED_LANGUAGE, MOST_FOR_A_TYPED_LINE), flush=True)
