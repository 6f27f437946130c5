"""How the scripts beside it measure: what runs took, and tables of it in the rows of docs/COSTS.md.

A run is told as wall time / processor time: from its start to its end, and what all its threads had of processors in that
time, in the program and in the kernel for it. All variants run in turn, once in each round, so that what else the machine
does meets all of them; and of each of the two times the least of all rounds is told.
"""

import argparse
import datetime
import os
import resource
import shutil
import subprocess
import sys
import time
from collections import namedtuple

BENCH = os.path.dirname(os.path.abspath(__file__))
TOP = os.path.dirname(BENCH)
PROGRAM = os.environ.get("SSTORE", os.path.join(TOP, "crates/ss_program/out/ss_program"))

# Seconds of wall time and of processor time; and the most bytes of memory that a child held.
Took = namedtuple("Took", "wall processor held")


# ---- options


def positive(word):
    number = int(word)
    if number < 1:
        raise argparse.ArgumentTypeError(f"{word} isn't at least 1")
    return number


def numbers(word):
    return [positive(part) for part in word.split(",")]


def parser_of(page):
    """The options that each script has: its page, and the number of rounds."""
    parser = argparse.ArgumentParser(description=page, formatter_class=argparse.RawDescriptionHelpFormatter)
    parser.add_argument("--runs", type=positive, default=5)
    return parser


def want_program():
    if not os.access(PROGRAM, os.X_OK):
        sys.exit("the program isn't built: run ./sstore - run < examples/stored_run.jsonl first")


# ---- runs


def file_in_memory():
    return open(os.memfd_create("bench"), "w+b")


def input_of(lines):
    """A file in memory with these lines, which runs have as their input."""
    file = file_in_memory()
    file.writelines(lines)
    file.flush()
    return file


def run(words, given=None):
    """What a run of a program took, which has to end with status 0; and its report, as a file in memory."""
    report = file_in_memory()
    if given:
        os.lseek(given.fileno(), 0, os.SEEK_SET)
    begun = time.perf_counter()
    child = subprocess.Popen(words, stdin=given or subprocess.DEVNULL, stdout=report)
    _, status, used = os.wait4(child.pid, 0)
    wall = time.perf_counter() - begun
    child.returncode = os.waitstatus_to_exitcode(status)
    assert child.returncode == 0, f"{' '.join(words)} ended with status {child.returncode}"
    os.lseek(report.fileno(), 0, os.SEEK_SET)
    return Took(wall, used.ru_utime + used.ru_stime, used.ru_maxrss * 1024), report


def check_end(report, entries):
    """The report has to end with a list of so many entries."""
    end = b'["done",%d]\n' % entries
    report.seek(-len(end), os.SEEK_END)
    assert report.read() == end, f"the report doesn't end with {end.decode().strip()}"


def here(work):
    """What some work of this process took."""
    before, begun = resource.getrusage(resource.RUSAGE_SELF), time.perf_counter()
    work()
    wall, after = time.perf_counter() - begun, resource.getrusage(resource.RUSAGE_SELF)
    return Took(wall, after.ru_utime + after.ru_stime - before.ru_utime - before.ru_stime, 0)


def in_turn(variants, runs, words=""):
    """What each run gave of each of these variants, all of them in turn. How far it is goes to standard error."""
    found = {name: [] for name in variants}
    for number in range(1, runs + 1):
        print(f"{words}: round {number} of {runs}", file=sys.stderr)
        for name, variant in variants.items():
            found[name].append(variant())
    return found


def least(tooks):
    """Of each time the least."""
    return Took(*map(min, zip(*tooks)))


def least_of_each(variants, runs, words=""):
    return {name: least(tooks) for name, tooks in in_turn(variants, runs, words).items()}


# ---- tables


def head(runs, further=""):
    """The line in front of a table: when it was measured, on what, and which of the runs is told."""
    allowed = ",".join(map(str, sorted(os.sched_getaffinity(0))))
    print(
        f"{datetime.date.today()}, {os.cpu_count()} processors of which these may be used: {allowed}; "
        f"load {os.getloadavg()[0]:.1f} at the start; the least of {runs} run{'s'[:runs > 1]}{further}\n",
        flush=True,
    )


def row(cells):
    print("| " + " | ".join(map(str, cells)) + " |", flush=True)


def top_row(cells):
    row(cells)
    print("|" + "---|" * len(cells), flush=True)


def both(took, many, digits=1):
    """Microseconds of wall time / processor time for each of so many."""
    return f"{1e6 * took.wall / many:.{digits}f} / {1e6 * took.processor / many:.{digits}f}"


# ---- C


def built(words, source, program):
    """Whether cc has made a program of a source beside this file; a line says what is missing where it can't."""
    if not shutil.which("cc"):
        print("the compiler cc is missing (Debian: the packages gcc and libc6-dev)", flush=True)
        return False
    made = subprocess.run(["cc", "-O2", "-o", program, os.path.join(BENCH, source), *words], capture_output=True, text=True)
    if made.returncode and "sqlite3" in made.stderr:
        print("SQLite's header sqlite3.h or its library is missing (Debian: the package libsqlite3-dev)", flush=True)
        return False
    assert made.returncode == 0, made.stderr
    return True
