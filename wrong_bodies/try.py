#!/usr/bin/env python3
"""Tries the wrong bodies that the gate leaves out: the prover must refuse each.

    python3 wrong_bodies/try.py          sees that each line that an edit changes stands in its file just once: a second
    python3 wrong_bodies/try.py NAME..   tries the edits of these crates by `rt ci`, on a copy of them and of what is below

The copy has these edits in place of those that the gate tries, and no tests and programs. So it takes the proofs of the
crates below, side by side on all processors (none of them, where the toolchain keeps on a machine what it proved there), once
more that of the crate itself before its first edit, and 20 seconds to a minute for each further one. An edit is written like
those of crates/NAME/must-fail, which `rt ci` tries itself. The status is that of `rt ci`.
"""
import os
import shutil
import signal
import subprocess
import sys
import tempfile

HERE = os.path.dirname(os.path.abspath(__file__))
TOP = os.path.dirname(HERE)
CRATES = os.path.join(TOP, "crates")


def edits_of(name):
    """The files of the edits of the crate `name`, in order."""
    folder = os.path.join(HERE, name)
    return [os.path.join(folder, file) for file in sorted(os.listdir(folder))] if os.path.isdir(folder) else []


def stale_lines(name):
    """The lines of the crate's edits that don't stand in their file just once."""
    found = []
    for edit in edits_of(name):
        text = ""
        for line in open(edit).read().splitlines():
            word, _, rest = line.partition(": ")
            if word == "file":
                text = open(os.path.join(CRATES, name, rest)).read()
            elif word == "old" and text.count(rest) != 1:
                found.append(f"{name}/{os.path.basename(edit)}: {rest.strip()}")
    return found


def libraries_of_crates():
    """What each line of crates.txt names: the libraries of each crate."""
    found = {}
    with open(os.path.join(TOP, "crates.txt")) as lines:
        for line in lines:
            head, _, libraries = line.partition("#")[0].partition(":")
            if head.strip():
                found[head.split()[0]] = line, libraries.split()
    return found


def with_those_below(names):
    """The lines of crates.txt for these crates and those below them, by crate."""
    libraries, found, left = libraries_of_crates(), {}, list(names)
    while left:
        name = left.pop()
        if name in libraries and name not in found:
            found[name], below = libraries[name]
            left += below
    return found


def try_them(names):
    """The status of `rt ci` on a copy of these crates with their edits, and of those below them without any."""
    lines = with_those_below(names)
    unknown = sorted(set(names) - set(lines))
    if unknown:
        sys.exit(f"crates.txt has no {' '.join(unknown)}")
    with tempfile.TemporaryDirectory(prefix="wrong-bodies-") as room:
        shutil.copyfile(os.path.join(TOP, "HANDLES"), os.path.join(room, "HANDLES"))
        with open(os.path.join(room, "crates.txt"), "w") as to:
            to.writelines(lines.values())
        for name in lines:
            leave_out = shutil.ignore_patterns("out", "must-fail")
            shutil.copytree(os.path.join(CRATES, name), os.path.join(room, "crates", name), ignore=leave_out)
        for name in names:
            shutil.copytree(os.path.join(HERE, name), os.path.join(room, "crates", name, "must-fail"))
        return subprocess.call(["rt", "ci"], cwd=room)


def main():
    names = sys.argv[1:] or sorted(name for name in os.listdir(HERE) if os.path.isdir(os.path.join(HERE, name)))
    stale = [line for name in names for line in stale_lines(name)]
    print("\n".join(stale) or f"{sum(len(edits_of(name)) for name in names)} edits apply")
    if stale:
        sys.exit(1)
    if sys.argv[1:]:
        signal.signal(signal.SIGTERM, lambda *_: sys.exit(1))  # so that the copy goes then too
        sys.exit(try_them(names))


if __name__ == "__main__":
    main()
