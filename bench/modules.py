#!/usr/bin/env python3
"""Where the time of a check went: the functions of a crate, ranked by the time that passed as their modules were checked.

    python3 bench/modules.py FOLDER [--functions 20]

FOLDER is the incremental folder of a first check of a whole crate with one job (`rattle check --incremental FOLDER --jobs 1`). antt
writes a file there for each module as it ends with it, so the time between two files is that of the later one: by the wall, so
only shares tell where the machine was shared. Behind a function stand its largest parts: `Lts` has its steps and their fields,
`Layout` its places, `Tie` and `Proof` what the borrow checker and the prover make of it, `Goals` and `Answers` what is left to answers
by hand.
"""
import argparse
import collections
import glob
import os
import re
import sys

PARTS = r"Code|Lts|Layout|Tie|Proof|Goals|Given|Answers|Invariants|Kinds|Carried|Reads|Named|Statement|Met"


def modules_in(folder):
    """The modules in the order in which they were ended, each with the seconds since the one before."""
    files = glob.glob(f"{folder}/antt-checked-*/*.oantt")
    ended = sorted((os.stat(file).st_mtime_ns / 1e9, os.path.basename(file).removesuffix(".oantt")) for file in files)
    return [(name, at - before) for (before, _), (at, name) in zip(ended, ended[1:])]


def owner_and_part(module):
    """Of which function a module is, and what part; of a lemma or a definition its file."""
    path = re.sub(r"^Rattle-\w+-(proofs|specs\.contracts|specs)\.", "", module)
    found = re.match(rf"(.*?)\.({PARTS})(?![a-z])", path)
    return (found[1], found[2]) if found else (path, "itself")


def main():
    parser = argparse.ArgumentParser(description=__doc__, formatter_class=argparse.RawDescriptionHelpFormatter)
    parser.add_argument("folder", help="the incremental folder")
    parser.add_argument("--functions", type=int, default=20, help="how many to print")
    options = parser.parse_args()
    by_owner, by_part = collections.defaultdict(collections.Counter), collections.Counter()
    for module, seconds in modules_in(options.folder):
        owner, part = owner_and_part(module)
        by_owner[owner][part] += seconds
        by_part[part] += seconds
    whole = sum(by_part.values())
    if not whole:
        sys.exit("no module was checked into this folder")
    print("parts: " + ", ".join(f"{part} {100 * seconds / whole:.0f} %" for part, seconds in by_part.most_common(8)))
    for owner, parts in sorted(by_owner.items(), key=lambda it: -it[1].total())[: options.functions]:
        largest = ", ".join(f"{part} {seconds:.1f}" for part, seconds in parts.most_common(4))
        print(f"{parts.total():7.1f} s {100 * parts.total() / whole:4.0f} %  {owner}: {largest}")


if __name__ == "__main__":
    main()
