#!/usr/bin/env python3
"""How many records a second a command log writes to a folder in groups, and reads again.

    python3 bench/records.py [--groups 1,16,1000] [--flushes 10,100,1000] [--folder FOLDER]

Runs the program of crates/ss_cmdlog_bench (build it first: `cd crates/ss_cmdlog_bench && rt run -- words`, which ends with
the words that it wants), or the one that RECORDS names. Each line is one run: in a new folder a store is made, calls with
two Ints are flushed to it, a group a flush, and the store is opened again. The program takes the times itself: that of all
flushes, with the making and the spelling of the calls, and that of the opening, which reads all of them. Time is linear
where records a second stay the same while the number of flushes grows tenfold.

The new folder is inside FOLDER, or inside the one for temporary files where none is given. A flush is two syncs of its file,
so with small groups the device below that folder is measured: a folder in memory syncs for nothing, and says only what
the program itself costs.
"""

import argparse
import os
import subprocess
import sys
import tempfile

TOP = os.path.dirname(os.path.dirname(os.path.abspath(__file__)))
PROGRAM = os.environ.get("RECORDS", os.path.join(TOP, "crates/ss_cmdlog_bench/out/ss_cmdlog_bench"))
GROUPS = [1, 16, 1_000]
FLUSHES = [10, 100, 1_000]


def run(records, group, inside):
    """The seconds of the writing and of the reading. Both have to count all records."""
    with tempfile.TemporaryDirectory(dir=inside) as folder:
        words = [PROGRAM, folder, str(records), str(group), "time"]
        printed = subprocess.run(words, stdout=subprocess.PIPE, check=True, text=True).stdout
    written, read = (line.split() for line in printed.splitlines())
    assert written[:2] == ["written", str(records)], "another number was written"
    assert read[:2] == ["read", str(records)], "another number was read"
    return float(written[2]), float(read[2])


def main():
    parser = argparse.ArgumentParser(description=__doc__, formatter_class=argparse.RawDescriptionHelpFormatter)
    parser.add_argument("--groups", default=",".join(map(str, GROUPS)))
    parser.add_argument("--flushes", default=",".join(map(str, FLUSHES)))
    parser.add_argument("--folder")
    given = parser.parse_args()
    if not os.access(PROGRAM, os.X_OK):
        sys.exit("the program isn't built: run `cd crates/ss_cmdlog_bench && rt run -- words` first")
    print(f"{'group':>8}{'flushes':>10}{'records':>12}{'written a s':>14}{'us a flush':>12}{'read a s':>14}")
    for group in map(int, given.groups.split(",")):
        for flushes in map(int, given.flushes.split(",")):
            records = group * flushes
            writing, reading = run(records, group, given.folder)
            print(
                f"{group:>8,}{flushes:>10,}{records:>12,}{records / writing:>14,.0f}"
                f"{1e6 * writing / flushes:>12,.1f}{records / reading:>14,.0f}",
                flush=True,
            )


if __name__ == "__main__":
    main()
