#!/usr/bin/env python3
"""What an audit of a report costs beside the run that printed it, at a growing number of entries.

    python3 bench/audit.py [--sizes 1000,10000,100000,300000] [--runs 5]

Runs the program that `./sstore` built (build it first), or the one that SSTORE names. Each line is a load with about so many
entries: short calls of one client, pushes through a workflow that parts and meets again, and what bench/soak.py asks with
eight clients. The script runs on an empty disk in memory, and its report is audited behind the script, by turns; printed are
microseconds an entry, as wall time / processor time of user and system, of each the least of so many runs, and how many
times as long as the run the audit took. Script and report of one load are within 64 MiB together at 300,000 entries.
"""

import json

import measure
import soak
import workflows

SIZES = [1_000, 10_000, 100_000, 300_000]
PROGRAM = measure.PROGRAM

CALLS = {
    "tables": [{"name": "acct", "columns": [["id", "int"], ["bal", "int"]], "key": ["id"], "part": 0}],
    "procedures": [
        {
            "name": "put",
            "kind": "call",
            "args": [["id", "int"], ["bal", "int"]],
            "touch": {"part": 0},
            "body": [{"insert": "acct", "values": [{"arg": "id"}, {"arg": "bal"}]}],
        }
    ],
}


def line_of(value):
    return json.dumps(value, separators=(",", ":")) + "\n"


def calls(entries):
    yield line_of(CALLS)
    for number in range(entries):
        yield line_of({"call": "put", "args": [number, number]})


def diamond(entries):
    # a push is five entries: its own, and those of four steps
    catalogue, _, requests = workflows.by_diamond(max(entries // 5, 1))
    yield line_of(catalogue)
    yield from requests


def clients(entries):
    # a request is two and a half entries or so
    yield soak.input_of(list(soak.requests_of(max(entries * 2 // 5, 1), 8, 1)))


LOADS = {"calls": calls, "diamond": diamond, "eight clients": clients}


def both_inputs(load, entries):
    """The script, and the script with the report of a run behind it, as files in memory; and how many entries there are."""
    script = measure.input_of(text.encode() for text in load(entries))
    _, report = measure.run([PROGRAM, "-", "run"], script)
    printed = report.read()
    script.seek(0)
    return script, measure.input_of([script.read(), printed]), json.loads(printed.splitlines()[-1])[1]


def audited(whole, entries):
    took, verdict = measure.run([PROGRAM, "-", "audit"], whole)
    said = verdict.read().decode()
    assert said == f'["audit","yes",{entries}]\n', said
    return took


def main():
    parser = measure.parser_of(__doc__)
    parser.add_argument("--sizes", type=measure.numbers, default=SIZES)
    given = parser.parse_args()
    measure.want_program()
    measure.head(given.runs)
    measure.top_row(["load", "entries", "run", "audit", "audit / run"])
    for size in given.sizes:
        for name, load in LOADS.items():
            script, whole, entries = both_inputs(load, size)
            variants = {
                "run": lambda: measure.run([PROGRAM, "-", "run"], script)[0],
                "audit": lambda: audited(whole, entries),
            }
            took = measure.least_of_each(variants, given.runs, f"{name}, {entries:,} entries")
            times = took["audit"].wall / took["run"].wall
            measure.row([name, f"{entries:,}", *(measure.both(took[which], entries) for which in variants), f"{times:.2f}"])


if __name__ == "__main__":
    main()
