#!/usr/bin/env python3
"""What a push through a workflow costs, at a growing number of pushes, of sources and of rows.

    python3 bench/workflows.py [--sizes 1000,10000,100000] [--runs 5]

Runs the program that `./sstore` built (build it first), or the one that SSTORE names. Each line is a load with a number of
pushes, and has microseconds a push and a step, from the start of a run to the end of its report, as wall time / processor
time of user and system: the least of each of so many runs, in each of which all lines have their turn. Where batches are long
it's a row and a step in place of a step. The last column is the most memory that the program held, in the run that held
least. Time is linear where microseconds stay the same while the number grows tenfold, and memory where it grows as the
list does, which holds each push and each step. What is told of memory is never less than what this script itself has, some
15 MB.
"""

import json

import measure

PROGRAM = measure.PROGRAM
SIZES = [1_000, 10_000, 100_000]
ROWS = 1_024  # the most that a batch may have
CHAIN = 8  # procedures that a long batch goes through
COLUMNS = [["x", "int"]]


def streams(names):
    return [{"name": name, "columns": COLUMNS} for name in names]


def procedure(name, inputs, body):
    kind = "border" if inputs == ["s"] else "interior"
    return {"name": name, "kind": kind, "inputs": inputs, "touch": {"part": 0}, "body": body}


def emit(stream, query):
    return {"emit": stream, "sql": query}


# the workflow that parts and meets again: `a`, then `p` and `q`, then `j`
DIAMOND = {
    "tables": [{"name": "joined", "columns": [["x", "int"], ["side", "int"]], "key": ["x"], "part": 0}],
    "streams": streams(["s", "l", "r", "pl", "qr"]),
    "procedures": [
        procedure("a", ["s"], [emit("l", "SELECT x FROM s"), emit("r", "SELECT x FROM s")]),
        procedure(
            "p",
            ["l"],
            [
                {"abort_if": "(SELECT COUNT(*) FROM l WHERE x = 7) > 0", "code": 3},
                emit("pl", "SELECT x + 10 FROM l"),
            ],
        ),
        procedure("q", ["r"], [emit("qr", "SELECT x + 20 FROM r")]),
        procedure(
            "j",
            ["pl", "qr"],
            [
                {"sql": "INSERT INTO joined SELECT x, 1 FROM pl"},
                {"sql": "INSERT INTO joined SELECT x, 2 FROM qr"},
            ],
        ),
    ],
}


def chain(length):
    """So many procedures, each of which hands its batch on; the last keeps the greatest row."""
    middle = [
        procedure(f"c{k}", [f"q{k}"], [emit(f"q{k + 1}", f"SELECT x + 1 FROM q{k}")]) for k in range(1, length - 1)
    ]
    last = procedure(
        "last",
        [f"q{length - 1}"],
        [{"sql": "DELETE FROM top"}, {"sql": f"INSERT INTO top SELECT MAX(x) FROM q{length - 1}"}],
    )
    return {
        "tables": [{"name": "top", "columns": COLUMNS, "key": ["x"], "part": 0}],
        "streams": streams(["s"] + [f"q{k}" for k in range(1, length)]),
        "procedures": [procedure("b", ["s"], [emit("q1", "SELECT x FROM s")])] + middle + [last],
    }


# a border procedure alone, so that what a push costs is mostly the push
ALONE = {
    "tables": [{"name": "t", "columns": COLUMNS, "key": ["x"], "part": 0}],
    "streams": streams(["s"]),
    "procedures": [procedure("b", ["s"], [{"sql": "INSERT INTO t SELECT x FROM s"}])],
}


def push(source, seq, rows):
    return json.dumps({"push": "s", "source": source, "seq": seq, "rows": rows}, separators=(",", ":")) + "\n"


def by_diamond(number):
    """One source, a row a push; 100 apart, so that no key of `joined` is taken."""
    return DIAMOND, 4, (push("a", i, [[100 * i]]) for i in range(number))


def by_one_source(number):
    return ALONE, 1, (push("a", i, [[i]]) for i in range(number))


def by_many_sources(number):
    return ALONE, 1, (push(f"source_{i}", 0, [[i]]) for i in range(number))


def by_clients(number):
    """Eight clients in turn, each with a source of its own."""
    text = (push(f"c{i % 8}", i // 8, [[100 * i]]) for i in range(number))
    return DIAMOND, 4, ('{"client":%d,' % (i % 8) + line[1:] for i, line in enumerate(text))


def by_long_batches(number):
    return chain(CHAIN), CHAIN, (push("a", i, [[i * ROWS + k] for k in range(ROWS)]) for i in range(number))


def input_of(catalogue, requests):
    yield (json.dumps(catalogue, separators=(",", ":")) + "\n").encode()
    for line in requests:
        yield line.encode()


def run(given, entries):
    """What a run took. Its report has to have each push and each step, and none that has aborted."""
    took, report = measure.run([PROGRAM, "-", "run"], given)
    for line in report:
        assert b'"aborted"' not in line, "a step has aborted"
    measure.check_end(report, entries)
    return took


KINDS = [
    ("pushes through a diamond", by_diamond, 1),
    ("pushes through a diamond, of eight clients", by_clients, 1),
    ("pushes of one source", by_one_source, 1),
    ("pushes of a source each", by_many_sources, 1),
    (f"batches of {ROWS:,} rows through {CHAIN} steps; a row and step", by_long_batches, ROWS),
]


def main():
    parser = measure.parser_of(__doc__)
    parser.add_argument("--sizes", type=measure.numbers, default=SIZES)
    given = parser.parse_args()
    measure.want_program()
    variants, parts = {}, {}
    for words, kind, rows in KINDS:
        for size in given.sizes:
            number = max(1, size // 100) if rows > 1 else size
            catalogue, steps, requests = kind(number)
            file = measure.input_of(input_of(catalogue, requests))
            entries = number * (steps + 1)
            variants[words, number] = lambda file=file, entries=entries: run(file, entries)
            parts[words, number] = number * steps * rows
    measure.head(given.runs)
    found = measure.least_of_each(variants, given.runs, "all loads")
    measure.top_row(["microseconds, wall / processor", "pushes", "a push", "a step", "MB held"])
    for (words, number), took in found.items():
        step = measure.both(took, parts[words, number], 3)
        measure.row([words, f"{number:,}", measure.both(took, number), step, f"{took.held / 1e6:.0f}"])


if __name__ == "__main__":
    main()
