#!/usr/bin/env python3
"""What an operation costs at a growing size, beside SQLite in memory on the same data.

    python3 bench/costs.py [--sizes 1000,20000] [--runs 5] [--svg FILE]

Runs the program that `./sstore` built (build it first), or the one that SSTORE names, and the sqlite3 module of this Python.
For each size a table of that many rows is filled, and each operation is called many times behind it. Printed are microseconds
an operation, as wall time / processor time of user and system: of the program what its run with the operations took less
that of the run without them, over their number, and of SQLite what the operations alone took. Each time is the least of so
many runs, in each of which all three have their turn. So start, reading the catalogue, filling and the report of the table
don't count; reading the operations' own lines and writing their replies do. The rows `calls` say how often the operations
behind them were called. An SVG of wall time against size is written beside this file, or where --svg says.
"""

import json
import os
import random
import sqlite3
import sys

import measure

PROGRAM = measure.PROGRAM
SIZES = [1_000, 20_000, 200_000, 1_000_000]
GROUPS = 40  # rows that share a value of the indexed column

TABLE = {"name": "t", "columns": [["k", "int"], ["g", "int"], ["v", "int"]], "key": ["k"], "part": 0}

CATALOGUE = {
    "tables": [TABLE, {"name": "u", "columns": [["k", "int"], ["v", "int"]], "key": ["k"], "part": 0}],
    "procedures": [
        {
            "name": name,
            "kind": "call",
            "args": [[a, "int"] for a in args],
            "touch": {"part": 0},
            "body": body,
        }
        for name, args, body in [
            ("first", [], [{"sql": "INSERT INTO t VALUES (0, 0, 0)"}]),
            (
                "double",
                ["n", "all", "groups"],
                [{"sql": "INSERT INTO t SELECT k + :n, (k + :n) % :groups, k FROM t WHERE k + :n < :all"}],
            ),
            ("insert", ["k"], [{"sql": "INSERT INTO u VALUES (:k, 1)"}]),
            ("look", ["k"], [{"return": "SELECT v FROM t WHERE k = :k"}]),
            ("update", ["k"], [{"sql": "UPDATE t SET v = v + 1 WHERE k = :k"}]),
            ("beside", ["k"], [{"sql": "UPDATE t SET v = v + 1 WHERE k = :k"}]),
            ("moved", ["k", "g"], [{"sql": "UPDATE t SET g = :g WHERE k = :k"}]),
            ("range", ["g"], [{"return": "SELECT COUNT(*), SUM(v) FROM t WHERE g = :g"}]),
            ("count", [], [{"return": "SELECT COUNT(*) FROM t"}]),
            ("sum", [], [{"return": "SELECT SUM(v) FROM t"}]),
            ("filter", ["v"], [{"return": "SELECT COUNT(*) FROM t WHERE v < :v"}]),
        ]
    ],
}

INDEXED = dict(CATALOGUE, tables=[dict(TABLE, indexes=[["g"]])] + CATALOGUE["tables"][1:])

# the operations that run on a table with an index on g
BY_INDEX = {"beside", "moved", "range"}

# the operations that walk the table, whose costs are told for each row
WALKS = {"count", "sum", "filter"}

SQLITE = {
    "insert": "INSERT INTO u VALUES (?, 1)",
    "look": "SELECT v FROM t WHERE k = ?",
    "update": "UPDATE t SET v = v + 1 WHERE k = ?",
    "beside": "UPDATE t SET v = v + 1 WHERE k = ?",
    "moved": "UPDATE t SET g = ?2 WHERE k = ?1",
    "range": "SELECT COUNT(*), SUM(v) FROM t WHERE g = ?",
    "count": "SELECT COUNT(*) FROM t",
    "sum": "SELECT SUM(v) FROM t",
    "filter": "SELECT COUNT(*) FROM t WHERE v < ?",
}

WORDS = {
    "insert": "insert of a row",
    "look": "look-up by key",
    "update": "update by key",
    "beside": "the same, beside an index",
    "moved": "update by key of an indexed column",
    "range": "forty rows by an indexed column",
    "count": "COUNT of all, for each row",
    "sum": "SUM of a column, for each row",
    "filter": "COUNT of half, by no key, for each row",
}


def calls(operation, size, many):
    """The arguments of each of so many operations, the same for both engines."""
    draw = random.Random(size)
    if operation == "insert":
        return [[k] for k in draw.sample(range(10 * many), many)]
    if operation in ("look", "update", "beside"):
        return [[draw.randrange(size)] for _ in range(many)]
    if operation == "moved":
        return [[draw.randrange(size), draw.randrange(max(1, size // GROUPS))] for _ in range(many)]
    if operation == "range":
        return [[draw.randrange(max(1, size // GROUPS))] for _ in range(many)]
    if operation == "filter":
        return [[size // 2] for _ in range(many)]
    return [[] for _ in range(many)]


def lines(name, arguments):
    return "".join(f'{{"call":"{name}","args":{json.dumps(a)}}}\n' for a in arguments)


def filling(size):
    """The requests that fill the table, which doubles it until it is full."""
    text, n = lines("first", [[]]), 1
    while n < size:
        text += lines("double", [[n, size, max(1, size // GROUPS)]])
        n *= 2
    return text


def run(given):
    """What a run of the program on an input took. Its report has to end with `done`."""
    took, report = measure.run([PROGRAM, "-", "run"], given)
    report.seek(-64, os.SEEK_END)
    assert b'["done",' in report.read(), "the report has no end"
    return took


def opened(operation, size):
    """A base of SQLite with the same rows."""
    base = sqlite3.connect(":memory:", isolation_level=None)
    base.execute("CREATE TABLE t (k INTEGER PRIMARY KEY, g INTEGER, v INTEGER)")
    base.execute("CREATE TABLE u (k INTEGER PRIMARY KEY, v INTEGER)")
    if operation in BY_INDEX:
        base.execute("CREATE INDEX by_g ON t (g)")
    groups = max(1, size // GROUPS)
    base.executemany("INSERT INTO t VALUES (?, ?, ?)", ((k, k % groups, k) for k in range(size)))
    return base


def in_sqlite(base, operation, asked):
    base.execute("DELETE FROM u")

    def work():
        for arguments in asked:
            base.execute(SQLITE[operation], arguments).fetchall()

    return measure.here(work)


def of_both(operation, size, many, runs):
    """What so many operations took of the program and of SQLite."""
    asked = calls(operation, size, many)
    head = json.dumps(INDEXED if operation in BY_INDEX else CATALOGUE, separators=(",", ":")) + "\n" + filling(size)
    texts = {"without": head, "with": head + lines(operation, asked)}
    given = {name: measure.input_of([text.encode()]) for name, text in texts.items()}
    base = opened(operation, size)
    variants = {name: lambda file=file: run(file) for name, file in given.items()}
    variants["SQLite"] = lambda: in_sqlite(base, operation, asked)
    found = measure.least_of_each(variants, runs, f"{WORDS[operation]}, {size:,} rows")
    ours = [with_them - without for with_them, without in zip(found["with"], found["without"])]
    return measure.Took(*ours), found["SQLite"]


def times(operation, size):
    """How often an operation is run: what walks, less often; at a great size more often, since what is taken off then
    is the time of filling and of the report."""
    if operation in WALKS:
        return max(5, min(2_000, 5_000_000 // size))
    return max(20_000, size // 4)


def measured(sizes, runs):
    """Microseconds of wall time of an operation, of both, by operation and size."""
    measure.head(runs, f"; SQLite {sqlite3.sqlite_version}, Python {sys.version.split()[0]}")
    measure.top_row(["microseconds, wall / processor", "", *(f"{size:,} rows" for size in sizes)])
    found, told = {}, None
    for operation in WORDS:
        many = [times(operation, size) for size in sizes]
        if many != told:
            measure.row(["", "calls", *(f"{number:,}" for number in many)])
            told = many
        tooks = [of_both(operation, size, number, runs) for size, number in zip(sizes, many)]
        parts = [number * (size if operation in WALKS else 1) for size, number in zip(sizes, many)]
        for place, engine in enumerate(("sstore", "SQLite")):
            costs = [measure.both(took[place], part, 3 if operation in WALKS else 1) for took, part in zip(tooks, parts)]
            measure.row([WORDS[operation] if place == 0 else "", engine, *costs])
        for size, took, part in zip(sizes, tooks, parts):
            found[operation, size] = [1e6 * one.wall / part for one in took]
    return found


COLOURS = ["#1f6f8b", "#b5651d", "#4b7f52", "#7d4b8f", "#8b1f3f", "#5f5f2e", "#2e4a7d", "#333333", "#a08000"]


def drawing(found, sizes):
    """Cost against size, both by powers of ten: the program in full lines, SQLite in broken ones."""
    from math import log10

    costs = [max(c, 1e-4) for pair in found.values() for c in pair]
    low, high = int(log10(min(costs)) // 1), int(log10(max(costs)) // 1) + 1
    left, right = log10(sizes[0]), log10(sizes[-1]) if len(sizes) > 1 else log10(sizes[0]) + 1
    x = lambda size: 70 + 470 * (log10(size) - left) / (right - left)
    y = lambda cost: 380 - 340 * (log10(max(cost, 1e-4)) - low) / (high - low)
    out = [
        '<svg xmlns="http://www.w3.org/2000/svg" viewBox="0 0 820 430" font-family="sans-serif" font-size="12">',
        '<rect width="820" height="430" fill="white"/>',
        '<text x="70" y="20">microseconds an operation, by rows of the table (full: sstore, broken: SQLite in memory)</text>',
    ]
    for power in range(low, high + 1):
        at = y(10.0**power)
        out.append(f'<line x1="70" x2="540" y1="{at:.1f}" y2="{at:.1f}" stroke="#ddd"/>')
        out.append(f'<text x="62" y="{at + 4:.1f}" text-anchor="end">{10.0 ** power:g}</text>')
    for size in sizes:
        out.append(f'<text x="{x(size):.1f}" y="400" text-anchor="middle">{size:,}</text>')
    for at, operation in enumerate(WORDS):
        for engine, dashes in ((0, ""), (1, ' stroke-dasharray="5 4"')):
            points = " ".join(f"{x(s):.1f},{y(found[operation, s][engine]):.1f}" for s in sizes)
            out.append(f'<polyline points="{points}" fill="none" stroke-width="2" stroke="{COLOURS[at]}"{dashes}/>')
        out.append(f'<text x="560" y="{60 + 22 * at}" fill="{COLOURS[at]}">{WORDS[operation]}</text>')
    return "\n".join(out + ["</svg>", ""])


def main():
    parser = measure.parser_of(__doc__)
    parser.add_argument("--sizes", type=measure.numbers, default=SIZES)
    parser.add_argument("--svg", default=os.path.join(measure.BENCH, "costs.svg"))
    given = parser.parse_args()
    measure.want_program()
    found = measured(given.sizes, given.runs)
    with open(given.svg, "w", encoding="utf-8") as file:
        file.write(drawing(found, given.sizes))
    print(f"written: {given.svg}")


if __name__ == "__main__":
    main()
