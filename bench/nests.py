#!/usr/bin/env python3
"""What a nest of several procedures costs, beside the same procedures one by one.

    python3 bench/nests.py [--pushes 20000] [--members 2,4,8] [--runs 5] [--folder FOLDER]

Runs the program that `./sstore` built (build it first), or the one that SSTORE names, on pushes through a chain of so many
procedures, each of which changes a row by its key and hands the batch on. Each line is such a chain, as procedures or as one
nest, and has microseconds a push of one client and of eight, from the start of the program to the end of its report, as wall
time / processor time of user and system: the least of each of so many runs, in each of which all lines have their turn. The
store is in memory (`-`), or in a new folder inside FOLDER, or inside the one for temporary files where none is given. The last
columns are the entries of the list and the bytes of the log for each push of one client.

The second table has the same chains with each procedure on a part of its own, on as many partitions, of eight clients in memory:
there procedures run side by side, and a nest has all partitions from its first member to its last.

Before anything is measured, the tables that a chain leaves as procedures are compared with those that it leaves as a nest.
"""

import json
import os
import tempfile

import measure

PROGRAM = measure.PROGRAM
CLIENTS = (1, 8)
COLUMNS = [["x", "int"]]


def catalogue(length, is_nest, is_spread):
    """A chain of so many procedures, the first of which takes what clients push. Each has a table, all on part 0 or each on a part of its own."""
    names, part = [f"p{at}" for at in range(length)], lambda at: at if is_spread else 0
    together = {"multi": sorted({part(at) for at in range(length)})}
    procedures = [
        {
            "name": name,
            "kind": "interior" if at else "border",
            "inputs": [f"s{at}"],
            "touch": together if is_nest else {"part": part(at)},
            "body": [{"sql": f"UPDATE t{at} SET n = n + 1 WHERE id = 1"}]
            + [{"emit": f"s{at + 1}", "sql": f"SELECT x + 1 FROM s{at}"}] * (at + 1 < length),
        }
        for at, name in enumerate(names)
    ]
    opened = [{"sql": f"INSERT INTO t{at} VALUES (1, 0)"} for at in range(length)]
    return {
        "tables": [{"name": f"t{at}", "columns": [["id", "int"], ["n", "int"]], "key": ["id"], "part": part(at)} for at in range(length)],
        "streams": [{"name": f"s{at}", "columns": COLUMNS} for at in range(length)],
        "procedures": [*procedures, {"name": "open", "kind": "call", "touch": "all", "body": opened}],
        **({"nests": [{"name": "all", "procedures": names}]} if is_nest else {}),
    }


def lines_of(length, is_nest, pushes, clients, is_spread=False):
    """The rows first, of client 0, and then the pushes of all clients in turn, each from a source of its own."""
    yield catalogue(length, is_nest, is_spread)
    yield {"call": "open", "args": []}
    for made in range(pushes):
        client = made % clients
        yield {"client": client, "push": "s0", "source": f"c{client}", "seq": made // clients, "rows": [[made]]}


def input_of(*asked):
    return measure.input_of(json.dumps(line, separators=(",", ":")).encode() + b"\n" for line in lines_of(*asked))


def entries_of(length, is_nest, pushes):
    """How many entries the list has."""
    return 1 + pushes * (2 if is_nest else 1 + length)


def timed(store, given, entries, partitions=1):
    """What a run took, whose list has to have so many entries."""
    took, report = measure.run([PROGRAM, store, "run", "--partitions", str(partitions)], given)
    measure.check_end(report, entries)
    return took


def in_memory(given, entries, partitions=1):
    return lambda: (timed("-", given, entries, partitions), 0)


def in_folder(parent, given, entries):
    """A run on a new store, and the bytes of its files."""

    def run():
        with tempfile.TemporaryDirectory(dir=parent) as folder:
            took = timed(folder, given, entries)
            return took, sum(os.path.getsize(os.path.join(folder, name)) for name in os.listdir(folder))

    return run


def tables_of(length, is_nest):
    """The rows that a few pushes leave."""
    _, report = measure.run([PROGRAM, "-", "run"], input_of(length, is_nest, 100, 1))
    return [line for line in map(json.loads, report) if line[0] in ("table", "row")]


def name_of(length, is_nest):
    return f"{length} procedures, " + ("as a nest" if is_nest else "one by one")


def on_one_part(given):
    variants = {}
    for length in given.members:
        assert tables_of(length, True) == tables_of(length, False), "a nest leaves other tables than its members"
        for is_nest in (False, True):
            entries = entries_of(length, is_nest, given.pushes)
            for clients in CLIENTS:
                file = input_of(length, is_nest, given.pushes, clients)
                variants[length, is_nest, "memory", clients] = in_memory(file, entries)
                variants[length, is_nest, "folder", clients] = in_folder(given.folder, file, entries)
    measure.head(given.runs, f"; {given.pushes:,} pushes")
    found = measure.in_turn(variants, given.runs, "all chains")
    places = [(place, clients) for place in ("memory", "folder") for clients in CLIENTS]
    titles = [f"in {'a ' * (place == 'folder')}{place}, {clients} client{'s'[:clients > 1]}" for place, clients in places]
    measure.top_row(["microseconds a push, wall / processor", *titles, "entries a push", "bytes a push"])
    for length in given.members:
        for is_nest in (False, True):
            cells = [measure.both(measure.least([took for took, _ in found[length, is_nest, *place]]), given.pushes) for place in places]
            size = min(size for _, size in found[length, is_nest, "folder", 1]) / given.pushes
            measure.row([name_of(length, is_nest), *cells, 2 if is_nest else 1 + length, f"{size:.1f}"])


def spread(given):
    variants = {}
    for length in given.members:
        for is_nest in (False, True):
            file = input_of(length, is_nest, given.pushes, 8, True)
            for partitions in (1, length):
                variants[length, is_nest, partitions] = in_memory(file, entries_of(length, is_nest, given.pushes), partitions)
    print()
    measure.head(given.runs, f"; {given.pushes:,} pushes of eight clients")
    found = measure.in_turn(variants, given.runs, "all partitions")
    measure.top_row(["microseconds a push, wall / processor", "1 partition", "a partition for each procedure"])
    for length in given.members:
        for is_nest in (False, True):
            cells = [measure.both(measure.least([took for took, _ in found[length, is_nest, partitions]]), given.pushes) for partitions in (1, length)]
            measure.row([name_of(length, is_nest), *cells])


def main():
    parser = measure.parser_of(__doc__)
    parser.add_argument("--pushes", type=measure.positive, default=20_000)
    parser.add_argument("--members", type=measure.numbers, default=[2, 4, 8])
    parser.add_argument("--folder")
    given = parser.parse_args()
    measure.want_program()
    on_one_part(given)
    spread(given)


if __name__ == "__main__":
    main()
