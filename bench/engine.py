#!/usr/bin/env python3
"""What a call costs, of clients in threads, on partitions in threads.

    python3 bench/engine.py [--calls 40000] [--runs 5] [--plain PROGRAM]

Runs the program that `./sstore` built (build it first), or the one that SSTORE names. Each line is a load, a number of clients
and how many calls they make together, and has microseconds a call on 1, 2 and 4 partitions, from the start of the program to
the end of its report, as wall time / processor time of user and system: the least of each of so many runs, in each of which
all programs and numbers of partitions have their turn. The last column says how many times as fast, by wall time, two
partitions are as one.

A split load has its rows on all partitions, by their keys; one that isn't has all of them on one, so more partitions can't
help it. A short call changes one row by its key, and a long one does so thirty times, so its execution costs more than the way
to it and back; of long calls there are a tenth as many. Reading the requests and writing the report are in the time, and are
done by one thread.

A program that runs the same input on one thread, with no engine, is measured beside them: that of crates/ss_run_bench where
it is built, and with --plain another one, such as one built from a commit before there was an engine. It is started with
the word `run`. Of one client its report has to be that of one partition, byte for byte.
"""

import json
import os

import measure

PROGRAM = measure.PROGRAM
PLAIN = os.path.join(measure.TOP, "crates/ss_run_bench/out/ss_run_bench")
PARTITIONS = [1, 2, 4]
ROWS = 512
STEPS = 30  # statements of a long call


def catalogue(split):
    """A table of accounts, split by their keys or whole on part 0."""
    place = {"by": "id"} if split else {"part": 0}
    touch = {"arg": "id"} if split else {"part": 0}

    def call(name, args, body):
        return {"name": name, "kind": "call", "args": [[a, "int"] for a in args], "touch": touch, "body": body}

    add = {"sql": "UPDATE acct SET bal = bal + :n WHERE id = :id"}
    return {
        "tables": [{"name": "acct", "columns": [["id", "int"], ["bal", "int"]], "key": ["id"], **place}],
        "procedures": [
            call("open", ["id"], [{"sql": "INSERT INTO acct VALUES (:id, 0)"}]),
            call("short", ["id", "n"], [add]),
            call("long", ["id", "n"], [add] * STEPS),
        ],
    }


def requests(name, calls, clients):
    """The rows first, of the client that will change them; then as many calls of each client."""
    for row in range(ROWS):
        yield {"client": row % clients, "call": "open", "args": [row]}
    for made in range(calls):
        client = made % clients
        row = (made // clients * clients + client) % ROWS
        yield {"client": client, "call": name, "args": [row, made % 7]}


def text_of(split, name, calls, clients):
    lines = [catalogue(split), *requests(name, calls, clients)]
    return "".join(json.dumps(line, separators=(",", ":")) + "\n" for line in lines).encode()


def timed(words, given, entries):
    """What a run took, whose list has to have so many entries."""
    took, report = measure.run(words, given)
    measure.check_end(report, entries)
    return took


def on_partitions(partitions):
    return [PROGRAM, "-", "run", "--partitions", str(partitions)]


def same_reports(plain, given):
    reports = [measure.run(words, given)[1].read() for words in (plain, on_partitions(1))]
    assert reports[0] == reports[1], "the report of the program without an engine is another one"


def of_load(columns, split, name, clients, calls, runs):
    """A line of the table: what a call costs on this load, of each of these programs."""
    words = f"{name} calls, {'split' if split else 'one part'}, {clients} client{'s'[:clients > 1]}"
    given = measure.input_of([text_of(split, name, calls, clients)])
    if "plain" in columns and clients == 1:
        same_reports(columns["plain"], given)
    variants = {column: lambda asked=asked: timed(asked, given, calls + ROWS) for column, asked in columns.items()}
    found = measure.least_of_each(variants, runs, words)
    times = f"{found[1].wall / found[2].wall:.2f}"
    measure.row([words, f"{calls:,}", *(measure.both(took, calls) for took in found.values()), times])


def main():
    parser = measure.parser_of(__doc__)
    parser.add_argument("--calls", type=measure.positive, default=40_000)
    parser.add_argument("--plain", metavar="PROGRAM", default=PLAIN if os.access(PLAIN, os.X_OK) else None)
    given = parser.parse_args()
    measure.want_program()
    columns = {"plain": [given.plain, "run"]} if given.plain else {}
    columns |= {partitions: on_partitions(partitions) for partitions in PARTITIONS}
    titles = ["one thread, no engine"] * bool(given.plain) + [f"{p} partition{'s'[:p > 1]}" for p in PARTITIONS]
    if not given.plain:
        print("crates/ss_run_bench isn't built, so the column `one thread, no engine` is left out")
    measure.head(given.runs)
    measure.top_row(["microseconds a call, wall / processor", "calls", *titles, "2 partitions to 1"])
    for split in (False, True):
        for name, share in (("short", 1), ("long", 10)):
            for clients in (1, 8):
                of_load(columns, split, name, clients, max(1, given.calls // share), given.runs)


if __name__ == "__main__":
    main()
