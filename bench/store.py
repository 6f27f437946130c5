#!/usr/bin/env python3
"""What a log on disk costs a run: what a call costs, how many entries share a sync, and how long a recovery takes.

    python3 bench/store.py [--calls 40000] [--recover 200000] [--rows 1000000] [--votes 200000] [--runs 5] [--folder FOLDER] [--plain PROGRAM]

Runs the program that `./sstore` built (build it first), or the one that SSTORE names, on short calls of one client and of
eight, each of which changes one row by its key. Each line is a place for the store: in memory (`-`), or in a new folder inside
FOLDER, or inside the one for temporary files where none is given. It has microseconds a call, from the start of the program
to the end of its report, as wall time / processor time of user and system: the least of each of so many runs, in each of
which all places and numbers of clients have their turn. The groups are counted in the store itself; each has two syncs. So
`entries a sync` is how many share one, in the run with the least wall time. A folder in memory, such as one below /dev/shm,
syncs for nothing, and then the figures say what logging costs the program itself.

With --plain a program that has no log is measured beside it, such as one built from a commit before there was one. It is
started with the word `run`.

The second table makes a store of at least so many entries, a run of --calls at a time, and recovers it behind each.

The third has a table of --rows rows, on one part, and split over eight partitions: what recovers it from the log that filled
it, and from an image behind a checkpoint, also with 10,000 short calls behind either; and what a run of one call takes longer
with a checkpoint than without one, which is how long clients wait for it. Then come the bytes of image and log, the most memory
of these runs, and a hundred runs of --calls / 40 calls, each with a checkpoint at its end, with the most bytes of the files.

The fourth has the votes of the program's `voter`, of one client and of eight, on a strong store and on a weak one: bytes of the
files a vote, votes a second, and what a recovery of the store takes. That of a weak store makes an image of what it ran, so each
recovers a copy.
"""

import json
import os
import shutil
import tempfile

import engine
import measure
from store_file import entries_of

PROGRAM = measure.PROGRAM
CLIENTS = (1, 8)
BATCH = 1000  # rows of a push that fills a table
BEHIND = 10_000  # calls behind an image
CHECKPOINTS = 100
PLACES = {"none": "no log", "memory": "in memory", "folder": "in a folder"}


def filled(placement, fills, adds):
    """A table that pushes fill, and of which a call changes a row."""
    columns = [["id", "int"], ["n", "int"], ["name", "text"]]
    return {
        "tables": [{"name": "t", "columns": columns, "key": ["id"], **placement}],
        "streams": [{"name": "s", "columns": columns}],
        "procedures": [
            {"name": "fill", "kind": "border", "inputs": ["s"], "touch": fills, "body": [{"sql": "INSERT INTO t SELECT id, n, name FROM s"}]},
            {"name": "add", "kind": "call", "args": [["id", "int"]], "touch": adds, "body": [{"sql": "UPDATE t SET n = n + 1 WHERE id = :id"}]},
        ],
    }


ONE_PART = filled({"part": 0}, {"part": 0}, {"part": 0})
SPLIT = filled({"by": "id"}, "all", {"arg": "id"})


def without_folder(words, given, entries):
    return lambda: (engine.timed(words, given, entries), None)


def in_folder(parent, given, entries):
    """A run on a new store, and how many of its entries share a sync."""

    def run():
        with tempfile.TemporaryDirectory(dir=parent) as folder:
            took = engine.timed([PROGRAM, folder, "run"], given, entries)
            there, groups = entries_of(folder)
        assert len(there) == entries, "the log has another number of entries"
        return took, entries / groups / 2

    return run


def runs(given):
    variants, entries = {}, given.calls + engine.ROWS
    for clients in CLIENTS:
        file = measure.input_of([engine.text_of(False, "short", given.calls, clients)])
        if given.plain:
            variants["none", clients] = without_folder([given.plain, "run"], file, entries)
        variants["memory", clients] = without_folder([PROGRAM, "-", "run"], file, entries)
        variants["folder", clients] = in_folder(given.folder, file, entries)
    measure.head(given.runs, f"; {given.calls:,} calls")
    found = measure.in_turn(variants, given.runs, "all places")
    measure.top_row(["microseconds a call, wall / processor", "1 client", "entries a sync", "8 clients", "entries a sync"])
    for place in dict.fromkeys(place for place, _ in variants):
        cells = []
        for clients in CLIENTS:
            both = found[place, clients]
            shared = min(both, key=lambda one: one[0].wall)[1]
            cells += [measure.both(measure.least([took for took, _ in both]), given.calls), f"{shared:.1f}" if shared else ""]
        measure.row([PLACES[place], *cells])


def recoveries(given):
    print()
    measure.head(given.runs)
    measure.top_row(["a recovery: entries", "seconds, wall / processor", "microseconds an entry, wall / processor", "bytes"])
    file = measure.input_of([engine.text_of(False, "short", given.calls, 8)])
    with tempfile.TemporaryDirectory(dir=given.folder) as folder:
        entries = 0
        while entries < given.recover:
            measure.run([PROGRAM, folder, "run"], file)
            entries = len(entries_of(folder)[0])
            took = measure.least([measure.run([PROGRAM, folder, "recover"])[0] for _ in range(given.runs)])
            size = os.path.getsize(os.path.join(folder, "gen1"))
            whole = f"{took.wall:.2f} / {took.processor:.2f}"
            measure.row([f"{entries:,}", whole, measure.both(took, entries, 2), f"{size:,}"])


def lines_of(catalogue, requests):
    return [json.dumps(line, separators=(",", ":")).encode() + b"\n" for line in [catalogue, *requests]]


def filling(rows):
    """Pushes that fill the table."""
    for seq, begin in enumerate(range(0, rows, BATCH)):
        batch = [[row, 0, f"row {row:010}"] for row in range(begin, min(begin + BATCH, rows))]
        yield {"push": "s", "source": "a", "seq": seq, "rows": batch}


def calls_on(rows, many):
    return [{"call": "add", "args": [k * 7919 % rows]} for k in range(many)]


def size_of(folder):
    return sum(os.path.getsize(os.path.join(folder, name)) for name in ("gen1", "gen2", "selector"))


def images_of(given, name, catalogue, partitions):
    """Recoveries of a table, and a checkpoint of it."""

    def took(words, file=None):
        return measure.least([measure.run([PROGRAM, folder, *words, "--partitions", partitions], file)[0] for _ in range(given.runs)])

    def recovered():
        found = took(["recover"])
        return f"{found.wall:.2f} / {found.processor:.2f}"

    def run(*words, requests):
        return measure.run([PROGRAM, folder, "run", "--partitions", partitions, *words], measure.input_of(lines_of(catalogue, requests)))[0]

    with tempfile.TemporaryDirectory(dir=given.folder) as folder:
        run(requests=filling(given.rows))
        cells = [recovered()]
        behind = calls_on(given.rows, BEHIND)
        run(requests=behind)
        cells.append(recovered())
        log = size_of(folder)
        run("--checkpoint", "1", requests=[])
        cells.append(recovered())
        # Nothing stands behind the image now, and one call makes the next checkpoint due.
        one = measure.input_of(lines_of(catalogue, calls_on(given.rows, 1)))
        plain = took(["run"], one)
        renewed = took(["run", "--checkpoint", "1"], one)
        image = min(os.path.getsize(os.path.join(folder, generation)) for generation in ("gen1", "gen2"))
        run(requests=behind)
        cells.append(recovered())
    measure.row([name, *cells, f"{renewed.wall - plain.wall:.2f}"])
    return f"{name}: the image has {image:,} bytes, and the log had {log:,}; a run held {plain.held / 1e6:,.0f} MB, and {renewed.held / 1e6:,.0f} MB with a checkpoint"


def images(given):
    print()
    measure.head(given.runs, f"; {given.rows:,} rows")
    measure.top_row(["a recovery in seconds, wall / processor", "from the log", f"and {BEHIND:,} calls", "from an image", f"and {BEHIND:,} calls", "a checkpoint, seconds"])
    told = [images_of(given, "on one part", ONE_PART, "1"), images_of(given, "split over eight partitions", SPLIT, "8")]
    print("\n" + "\n".join(told))


def sizes(given):
    """How large a store is at most that is renewed again and again."""
    rows, many = 1000, max(1, given.calls // 40)
    calls = measure.input_of(lines_of(ONE_PART, calls_on(rows, many)))
    with tempfile.TemporaryDirectory(dir=given.folder) as folder:
        measure.run([PROGRAM, folder, "run"], measure.input_of(lines_of(ONE_PART, filling(rows))))
        most = 0
        for _ in range(CHECKPOINTS):
            measure.run([PROGRAM, folder, "run", "--checkpoint", str(many)], calls)
            most = max(most, size_of(folder))
        print(f"\n{rows:,} rows and {CHECKPOINTS} runs of {many:,} calls, with --checkpoint {many}: the files had {most:,} bytes at most")


def recovered_copy(folder, parent, mode):
    """What a recovery of a copy of a store takes."""
    with tempfile.TemporaryDirectory(dir=parent) as copy:
        shutil.copytree(folder, copy, dirs_exist_ok=True)
        return measure.run([PROGRAM, copy, "recover", "--recovery", mode])[0]


def voted(given, clients, mode):
    """A show on a new store: what it took, the bytes of its files, and what a recovery took."""
    words = ["voter", "--seed", "1", "--votes", str(given.votes), "--clients", str(clients), "--recovery", mode]

    def run():
        with tempfile.TemporaryDirectory(dir=given.folder) as folder:
            took, _ = measure.run([PROGRAM, folder, *words])
            return took, size_of(folder), recovered_copy(folder, given.folder, mode)

    return run


def votes(given):
    """Weak stores beside strong ones."""
    print()
    measure.head(given.runs, f"; {given.votes:,} votes")
    variants = {(mode, clients): voted(given, clients, mode) for clients in CLIENTS for mode in ("strong", "weak")}
    found = measure.in_turn(variants, given.runs, "all stores")
    measure.top_row(["votes", "microseconds a vote, wall / processor", "votes a second", "bytes a vote", "a recovery, seconds, wall / processor"])
    for (mode, clients), rounds in found.items():
        took, again = measure.least([one[0] for one in rounds]), measure.least([one[2] for one in rounds])
        name = f"{mode}, {clients} client{'s' if clients > 1 else ''}"
        sizes_found = min(one[1] for one in rounds) / given.votes
        measure.row([name, measure.both(took, given.votes), f"{given.votes / took.wall:,.0f}", f"{sizes_found:.1f}", f"{again.wall:.2f} / {again.processor:.2f}"])


def main():
    parser = measure.parser_of(__doc__)
    parser.add_argument("--calls", type=measure.positive, default=40_000)
    parser.add_argument("--recover", type=measure.positive, default=200_000)
    parser.add_argument("--rows", type=measure.positive, default=1_000_000)
    parser.add_argument("--votes", type=measure.positive, default=200_000)
    parser.add_argument("--folder")
    parser.add_argument("--plain", metavar="PROGRAM")
    given = parser.parse_args()
    measure.want_program()
    runs(given)
    recoveries(given)
    images(given)
    sizes(given)
    votes(given)


if __name__ == "__main__":
    main()
