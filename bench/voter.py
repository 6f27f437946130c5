#!/usr/bin/env python3
"""The benchmark Voter with Leaderboard: what a vote costs, beside the same statements in SQLite.

    python3 bench/voter.py [--votes 2000,20000] [--runs 5] [--folder FOLDER] [--svg FILE] [--profile]

Runs the command `voter` of the program that `./sstore` built (build it first), or of the one that SSTORE names, in memory and
in a new folder inside FOLDER, or inside the one for temporary files where none is given; and on the same votes the statements
of the same procedures in SQLite: by the program of bench/sqlite_voter.c, which has each of them prepared once, and by the
sqlite3 module of this Python. That program is built here by `cc -O2`, and left out where it can't be: it needs a C compiler
and SQLite's header (Debian: the packages gcc, libc6-dev and libsqlite3-dev).

Printed are microseconds a vote, by number of votes, as wall time / processor time of user and system: the least of each of
so many runs, in each of which all rows have their turn. Both programs are measured from the start of the process to its end,
SQLite through Python from the first transaction to the last commit.

In SQLite each execution is a transaction, which is taken back where the procedure aborts; the rows of streams are arguments
of statements, and the window is a table of its last four rows. What a push is asked besides, that its number is its source's
next one, it isn't asked there. A file of SQLite has a write-ahead log and `synchronous` FULL, and either syncs each
transaction, or has those of 16 votes in one, as a client of the program waits for a receipt once in 16 answers.

Before anything is measured, the tables that a run of the program prints of the first number of votes are compared with those
of SQLite by both ways, and the statements of a vote are counted, and as many that do nothing timed. With --profile the
instructions of a vote are counted by callgrind, and printed by function.
"""

import json
import os
import re
import sqlite3
import subprocess
import sys
import tempfile

import measure
import votes as script

PROGRAM = measure.PROGRAM
SEED = 1
VOTES = [2_000, 4_000, 20_000, 100_000, 200_000]
IN_ONE = 16  # votes of one transaction, where several share a sync
IN_C = "sqlite_voter.c"

SCHEMA = """
CREATE TABLE contestants (id INTEGER PRIMARY KEY, show INTEGER, name TEXT, n INTEGER);
CREATE TABLE votes (phone INTEGER PRIMARY KEY, contestant INTEGER);
CREATE INDEX votes_of ON votes (contestant);
CREATE TABLE show (id INTEGER PRIMARY KEY, every INTEGER, n INTEGER, live INTEGER, due INTEGER);
CREATE TABLE board (kind TEXT, id INTEGER, n INTEGER, PRIMARY KEY (kind, id)) WITHOUT ROWID;
CREATE TABLE trend (number INTEGER PRIMARY KEY, x INTEGER);
"""

DUE = (
    "SELECT contestants.n, contestants.id FROM contestants JOIN show ON contestants.show = show.id "
    "WHERE show.due = 0 AND show.live > 1 ORDER BY 1, 2 LIMIT 1"
)


class Show:
    """The voting show in SQLite: the procedures of the catalogue, each statement in its place."""

    def __init__(self, base, begin, commit, rollback):
        self.base = base
        self.begin, self.commit, self.rollback = begin, commit, rollback
        self.units = 0

    def start(self):
        self.base.execute("INSERT INTO show VALUES (1, 500, 0, 0, 1)")
        for k in range(1, 7):
            self.base.execute("INSERT INTO contestants VALUES (?, 1, ?, 0)", (k, f"c{k}"))
            self.base.execute("UPDATE show SET live = live + 1 WHERE id = 1")

    def vote(self, phone, contestant):
        recorded = self.validate(phone, contestant)
        doomed = self.leaderboard(recorded)
        self.remove(doomed)

    def validate(self, phone, contestant):
        """The contestants that this vote is recorded for: its own, or none where it is refused."""
        run = self.base.execute
        run(self.begin)
        known = run("SELECT COUNT(*) FROM contestants WHERE id = ?", (contestant,)).fetchone()[0]
        if known == 0 or run("SELECT COUNT(*) FROM votes WHERE phone = ?", (phone,)).fetchone()[0] > 0:
            self.end(self.rollback)
            return []
        run("INSERT INTO votes VALUES (?, ?)", (phone, contestant))
        run("UPDATE contestants SET n = n + 1 WHERE id = ?", (contestant,))
        run(self.commit)
        return [contestant]

    def leaderboard(self, recorded):
        """The contestants that are to go."""
        run = self.base.execute
        run(self.begin)
        run("UPDATE show SET due = 1")
        for _ in recorded:
            run("UPDATE show SET n = n + 1, due = (n + 1) % every WHERE id = 1")
        for contestant in recorded:
            self.unit(contestant)
        run("DELETE FROM board WHERE kind <> 'trending'")
        run("INSERT INTO board SELECT 'top', id, n FROM contestants ORDER BY 3 DESC, 2 LIMIT 3")
        run("INSERT INTO board SELECT 'bottom', id, n FROM contestants ORDER BY 3, 2 LIMIT 3")
        doomed = run(DUE).fetchall()
        run(self.commit)
        return doomed

    def unit(self, contestant):
        """One more unit of the window, which slides by one and has four once there are so many; and its trigger."""
        run = self.base.execute
        self.units += 1
        run("INSERT INTO trend VALUES (?, ?)", (self.units, contestant))
        run("DELETE FROM trend WHERE number = ?", (self.units - 4,))
        if self.units >= 4:
            run("DELETE FROM board WHERE kind = 'trending'")
            run("INSERT INTO board SELECT 'trending', x, COUNT(*) FROM trend GROUP BY x ORDER BY 3 DESC, 2 LIMIT 3")

    def remove(self, doomed):
        run = self.base.execute
        run(self.begin)
        for _, contestant in doomed:
            run("DELETE FROM votes WHERE contestant = ?", (contestant,))
            run("DELETE FROM contestants WHERE id = ?", (contestant,))
            run("DELETE FROM board WHERE id = ?", (contestant,))
            run("UPDATE show SET live = live - 1 WHERE id = 1")
        run(self.commit)

    def end(self, words):
        for statement in words.split(";"):
            self.base.execute(statement)


def rows_of(votes):
    """The phone and the contestant of each vote, as `votes.py` asks for them."""
    for request in script.requests(SEED, votes, 1):
        if "push" in request:
            yield request["rows"][0]


def opened(path):
    base = sqlite3.connect(path, isolation_level=None)
    if path != ":memory:":
        base.execute("PRAGMA journal_mode = WAL")
        base.execute("PRAGMA synchronous = FULL")
    base.executescript(SCHEMA)
    return base


def show_each(base, rows):
    """A transaction for each execution."""
    show = Show(base, "BEGIN", "COMMIT", "ROLLBACK")
    show.start()
    for phone, contestant in rows:
        show.vote(phone, contestant)


def show_shared(base, rows):
    """A transaction for the executions of so many votes, each of them a savepoint."""
    show = Show(base, "SAVEPOINT execution", "RELEASE execution", "ROLLBACK TO execution;RELEASE execution")
    base.execute("BEGIN")
    show.start()
    for number, (phone, contestant) in enumerate(rows, 1):
        show.vote(phone, contestant)
        if number % IN_ONE == 0:
            base.execute("COMMIT")
            base.execute("BEGIN")
    base.execute("COMMIT")


def of_sqlite(path, way, votes):
    """What a show in SQLite took."""
    rows = list(rows_of(votes))
    base = opened(path)
    took = measure.here(lambda: way(base, rows))
    base.close()
    return took


def in_sqlite_file(folder, way):
    def run(votes):
        with tempfile.TemporaryDirectory(dir=folder) as inside:
            return of_sqlite(os.path.join(inside, "base"), way, votes)

    return run


def words(store, votes, clients, partitions):
    asked = {"seed": SEED, "votes": votes, "clients": clients, "partitions": partitions}
    return [PROGRAM, store, "voter", *(f"--{name}={value}" for name, value in asked.items())]


def timed(store, votes, clients, partitions):
    """What a show of the program took, which has to push each vote and to run three steps of each."""
    took, report = measure.run(words(store, votes, clients, partitions))
    printed = json.load(report)
    assert printed == ["voter", votes, votes, 3 * votes, 4 * votes + 7], printed
    return took


def in_memory(clients, partitions):
    return lambda votes: timed("-", votes, clients, partitions)


def in_folder(folder, clients, partitions):
    def run(votes):
        with tempfile.TemporaryDirectory(dir=folder) as inside:
            return timed(inside, votes, clients, partitions)

    return run


# ---- what is compared and counted first


def tables_in(report):
    """The rows of each table of a report."""
    tables = {}
    for line in map(json.loads, report):
        if line[0] == "table":
            tables[line[1]] = []
        if line[0] == "row":
            tables[line[1]].append(line[2])
    return tables


def tables_of_program(votes):
    """The tables that a run of one client prints."""
    lines = [script.catalogue(), *(json.dumps(r) + "\n" for r in script.requests(SEED, votes, 1))]
    given = measure.input_of(line.encode() for line in lines)
    return tables_in(measure.run([PROGRAM, "-", "run"], given)[1])


def tables_of_sqlite(votes, tables):
    base = opened(":memory:")
    show_each(base, list(rows_of(votes)))
    keys = {"board": "kind, id", "votes": "phone"}
    return {t: [list(row) for row in base.execute(f"SELECT * FROM {t} ORDER BY {keys.get(t, 'id')}")] for t in tables}


def compared(votes, in_c):
    ours = tables_of_program(votes)
    assert tables_of_sqlite(votes, ours) == ours, "the tables of SQLite through Python differ"
    if in_c:
        theirs = tables_in(measure.run([in_c, str(SEED), str(votes), "tables"])[1])
        assert theirs == ours, "the tables of SQLite through C differ"
    ways = "sstore, SQLite through Python" + ", SQLite through C" * bool(in_c)
    print(f"{votes:,} votes: the tables are equal ({ways}; {sum(map(len, ours.values())):,} rows)")


class Counted:
    """A base that counts the statements that it is asked for, and keeps the text of each."""

    def __init__(self, base):
        self.base, self.count, self.texts = base, 0, set()

    def execute(self, text, *arguments):
        self.count += 1
        self.texts.add(text)
        return self.base.execute(text, *arguments)


def check_statements(texts):
    """The program in C has the same tables, and each of these statements."""
    with open(os.path.join(measure.BENCH, IN_C), encoding="utf-8") as file:
        source = re.sub(r'"\s*"', "", file.read())
    for text in [*(f'"{text}"' for text in texts), *SCHEMA.split("\n")]:
        assert text in source, f"{IN_C} hasn't {text}"


def empty_statements(votes, runs):
    """What the way through Python alone costs: as many statements as a show has, none of which does anything."""
    counted = Counted(opened(":memory:"))
    show_each(counted, list(rows_of(votes)))
    check_statements(counted.texts)
    base = opened(":memory:")

    def work():
        for _ in range(counted.count):
            base.execute("SELECT 1")

    took = measure.least([measure.here(work) for _ in range(runs)])
    each = f"{counted.count / votes:.1f} statements a vote"
    print(f"{votes:,} votes: {each}; as many through Python that do nothing cost {measure.both(took, votes)} microseconds")


# ---- what is measured


def engines(folder, in_c):
    """What is measured: a name, and what so many votes took."""
    found = {}
    for partitions in (1, 2):
        for clients in (1, 4):
            where = f"{clients} client{'s' * (clients > 1)}, {partitions} partition{'s' * (partitions > 1)}"
            found[f"sstore in memory, {where}"] = in_memory(clients, partitions)
    for clients in (1, 4):
        found[f"sstore in a folder, {clients} client{'s' * (clients > 1)}"] = in_folder(folder, clients, 1)
    if in_c:
        found["SQLite through C, prepared, in memory"] = lambda votes: measure.run([in_c, str(SEED), str(votes)])[0]
    found["SQLite through Python, in memory"] = lambda votes: of_sqlite(":memory:", show_each, votes)
    found["SQLite through Python, in a file, each transaction synced"] = in_sqlite_file(folder, show_each)
    found[f"SQLite through Python, in a file, {IN_ONE} votes a sync"] = in_sqlite_file(folder, show_shared)
    return found


def measured(sizes, runs, engines):
    """What the votes took of each engine at each number of them; the wall times, in microseconds a vote."""
    measure.head(runs, f"; SQLite {sqlite3.sqlite_version}, Python {sys.version.split()[0]}")
    found = {}
    for votes in sizes:
        variants = {(name, votes): lambda run=run, votes=votes: run(votes) for name, run in engines.items()}
        found |= measure.least_of_each(variants, runs, f"{votes:,} votes")
    measure.top_row(["microseconds a vote, wall / processor", *(f"{votes:,} votes" for votes in sizes)])
    for name in engines:
        measure.row([name, *(measure.both(found[name, votes], votes) for votes in sizes)])
    return {(name, votes): 1e6 * took.wall / votes for (name, votes), took in found.items()}


COLOURS = ["#1f6f8b", "#4b7f52", "#2e4a7d", "#5f5f2e", "#7d4b8f", "#b565a7", "#c0392b", "#b5651d", "#8b1f3f", "#d08f2e"]


def drawing(found, sizes):
    """Microseconds a vote against votes, both by powers of ten: the program in full lines, SQLite in broken ones."""
    from math import log10

    names = list(dict.fromkeys(name for name, _ in found))
    low, high = int(log10(min(found.values())) // 1), int(log10(max(found.values())) // 1) + 1
    left, right = log10(sizes[0]), log10(sizes[-1]) if len(sizes) > 1 else log10(sizes[0]) + 1
    x = lambda votes: 70 + 470 * (log10(votes) - left) / (right - left)
    y = lambda cost: 380 - 340 * (log10(cost) - low) / (high - low)
    out = [
        '<svg xmlns="http://www.w3.org/2000/svg" viewBox="0 0 940 430" font-family="sans-serif" font-size="12">',
        '<rect width="940" height="430" fill="white"/>',
        '<text x="70" y="20">microseconds a vote, by number of votes (full: sstore, broken: SQLite)</text>',
    ]
    for power in range(low, high + 1):
        at = y(10.0**power)
        out.append(f'<line x1="70" x2="540" y1="{at:.1f}" y2="{at:.1f}" stroke="#ddd"/>')
        out.append(f'<text x="62" y="{at + 4:.1f}" text-anchor="end">{10.0 ** power:g}</text>')
    for votes in sizes:
        out.append(f'<text x="{x(votes):.1f}" y="400" text-anchor="middle">{votes:,}</text>')
    for at, name in enumerate(names):
        dashes = ' stroke-dasharray="5 4"' if name.startswith("SQLite") else ""
        points = " ".join(f"{x(v):.1f},{y(found[name, v]):.1f}" for v in sizes)
        out.append(f'<polyline points="{points}" fill="none" stroke-width="2" stroke="{COLOURS[at]}"{dashes}/>')
        out.append(f'<text x="560" y="{60 + 22 * at}" fill="{COLOURS[at]}">{name}</text>')
    return "\n".join(out + ["</svg>", ""])


def bars(found, votes):
    """Votes a second of each engine, at one number of votes."""
    names = list(dict.fromkeys(name for name, _ in found))
    most = max(1e6 / found[name, votes] for name in names)
    height = 60 + 26 * len(names)
    out = [
        f'<svg xmlns="http://www.w3.org/2000/svg" viewBox="0 0 860 {height}" font-family="sans-serif" font-size="12">',
        f'<rect width="860" height="{height}" fill="white"/>',
        f'<text x="20" y="24">votes a second, at {votes:,} votes</text>',
    ]
    for at, name in enumerate(names):
        rate, top = 1e6 / found[name, votes], 44 + 26 * at
        out.append(f'<text x="20" y="{top + 14}">{name}</text>')
        out.append(f'<rect x="380" y="{top}" width="{400 * rate / most:.1f}" height="18" fill="{COLOURS[at]}"/>')
        out.append(f'<text x="{386 + 400 * rate / most:.1f}" y="{top + 14}">{rate:,.0f}</text>')
    return "\n".join(out + ["</svg>", ""])


def profile(votes=4_000):
    """The instructions that a vote costs in each function, what it calls left out, from the costliest on."""
    with tempfile.TemporaryDirectory() as inside:
        counts = os.path.join(inside, "counts")
        callgrind = ["valgrind", "--tool=callgrind", f"--callgrind-out-file={counts}"]
        subprocess.run(callgrind + words("-", votes, 1, 1), capture_output=True, check=True)
        told = subprocess.run(["callgrind_annotate", "--threshold=90", counts], capture_output=True, check=True, text=True)
    for line in told.stdout.splitlines():
        count, _, rest = line.strip().partition(" ")
        number = count.replace(",", "")
        if number.isdigit():
            print(f"{int(number) / votes:>10,.0f}  {rest.strip()[:140]}")


def main():
    parser = measure.parser_of(__doc__)
    parser.add_argument("--votes", type=measure.numbers, default=VOTES)
    parser.add_argument("--folder")
    parser.add_argument("--svg", default=os.path.join(measure.BENCH, "voter.svg"))
    parser.add_argument("--profile", action="store_true")
    given = parser.parse_args()
    measure.want_program()
    if given.profile:
        return profile()
    with tempfile.TemporaryDirectory() as inside:
        in_c = os.path.join(inside, "sqlite_voter")
        if not measure.built(["-lsqlite3"], IN_C, in_c):
            print("so the row of SQLite through C is left out")
            in_c = None
        compared(given.votes[0], in_c)
        empty_statements(given.votes[0], given.runs)
        found = measured(given.votes, given.runs, engines(given.folder, in_c))
    rates = given.svg.removesuffix(".svg") + "_rates.svg"
    for file_name, text in ((given.svg, drawing(found, given.votes)), (rates, bars(found, given.votes[-1]))):
        with open(file_name, "w", encoding="utf-8") as file:
            file.write(text)
        print(f"written: {file_name}")


if __name__ == "__main__":
    main()
