#!/usr/bin/env python3
"""Many clients on many partitions, and whether the list that the program prints is what happened.

    python3 bench/soak.py [--requests 20000] [--clients 8] [--partitions 8] [--runs 1] [--seed 1]
    python3 bench/soak.py --runs 10 --partitions 1,2,4,8   ten times over on each of these numbers of partitions
    python3 bench/soak.py --one-door      all clients push into one partition, whose steps set off others on others
    python3 bench/soak.py --installs      clients install bodies of all these procedures as well
    python3 bench/soak.py --nests         most procedures of the workflow are in nests, so they abort together
    python3 bench/soak.py --write FILE          only writes the input, for a run elsewhere
    python3 bench/soak.py --check INPUT REPORT  only checks a report

Runs the program that `./sstore` built (build it first), or the one that SSTORE names, on calls of one partition and of all,
and on pushes through a workflow that parts over two partitions and meets again on a third. Then it takes the printed list
entry by entry, in its order, and does each one on tables of SQLite, in one thread: each outcome, each reply and each row of
the printed tables has to be what comes of that. It checks too that the list has of each client just its requests, in
their order, that each procedure takes its batches in order and each after those who make them, and that none is left. A nest
is done as its members are one after another, in one transaction.
Each of so many runs has requests of its own, by a seed one higher each time, and runs them on each number of partitions.
What is checked is what the contract of the top call says; that it says it of this very program, built and run, and that
runs end at all, is what a run of this shows.
"""

import argparse
import json
import os
import random
import sqlite3
import subprocess
import sys
import time

TOP = os.path.dirname(os.path.dirname(os.path.abspath(__file__)))
PROGRAM = os.environ.get("SSTORE", os.path.join(TOP, "crates/ss_program/out/ss_program"))
INT = "int"


def streams(names):
    return [{"name": name, "columns": [["x", INT]]} for name in names]


def call(name, args, touch, body):
    return {"name": name, "kind": "call", "args": [[arg, INT] for arg in args], "touch": touch, "body": body}


def step(name, inputs, part, body):
    kind = "border" if inputs == ["s"] else "interior"
    return {"name": name, "kind": kind, "inputs": inputs, "touch": {"part": part}, "body": body}


CATALOGUE = {
    "tables": [
        {"name": "acct", "columns": [["id", INT], ["bal", INT]], "key": ["id"], "by": "id"},
        {"name": "tally", "columns": [["x", INT], ["n", INT]], "key": ["x"], "part": 1},
        {"name": "joined", "columns": [["x", INT], ["side", INT]], "key": ["x"], "part": 3},
    ],
    "streams": streams(["s", "l", "r", "pl", "qr"]),
    "procedures": [
        call("open", ["id", "bal"], {"arg": "id"}, [{"sql": "INSERT INTO acct VALUES (:id, :bal)"}]),
        call(
            "pay",
            ["id", "n"],
            {"arg": "id"},
            [
                {"abort_if": "(SELECT COUNT(*) FROM acct WHERE id = :id AND bal >= :n) = 0", "code": 1},
                {"sql": "UPDATE acct SET bal = bal - :n WHERE id = :id"},
            ],
        ),
        call(
            "move",
            ["a", "b", "n"],
            "all",
            [
                {"abort_if": "(SELECT COUNT(*) FROM acct WHERE id = :a AND bal >= :n) = 0", "code": 1},
                {"abort_if": "(SELECT COUNT(*) FROM acct WHERE id = :b) = 0", "code": 2},
                {"sql": "UPDATE acct SET bal = bal - :n WHERE id = :a"},
                {"sql": "UPDATE acct SET bal = bal + :n WHERE id = :b"},
            ],
        ),
        call("sum", [], "all", [{"return": "SELECT COUNT(*), SUM(bal) FROM acct"}]),
        call("peek", [], {"part": 3}, [{"return": "SELECT COUNT(*) FROM joined"}]),
        step("a", ["s"], 0, [{"emit": "l", "sql": "SELECT x FROM s"}, {"emit": "r", "sql": "SELECT x FROM s"}]),
        step(
            "p",
            ["l"],
            1,
            [
                {"sql": "INSERT INTO tally SELECT x, 1 FROM l"},
                {"abort_if": "(SELECT COUNT(*) FROM l WHERE x % 10 = 7) > 0", "code": 3},
                {"emit": "pl", "sql": "SELECT x * 2 FROM l"},
            ],
        ),
        step("q", ["r"], 2, [{"emit": "qr", "sql": "SELECT x * 2 + 1 FROM r"}]),
        step(
            "j",
            ["pl", "qr"],
            3,
            [
                {"sql": "INSERT INTO joined SELECT x, 1 FROM pl"},
                {"sql": "INSERT INTO joined SELECT x, 2 FROM qr"},
            ],
        ),
    ],
}


def with_nests(catalogue):
    """The same with two nests: of those who part the workflow, and of `j` with one more behind it, which hands on to a procedure by itself."""
    fan, others = {"multi": [0, 1, 2]}, {p["name"]: p for p in catalogue["procedures"]}
    for name in ("a", "p", "q"):
        others[name] = {**others[name], "touch": fan}
    others["j"] = {**others["j"], "body": [*others["j"]["body"], {"emit": "m", "sql": "SELECT x FROM pl"}]}
    seen = [{"sql": "UPDATE joined SET side = 11 WHERE x = :x"}, {"abort_if": "(SELECT COUNT(*) FROM m WHERE x % 50 = 8) > 0", "code": 6}]
    others["k"] = step("k", ["m"], 3, [{"for_each": "m", "body": seen}, {"emit": "o", "sql": "SELECT x FROM m WHERE x % 3 = 0"}])
    others["z"] = step("z", ["o"], 1, [{"sql": "INSERT INTO tally SELECT 0 - x - 1, 4 FROM o"}])
    nests = [{"name": "meet", "procedures": ["j", "k"]}, {"name": "fan", "procedures": ["a", "p", "q"]}]
    return {**catalogue, "streams": [*catalogue["streams"], *streams(["m", "o"])], "procedures": [*others.values()], "nests": nests}


def members_of(catalogue):
    """Of each nest its members."""
    return {nest["name"]: nest["procedures"] for nest in catalogue.get("nests", [])}


# Bodies that procedures may have in place of their own.
OTHERS = {
    "open": [[{"sql": "INSERT INTO acct VALUES (:id, :bal + 7)"}], [{"sql": "DELETE FROM acct WHERE id = :id"}, {"sql": "INSERT INTO acct VALUES (:id, :bal)"}]],
    "pay": [[], [{"sql": "UPDATE acct SET bal = bal - :n WHERE id = :id"}, {"abort_if": "(SELECT COUNT(*) FROM acct WHERE id = :id AND bal < 0) > 0", "code": 4}]],
    "move": [[{"sql": "UPDATE acct SET bal = bal - :n WHERE id = :a"}, {"sql": "UPDATE acct SET bal = bal + :n WHERE id = :b"}]],
    "sum": [[{"return": "SELECT COUNT(*), SUM(bal) FROM acct WHERE id > 0"}, {"return": "SELECT SUM(n), COUNT(*) FROM tally"}]],
    "peek": [[{"return": "SELECT COUNT(*) FROM joined WHERE side = 2"}], [{"sql": "DELETE FROM joined WHERE side = 3"}]],
    "a": [[{"emit": "r", "sql": "SELECT x + 1 FROM s"}, {"emit": "l", "sql": "SELECT x FROM s"}, {"emit": "r", "sql": "SELECT x FROM s"}]],
    "p": [[{"emit": "pl", "sql": "SELECT x * 4 FROM l"}, {"sql": "INSERT INTO tally SELECT x, 2 FROM l"}]],
    "q": [[{"emit": "qr", "sql": "SELECT x * 2 + 3 FROM r WHERE x % 3 > 0"}, {"abort_if": "(SELECT COUNT(*) FROM r WHERE x % 20 = 1) > 0", "code": 5}]],
    "j": [[{"sql": "INSERT INTO joined SELECT x, 3 FROM qr"}], []],
    "z": [[{"sql": "INSERT INTO tally SELECT 0 - x - 1, 5 FROM o"}, {"abort_if": "(SELECT COUNT(*) FROM o WHERE x % 20 = 6) > 0", "code": 7}], []],
}


def install(catalogue):
    """A body of one of the procedures that are in no nest, its own among them."""
    inside = {name for names in members_of(catalogue).values() for name in names}
    own = random.choice([procedure for procedure in catalogue["procedures"] if procedure["name"] not in inside])
    return {"install": own["name"], "body": random.choice([own["body"], *OTHERS[own["name"]]])}


def requests_of(count, clients, seed, one_door=False, installs=False, catalogue=CATALOGUE):
    """Requests of these clients in turn; each pushes from a source of its own, with numbers that are now and then wrong. By
    one door they are pushes alone, so all of them run on the partition of the border procedure."""
    random.seed(seed)
    numbers = [0] * clients
    for made in range(count):
        client = random.randrange(clients)
        if installs and random.random() < 0.05:
            yield {"client": client, **install(catalogue)}
            continue
        kind = 0 if one_door else random.random()
        if kind < 0.45:
            seq = numbers[client] + random.choice([0] * 20 + [1, -1])
            rows = [[random.randrange(10**9)] for _ in range(random.randrange(4))]
            asked = {"push": "s", "source": f"c{client}", "seq": max(seq, 0), "rows": rows}
            numbers[client] += seq == numbers[client]
        elif kind < 0.60:
            asked = {"call": "open", "args": [random.randrange(200) - 100, random.randrange(1000)]}
        elif kind < 0.85:
            asked = {"call": "pay", "args": [random.randrange(200) - 100, random.randrange(50)]}
        elif kind < 0.93:
            asked = {"call": "move", "args": [random.randrange(200) - 100, random.randrange(200) - 100, random.randrange(50)]}
        else:
            asked = {"call": random.choice(["sum", "peek"]), "args": []}
        yield {"client": client, **asked}


class Aborted(Exception):
    pass


class Replay:
    """The tables in SQLite, and the batches that procedures and nests hand on, behind the entries so far."""

    def __init__(self, catalogue):
        self.catalogue, self.members = catalogue, members_of(catalogue)
        self.sql = sqlite3.connect(":memory:", isolation_level=None)
        for table in catalogue["tables"]:
            self.sql.execute(f"CREATE TABLE {table['name']} ({', '.join(c[0] for c in table['columns'])}, PRIMARY KEY ({', '.join(table['key'])}))")
        for stream in catalogue["streams"]:
            self.sql.execute(f"CREATE TEMP TABLE {stream['name']} (x)")
        self.procedures = {p["name"]: p for p in catalogue["procedures"]}
        inside = {name: nest for nest, names in self.members.items() for name in names}
        runs = {inside.get(name, name) for name, p in self.procedures.items() if p["kind"] != "call"}
        self.taken = dict.fromkeys(sorted(runs), 0)
        between = {stream for names in self.members.values() for name in names[1:] for stream in self.procedures[name]["inputs"]}
        self.batches = {stream["name"]: [] for stream in catalogue["streams"] if stream["name"] not in between}
        self.next = {}

    def inputs(self, name):
        """What a procedure takes, or a nest, which takes what its first member does."""
        return self.procedures[self.members.get(name, [name])[0]]["inputs"]

    def rows(self, text, args):
        # The sum of nothing is 0, and no value in SQLite.
        return [[0 if value is None else value for value in row] for row in self.sql.execute(text, args)]

    def one(self, body_step, args, emitted):
        if "for_each" in body_step:
            for row in self.rows(f"SELECT x FROM {body_step['for_each']}", {}):
                for inner in body_step["body"]:
                    self.one(inner, {"x": row[0]}, emitted)
        elif "abort_if" in body_step:
            if self.rows("SELECT " + body_step["abort_if"], args)[0][0]:
                raise Aborted(["raised", body_step["code"]])
        elif "emit" in body_step:
            emitted[body_step["emit"]] += self.rows(body_step["sql"], args)
        elif "return" in body_step:
            return self.rows(body_step["return"], args)
        else:
            try:
                self.sql.execute(body_step["sql"], args)
            except sqlite3.IntegrityError:
                raise Aborted(["key_taken", body_step["sql"].split()[2]])
        return []

    def lend(self, procedure, batches):
        """The rows that a procedure finds on its inputs."""
        for stream in procedure.get("inputs", []):
            self.sql.execute(f"DELETE FROM {stream}")
            self.sql.executemany(f"INSERT INTO {stream} VALUES (?)", batches[stream])

    def bodies(self, names, args, batches):
        """The outcome of procedures one after another, each on what those before it emitted, which change nothing where one aborts; and the
        batches that they emit."""
        emitted = {s["emit"]: [] for name in names for s in self.procedures[name]["body"] if "emit" in s}
        silent, replies = {name: [] for name in emitted}, []
        self.sql.execute("BEGIN")
        try:
            for name in names:
                self.lend(self.procedures[name], {**emitted, **batches})
                replies += [row for s in self.procedures[name]["body"] for row in self.one(s, args, emitted)]
        except Aborted as aborted:
            self.sql.execute("ROLLBACK")
            return ["aborted", *aborted.args[0]], silent
        self.sql.execute("COMMIT")
        return ["done", replies], emitted

    def call(self, asked):
        args = self.procedures[asked["call"]]["args"]
        return self.bodies([asked["call"]], dict(zip([a[0] for a in args], asked["args"])), {})[0]

    def push(self, asked):
        wanted = self.next.get(asked["source"], 0)
        if asked["seq"] != wanted:
            return ["duplicate" if asked["seq"] < wanted else "gap", wanted]
        self.next[asked["source"]] = wanted + 1
        self.batches[asked["push"]].append(asked["rows"])
        return ["done", []]

    def install(self, asked):
        self.procedures[asked["install"]] = {**self.procedures[asked["install"]], "body": asked["body"]}
        return ["done", []]

    def step(self, name, batch):
        assert batch == self.taken.get(name), f"{name} takes batch {batch}, and {self.taken.get(name)} is next"
        self.taken[name] += 1
        for stream in self.inputs(name):
            assert batch < len(self.batches[stream]), f"{name} takes a batch of {stream} that isn't there yet"
        outcome, emitted = self.bodies(self.members.get(name, [name]), {}, {stream: self.batches[stream][batch] for stream in self.inputs(name)})
        for stream in emitted.keys() & self.batches.keys():
            self.batches[stream].append(emitted[stream])
        return outcome

    def tables(self):
        for name in sorted(t["name"] for t in self.catalogue["tables"]):
            key = next(t["key"] for t in self.catalogue["tables"] if t["name"] == name)
            rows = self.rows(f"SELECT * FROM {name} ORDER BY {', '.join(key)}", {})
            yield ["table", name, len(rows)]
            for row in rows:
                yield ["row", name, row]


def check(asked, report, catalogue=CATALOGUE):
    """Checks a whole report on these requests; the number of entries and of those that are steps."""
    lines = [json.loads(line) for line in report.splitlines()]
    replies = {line[1]: line[2:] for line in lines if line[0] == "reply"}
    entries = [line for line in lines if line[0] in ("call", "push", "install", "step")]
    behind = [line for line in lines if line[0] in ("table", "row", "done")]
    assert len(replies) + len(entries) + len(behind) == len(lines), "a line of another kind"
    queues = {}
    for number, request in enumerate(asked):
        queues.setdefault(request["client"], []).append((number + 2, request))
    turns = {client: iter(enumerate(queue)) for client, queue in queues.items()}
    replay = Replay(catalogue)
    steps = 0
    for place, entry in enumerate(entries):
        assert entry[1] == place, f"place {entry[1]} where {place} is next"
        if entry[0] == "step":
            steps += 1
            outcome = replay.step(entry[2], entry[3])
        else:
            index, (line, request) = next(turns[entry[2]])
            assert index == entry[3] and entry[0] in request, f"place {place} is another request than client {entry[2]}'s next"
            outcome = {"call": replay.call, "push": replay.push, "install": replay.install}[entry[0]](request)
            assert replies.pop(line) == [place, outcome], f"the reply of line {line}"
        assert outcome == entry[-1], f"place {place}: {entry[-1]} where {outcome} comes"
    assert not replies, "a reply without an entry"
    assert all(next(turn, None) is None for turn in turns.values()), "a request without an entry"
    for name, taken in replay.taken.items():
        for stream in replay.inputs(name):
            assert taken == len(replay.batches[stream]), f"{name} has left batches of {stream}"
    assert behind == [*replay.tables(), ["done", len(entries)]], "the tables differ"
    return len(entries), steps


def input_of(asked, catalogue=CATALOGUE):
    return "".join(json.dumps(line, separators=(",", ":")) + "\n" for line in [catalogue, *asked])


def soak(asked, catalogue, seed, partitions, options):
    """Runs the requests on so many partitions, checks the report, and prints what was counted."""
    begun = time.perf_counter()
    words = [PROGRAM, "-", "run", "--partitions", str(partitions), *options]
    done = subprocess.run(words, input=input_of(asked, catalogue).encode(), capture_output=True)
    took = time.perf_counter() - begun
    assert done.returncode == 0, f"status {done.returncode}"
    entries, steps = check(asked, done.stdout.decode(), catalogue)
    where = f"seed {seed}, {partitions} partition{'s' * (partitions > 1)}"
    print(f"{where}: {entries:,} entries, {steps:,} of them steps, in {took:.2f} s: all as SQLite has them", flush=True)


def main():
    parser = argparse.ArgumentParser(description=__doc__, formatter_class=argparse.RawDescriptionHelpFormatter)
    for name, value in [("requests", 20_000), ("clients", 8), ("runs", 1), ("seed", 1)]:
        parser.add_argument(f"--{name}", type=int, default=value)
    parser.add_argument("--partitions", type=lambda word: [int(part) for part in word.split(",")], default=[8])
    parser.add_argument("--one-door", action="store_true")
    parser.add_argument("--installs", action="store_true")
    parser.add_argument("--nests", action="store_true")
    parser.add_argument("--checkpoint", metavar="K")
    parser.add_argument("--write", metavar="FILE")
    parser.add_argument("--check", nargs=2, metavar=("INPUT", "REPORT"))
    given = parser.parse_args()
    if given.check:
        catalogue, *asked = [json.loads(line) for line in open(given.check[0])]
        print("%d entries, %d of them steps: all as SQLite has them" % check(asked, open(given.check[1]).read(), catalogue))
        return
    catalogue = with_nests(CATALOGUE) if given.nests else CATALOGUE
    if given.write:
        open(given.write, "w").write(input_of(requests_of(given.requests, given.clients, given.seed, given.one_door, given.installs, catalogue), catalogue))
        return
    if not os.access(PROGRAM, os.X_OK):
        sys.exit("the program isn't built: run ./sstore - run < examples/stored_run.jsonl first")
    for seed in range(given.seed, given.seed + given.runs):
        asked = list(requests_of(given.requests, given.clients, seed, given.one_door, given.installs, catalogue))
        for partitions in given.partitions:
            soak(asked, catalogue, seed, partitions, ["--checkpoint", given.checkpoint] if given.checkpoint else [])


if __name__ == "__main__":
    main()
