#!/usr/bin/env python3
"""Whether a run says the same where the system refuses it threads.

    python3 bench/refused_threads.py [--requests 400] [--times 1] [--seed 1]

Runs the program that `./sstore` built (build it first), or the one that SSTORE names, with the library of
bench/refused_threads.c preloaded, which refuses the first threads that are asked for. The program asks for one for each
partition first, its executor, and then for one for each client but one, which goes on in the thread that is there. So
where as many are refused as there are partitions, no executor has a thread, and clients run the work themselves.

Each input of examples/ runs on one partition, and so does a workflow of one client: with none, one and so on up to all of
the threads refused each report and each status has to be that of the run that was refused none, byte for byte. Then the
workflow runs with four clients on 1, 2 and 4 partitions and with eight on 8, so often as --times says. Its clients call and
push what no other client's requests can change, so that the outcome of each request, the counts of the outcomes in the list
and the tables are the same in whatever order they run: these have to be those of the run that was refused none. And the
list has to be what happened, as bench/soak.py has it from SQLite.

Printed is how many runs were alike. Status 1: one was another, or didn't end; the difference is printed. Status 2: it can't
be tried here. It needs a C compiler (Debian: the packages gcc and libc6-dev), and the library counts what it refused, so that
a program which asks for its threads in another way isn't taken for one that is alike.
"""

import argparse
import difflib
import glob
import json
import os
import random
import subprocess
import sys
import tempfile
from collections import Counter

import measure
import soak

LOADS = [(4, 1), (4, 2), (4, 4), (8, 8)]  # clients and partitions
SECONDS = 120  # in which a run has to end
IDS = 1_000  # a client's accounts are numbered from so many times its own number on


# ---- the workflow


def pushed(client, number, chance):
    """A push with rows that no other push has, and now and then with a number that isn't the next one."""
    seq = number + chance.choice([0] * 8 + [1, -1])
    rows = [[10_000_000 * client + 100 * number + 10 * k + chance.randrange(10)] for k in range(chance.randrange(4))]
    return {"push": "s", "source": f"c{client}", "seq": max(seq, 0), "rows": rows}


def asked_for(client, chance):
    """A call on accounts of the client's own, which may be open already, or not be there, or have too little."""
    first, second = (IDS * client + chance.randrange(20) for _ in range(2))
    kind = chance.random()
    if kind < 0.4:
        return {"call": "open", "args": [first, chance.randrange(100)]}
    if kind < 0.8:
        return {"call": "pay", "args": [first, chance.randrange(50)]}
    return {"call": "move", "args": [first, second, chance.randrange(50)]}


def requests_of(count, clients, seed):
    """Requests of these clients in turn, on the catalogue of soak.py."""
    chance = random.Random(seed)
    numbers = [0] * clients
    for made in range(count):
        client = made % clients
        if chance.random() < 0.5:
            asked = pushed(client, numbers[client], chance)
            numbers[client] += asked["seq"] == numbers[client]
        else:
            asked = asked_for(client, chance)
        yield {"client": client, **asked}


# ---- runs


class Other(Exception):
    """A run that is another one than it has to be."""


class Refusing:
    """Runs of the program to which threads are refused, inside a folder that has the library."""

    def __init__(self, folder):
        self.library = os.path.join(folder, "refused_threads.so")
        self.told = os.path.join(folder, "told")
        if not measure.built(["-shared", "-fPIC", "-ldl"], "refused_threads.c", self.library):
            sys.exit(2)

    def run(self, text, partitions, refused):
        """Status, report, and how many threads were asked for. As many have to be refused as wanted, or all."""
        names = dict(os.environ, LD_PRELOAD=self.library, REFUSED=str(refused), TOLD=self.told)
        words = [measure.PROGRAM, "-", "run", "--partitions", str(partitions)]
        streams = {"stdout": subprocess.PIPE, "stderr": subprocess.DEVNULL}
        try:
            done = subprocess.run(words, input=text, env=names, timeout=SECONDS, **streams)
        except subprocess.TimeoutExpired:
            raise Other(f"no end within {SECONDS} seconds") from None
        if not os.path.exists(self.told):
            raise Other("the library was not loaded")
        with open(self.told, encoding="ascii") as file:
            calls = file.read()
        os.remove(self.told)
        if calls.count("r") != min(refused, len(calls)):
            raise Other(f"of its calls for threads were refused: {calls}")
        return done.returncode, done.stdout.decode(), len(calls)


def lines_of(report):
    """The lines of a report in whatever order its entries ran: replies without places, outcomes with their counts, tables."""
    replies, outcomes, behind = [], Counter(), []
    for line in map(json.loads, report.splitlines()):
        if line[0] == "reply":
            replies.append(line[:2] + line[3:])
        elif line[0] in ("call", "push", "install", "step"):
            outcomes[json.dumps([line[0], line[2], line[-1]])] += 1
        else:
            behind.append(line)
    told = sorted(f"{count} times {outcome}" for outcome, count in outcomes.items())
    return [json.dumps(reply) for reply in replies] + told + [json.dumps(line) for line in behind]


def check_same(first, other, whole):
    """Both runs have the same status and report: byte for byte, or in whatever order."""
    if other[0] != first[0]:
        raise Other(f"status {other[0]} in place of {first[0]}")
    if whole and other[1] == first[1]:
        return
    both = [run[1].splitlines() if whole else lines_of(run[1]) for run in (first, other)]
    if both[0] != both[1]:
        raise Other("\n".join(list(difflib.unified_diff(*both, "none refused", "some refused", lineterm="", n=0))[:40]))
    if whole:
        raise Other("the reports differ in their line ends")


def check_list(asked, run):
    """The list is what happened, as SQLite has it."""
    if run[0] != 0:
        raise Other(f"status {run[0]}")
    try:
        soak.check(asked, run[1])
    except AssertionError as error:
        raise Other(str(error)) from None


# ---- what is compared


def alike(refusing, name, text, partitions, whole, asked=None):
    """How many runs of an input were alike, with none of its threads refused up to all of them."""
    first, refused = None, 0
    while first is None or refused <= first[2]:
        try:
            run = refusing.run(text, partitions, refused)
            first = first or run
            if run[0] == 0 and run[2] < partitions:
                raise Other(f"only {run[2]} threads were asked for")
            check_same(first, run, whole)
            if asked is not None:
                check_list(asked, run)
        except Other as error:
            print(f"{name}, --partitions {partitions}, threads refused: {refused}: {error}")
            sys.exit(1)
        refused += 1
    return refused


def workflow(refusing, clients, partitions, given, seed):
    asked = list(requests_of(given.requests, clients, seed))
    text = soak.input_of(asked).encode()
    return alike(refusing, f"the workflow of seed {seed} with {clients} clients", text, partitions, clients == 1, asked)


def examples(refusing):
    runs = 0
    names = sorted(glob.glob(os.path.join(measure.TOP, "examples/*.jsonl")))
    for name in names:
        with open(name, "rb") as file:
            runs += alike(refusing, os.path.basename(name), file.read(), 1, True)
    print(f"{len(names)} examples: {runs} runs, alike byte for byte", flush=True)


def main():
    parser = argparse.ArgumentParser(description=__doc__, formatter_class=argparse.RawDescriptionHelpFormatter)
    parser.add_argument("--requests", type=measure.positive, default=400)
    parser.add_argument("--times", type=measure.positive, default=1)
    parser.add_argument("--seed", type=int, default=1)
    given = parser.parse_args()
    if not os.access(measure.PROGRAM, os.X_OK):
        print("the program isn't built: run ./sstore - run < examples/stored_run.jsonl first")
        sys.exit(2)
    with tempfile.TemporaryDirectory() as folder:
        refusing = Refusing(folder)
        examples(refusing)
        seeds = range(given.seed, given.seed + given.times)
        runs = sum(workflow(refusing, 1, 1, given, seed) for seed in seeds)
        print(f"the workflow, 1 client, 1 partition: {runs} runs, alike byte for byte", flush=True)
        for clients, partitions in LOADS:
            runs = sum(workflow(refusing, clients, partitions, given, seed) for seed in seeds)
            where = f"the workflow, {clients} clients, {partitions} partition{'s'[:partitions > 1]}"
            print(f"{where}: {runs} runs, alike in outcomes and tables, and each list as SQLite has it", flush=True)


if __name__ == "__main__":
    main()
