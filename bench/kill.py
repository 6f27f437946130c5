#!/usr/bin/env python3
"""Kills the program in the midst of its runs, recovers its store each time, and goes on.

    python3 bench/kill.py [--kills 100] [--folder FOLDER] [--partitions 2] [--checkpoint K] [--recovery strong] [--installs] [--nests] [--seed 1]

Runs the program that `./sstore` built (build it first), or the one that SSTORE names, on a store in a new folder inside
FOLDER. In each round eight clients push batches, each from a source of its own: the last ones of the round before again, and
new ones behind them. While it runs a second process asks for the folder and has to be refused. After a random time the
process gets SIGKILL, until that has been done so often. What its log then has is read here, byte by byte as
docs/STORE.md says, and `sstore FOLDER recover` has to agree with it: each source's pushes are counted and summed once
each, none that was in the log is missing, and none that was not is there. A round that ends before it is killed has to have
done all its pushes, those that were there before as duplicates. With --checkpoint each run makes them, so that most of what
was there is in an image, which is read here too; a round that ended has fewer than K entries behind it. With --recovery weak
the log has the calls, pushes and installs alone, and a recovery runs their steps without a line of them. With --installs clients
install bodies between their pushes, some of a procedure whose calls leave the number of the body that they ran with: each call has
to have the one that the log has in front of it, and the next run the last one. With --nests both procedures of the workflow are a
nest: a batch that goes from one to the other is in no image, and lists have one step for each push. Last, of two processes that
begin at once on one folder, twenty times over, one has to be done and the other refused. What was counted is printed at the end.
"""

import argparse
import itertools
import json
import os
import random
import signal
import subprocess
import sys
import tempfile
import time

import images
from store_file import entries_of, generation_of, number

TOP = os.path.dirname(os.path.dirname(os.path.abspath(__file__)))
PROGRAM = os.environ.get("SSTORE", os.path.join(TOP, "crates/ss_program/out/ss_program"))
CLIENTS = 8
AGAIN = 3  # pushes of the round before that are made again
RACES = 20  # pairs of processes that begin at once

CATALOGUE = {
    "tables": [
        {"name": "sums", "columns": [["source", "int"], ["n", "int"], ["total", "int"]], "key": ["source"], "part": 1},
        {"name": "marks", "columns": [["n", "int"], ["body", "int"]], "key": ["n"], "part": 0},
    ],
    "streams": [
        {"name": "readings", "columns": [["source", "int"], ["value", "int"]]},
        {"name": "checked", "columns": [["source", "int"], ["value", "int"]]},
    ],
    "procedures": [
        {
            "name": "check",
            "kind": "border",
            "inputs": ["readings"],
            "touch": {"part": 0},
            "body": [{"emit": "checked", "sql": "SELECT source, value FROM readings"}],
        },
        {
            "name": "add",
            "kind": "interior",
            "inputs": ["checked"],
            "touch": {"part": 1},
            "body": [
                {
                    "for_each": "checked",
                    "body": [{"sql": "UPDATE sums SET n = n + 1, total = total + :value WHERE source = :source"}],
                }
            ],
        },
        {
            "name": "open",
            "kind": "call",
            "args": [["source", "int"]],
            "touch": {"part": 1},
            "body": [{"insert": "sums", "values": [{"arg": "source"}, 0, 0]}],
        },
        {
            "name": "mark",
            "kind": "call",
            "args": [["n", "int"]],
            "touch": {"part": 0},
            "body": [{"insert": "marks", "values": [{"arg": "n"}, 0]}],
        },
    ],
}
ADD = 1  # its place


def with_nest():
    """The same where both procedures of the workflow are one, and have their partitions together."""
    both = {"multi": [0, 1]}
    procedures = [{**procedure, "touch": both} if "inputs" in procedure else procedure for procedure in CATALOGUE["procedures"]]
    return {**CATALOGUE, "procedures": procedures, "nests": [{"name": "count", "procedures": ["check", "add"]}]}


# What may be installed: of `mark` what tells one body from another, of `add` what comes to the same.
MARKS = [[{"insert": "marks", "values": [{"arg": "n"}, body]}] for body in range(20)]
ADDS = [
    CATALOGUE["procedures"][ADD]["body"],
    [
        {
            "for_each": "checked",
            "body": [
                {"sql": "UPDATE sums SET total = total + :value WHERE source = :source"},
                {"sql": "UPDATE sums SET n = n + 1 WHERE source = :source"},
            ],
        }
    ],
]
OTHERS = {"add": ADDS, "mark": MARKS}
TEXTS = [images.compact(body) for body in MARKS]


def value(source, seq):
    """What a push of this source with this number adds."""
    return 1000 * source + seq


def number_of(catalogue, name):
    """The number that a procedure has in records."""
    return [procedure["name"] for procedure in images.joined(catalogue)["procedures"]].index(name)


def installs(catalogue, client, chance, marked):
    """A body of `mark` and a call of it, and now and then one of `add`, where this is in no nest. The call's number is the next one."""
    yield {"client": client, "install": "mark", "body": chance.choice(MARKS)}
    yield {"client": client, "call": "mark", "args": [next(marked)]}
    if chance.random() < 0.3 and "nests" not in catalogue:
        yield {"client": client, "install": "add", "body": chance.choice(ADDS)}


def pushes(catalogue, numbers, many, chance=None, marked=None):
    """The lines of a round: of each source the last pushes again, and so many new ones, in turn; with installs by chance between them."""
    lines = [catalogue]
    for step in range(AGAIN + many):
        for source in range(CLIENTS):
            seq = numbers[source] - AGAIN + step
            if seq >= 0:
                row = [source, value(source, seq)]
                lines.append({"client": source, "push": "readings", "source": f"s{source}", "seq": seq, "rows": [row]})
            if chance and chance.random() < 0.1:
                lines += installs(catalogue, source, chance, marked)
    return text_of(lines)


def text_of(lines):
    return "".join(json.dumps(line) + "\n" for line in lines)


def kept_in(catalogue, image, first):
    """What is kept by an image, where a store has one, and else what an empty one is."""
    if not image:
        return {"sources": [[]], "tables": [[], []], "bodies": images.own_bodies(catalogue)}
    length, at = number(image, 0, 4)
    return images.read(image, at + length, catalogue, first, OTHERS)


def there_in(catalogue, folder):
    """The next number of each source, where pushes are accepted in their order and once each; the rows of `marks`, and which body a
    call of `mark` has next; the place at which the store's image stands, and how many entries stand behind it."""
    first, image, entries, _ = generation_of(folder)
    kept, mark = kept_in(catalogue, image, first), number_of(catalogue, "mark")
    numbers, marks, bodies = dict(kept["sources"][0]), dict(kept["tables"][1]), kept["bodies"]
    for entry in entries:
        if entry[0] == "push" and entry[2] == numbers.get(entry[1], 0):
            numbers[entry[1]] = entry[2] + 1
        elif entry[0] == "install":
            bodies[entry[1]] = entry[2]
        elif entry[0] == "call" and entry[1] == mark:
            marks[entry[2][0]] = TEXTS.index(bodies[mark])
    return [numbers.get(f"s{source}", 0) for source in range(CLIENTS)], (marks, TEXTS.index(bodies[mark])), first, len(entries)


# ---- runs


def call(folder, words, text=""):
    done = subprocess.run([PROGRAM, folder, *words], input=text, capture_output=True, text=True)
    return done.returncode, [json.loads(line) for line in done.stdout.splitlines()]


def check_steps(lines, first, behind, recovery):
    """The steps that a recovery lists stand behind the log's entries; on a weak store they ran in the opening."""
    places = [line[1] for line in lines if line[0] == "step"]
    if recovery == "weak":
        assert not places, "steps are listed"
    else:
        assert places == list(range(first + behind, first + behind + len(places))), "steps at other places"


def check_tables(lines, numbers):
    """The printed sums are those of these pushes."""
    for source, n, total in (line[2] for line in lines if line[:2] == ["row", "sums"]):
        assert n == numbers[source], f"source {source}: {n} were counted, and {numbers[source]} are in the log"
        assert total == sum(value(source, seq) for seq in range(n)), f"source {source}: another sum"


def check_marks(lines, marks):
    """The printed marks are those of the calls, each with the body that was installed last in front of it."""
    printed = dict(line[2] for line in lines if line[:2] == ["row", "marks"])
    assert printed == marks, f"marks by other bodies: {sorted(set(printed.items()) ^ set(marks.items()))[:4]}"


def check_next(catalogue, folder, run, body, number):
    """The next run has the body that was installed last."""
    status, lines = call(folder, run, text_of([catalogue, {"call": "mark", "args": [number]}]))
    assert status == 0 and ["row", "marks", [number, body]] in lines, f"a call that isn't by body {body}: {lines[-3:]}"


def begun(folder, words):
    """A run that has its folder and waits for its input."""
    process = started(folder, words)
    until = time.monotonic() + 10
    while not has_lock(process.pid):
        assert time.monotonic() < until and process.poll() is None, "the folder was not locked"
        time.sleep(0.0005)
    return process


def started(folder, words):
    pipes = {"stdin": subprocess.PIPE, "stdout": subprocess.PIPE, "stderr": subprocess.PIPE}
    return subprocess.Popen([PROGRAM, folder, *words], text=True, **pipes)


def has_lock(pid):
    """Whether the system says that a process has locked a file."""
    with open("/proc/locks", encoding="ascii") as locks:
        return any(line.split()[1] == "FLOCK" and line.split()[4] == str(pid) for line in locks)


def check_refused(status, printed, told, holder):
    """A second process on a folder is refused, and says who has the folder."""
    assert status == 5 and printed == '["disk_fault"]\n', f"a second process ended with {status}: {printed}"
    assert f"process {holder} has the store" in told, f"it said: {told}"


def killed(folder, words, text, seconds):
    """Runs so long, and tells the status and the report, where the run ended before it was killed."""
    process = begun(folder, words)
    second = subprocess.run([PROGRAM, folder, *words], input=text, capture_output=True, text=True)
    check_refused(second.returncode, second.stdout, second.stderr, process.pid)
    try:
        printed, _ = process.communicate(text, timeout=seconds)
        return process.returncode, [json.loads(line) for line in printed.splitlines()]
    except subprocess.TimeoutExpired:
        process.send_signal(signal.SIGKILL)
        process.communicate()
        return None


def race(folder, words, text):
    """Two processes begin on one folder at once: one is done, and the other refused."""
    both = [started(folder, words), started(folder, words)]
    until = time.monotonic() + 10
    while all(process.poll() is None for process in both):
        assert time.monotonic() < until, "both processes have the folder"
        time.sleep(0.001)
    first, second = sorted(both, key=lambda process: process.poll() is not None)
    check_refused(second.returncode, second.stdout.read(), second.stderr.read(), first.pid)
    first.communicate(text)
    assert first.returncode == 0, f"the one that has the folder ended with {first.returncode}"


def main():
    parser = argparse.ArgumentParser(description=__doc__, formatter_class=argparse.RawDescriptionHelpFormatter)
    parser.add_argument("--kills", type=int, default=100)
    parser.add_argument("--folder")
    parser.add_argument("--partitions", type=int, default=2)
    parser.add_argument("--checkpoint", type=int)
    parser.add_argument("--recovery", choices=["strong", "weak"], default="strong")
    parser.add_argument("--installs", action="store_true")
    parser.add_argument("--nests", action="store_true")
    parser.add_argument("--seed", type=int, default=1)
    given = parser.parse_args()
    if not os.access(PROGRAM, os.X_OK):
        sys.exit("the program isn't built: run ./sstore - run < examples/stored_run.jsonl first")
    chance, catalogue = random.Random(given.seed), with_nest() if given.nests else CATALOGUE
    options = ["--partitions", str(given.partitions), "--recovery", given.recovery]
    run, recover = ["run", *options], ["recover", *options]
    if given.checkpoint:
        run += ["--checkpoint", str(given.checkpoint)]
    rounds = kills = in_midst = 0
    marked, known = itertools.count(), {}
    with tempfile.TemporaryDirectory(dir=given.folder) as folder:
        opens = [json.dumps({"call": "open", "args": [source]}) for source in range(CLIENTS)]
        status, _ = call(folder, run, "\n".join([json.dumps(catalogue), *opens]) + "\n")
        assert status == 0, "the store was not made"
        numbers = [0] * CLIENTS
        while kills < given.kills:
            rounds += 1
            many = chance.choice([10, 100, 400])
            text = pushes(catalogue, numbers, many, chance if given.installs else None, marked)
            ended = killed(folder, run, text, chance.uniform(0.0, 0.25))
            there, (marks, body), first, behind = there_in(catalogue, folder)
            if ended is None:
                kills += 1
                in_midst += there != numbers
            else:
                status, lines = ended
                assert status == 0, f"status {status}"
                assert not given.checkpoint or behind < given.checkpoint, f"{behind} entries stand behind the image"
                assert there == [number + many for number in numbers], "a push was not done"
                assert len(marks) == len(known) + text.count('"call": "mark"'), "a call was not done"
                check_tables(lines, there)
                check_marks(lines, marks)
                assert not given.nests or {line[2] for line in lines if line[0] == "step"} <= {"count"}, "a step of a member"
            assert all(new >= old for new, old in zip(there, numbers)), "a push that was there is lost"
            assert known.items() <= marks.items(), "a call that was there is lost"
            status, lines = call(folder, recover)
            assert status == 0, f"recovery ended with {status}: {lines[-1:]}"
            check_steps(lines, first, behind, given.recovery)
            check_tables(lines, there)
            check_marks(lines, marks)
            if given.installs:
                check_next(catalogue, folder, run, body, next(marked))
            numbers, known = there, there_in(catalogue, folder)[1][0]
        for _ in range(RACES):
            race(folder, run, pushes(catalogue, numbers, 10))
            numbers = [number + 10 for number in numbers]
        there, (marks, _), first, behind = there_in(catalogue, folder)
        assert there == numbers and marks == known, "a push or a call was lost between two processes"
        _, groups = entries_of(folder)
    print(f"{rounds} rounds, {kills} killed, {in_midst} of them with pushes of theirs in the log")
    print(f"{rounds + RACES} second processes refused, {RACES} of them begun at once")
    print(f"{sum(numbers)} pushes once each, {len(known)} calls by the body in front of them; {behind} entries behind the image at place {first}, in {groups} groups")


if __name__ == "__main__":
    main()
