#!/usr/bin/env python3
"""Fails each allocation of a run, and each of its calls on the files of its store, one a run, and recovers what is left.

    python3 bench/faults.py [--every 1] [--only WORD]

Runs the program that `./sstore` built (build it first), or the one that SSTORE names, with a library of bench/faults.c that
is preloaded, for which it wants `cc`. A run has calls, pushes and installs of two clients on two partitions, with a checkpoint each four
entries; it is made on a new store, and on one that has an image and entries to recover.

- One call on a file answers EIO, or is interrupted, or reads or writes one byte alone, or none; or each reads, or writes, one
  byte alone. Such a run has to end with status 5 where a call failed or did nothing, and else with 0. With a restart it has to
  end with 0, but for calls that open the folder or lock it.
- Before each of the calls on files another process comes between: it removes the folder, moves it, or makes a file longer. Who
  removes the folder keeps its files by other names, and whoever makes the selector longer cuts it again. Files that grew before
  a run are tried too. Such a run has to end with status 0, or with 5 where the folder is gone, or 7 where the selector grew.
- One allocation finds no memory: of such a run, of worked scripts (a workflow, with checkpoints and without; transfers; votes),
  and of a recovery that has steps to do. Such a run has to end with status 0 or 6.

Where a run ends with 0 it has to have done what its replies say. Then the store is recovered without faults: of each source the
first pushes have to be there, those of all that was receipted among them, each once; and of the calls those that are receipted,
and no other ones than were asked for. Of what is printed on a new store the command `audit` has to find that the list replays;
and of a worked script, that the tables recovered are those that the first entries of its list leave, those that are receipted
among them.

Where the script may mount file systems, a run on one that gets full and on one that can only be read have to end with status 5,
and nothing that was receipted may be lost. With --every N only each Nth allocation fails, and another process comes between each
Nth call; with --only WORD only the kinds that have this word in their name are tried. What was counted is printed.
"""

import argparse
import collections
import contextlib
import json
import os
import shutil
import signal
import subprocess
import sys
import tempfile
import threading

from store_file import generation_of

BENCH = os.path.dirname(os.path.abspath(__file__))
TOP = os.path.dirname(BENCH)
PROGRAM = os.environ.get("SSTORE", os.path.join(TOP, "crates/ss_program/out/ss_program"))
CLIENTS = 2
PUSHES, CALLS = 5, 3  # of each client
WORDS = ["--partitions", "2"]
RUN = ["run", *WORDS, "--checkpoint", "4"]
AGAIN = ["--restarts", "1"]
FAULTS = [(kind, "fails") for kind in ("open", "read", "write", "sync", "cut", "seek", "lock")]
FAULTS += [(kind, how) for kind in ("read", "write") for how in ("interrupted", "short", "nothing")]
BASES = os.path.join(TOP, "crates/ss_cases/data/bases.cases")

INT = "int"
CATALOGUE = {
    "tables": [
        {"name": "seen", "columns": [["source", INT], ["n", INT]], "key": ["source", "n"], "part": 1},
        {"name": "calls", "columns": [["n", INT]], "key": ["n"], "by": "n"},
    ],
    "streams": [{"name": "readings", "columns": [["source", INT], ["n", INT]]}, {"name": "checked", "columns": [["source", INT], ["n", INT]]}],
    "windows": [{"name": "last", "columns": [["source", INT], ["n", INT]], "owner": "check", "unit": "rows", "size": 3, "slide": 2}],
    "procedures": [
        {"name": "put", "kind": "call", "args": [["n", INT]], "touch": {"arg": "n"}, "body": [{"sql": "INSERT INTO calls VALUES (:n)"}]},
        {
            "name": "check",
            "kind": "border",
            "inputs": ["readings"],
            "touch": {"part": 0},
            "body": [{"sql": "INSERT INTO last SELECT source, n FROM readings"}, {"emit": "checked", "sql": "SELECT source, n FROM readings"}],
        },
        {"name": "add", "kind": "interior", "inputs": ["checked"], "touch": {"part": 1}, "body": [{"sql": "INSERT INTO seen SELECT source, n FROM checked"}]},
    ],
}


def call(name, *args):
    return {"call": name, "args": args}


def pushes(stream, source, batches):
    return [{"push": stream, "source": source, "seq": seq, "rows": [row]} for seq, row in batches]


FAR = 2**63 - 1
IN_FLOW = pushes("s", "a", [(0, [1]), (0, [1]), (2, [2]), (1, [2])])
IN_FLOW_BY_OTHERS = [*IN_FLOW[:2], {"install": "j", "body": [{"sql": "INSERT INTO joined SELECT x + 100, 1 FROM pl"}]}, IN_FLOW[3], {"install": "p", "body": [{"emit": "pl", "sql": "SELECT x FROM l"}]}]
IN_FLOW_BY_OTHERS += pushes("s", "a", [(2, [3])])
MOVES = [call("open", -1, 10), call("open", 0, 0), call("open", FAR, 0), call("move", -1, 0, 4), call("move", 0, FAR, 3), call("move", 0, FAR, 2)]
VOTES = [call("begin_show", 5), call("add", 1, "ann"), call("add", 2, "bob"), call("add", 3, "cy")]
VOTES += pushes("votes_in", "p", enumerate([[101, 1], [102, 2], [101, 2], [103, 1], [104, 3], [105, 1], [106, 2], [102, 3]]))

# A script by its name: a catalogue of the case files, requests of one client, and the words.
SCRIPTS = {
    "a workflow": ("diamond", IN_FLOW, ["run"]),
    "a workflow with checkpoints": ("diamond", IN_FLOW, ["run", "--checkpoint", "1"]),
    "a workflow with installs": ("diamond", IN_FLOW_BY_OTHERS, ["run"]),
    "a workflow with installs and checkpoints": ("diamond", IN_FLOW_BY_OTHERS, ["run", "--checkpoint", "1"]),
    "transfers": ("transfers", MOVES, ["run", "--partitions", "2"]),
    "votes": ("voter", VOTES, ["run"]),
}


def script_of(name):
    """The lines of a script, and its words."""
    catalogue, requests, words = SCRIPTS[name]
    with open(BASES, encoding="utf-8") as lines:
        for line in lines:
            if line == f"base {catalogue}\n":
                return [json.loads(next(lines)), *requests], words
    sys.exit(f"{BASES} has no catalogue {catalogue}")


# What may be installed for `put` and `add`, and comes to the same.
PUTS = [CATALOGUE["procedures"][0]["body"], [{"insert": "calls", "values": [{"arg": "n"}]}]]
ADDS = [CATALOGUE["procedures"][2]["body"], [{"for_each": "checked", "body": [{"sql": "INSERT INTO seen VALUES (:source, :n)"}]}]]


def script(begin):
    """Pushes, calls and installs of each client, whose numbers begin here."""
    lines = [CATALOGUE]
    for n in range(begin, begin + PUSHES):
        for client in range(CLIENTS):
            lines.append({"client": client, "push": "readings", "source": f"s{client}", "seq": n, "rows": [[client, n]]})
            if n - begin < CALLS:
                lines.append({"client": client, "call": "put", "args": [10 * n + client]})
        lines.append({"client": 1, "install": "add", "body": ADDS[(n + 1) // 2 % 2]} if n % 2 else {"install": "put", "body": PUTS[n // 2 % 2]})
    return lines


def compact(lines):
    return "\n".join(json.dumps(line, separators=(",", ":")) for line in lines).encode()


def surroundings(folder, fault, library, count):
    """What the library is told. The count of calls begins anew."""
    env = dict(os.environ)
    if library:
        with contextlib.suppress(FileNotFoundError):
            os.remove(count)
        env.update(LD_PRELOAD=library, STORE=folder, COUNT=count, KIND=fault[0], HOW=fault[1], AT=str(fault[2]))
    return env


def run(folder, words, lines=(), fault=None, library=None, count=None):
    env = surroundings(folder, fault, library, count)
    done = subprocess.run([PROGRAM, folder, *words], input=compact(lines), capture_output=True, env=env, timeout=60, check=False)
    return done.returncode, [json.loads(line) for line in done.stdout.decode().splitlines()]


def run_between(folder, words, lines, library, count, at, act):
    """A run that stops before its call on a file with that number, until something else was done."""
    env = surroundings(folder, ("any", "stopped", at), library, count)
    pipes = {"stdin": subprocess.PIPE, "stdout": subprocess.PIPE, "stderr": subprocess.DEVNULL}
    with subprocess.Popen([PROGRAM, folder, *words], env=env, **pipes) as process:
        late = threading.Timer(60, process.kill)
        late.start()
        process.stdin.write(compact(lines))
        process.stdin.close()
        _, status = os.waitpid(process.pid, os.WUNTRACED)
        if os.WIFSTOPPED(status):
            act()
            os.kill(process.pid, signal.SIGCONT)
            printed = process.stdout.read()
            status = process.wait()
        else:
            printed = process.stdout.read()
            status = process.returncode = os.waitstatus_to_exitcode(status)
        late.cancel()
    return status, [json.loads(line) for line in printed.decode().splitlines()]


def rows_of(report):
    rows = collections.defaultdict(list)
    for line in report:
        if line[0] == "row":
            rows[line[1]].append(line[2])
    return rows


def sure_of(status, report, lines):
    """The pushes and the calls that the report says are on the disk: those with an outcome that is done, and below the count of
    a report that stopped."""
    least = next((line[2] for line in report if line[0] == "stopped"), 0 if status else 1 << 62)
    sure = []
    for line in report:
        if line[0] == "reply" and isinstance(line[2], int) and line[2] < least and line[3][0] == "done":
            sure.append(lines[line[1] - 1])
    return sure


def check_rows(rows, sure, asked, before, what):
    """Of each source the first pushes are there, each once; all that is sure is there; and what is there was asked for."""
    for client in range(CLIENTS):
        there = [n for source, n in rows["seen"] if source == client]
        assert there == list(range(len(there))), f"{what}: of source {client} these are there: {there}"
        sure_ones = [line["seq"] for line in sure if line.get("source") == f"s{client}"]
        assert all(n < len(there) for n in [*sure_ones, before - 1]), f"{what}: of source {client} a push is lost"
    calls = [n for (n,) in rows["calls"]]
    wanted = [line["args"][0] for line in sure if "call" in line]
    assert set(wanted) <= set(calls), f"{what}: a call is lost"
    assert set(calls) <= {line["args"][0] for line in asked if "call" in line}, f"{what}: a call that nobody made"


def entries_of(report):
    return [line for line in report if line[0] in ("push", "call", "install", "step")]


def audited(lines, report):
    """The verdict on a report: that it is right, or the first check that a line breaks."""
    status, verdict = run("-", ["audit"], [*lines, *report])
    assert status in (0, 12), f"an audit ended with {status}: {verdict}"
    return verdict[0][1:]


def check_printed(lines, report, what):
    """A report of a new store is right; of one that has stopped the list replays, so that it lacks no more than its tables."""
    if report[-1:] in ([], [["no_memory"]], [["disk_fault"]]) or report[-1][0] == "foreign":
        return
    may = ("yes",)
    if report[-1][0] == "stopped":
        names = sorted(table["name"] for table in lines[0]["tables"])
        report = [[*line[:2], "no_memory"] if line[2] == "halted" else line for line in report[:-1]]
        report += [*(["table", name, 0] for name in names), ["done", 0]]
        may = ("yes", 4, 5)
    verdict = audited(lines, report)
    assert verdict[0] in may or verdict[1] in may, f"{what}: the list that is printed doesn't replay: {verdict}"


def replies_of(lines, entries):
    """A reply to each request: what its entry came to, or that there was no memory."""
    answers = {(entry[2], entry[3]): [entry[1], entry[4]] for entry in entries if entry[0] != "step"}
    asked = collections.Counter()
    for number, line in enumerate(lines[1:], 2):
        client = line.get("client", 0)
        yield ["reply", number, *answers.get((client, asked[client]), ["no_memory"])]
        asked[client] += 1


def check_held(lines, entries, stored, recovered, what):
    """What was recovered is what so many first entries of a list leave, once all that was pending has run."""
    assert stored <= len(entries), f"{what}: {stored} entries are stored, and {len(entries)} were printed"
    if recovered == [["done", 0]] and not stored:
        return
    list_now = entries[:stored] + entries_of(recovered)
    tables = [line for line in recovered if line[0] in ("table", "row")]
    verdict = audited(lines, [*replies_of(lines, entries[:stored]), *list_now, *tables, ["done", len(list_now)]])
    assert verdict[0] == "yes", f"{what}: what is recovered of the first {stored} entries isn't what they leave: {verdict}"


def stored_in(folder):
    """How many entries a store has, from its formatting on."""
    first, _, entries, _ = generation_of(folder)
    return first + len(entries)


def counted(path):
    with open(path, "rb") as file:
        return int.from_bytes(file.read(8), "little")


def prepared(folder, begin):
    """A folder, with the store of a run where there is one before; what it was asked."""
    os.mkdir(folder)
    if not begin:
        return []
    status, _ = run(folder, RUN, script(0))
    assert status == 0, f"a run without a fault ended with {status}"
    return script(0)[1:]


def check_recovered(folder, sure, asked, begin, what):
    again, report = run(folder, ["recover", *WORDS])
    assert again == 0, f"{what}: recovery ended with {again}: {report[-1:]}"
    check_rows(rows_of(report), sure, asked, begin, what)


def one(library, begin, fault, may_end, found, words=RUN):
    """A run with a fault on a new store, or behind one without a fault, and its recovery; how many such calls the run had."""
    with tempfile.TemporaryDirectory() as place:
        folder, count = os.path.join(place, "store"), os.path.join(place, "count")
        lines = script(begin)
        asked = prepared(folder, begin) + lines[1:]
        status, report = run(folder, words, lines, fault, library, count)
        what = f"{' '.join(words)}: {fault} behind {begin}"
        calls = counted(count)
        # Threads decide how many calls there are: behind the last of them nothing failed.
        may_end = may_end if fault[2] == "each" or calls > fault[2] >= 0 else (0,)
        assert status in may_end, f"{what}: status {status}, and {report[-1:]}"
        if not begin:
            check_printed(lines, report, what)
        check_recovered(folder, sure_of(status, report, lines), asked, begin, what)
        found[status] += 1
        return calls


def told(found):
    return ", ".join(f"{many} with status {status}" for status, many in sorted(found.items())) or "none"


def on(begin):
    return "behind an image and entries" if begin else "on a new store"


def each(library, kind, how, may_end, every=1, words=RUN):
    """A fault in each call of a kind in turn."""
    for begin in (0, PUSHES):
        found, at = collections.Counter(), 0
        calls = one(library, begin, (kind, how, -1), (0,), collections.Counter(), words)
        while at < calls:
            one(library, begin, (kind, how, at), may_end, found, words)
            at += every
        restarts = " ".join(words[len(RUN) :])
        print(f"{kind} {how}, {on(begin)}{restarts and ', '}{restarts}: {calls} calls; ended {told(found)}", flush=True)


def all_short(library):
    """A file system of which each call reads, or writes, one byte alone."""
    for kind in ("read", "write"):
        for begin in (0, PUSHES):
            found = collections.Counter()
            calls = one(library, begin, (kind, "short", "each"), (0,), found)
            print(f"each {kind} is short, {on(begin)}: {calls} calls; ended {told(found)}", flush=True)


def remove(folder, beside):
    """Removes a folder, whose files are then held by other names."""
    os.mkdir(beside)
    for file in os.listdir(folder):
        os.link(os.path.join(folder, file), os.path.join(beside, file))
    shutil.rmtree(folder)
    return beside


def move(folder, beside):
    os.rename(folder, beside)
    return beside


def longer(file):
    """Makes a file longer, by bytes that read as open gates, if it is there."""

    def act(folder, _):
        path = os.path.join(folder, file)
        if os.path.exists(path):
            with open(path, "ab") as to:
                to.write(b"\1" * 40)
        return folder

    return act


ACTS = {
    "the folder is removed": (remove, (0, 5)),
    "the folder is moved": (move, (0, 5)),
    "the selector grows": (longer("selector"), (0, 7)),
    "gen1 grows": (longer("gen1"), (0,)),
    "gen2 grows": (longer("gen2"), (0,)),
}


def mended(folder, status, begin, what):
    """Cuts a selector that grew, which recovery has to refuse before: to its byte, or to nothing where none was written."""
    path = os.path.join(folder, "selector")
    if os.path.exists(path) and os.path.getsize(path) > 1:
        again, report = run(folder, ["recover", *WORDS])
        assert (again, report) == (7, [["foreign", 0, 1]]), f"{what}: recovery of a longer selector ended with {again}: {report[-1:]}"
        os.truncate(path, 1 if status == 0 or begin else 0)


def one_between(library, begin, at, name, found):
    """A run before whose call with that number another process comes, or before which it comes, and its recovery."""
    act, may_end = ACTS[name]
    with tempfile.TemporaryDirectory() as place:
        folder, beside, count = (os.path.join(place, name) for name in ("store", "beside", "count"))
        lines, held, what = script(begin), [folder], f"{name} before call {at}, behind {begin}"
        asked = prepared(folder, begin) + lines[1:]
        if at < 0:
            held = [act(folder, beside)]
        status, report = run_between(folder, RUN, lines, library, count, at, lambda: held.append(act(folder, beside)))
        assert status in may_end, f"{what}: status {status}, and {report[-1:]}"
        if not begin:
            check_printed(lines, report, what)
        if held[-1] != folder:
            assert run(folder, ["recover"])[0] == 5, f"{what}: the folder is there again"
        mended(held[-1], status, begin, what)
        check_recovered(held[-1], sure_of(status, report, lines), asked, begin, what)
        found[status] += 1
        return counted(count)


def between(library, name, every):
    """Another process comes between each call on files and the one before it, and before the run."""
    for begin in (0, PUSHES):
        found, at = collections.Counter(), 0
        one_between(library, begin, -1, name, found)
        calls = one(library, begin, ("any", "fails", -1), (0,), collections.Counter())
        while at < calls:
            one_between(library, begin, at, name, found)
            at += every
        print(f"{name}, {on(begin)}: before it, and before each of {calls} calls; ended {told(found)}", flush=True)


def refused(library, lines, words, whole, at, found):
    """A script of which an allocation is refused, and its recovery; how many allocations there were."""
    with tempfile.TemporaryDirectory() as place:
        folder, count = os.path.join(place, "store"), os.path.join(place, "count")
        os.mkdir(folder)
        status, report = run(folder, words, lines, ("malloc", "fails", at), library, count)
        what = f"allocation {at}"
        assert status in (0, 6) and report, f"{what}: status {status}, and {report[-1:]}"
        check_printed(lines, report, what)
        # One that finds no memory for its report has done all, as no other allocation failed, or nothing.
        entries = whole if report == [["no_memory"]] else entries_of(report)
        least = len(entries) if status == 0 else next((line[2] for line in report if line[0] == "stopped"), 0)
        stored = stored_in(folder)
        assert stored >= least, f"{what}: {least} entries are receipted, and {stored} stored"
        again, recovered = run(folder, ["recover"])
        assert again == 0, f"{what}: recovery ended with {again}: {recovered[-1:]}"
        check_held(lines, entries, stored, recovered, what)
        found[status] += 1
        return counted(count)


def refused_in(library, name, every):
    """Each allocation of a script is refused in turn."""
    lines, words = script_of(name)
    status, report = run("-", words, lines)
    assert status == 0, f"{name} without a fault ended with {status}"
    found, at = collections.Counter(), 0
    calls = refused(library, lines, words, entries_of(report), -1, collections.Counter())
    while at < calls:
        refused(library, lines, words, entries_of(report), at, found)
        at += every
    print(f"{name}: {calls} allocations; ended {told(found)}", flush=True)


def cut_short(library, folder, count):
    """Makes a store that has steps to do, by a run whose disk fails at some write; what a recovery of it prints."""
    copy = folder + "-copy"
    for at in range(1000):
        os.mkdir(folder)
        run(folder, RUN, script(0), ("write", "fails", at % 40), library, count)
        shutil.copytree(folder, copy)
        status, report = run(copy, ["recover", *WORDS])
        assert status == 0, f"recovery ended with {status}"
        shutil.rmtree(copy)
        if len(entries_of(report)) > 1:
            return report
        shutil.rmtree(folder)
    sys.exit("no store has steps to do")


def refused_recovery(library, begun, wanted, at, found):
    """A recovery of which an allocation is refused, and one behind it; how many allocations there were."""
    with tempfile.TemporaryDirectory() as place:
        folder, count = os.path.join(place, "store"), os.path.join(place, "count")
        shutil.copytree(begun, folder)
        status, report = run(folder, ["recover", *WORDS], (), ("malloc", "fails", at), library, count)
        what = f"allocation {at} of a recovery"
        assert status in (0, 6), f"{what}: status {status}, and {report[-1:]}"
        again, report = run(folder, ["recover", *WORDS])
        assert again == 0 and rows_of(report) == rows_of(wanted), f"{what}: the next one ended with {again}: {report}"
        found[status] += 1
        return counted(count)


def refused_recoveries(library, every):
    """Each allocation of a recovery that has steps to do is refused in turn."""
    with tempfile.TemporaryDirectory() as place:
        begun, found, at = os.path.join(place, "begun"), collections.Counter(), 0
        wanted = cut_short(library, begun, os.path.join(place, "count"))
        calls = refused_recovery(library, begun, wanted, -1, collections.Counter())
        while at < calls:
            refused_recovery(library, begun, wanted, at, found)
            at += every
        print(f"a recovery that has {len(entries_of(wanted))} steps to do: {calls} allocations; ended {told(found)}", flush=True)


def mounted():
    """A file system that gets full, and can then only be read."""
    with tempfile.TemporaryDirectory() as place:
        if os.geteuid() or subprocess.run(["mount", "-t", "tmpfs", "-o", "size=64k", "none", place], capture_output=True).returncode:
            print("no file system could be mounted")
            return
        try:
            sure, asked, begin, status = [], [], 0, 0
            while status == 0:
                assert begin < 10_000, "the file system doesn't get full"
                lines = script(begin)
                status, report = run(place, ["run", *WORDS], lines)
                sure, asked, begin = sure + sure_of(status, report, lines), asked + lines[1:], begin + PUSHES
            assert status == 5, f"on a full file system: status {status}"
            for options, end in (("remount,ro,size=1m", 5), ("remount,rw,size=1m", 0)):
                subprocess.run(["mount", "-o", options, place], check=True)
                again, report = run(place, ["recover", *WORDS])
                assert again == end, f"{options}: status {again}"
            check_rows(rows_of(report), sure, asked, 0, "a full file system")
            print(f"a full file system: status 5 behind {len(sure)} requests that were receipted; one that can only be read: status 5; then none is lost")
        finally:
            subprocess.run(["umount", place], check=True)


def tries(library, every):
    """What is tried, by a name."""
    for kind, how in FAULTS:
        may_end = (5,) if how in ("fails", "nothing") else (0,)
        yield f"{kind} {how}", lambda kind=kind, how=how, may_end=may_end: each(library, kind, how, may_end)
    for kind, how in FAULTS:
        # A folder that can't be opened or locked is no disk yet.
        may_end = (0, 5) if kind in ("open", "lock") else (0,)
        yield f"{kind} {how} again", lambda kind=kind, how=how, may_end=may_end: each(library, kind, how, may_end, words=[*RUN, *AGAIN])
    yield "each short", lambda: all_short(library)
    for name in ACTS:
        yield name, lambda name=name: between(library, name, every)
    yield "malloc fails", lambda: each(library, "malloc", "fails", (0, 6), every)
    for name in SCRIPTS:
        yield f"malloc fails in {name}", lambda name=name: refused_in(library, name, every)
    yield "malloc fails in a recovery", lambda: refused_recoveries(library, every)
    yield "mounted", mounted


def main():
    options = argparse.ArgumentParser(description=__doc__, formatter_class=argparse.RawDescriptionHelpFormatter)
    options.add_argument("--every", type=int, default=1)
    options.add_argument("--only", default="")
    given = options.parse_args()
    if not os.access(PROGRAM, os.X_OK):
        sys.exit("the program isn't built: run ./sstore - run < examples/stored_run.jsonl first")
    with tempfile.TemporaryDirectory() as place:
        library = os.path.join(place, "faults.so")
        subprocess.run(["cc", "-O2", "-shared", "-fPIC", "-o", library, os.path.join(BENCH, "faults.c"), "-ldl"], check=True)
        for name, attempt in tries(library, given.every):
            if given.only in name:
                attempt()


if __name__ == "__main__":
    main()
