#!/usr/bin/env python3
"""Stores that begin with the image of a database that has run, and such images damaged.

    python3 bench/images.py [--stores 300] [--damages 10] [--seed 1]

Runs the program that `./sstore` built (build it first), or the one that SSTORE names. Images are written and read here, byte
by byte as docs/STORE.md says, and by nothing of the program's.

First the same requests are made on a store whose log has all that went before, and on one that has an image in its place:
both have to print the same replies and tables, and recover to the same. Then images are drawn: tables, windows, streams of which
some batches are kept, counts, sources and bodies, of which some were installed; among them a nest, whose text is empty, and the
stream between its members, which never had a batch. Some of all these stores are of the older form, whose images have no bodies. `recover` has to print the drawn rows, with a step for each batch that is still to be taken, whatever byte selects one
of two files that have the image. Of each image some copies are damaged: a byte is another, or the end is missing, or one
byte stands behind it. Where the reader here finds a first byte that can't be, the program has to tell just that one, and else
it has to print what the damaged image says. What was counted is printed at the end.
"""

import argparse
import json
import os
import random
import subprocess
import sys
import tempfile

from store_file import number, row_at

TOP = os.path.dirname(os.path.dirname(os.path.abspath(__file__)))
PROGRAM = os.environ.get("SSTORE", os.path.join(TOP, "crates/ss_program/out/ss_program"))
NEW, OLDER = b"SSTORE2\n\0", b"SSTORE1\n"  # of strong stores, behind which stand two numbers, and the image
MOST_ROWS = 1_000_000  # of a table of one partition
INT, TEXT = "int", "text"

# What is drawn: steps change no table, so that what is recovered is what was drawn.
DRAWN = {
    "tables": [
        {"name": "names", "columns": [["id", INT], ["name", TEXT]], "key": ["id"], "part": 0},
        {"name": "split", "columns": [["name", TEXT], ["id", INT]], "key": ["id", "name"], "by": "id"},
    ],
    "streams": [
        {"name": "s", "columns": [["x", INT]]},
        {"name": "l", "columns": [["x", INT], ["t", TEXT]]},
        {"name": "m", "columns": [["x", INT]]},
        {"name": "i", "columns": [["x", INT]]},
        {"name": "u", "columns": [["x", INT]]},
        {"name": "o", "columns": [["x", INT]]},
    ],
    "windows": [
        {"name": "by_rows", "columns": [["x", INT]], "owner": "a", "unit": "rows", "size": 3, "slide": 2},
        {"name": "by_batches", "columns": [["t", TEXT]], "owner": "b", "unit": "batches", "size": 2, "slide": 1},
    ],
    "procedures": [
        {"name": "look", "kind": "call", "touch": {"part": 0}, "body": []},
        {"name": "a", "kind": "border", "inputs": ["s"], "touch": {"part": 0}, "body": [{"emit": "l", "sql": "SELECT x, 't' FROM s"}, {"emit": "m", "sql": "SELECT x FROM s"}]},
        {"name": "c", "kind": "interior", "inputs": ["l"], "touch": {"part": 1}, "body": []},
        {"name": "b", "kind": "interior", "inputs": ["l", "m"], "touch": {"part": 1}, "body": []},
        {"name": "d", "kind": "interior", "inputs": ["m"], "touch": {"part": 2}, "body": []},
        {"name": "f", "kind": "interior", "inputs": ["i"], "touch": {"part": 3}, "body": [{"emit": "o", "sql": "SELECT x FROM i"}]},
        {"name": "e", "kind": "border", "inputs": ["u"], "touch": {"part": 3}, "body": [{"emit": "i", "sql": "SELECT x FROM u"}]},
        {"name": "g", "kind": "interior", "inputs": ["o"], "touch": {"part": 3}, "body": []},
    ],
    "nests": [{"name": "ef", "procedures": ["e", "f"]}],
}

# Bodies that may be installed for these procedures, and change no table.
DRAWN_OTHERS = {
    "look": [[{"return_all": "names"}]],
    "a": [[{"emit": "m", "sql": "SELECT x FROM s"}, {"emit": "l", "sql": "SELECT x, 'é' FROM s"}]],
    "b": [[{"sql": "INSERT INTO by_batches SELECT t FROM l"}], [{"for_each": "m", "body": [{"abort_if": "(SELECT COUNT(*) FROM l) > :x", "code": 1}]}]],
}

# What goes on: the tables tell what the windows hold.
GOING = {
    "tables": [
        {"name": "sums", "columns": [["x", INT], ["n", INT]], "key": ["x"], "part": 0},
        {"name": "lasts", "columns": [["x", INT], ["n", INT]], "key": ["x"], "part": 0},
        {"name": "all", "columns": [["x", INT], ["n", INT]], "key": ["x"], "by": "x"},
    ],
    "streams": [{"name": "s", "columns": [["x", INT]]}, {"name": "l", "columns": [["x", INT]]}],
    "windows": [
        {"name": "by_rows", "columns": [["x", INT]], "owner": "a", "unit": "rows", "size": 5, "slide": 2},
        {"name": "by_batches", "columns": [["x", INT]], "owner": "a", "unit": "batches", "size": 3, "slide": 2},
    ],
    "triggers": [
        {"name": "rows_moved", "on": "by_rows", "sql": ["DELETE FROM sums", "INSERT INTO sums SELECT x, COUNT(*) FROM by_rows GROUP BY x"]},
        {"name": "batches_moved", "on": "by_batches", "sql": ["DELETE FROM lasts", "INSERT INTO lasts SELECT x, COUNT(*) FROM by_batches GROUP BY x"]},
    ],
    "procedures": [
        {"name": "put", "kind": "call", "args": [["x", INT], ["n", INT]], "touch": {"arg": "x"}, "body": [{"insert": "all", "values": [{"arg": "x"}, {"arg": "n"}]}]},
        {
            "name": "a",
            "kind": "border",
            "inputs": ["s"],
            "touch": {"part": 0},
            "body": [{"sql": "INSERT INTO by_rows SELECT x FROM s"}, {"sql": "INSERT INTO by_batches SELECT x FROM s"}, {"emit": "l", "sql": "SELECT x FROM s"}],
        },
        {"name": "b", "kind": "interior", "inputs": ["l"], "touch": {"part": 1}, "body": []},
    ],
}


# What may be installed there: the table tells which body a call had.
GOING_OTHERS = {"put": [[{"insert": "all", "values": [{"arg": "x"}, {"arg": "x"}]}], [{"insert": "all", "values": [{"arg": "x"}, -1]}]]}


# ---- images, written


def compact(value):
    return json.dumps(value, separators=(",", ":"), sort_keys=True, ensure_ascii=False).encode()


def own_text(procedure):
    """The text of a procedure's own body; a nest's is empty."""
    return b"" if procedure.get("nest") else compact(procedure["body"])


def own_bodies(catalogue):
    return [own_text(procedure) for procedure in joined(catalogue)["procedures"]]


def joined(catalogue):
    """The catalogue that runs, as far as images depend on it: a nest is one procedure in the place of its first member, with the steps of all;
    and the streams between members."""
    procedures, inner = {procedure["name"]: procedure for procedure in catalogue["procedures"]}, set()
    members = {nest["procedures"][0]: [procedures[name] for name in nest["procedures"]] for nest in catalogue.get("nests", [])}
    named = {nest["procedures"][0]: nest["name"] for nest in catalogue.get("nests", [])}
    later = {procedure["name"] for own in members.values() for procedure in own[1:]}
    found = []
    for procedure in catalogue["procedures"]:
        own = members.get(procedure["name"])
        if own:
            between = {stream for member in own[1:] for stream in takes(member)}
            steps = [step for member in own for step in member["body"] if step.get("emit") not in between]
            found.append({**procedure, "name": named[procedure["name"]], "body": steps, "nest": True})
            inner |= between
        elif procedure["name"] not in later:
            found.append(procedure)
    return {**catalogue, "procedures": found, "inner": inner}


def long(n):
    return n.to_bytes(8, "big")


def value_bytes(value):
    if isinstance(value, int):
        return b"\0" + (value % (1 << 64)).to_bytes(8, "big")
    return b"\1" + bytes([len(value.encode())]) + value.encode()


def row_bytes(row):
    return bytes([len(row)]) + b"".join(map(value_bytes, row))


def rows_bytes(rows, size):
    return len(rows).to_bytes(size, "big") + b"".join(map(row_bytes, rows))


def image_bytes(text, kept):
    """The image of what is kept: `tables`, `windows`, `streams`, `counts`, `sources` and, but in the older form, `bodies`."""
    out = [len(text).to_bytes(4, "big"), text]
    out += [rows_bytes(rows, 8) for rows in kept["tables"]]
    for had, units in kept["windows"]:
        out += [long(had), len(units).to_bytes(4, "big")] + [rows_bytes(rows, 8) for rows in units]
    for had, first, batches in kept["streams"]:
        out += [long(had), long(first)] + [rows_bytes(rows, 2) for rows in batches]
    out += [long(count) for count in kept["counts"]]
    for sources in kept["sources"]:
        out.append(long(len(sources)))
        for name, following in sources:
            out += [bytes([len(name)]), name.encode(), long(following)]
    for body in kept["bodies"]:
        out += [len(body).to_bytes(4, "big"), body]
    return b"".join(out)


def generation(magic, first, image):
    return magic + long(first) + long(len(image)) + image + b"\0"


# ---- images, read


class Foreign(Exception):
    """The first byte that can't be."""


def field(data, at, size):
    if at + size > len(data):
        raise Foreign(len(data))
    return number(data, at, size)


def tested(data, at, size, test):
    n, behind = field(data, at, size)
    if not test(n):
        raise Foreign(at)
    return n, behind


def row_end(data, at):
    """Where a row ends, or the first fault from the left: its first byte, or the end of the bytes."""
    start = at
    count, at = field(data, at, 1)
    if count > 16:
        raise Foreign(start)
    for _ in range(count):
        kind, at = field(data, at, 1)
        if kind == 0:
            _, at = field(data, at, 8)
        elif kind == 1:
            length, at = field(data, at, 1)
            if at + length > len(data):
                raise Foreign(len(data))
            try:
                data[at : at + length].decode()
            except UnicodeDecodeError:
                raise Foreign(start) from None
            at += length
        else:
            raise Foreign(start)
    return at


def fitting_row(data, at, columns):
    end = row_end(data, at)
    row, _ = row_at(data, at)
    if len(row) != len(columns) or any(isinstance(value, int) != (kind == INT) for value, (_, kind) in zip(row, columns)):
        raise Foreign(at)
    return row, end


def order(value):
    return (0, value, b"") if isinstance(value, int) else (1, 0, value.encode())


def table_in(data, at, table):
    names = [column for column, _ in table["columns"]]
    key = [names.index(column) for column in table["key"]]
    count, at = tested(data, at, 8, lambda n: "by" in table or n <= MOST_ROWS)
    rows, last = [], None
    for _ in range(count):
        row, end = fitting_row(data, at, table["columns"])
        here = [order(row[column]) for column in key]
        if last is not None and here <= last:
            raise Foreign(at)
        rows.append(row)
        last, at = here, end
    return rows, at


def first_kept(window, had):
    return 0 if had < window["size"] else (had - window["size"]) // window["slide"] * window["slide"]


def window_in(data, at, window):
    had, at = tested(data, at, 8, lambda n: n <= 1 << 62)
    kept, at = tested(data, at, 4, lambda n: first_kept(window, had) + n == had)
    units = []
    for _ in range(kept):
        count, at = tested(data, at, 8, lambda n: window["unit"] == "batches" or n == 1)
        rows = []
        for _ in range(count):
            row, at = fitting_row(data, at, window["columns"])
            rows.append(row)
        units.append(rows)
    return (had, units), at


def stream_in(data, at, stream, most):
    had, at = tested(data, at, 8, lambda n: n <= most)
    first, at = tested(data, at, 8, lambda n: n <= had)
    batches = []
    for _ in range(had - first):
        count, at = tested(data, at, 2, lambda n: n <= 1024)
        rows = []
        for _ in range(count):
            row, at = fitting_row(data, at, stream["columns"])
            rows.append(row)
        batches.append(rows)
    return (had, first, batches), at


def emits(procedure):
    return [statement["emit"] for statement in procedure["body"] if "emit" in statement]


def takes(procedure):
    return procedure.get("inputs", [])


def may_have_taken(catalogue, streams, before, n):
    procedures = catalogue["procedures"]
    own = procedures[len(before)]
    counts = before + [n]
    if own["kind"] == "call" and n != 0:
        return False
    for stream, (had, first, _) in zip(catalogue["streams"], streams):
        name = stream["name"]
        takers = [at for at, procedure in enumerate(procedures) if name in takes(procedure)]
        if name in emits(own) and had != n:
            return False
        if name in takes(own) and n > had:
            return False
        if takers and takers[-1] == len(before) and first != min([had] + [counts[at] for at in takers]):
            return False
    return True


def name_in(data, at):
    start = at
    length, at = field(data, at, 1)
    if length == 0 or length > 32:
        raise Foreign(start)
    if at + length > len(data):
        raise Foreign(len(data))
    name = data[at : at + length]
    letters, digits = b"abcdefghijklmnopqrstuvwxyz", b"0123456789"
    if name[0] not in letters or any(byte not in letters + digits + b"_" for byte in name):
        raise Foreign(start)
    return name.decode(), at + length


def sources_in(data, at):
    count, at = field(data, at, 8)
    sources, last = [], None
    for _ in range(count):
        name, behind = name_in(data, at)
        if last is not None and name <= last:
            raise Foreign(at)
        following, at = tested(data, behind, 8, lambda n: 1 <= n <= 1 << 63)
        sources.append((name, following))
        last = name
    return sources, at


def body_in(data, at, texts):
    length, at = field(data, at, 4)
    if at + length > len(data):
        raise Foreign(len(data))
    text = data[at : at + length]
    if text not in texts:
        raise Foreign(at)
    return text, at + length


def read(data, at, catalogue, most, others=None):
    """What the bytes from here on say is kept, behind the catalogue's text. `others` are the bodies that procedures may have beside
    their own, by their names; with None the image is of the older form."""
    catalogue = joined(catalogue)
    kept = {"tables": [], "windows": [], "streams": [], "counts": [], "sources": [], "bodies": []}
    for table in catalogue["tables"]:
        rows, at = table_in(data, at, table)
        kept["tables"].append(rows)
    for window in catalogue.get("windows", []):
        units, at = window_in(data, at, window)
        kept["windows"].append(units)
    for stream in catalogue["streams"]:
        batches, at = stream_in(data, at, stream, 0 if stream["name"] in catalogue["inner"] else most)
        kept["streams"].append(batches)
    for _ in catalogue["procedures"]:
        n, at = tested(data, at, 8, lambda n: may_have_taken(catalogue, kept["streams"], kept["counts"], n))
        kept["counts"].append(n)
    for stream in catalogue["streams"]:
        if any(procedure["kind"] == "border" and stream["name"] in takes(procedure) for procedure in catalogue["procedures"]):
            sources, at = sources_in(data, at)
            kept["sources"].append(sources)
    for procedure in catalogue["procedures"] if others is not None else []:
        text, at = body_in(data, at, [own_text(procedure)] + [compact(body) for body in others.get(procedure["name"], [])])
        kept["bodies"].append(text)
    if at != len(data):
        raise Foreign(at)
    return kept


# ---- the program


def run(folder, words, lines=b""):
    ended = subprocess.run([PROGRAM, folder] + words, input=lines, stdout=subprocess.PIPE, stderr=subprocess.PIPE, check=False)
    return ended.returncode, ended.stdout.decode()


def script(catalogue, requests):
    return "\n".join(json.dumps(line, separators=(",", ":")) for line in [catalogue] + requests).encode()


def text_of(catalogue):
    """The compact text of a catalogue, from the image that a new store begins with, which ends with the bodies."""
    with tempfile.TemporaryDirectory() as folder:
        status, out = run(folder, ["run"], script(catalogue, []))
        assert status == 0, out
        data = open(os.path.join(folder, "gen1"), "rb").read()
        length, at = number(data, len(NEW) + 16, 4)
        nothing = read(data[:-1], at + length, catalogue, 0, {})
        assert nothing["bodies"] == own_bodies(catalogue), nothing
        return data[at : at + length]


def store(folder, selector, generations):
    for name, data in zip(("gen1", "gen2"), generations):
        open(os.path.join(folder, name), "wb").write(data)
    open(os.path.join(folder, "selector"), "wb").write(bytes([selector]))


def told(out):
    """The rows of each table and the steps of each procedure that a report tells."""
    rows, steps = {}, {}
    for line in map(json.loads, out.splitlines()):
        if line[0] == "table":
            rows.setdefault(line[1], [])
        elif line[0] == "row":
            rows[line[1]].append(line[2])
        elif line[0] == "step":
            steps[line[2]] = steps.get(line[2], 0) + 1
    return rows, steps


# ---- a store that goes on


def without_places(ended):
    """A status and a report, without what threads decide: the places of the replies, and the list."""
    status, out = ended
    lines = [json.loads(line) for line in out.splitlines()]
    return status, [line[:2] + line[3:] if line[0] == "reply" else line for line in lines if line[0] not in ("call", "push", "install", "step")]


def going_requests(draw, seqs, count, installs):
    requests = []
    for _ in range(count):
        if installs and draw.random() < 0.1:
            requests.append({"install": "put", "body": draw.choice([GOING["procedures"][0]["body"]] + GOING_OTHERS["put"])})
        elif draw.random() < 0.3:
            requests.append({"call": "put", "args": [draw.randrange(40), draw.randrange(1000)]})
        else:
            source = draw.choice(["one", "two"])
            seq = seqs[source]
            if draw.random() < 0.9:
                seqs[source] += 1
            elif seq > 0:
                seq -= 1
            requests.append({"push": "s", "source": source, "seq": seq, "rows": [[draw.randrange(5)] for _ in range(draw.randrange(1, 4))]})
    return requests


def what_is_kept(out, requests):
    """What is kept behind these requests of the store that goes on, whose report this is: all batches are taken."""
    rows, _ = told(out)
    by_rows, by_batches, following, bodies = [], [], {}, own_bodies(GOING)
    for request in requests:
        if "install" in request:
            bodies[0] = compact(request["body"])
        elif "push" in request and request["seq"] == following.get(request["source"], 0):
            following[request["source"]] = request["seq"] + 1
            by_rows += [[row] for row in request["rows"]]
            by_batches.append(request["rows"])
    had = len(by_batches)
    windows = [(len(units), units[first_kept(window, len(units)) :]) for window, units in zip(GOING["windows"], (by_rows, by_batches))]
    return {
        "tables": [rows[table["name"]] for table in GOING["tables"]],
        "windows": windows,
        "streams": [(had, had, []), (had, had, [])],
        "counts": [0, had, had],
        "sources": [sorted(following.items())],
        "bodies": bodies,
    }


def goes_on(seed, text, partitions):
    draw, seqs = random.Random(seed), {"one": 0, "two": 0}
    magic = OLDER if draw.random() < 0.3 else NEW
    before, behind = going_requests(draw, seqs, draw.randrange(40), magic == NEW), going_requests(draw, seqs, 25, True)
    words = ["run", "--partitions", str(partitions)]
    with tempfile.TemporaryDirectory() as logged, tempfile.TemporaryDirectory() as imaged:
        status, out = run(logged, words, script(GOING, before))
        assert status == 0, out
        place = json.loads(out.splitlines()[-1])[1]
        kept = what_is_kept(out, before)
        image = image_bytes(text, kept if magic == NEW else {**kept, "bodies": []})
        store(imaged, seed % 2, [generation(magic, place, image)] * 2)
        first, second = (without_places(run(folder, words, script(GOING, behind))) for folder in (logged, imaged))
        assert first == second, f"seed {seed}: behind an image it is\n{second}\nand behind the log\n{first}"
        first, second = run(logged, ["recover"]), run(imaged, ["recover"])
        assert first == second, f"seed {seed}: recovered behind an image it is\n{second}\nand behind the log\n{first}"


# ---- drawn images


def drawn(draw, magic):
    text = lambda: "".join(draw.choice("ab'é☃\n") for _ in range(draw.randrange(5)))
    integer = lambda: draw.choice([0, 1, -1, draw.randrange(-99, 99), (1 << 63) - 1, -(1 << 63)])
    ids = sorted(set(integer() for _ in range(draw.randrange(6))))
    pairs = sorted(set((integer(), text().encode()) for _ in range(draw.randrange(6))))
    had = draw.randrange(6)
    taken = draw.randrange(max(0, had - 2), had + 1)  # by `a`
    behind = [draw.randrange(max(0, taken - 2), taken + 1) for _ in range(3)]  # by `c`, `b` and `d`
    batches = lambda row, n: [[row() for _ in range(draw.randrange(3))] for _ in range(n)]
    pushed = draw.randrange(6)
    nest = draw.randrange(max(0, pushed - 2), pushed + 1)  # by `ef`
    last = draw.randrange(max(0, nest - 2), nest + 1)  # by `g`
    firsts = [taken, min(behind[0], behind[1]), min(behind[1], behind[2]), 0, nest, last]
    hads = [had, taken, taken, 0, pushed, nest]
    rows = [lambda: [integer()], lambda: [integer(), text()]] + [lambda: [integer()]] * 4
    windows = []
    for window, row in zip(DRAWN["windows"], (lambda: [integer()], lambda: [text()])):
        units = draw.randrange(9)
        kept = units - first_kept(window, units)
        windows.append((units, [[row()] for _ in range(kept)] if window["unit"] == "rows" else batches(row, kept)))
    return {
        "tables": [[[i, text()] for i in ids], [[name.decode(), i] for i, name in pairs]],
        "windows": windows,
        "streams": [(h, f, batches(row, h - f)) for h, f, row in zip(hads, firsts, rows)],
        "counts": [0, taken] + behind + [nest, last],
        "sources": [sorted((name, draw.choice([1, 7, 1 << 63])) for name in draw.sample(["a", "b_1", "c", "x" * 32], draw.randrange(4))) for _ in range(2)],
        "bodies": [draw.choice([own_text(own)] + [compact(body) for body in DRAWN_OTHERS.get(own["name"], [])]) for own in joined(DRAWN)["procedures"]] if magic == NEW else [],
    }


def expected(kept):
    """The rows and the steps that `recover` has to tell."""
    had, pushed = kept["streams"][0][0], kept["streams"][4][0]
    names = (("a", had), ("c", had), ("b", had), ("d", had), ("ef", pushed), ("g", pushed))
    steps = {name: came - taken for (name, came), taken in zip(names, kept["counts"][1:]) if came > taken}
    return {table["name"]: rows for table, rows in zip(DRAWN["tables"], kept["tables"])}, steps


def check(magic, first, image, want, selector, what):
    """`recover` of a store with this image tells these rows and steps, or this first byte that can't be."""
    with tempfile.TemporaryDirectory() as folder:
        store(folder, selector, [generation(magic, first, image)] * 2)
        status, out = run(folder, ["recover", "--partitions", str(1 + selector % 8)])
    if isinstance(want, int):
        got, byte = json.loads(out.splitlines()[0]), len(magic) + 16 + want
        assert status == 7 and got == ["foreign", 1 + selector % 2, byte], f"{what}: wanted byte {byte}, got status {status} and {out}"
    else:
        assert status == 0, f"{what}: status {status} and {out}"
        assert told(out) == want, f"{what}: wanted {want}, got {out}"


def text_places(image, bodies):
    """Where the texts of these bodies stand in an image, which ends with them."""
    places, at = set(), len(image)
    for body in reversed(bodies):
        places.update(range(at - len(body), at))
        at -= len(body) + 4
    return places


def damaged(draw, image, at, texts):
    """An image that has been cut, has one byte more, or has another byte behind the catalogue's text: in a body's text, where these places
    are, one that no JSON has."""
    kind = draw.randrange(10)
    if kind == 0:
        return image[: draw.randrange(at, len(image))]
    if kind == 1:
        return image + bytes([draw.randrange(3)])
    where = draw.randrange(at, len(image))
    byte = draw.choice([0, 1, 2, 255] + ([] if where in texts else [image[where] ^ 1, image[where] + 1 & 255, draw.randrange(256)]))
    return image[:where] + bytes([byte]) + image[where + 1 :]


def main():
    options = argparse.ArgumentParser(description=__doc__, formatter_class=argparse.RawDescriptionHelpFormatter)
    options.add_argument("--stores", type=int, default=300)
    options.add_argument("--damages", type=int, default=10)
    options.add_argument("--seed", type=int, default=1)
    given = options.parse_args()
    text = text_of(GOING)
    for n in range(given.stores // 3):
        goes_on(given.seed * 1000 + n, text, 1 + n % 3)
    text, at, refused = text_of(DRAWN), 0, 0
    at = 4 + len(text)
    for n in range(given.stores):
        draw = random.Random(f"{given.seed} {n}")
        magic = OLDER if draw.random() < 0.3 else NEW
        kept = drawn(draw, magic)
        image, first = image_bytes(text, kept), draw.choice([5, 6, 1 << 60])
        if first == 1 << 60 and expected(kept)[1]:
            first = 9
        check(magic, first, image, expected(kept), [0, 1, 7, 255][n % 4], f"image {n}")
        for k in range(given.damages):
            other = damaged(draw, image, at, text_places(image, kept["bodies"]))
            try:
                want = expected(read(other, at, DRAWN, first, DRAWN_OTHERS if magic == NEW else None))
            except Foreign as foreign:
                want = foreign.args[0]
                refused += 1
            if first == 1 << 60 and isinstance(want, tuple) and want[1]:
                continue  # a step has no place there
            check(magic, first, other, want, n % 2, f"image {n}, damage {k}")
    print(json.dumps({"behind an image as behind the log": given.stores // 3, "images": given.stores, "damaged": given.stores * given.damages, "refused": refused}))


if __name__ == "__main__":
    sys.exit(main())
