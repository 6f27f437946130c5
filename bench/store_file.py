"""Reads the store of a folder, byte by byte as docs/STORE.md says, for the scripts beside it."""

import os


def number(data, at, size):
    return int.from_bytes(data[at : at + size], "big"), at + size


def row_at(data, at):
    count, at = number(data, at, 1)
    row = []
    for _ in range(count):
        kind, at = number(data, at, 1)
        if kind == 0:
            n, at = number(data, at, 8)
            row.append(n - (1 << 64) if n >> 63 else n)
        else:
            length, at = number(data, at, 1)
            row.append(data[at : at + length].decode())
            at += length
    return row, at


def entry_at(data, at):
    """A record: a push as its source's name and its number, a call as its procedure and its arguments, an install as its procedure and the
    body's text, and a step as its kind alone."""
    kind, at = number(data, at, 1)
    if kind == 3:
        return ("step",), at + 10
    at += 9
    procedure, at = number(data, at, 2)  # of a push its stream
    if kind == 4:
        length, at = number(data, at, 4)
        return ("install", procedure, data[at : at + length]), at + length
    if kind == 1:
        args, at = row_at(data, at)
        return ("call", procedure, args), at
    length, at = number(data, at, 1)
    source = data[at : at + length].decode()
    seq, at = number(data, at + length, 8)
    rows, at = number(data, at, 2)
    for _ in range(rows):
        _, at = row_at(data, at)
    return ("push", source, seq), at


def generation_of(folder):
    """The generation that counts: its first place, its image, its entries, and how many groups they are in."""
    path = os.path.join(folder, "selector")
    selector = open(path, "rb").read() if os.path.exists(path) else b""
    if not selector:
        return 0, b"", [], 0
    data = open(os.path.join(folder, "gen1" if selector[0] % 2 == 0 else "gen2"), "rb").read()
    assert data[:8] in (b"SSTORE1\n", b"SSTOREW\n", b"SSTORE2\n"), "no store"
    first, at = number(data, 9 if data[:8] == b"SSTORE2\n" else 8, 8)
    length, at = number(data, at, 8)
    image, at = data[at : at + length], at + length
    entries, groups = [], 0
    while data[at] == 1:
        body, at = number(data, at + 1, 4)
        count, at = number(data, at, 4)
        end = at + body
        for _ in range(count):
            entry, at = entry_at(data, at)
            entries.append(entry)
        assert at == end, "a group of another length"
        groups += 1
    return first, image, entries, groups


def entries_of(folder):
    """The entries of the generation that counts, and how many groups they are in."""
    _, _, entries, groups = generation_of(folder)
    return entries, groups
