#!/usr/bin/env python3
"""Shows how many entries a store in a folder has, now and as they come.

    mkdir -p out/store && ./sstore out/store run < examples/bank.jsonl > out/report
    python3 tools/watch.py out/store --once

Reads the store's files as docs/STORE.md says them, and neither writes nor locks any, so that it may run beside
`./sstore FOLDER run`. It looks at the heads of groups alone, from where it stopped the last time. A line has the place behind
the last entry whose group is open, the entries a second since the line before, and how many of them a group has; a crash may
still take the last group, whose sync may be under way. Of a weak store these are calls, pushes and installs, since it
logs no steps. Status 0: a store was seen; 1: none was, or the files are none; 2: wrong options.
"""
import argparse
import os
import time

from shared import Wrong, end, options

NEW = b"SSTORE2\n"
MAGICS, LONGEST_GROUP, LAST_PLACE = (NEW, b"SSTORE1\n", b"SSTOREW\n"), 8388608, 2**60


def opened(path):
    """A file to be read, or None where it isn't there yet."""
    try:
        return open(path, "rb", buffering=0)
    except FileNotFoundError:
        return None
    except OSError as error:
        raise Wrong(f"{path}: {error.strerror}") from None


class Generation:
    """The generation that counts, and how far its groups were read."""

    def __init__(self, path):
        self.path, self.file = path, opened(path)
        self.place, self.at, self.groups, self.begins = 0, None, 0, b""

    def is_still(self, path):
        """Whether it is the one with this path. A second checkpoint gives the file back with another head."""
        return path == self.path and (self.at is None or os.pread(self.file.fileno(), len(self.begins), 0) == self.begins)

    def head(self):
        """Reads the head where all of it is there, and says whether it is."""
        if self.at is None and self.file is None:
            self.file = opened(self.path)
        if self.at is not None or self.file is None:
            return self.at is not None
        head = os.pread(self.file.fileno(), 25, 0)
        front = 9 if head[:8] == NEW else 8  # behind the magic the new form has a byte for the mode
        place, image = (int.from_bytes(head[at : at + 8], "big") for at in (front, front + 8))
        if not any(magic.startswith(head[:8]) for magic in MAGICS) or head[8:front] not in (b"", b"\0", b"\1") or place > LAST_PLACE:
            raise Wrong(f"{self.path}: no generation of a store")
        if len(head) < front + 16:
            return False
        self.place, self.at, self.begins = place, front + 16 + image, head[: front + 16]
        return True

    def read_on(self):
        """Passes the groups that came since, up to the first closed gate, and says whether there is a store."""
        while self.head():
            head = os.pread(self.file.fileno(), 9, self.at) if self.at < 2**63 else b""
            size, entries = int.from_bytes(head[1:5], "big"), int.from_bytes(head[5:9], "big")
            if head[:1] != b"\1" or len(head) < 9:
                return True
            if size > LONGEST_GROUP or entries == 0:
                raise Wrong(f"{self.path}: byte {self.at + 1} begins no group of a store")
            self.at, self.place, self.groups = self.at + 9 + size, self.place + entries, self.groups + 1
        return False


def current(folder):
    """The path of the generation that counts, or None where there is no store yet."""
    if not os.path.isdir(folder):
        raise Wrong(f"{folder}: no folder")
    path = os.path.join(folder, "selector")
    file = opened(path)
    if file is None:
        return None
    with file:
        try:
            selector = file.read(2)
        except OSError as error:
            raise Wrong(f"{path}: {error.strerror}") from None
    if len(selector) > 1:
        raise Wrong(f"{path}: more than one byte, so it is no store's")
    return os.path.join(folder, "gen2" if selector[0] % 2 else "gen1") if selector else None


def watch(folder, every, seconds):
    """Prints a line now and after each pause."""
    begun = before = time.monotonic()
    generation, is_store, seen = None, False, False
    while True:
        path, place, groups = current(folder), 0, 0
        if generation is None or not generation.is_still(path):
            generation, was_store = Generation(path) if path else None, False
        else:
            place, groups, was_store = generation.place, generation.groups, is_store
        is_store, now = generation is not None and generation.read_on(), time.monotonic()
        seen = seen or is_store
        if is_store and was_store:
            more, grouped = generation.place - place, generation.groups - groups
            rate = f", {more / max(now - before, 0.001):,.0f} a second, {more / max(grouped, 1):,.1f} a group"
        else:
            rate = ""
        is_last, before = now - begun + every > seconds, now
        if is_store or not is_last:
            print(f"{generation.place} entries{rate}" if is_store else "no store yet", flush=True)
        if is_last and not seen:
            raise Wrong(f"{folder}: no store")
        if is_last:
            return
        time.sleep(every)


def duration(text):
    """What argparse takes for a number of seconds."""
    try:
        number = float(text)
    except ValueError:
        number = 0.0
    if not 0.01 <= number <= 86400:
        raise argparse.ArgumentTypeError(f"{text} is no number from 0.01 to 86400")
    return number


def main():
    parser = options(__doc__)
    parser.add_argument("folder", metavar="FOLDER", help="where the store is, or will be")
    parser.add_argument("--every", type=duration, default=1.0, metavar="SECONDS", help="how long to wait between two lines (1)")
    parser.add_argument("--seconds", type=duration, default=float("inf"), metavar="SECONDS", help="when to stop (never)")
    parser.add_argument("--once", action="store_true", help="print one line and stop")
    asked = parser.parse_args()
    watch(asked.folder, asked.every, 0.0 if asked.once else asked.seconds)


if __name__ == "__main__":
    end(main)
