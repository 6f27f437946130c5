#!/usr/bin/env python3
"""The script of Voter with Leaderboard as an input of the program: its catalogue, then each request on a line of its own.

    python3 bench/votes.py SEED VOTES CLIENTS > FILE

The lines ask for the very requests that `votes` of the crate `ss_voter` makes of the same three numbers, written by another
hand, so that one can be held against the other. A run of them prints the whole report, which the command of the script
leaves out. The catalogue is the one that the case files have.
"""

import argparse
import json
import os
import sys

TOP = os.path.dirname(os.path.dirname(os.path.abspath(__file__)))
BASES = os.path.join(TOP, "crates/ss_cases/data/bases.cases")


def catalogue():
    """The line of the voting show's catalogue, behind the line of its name."""
    with open(BASES, encoding="utf-8") as lines:
        for line in lines:
            if line == "base voter\n":
                return next(lines)
    sys.exit(f"{BASES} has no catalogue of the voting show")


def states(seed):
    """The states of the generator behind the seed, without end."""
    state = seed
    while True:
        state = (state * 6364136223846793005 + 1442695040888963407) % 2**64
        yield state


def requests(seed, votes, clients):
    yield {"client": 0, "call": "begin_show", "args": [500]}
    for contestant in range(1, 7):
        yield {"client": 0, "call": "add", "args": [contestant, f"c{contestant}"]}
    for vote, state in zip(range(votes), states(seed)):
        phone = 1_000_000 + state // 2**33 % (2 * votes)
        contestant = 1 + state // 2**20 % 6
        client = vote % clients
        yield {"client": client, "push": "votes_in", "source": f"c{client}", "seq": vote // clients, "rows": [[phone, contestant]]}


def within(least, greatest):
    def number(word):
        value = int(word)
        if not least <= value <= greatest:
            raise argparse.ArgumentTypeError(f"{word} isn't from {least} to {greatest}")
        return value

    return number


def main():
    parser = argparse.ArgumentParser(description=__doc__, formatter_class=argparse.RawDescriptionHelpFormatter)
    parser.add_argument("seed", metavar="SEED", type=within(0, 2**64 - 1))
    parser.add_argument("votes", metavar="VOTES", type=within(0, 200_000))
    parser.add_argument("clients", metavar="CLIENTS", type=within(1, 8))
    given = parser.parse_args()
    sys.stdout.write(catalogue())
    for request in requests(given.seed, given.votes, given.clients):
        sys.stdout.write(json.dumps(request, separators=(",", ":")) + "\n")


if __name__ == "__main__":
    main()
