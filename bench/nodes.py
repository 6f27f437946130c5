#!/usr/bin/env python3
"""What the proof of each function is likely to cost, without a proof: functions ranked by the nodes of their intermediate code.

    python3 bench/nodes.py                the crates of this checkout, and its forty largest functions
    python3 bench/nodes.py --functions 9 --crate ss_engine --in FOLDER

It reads the libraries that `rt ci` has left in the checkout (crates/NAME/out/rlib), so a crate is counted once it is proved. A
crate costs some 25 seconds of one processor and 8 for each thousand nodes: that was measured over 37 crates of this repository,
where it told 95 % of what differs; crates with threads or long answers by hand cost up to twice as much. A `?` has about 116
nodes, a value that is let go where one leaves 92, another call 58, and a function 28. So the columns behind a function's nodes
say what to look at: how many calls it has, how many of them let a value go, and how many `?`.
"""
import argparse
import collections
import glob
import json
import os
import sys

TOP = os.path.dirname(os.path.dirname(os.path.abspath(__file__)))
SECONDS_OF_A_CRATE = 25
SECONDS_OF_A_THOUSAND = 8.0

# A function's name, its nodes, its calls, those of them that let a value go, and its `?`.
Function = collections.namedtuple("Function", "crate name nodes calls let_go tries")


def parts_of(tree):
    if isinstance(tree, dict):
        return tree.values()
    return tree if isinstance(tree, list) else ()


def nodes_of(tree):
    return 1 + sum(nodes_of(part) for part in parts_of(tree))


def first_path(tree):
    """The first path in a tree: of a call, what it calls."""
    if isinstance(tree, str):
        return tree if "::" in tree else None
    return next((found for part in parts_of(tree) if (found := first_path(part))), None)


def called_in(tree):
    """The paths of all that is called in a tree."""
    if isinstance(tree, dict) and "Call" in tree:
        yield first_path(tree["Call"]) or ""
    for part in parts_of(tree):
        yield from called_in(part)


def functions_of(checkout):
    for file in sorted(glob.glob(f"{checkout}/crates/*/out/rlib/*.rlib/toolchain/mir.json")):
        crate = os.path.basename(file.split("/out/")[0])
        with open(file, encoding="utf-8") as opened:
            for name, function in json.load(opened):
                if "body" in function:
                    body = function["body"]
                    called = list(called_in(body))
                    let_go = sum(path.endswith("::drop") for path in called)
                    tries = sum(path.endswith("from_residual") for path in called)
                    yield Function(crate, name, nodes_of(body), len(called), let_go, tries)


def print_crates(functions):
    nodes = collections.Counter()
    for function in functions:
        nodes[function.crate] += function.nodes
    for crate, count in nodes.most_common():
        print(f"{crate:24} {count:7} nodes, about {SECONDS_OF_A_CRATE + count * SECONDS_OF_A_THOUSAND / 1000:5.0f} s")


def print_functions(functions, most):
    for it in sorted(functions, key=lambda function: -function.nodes)[:most]:
        seconds = it.nodes * SECONDS_OF_A_THOUSAND / 1000
        print(f"{it.nodes:7} nodes {seconds:4.0f} s, {it.calls:3} calls, of them {it.let_go:2} let a value go, {it.tries:2} `?`  {it.name}")


def main():
    parser = argparse.ArgumentParser(description=__doc__, formatter_class=argparse.RawDescriptionHelpFormatter)
    parser.add_argument("--functions", type=int, default=40, help="how many functions to print")
    parser.add_argument("--crate", help="functions of this crate alone")
    parser.add_argument("--in", dest="checkout", default=TOP, help="the checkout in which `rt ci` ran")
    options = parser.parse_args()
    # Trees of code are deep.
    sys.setrecursionlimit(100_000)
    functions = [it for it in functions_of(options.checkout) if options.crate in (None, it.crate)]
    if not functions:
        sys.exit("no library is there: `rt ci` leaves one in each crate that it proved")
    print_crates(functions)
    print_functions(functions, options.functions)


if __name__ == "__main__":
    main()
