#!/usr/bin/env python3
"""Makes requests of the rows of a CSV file: a call for each row, or pushes of so many rows.

    printf '7,20\\n8,5\\n' | python3 tools/csv_in.py examples/stored_run.jsonl --call put

The catalogue says which columns are Ints. A file of it goes in front of what is printed:

    (jq -c . CATALOGUE; python3 tools/csv_in.py CATALOGUE --push STREAM < FILE.csv) | ./sstore - run

Nothing is printed where a row is refused. Status 0: done; 1: a file, a row or a name is wrong; 2: the options are.
"""
import csv
import io
import json
import re

from shared import Wrong, catalogue_of, end, input_text, limited, options

LONGEST_LINE, LONGEST_INPUT, MOST_ROWS, LONGEST_TEXT, GREATEST_INT = 1048576, 67108864, 1024, 255, 2**63 - 1


def columns_of(catalogue, asked):
    """The columns that a request of this procedure or to this stream has."""
    if asked.call is not None:
        found = [p.get("args", []) for p in catalogue["procedures"] if (p["name"], p["kind"]) == (asked.call, "call")]
        what = f"call procedure {asked.call}"
    else:
        taken = {name for p in catalogue["procedures"] if p["kind"] == "border" for name in p.get("inputs", [])}
        found = [s["columns"] for s in catalogue["streams"] if s["name"] == asked.push and s["name"] in taken]
        what = f"border stream {asked.push}"
    if not found:
        raise Wrong(f"{asked.catalogue}: no {what}")
    if not found[0]:
        raise Wrong(f"{asked.catalogue}: the {what} has no arguments, so that a row has nothing to give")
    return found[0]


def value_of(text, kind):
    """The value that a field stands for in a column of this type."""
    if kind == "text":
        if len(text.encode()) > LONGEST_TEXT:
            raise Wrong(f"a text of {len(text.encode())} bytes, where {LONGEST_TEXT} are the most")
        return text
    digits = re.fullmatch(r" *([+-]?)0*([0-9]+) *", text)
    if not digits:
        raise Wrong(f"{json.dumps(text[:40], ensure_ascii=False)} is no Int")
    if len(digits[2]) > 19 or not -GREATEST_INT - 1 <= int(digits[1] + digits[2]) <= GREATEST_INT:
        raise Wrong(f"{text.strip()[:40]} is outside of 64 bits")
    return int(digits[1] + digits[2])


def records_of(text):
    """Each row of a CSV text that isn't blank, with where it stands."""
    reader, number = csv.reader(io.StringIO(text, newline=""), strict=True), 0
    try:
        for record in reader:
            number += bool(record)
            if record:
                yield f"row {number} (line {reader.line_num})", record
    except csv.Error as error:
        raise Wrong(f"standard input: line {reader.line_num}: no CSV: {error}") from None


def places_of(head, columns):
    """Of each column its place in the first row, which names them."""
    for name, _ in columns:
        if head.count(name) != 1:
            raise Wrong(f"standard input: the first row has the column {name} {head.count(name)} times, in place of once")
    return [head.index(name) for name, _ in columns]


def rows_of(columns, header):
    """The rows of standard input, typed, in the catalogue's order of columns, each with where it stands."""
    records = records_of(input_text())
    head = next(records, (None, []))[1] if header else [name for name, _ in columns]
    places, rows = places_of(head, columns) if head else [], []
    for where, record in records:
        if len(record) != len(head):
            raise Wrong(f"standard input: {where}: {len(record)} values, in place of {len(head)}")
        row = []
        for place, (name, kind) in zip(places, columns):
            try:
                row.append(value_of(record[place], kind))
            except Wrong as wrong:
                raise Wrong(f"standard input: {where}: column {name}: {wrong}") from None
        rows.append((where, row))
    if not rows:
        raise Wrong("standard input: no rows")
    return rows


def requests_of(rows, asked):
    """The requests, each with where its last row stands."""
    front = {"client": asked.client} if asked.client else {}
    if asked.call is not None:
        for where, row in rows:
            yield where, {**front, "call": asked.call, "args": row}
        return
    for number, first in enumerate(range(0, len(rows), asked.rows), asked.seq):
        batch = rows[first : first + asked.rows]
        if number > GREATEST_INT:
            raise Wrong(f"standard input: {batch[0][0]}: the number of its batch is outside of 64 bits")
        yield batch[-1][0], {**front, "push": asked.push, "source": asked.source, "seq": number, "rows": [row for _, row in batch]}


def asked_for():
    """The options, with those of pushes refused for calls."""
    parser = options(__doc__)
    parser.add_argument("catalogue", help="an input, or a file with the catalogue alone")
    which = parser.add_mutually_exclusive_group(required=True)
    which.add_argument("--call", metavar="PROCEDURE", help="make a call of each row")
    which.add_argument("--push", metavar="STREAM", help="make pushes of the rows")
    parser.add_argument("--source", help="who numbers the batches (csv)")
    parser.add_argument("--seq", type=limited(0, GREATEST_INT), help="the number of the first batch (0)")
    parser.add_argument("--rows", type=limited(1, MOST_ROWS), help="how many rows a push has (100)")
    parser.add_argument("--client", type=limited(0, 7), default=0, help="which client asks, 0 to 7 (0)")
    parser.add_argument("--header", action="store_true", help="the first row names the columns, in any order; others are left out")
    asked = parser.parse_args()
    given = [name for name in ("source", "seq", "rows") if getattr(asked, name) is not None]
    if asked.call is not None and given:
        parser.error(f"--{given[0]} goes with --push alone")
    if asked.source is not None and not re.fullmatch("[a-z][a-z0-9_]{0,31}", asked.source):
        parser.error("argument --source: a name is 1 to 32 of a to z, 0 to 9 and _, the first a letter")
    asked.source, asked.seq, asked.rows = asked.source or "csv", asked.seq or 0, asked.rows or 100
    return asked


def main():
    asked = asked_for()
    lines, size = [], 0
    for where, request in requests_of(rows_of(columns_of(catalogue_of(asked.catalogue), asked), asked.header), asked):
        line = json.dumps(request, separators=(",", ":"), ensure_ascii=False)
        length = len(line.encode())
        size += length + 1
        if length > LONGEST_LINE:
            raise Wrong(f"standard input: {where}: the push that it ends has {length} bytes, where {LONGEST_LINE} are the most; take fewer --rows")
        if size > LONGEST_INPUT:
            raise Wrong(f"standard input: {where}: the requests have more than {LONGEST_INPUT} bytes, which no input may have")
        lines.append(line)
    print("\n".join(lines))


if __name__ == "__main__":
    end(main)
