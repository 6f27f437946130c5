#!/usr/bin/env python3
"""Holds the JSON Schemas of catalogues and requests against the case files.

    python3 tools/check_schemas.py

A line that a case says is refused by C1 or C11 has to be refused by its schema without its counts (maxItems, and of requests
maxLength), one refused by C10 or C14 by its counts alone, one refused by N1 by either; one refused by another code has to pass but
for counts, and one that is read has to pass. A refused body has the code of the catalogue that it would make, and one of no
procedure, or of a nest, isn't looked at; nor are nests behind another fault of their catalogue.
Counted apart is what passes since a schema can't say it: a slide above its size, more steps with those inside of a for_each than
a body may have, an installed step that another kind of procedure may have, a text with more bytes than characters, and 1.0 or -0,
which are integers to JSON Schema.
Status 0: all agree; 1: some don't, each in a line, or the package jsonschema is missing; 2: wrong options.
"""
import collections
import json
import os
import re

from shared import Wrong, end, file_text, json_value, options

TOP = os.path.dirname(os.path.dirname(os.path.abspath(__file__)))
DATA = os.path.join(TOP, "crates/ss_cases/data")
FORM, COUNTS, EITHER = ("C1", "C11"), ("C10", "C14"), ("N1",)
KEPT_TO_A_KIND = {"insert", "return_all", "return", "emit", "for_each"}  # forms of steps


def marked(text):
    """The text with the marks of case files taken for what they mean."""
    def repeated(mark):
        count, between, piece = re.fullmatch(r"(\d+)([*,])(.*)", mark[1], re.S).groups()
        return between.strip("*").join(piece.replace("@", str(number)) for number in range(int(count)))
    return re.sub(r"«(.*?)»", repeated, text.replace("␤", "\n").replace("␍", "\r").replace("␉", "\t"))


def script_of(row):
    """The requests of a row with words. An audit has a report behind them, of which no schema says anything."""
    return row[1] if row[0] != "audit" else re.split(r"(?m)^\[", marked(row[1]))[0]


def inputs_of(kind, base, lines):
    """Each input that a block makes, with the first line that it has to print."""
    rows = [line.split(" ~ ") for line in lines]
    if kind == "alone":
        yield base, lines[0]
    elif kind == "rows":
        yield from ((row[0], row[-1]) for row in rows)
    elif kind == "fill":
        yield from ((base.replace("@", row[0], 1), row[-1]) for row in rows)
    elif kind == "edit":
        yield from ((base.replace(row[0], row[1], 1), row[-1]) for row in rows)
    elif kind == "both":
        yield from ((base.replace(row[at], row[at + 1], 1), row[at + 2]) for row in rows for at in (0, 3))
    elif kind == "requests":
        yield from ((base + "\n" + row[0], row[-1]) for row in rows)
    elif kind == "words":
        yield from ((base + "\n" + script_of(row), row[-1]) for row in rows if row[-1] != '["usage"]')
    elif kind in ("report", "tables"):
        yield "\n".join([base, *lines[: lines.index("->")]]), lines[lines.index("->") + 1]
    elif kind == "audited":
        yield "\n".join([base, *lines]), ""
    elif kind == "calls":
        yield from ((base + "\n" + row[1], row[-1]) for row in rows if row[0].split()[0] == "run")
    elif kind == "run":
        yield from ((file_text(os.path.join(DATA, row[0])), file_text(os.path.join(DATA, row[1])).split("\n")[0]) for row in rows)
    elif kind == "first":
        yield from ((file_text(os.path.join(DATA, row[0])), row[1]) for row in rows)


def inputs():
    """Each input of the case files, with where its block begins and the line that it has to print."""
    bases = {}
    for name in file_text(os.path.join(DATA, "..", "args")).split():
        name = os.path.basename(name)
        number = 1
        for block in re.split(r"(\n\s*\n)", file_text(os.path.join(DATA, name))):
            lines = [line for line in block.split("\n") if line and not line.startswith("#")]
            kind, _, base = lines[0].partition(" ") if lines else ("", "", "")
            if kind == "base":
                bases[base] = "\n".join(lines[1:])
            try:
                made = [(marked(text), printed) for text, printed in inputs_of(kind, bases.get(base, ""), lines[1:])]
            except (AttributeError, IndexError, ValueError):
                raise Wrong(f"crates/ss_cases/data/{name}:{number}: no block of this kind") from None
            yield from ((f"{name}:{number}", text, printed) for text, printed in made)
            number += block.count("\n")


def values_of(value):
    """A value, and each that is in it."""
    yield value
    for inner in value.values() if isinstance(value, dict) else value if isinstance(value, list) else ():
        yield from values_of(inner)


def is_apart(piece):
    """Whether a line has what no schema can refuse."""
    for value in values_of(json.loads(piece, parse_int=lambda text: 0.0 if text == "-0" else int(text))):
        if isinstance(value, float) and value.is_integer():
            return True
        if isinstance(value, str) and len(value) <= 255 < len(value.encode(errors="surrogatepass")):
            return True
        if isinstance(value, dict) and isinstance(value.get("slide"), int) and isinstance(value.get("size"), int) and value["slide"] > value["size"]:
            return True
        steps = value.get("body") if isinstance(value, dict) else None
        if isinstance(steps, list) and "install" in value and any(isinstance(step, dict) and KEPT_TO_A_KIND & step.keys() for step in steps):
            return True
        if isinstance(steps, list) and sum(isinstance(step, dict) for step in values_of(steps)) > 32 >= len(steps):
            return True
    return False


def without(schema, counts):
    """A schema without these keys, but where they say that there are one or two."""
    if isinstance(schema, list):
        return [without(inner, counts) for inner in schema]
    if not isinstance(schema, dict):
        return schema
    return {key: without(inner, counts) for key, inner in schema.items() if key not in counts or inner in (1, 2)}


def whole_schema(path):
    """A schema with what it takes from the catalogue's, which is another file, in itself. Where a pattern ends, Python would let a line
    feed pass, and JSON Schema doesn't."""
    def text(name):
        return file_text(name).replace('$"', '\\\\Z"')
    value = json_value(text(path).replace("catalog.schema.json#", "#/$defs/catalogue"), path)
    catalogue = os.path.join(TOP, "schemas", "catalog.schema.json")
    if path != catalogue:
        value["$defs"]["catalogue"] = json_value(text(catalogue).replace("#/$defs", "#/$defs/catalogue/$defs"), catalogue)
    return value


def schema(name, counts):
    """A test what of a line its schema refuses: "form", "counts" or nothing. It remembers its answers."""
    try:
        import jsonschema
    except ImportError:
        raise Wrong("the package jsonschema is missing: apt-get install python3-jsonschema, or pip install jsonschema") from None
    path = os.path.join(TOP, "schemas", name)
    value, answers = whole_schema(path), {}
    try:
        jsonschema.Draft202012Validator.check_schema(value)
    except jsonschema.SchemaError as error:
        raise Wrong(f"{path}: no schema: {error.message}") from None
    whole, form = jsonschema.Draft202012Validator(value), jsonschema.Draft202012Validator(without(value, counts))

    def refused(piece):  # a line
        if piece not in answers:
            line = json.loads(piece)
            answers[piece] = "" if whole.is_valid(line) else "counts" if form.is_valid(line) else "form"
        return answers[piece]
    return refused


def pieces_of(text, refused):
    """The lines of an input up to the refused one that are JSON, each with its number."""
    for number, piece in enumerate(text.split("\n"), 1):
        try:
            if piece.strip(" \t\r") and (not refused or number <= refused):
                json.loads(piece)
                yield number, piece
        except ValueError:
            pass


def without_nests(piece):
    """A line whose nests are not looked at, since it is refused before they are."""
    line = json.loads(piece) if '"nests"' in piece else None
    return json.dumps({**line, "nests": []}) if isinstance(line, dict) and "nests" in line else piece


def judged(piece, code, refused):
    """Whether what a schema finds of a line agrees with the code by which the program refuses it, which is empty where it doesn't; and what
    it finds."""
    if code in ("C12", "C16") and "install" in json.loads(piece):
        return "agreed", ""
    found = refused(without_nests(piece) if code and not code.startswith("N") else piece)
    needed = "form" if code in FORM or code in EITHER else "counts" if code in COUNTS else ""
    if found == needed or (code and not needed and found == "counts") or (code in EITHER and found):
        return "agreed", found
    return "apart" if needed and not found and is_apart(piece) else "wrong", found


def main():
    options(__doc__).parse_args()
    catalogue, request = schema("catalog.schema.json", ["maxItems"]), schema("request.schema.json", ["maxItems", "maxLength"])
    counts = collections.Counter(agreed=0, apart=0, wrong=0)
    for where, text, printed in inputs():
        told = re.match(r'\["input",(\d+),(?:"C15",)?"(\w+)"', printed)
        line, code = (int(told[1]), told[2]) if told else (0, "")
        if "⟦" in text or code in ("L2", "L3", "L4"):
            continue
        refused = catalogue
        for number, piece in pieces_of(text, line):
            answer, found = judged(piece, code if number == line else "", refused)
            counts[answer] += 1
            if answer == "wrong":
                print(f"{where}: the schema finds {found or 'nothing'} in {piece[:200]}, of which the program says {printed[:100]}")
            refused = request
    print(", ".join(f"{count} {name}" for name, count in counts.items()))
    return 1 if counts["wrong"] else 0


if __name__ == "__main__":
    end(main)
