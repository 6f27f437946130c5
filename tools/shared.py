"""What the tools have in common: reading files and catalogues, and ending with one line where something is wrong."""
import argparse
import json
import os
import re
import sys

COLUMN = (str, {"int", "text"})
INNER_STEP = {"sql?": str, "abort_if?": str, "code?": int}
STEP = {**INNER_STEP, "insert?": str, "values?": [object], "return_all?": str, "return?": str, "emit?": str, "for_each?": str, "body?": [INNER_STEP]}
# The form of a catalogue, as far as the tools need it. A key with `?` may be left out.
CATALOGUE = {
    "tables?": [{"name": str, "columns": [COLUMN], "key": [str], "part?": int, "by?": str, "indexes?": [[str]]}],
    "streams?": [{"name": str, "columns": [COLUMN]}],
    "windows?": [{"name": str, "columns": [COLUMN], "owner": str, "unit": {"rows", "batches"}, "size": int, "slide": int}],
    "triggers?": [{"name": str, "on": str, "sql": [str]}],
    "procedures?": [
        {"name": str, "kind": {"call", "border", "interior"}, "args?": [COLUMN], "inputs?": [str], "touch": object, "body": [STEP]}
    ],
    "nests?": [{"name": str, "procedures": [str]}],
}
KINDS = {str: "a text", int: "an integer", list: "an array", dict: "an object", tuple: "a pair of a name and a type"}


class Wrong(Exception):
    """What is wrong and where, in one line."""


def told(main):
    """The status of `main`, with what is wrong on standard error."""
    try:
        return main() or 0
    except SystemExit as ended:  # so argparse ends
        return ended.code
    except KeyboardInterrupt:
        return 130
    except Wrong as wrong:
        sys.stdout.flush()
        print(f"{os.path.basename(sys.argv[0])}: {wrong}", file=sys.stderr)
        return 1


def end(main):
    """Runs `main` and ends the process with its status. A reader that went away is no fault to tell: status 1, no line."""
    for stream in filter(None, (sys.stdout, sys.stderr)):
        stream.reconfigure(encoding="utf-8", errors="backslashreplace")
    sys.stdout = sys.stdout or open(os.devnull, "w")
    try:
        status = told(main)
        sys.stdout.flush()
    except OSError as error:
        status = 1
        os.dup2(os.open(os.devnull, os.O_WRONLY), sys.stdout.fileno())  # what is still buffered goes there
        if not isinstance(error, BrokenPipeError):
            print(f"{os.path.basename(sys.argv[0])}: {error.filename or 'standard output'}: {error.strerror}", file=sys.stderr)
    sys.exit(status)


def options(doc):
    """A parser of options whose `--help` begins with a tool's docstring."""
    return argparse.ArgumentParser(description=doc, formatter_class=argparse.RawDescriptionHelpFormatter)


def limited(least, most):
    """What argparse takes for an integer from `least` to `most`."""
    def number(text):
        if not re.fullmatch("[0-9]{1,19}", text) or not least <= int(text) <= most:
            raise argparse.ArgumentTypeError(f"{text} is no integer from {least} to {most}")
        return int(text)
    return number


def decoded(data, where):
    """Bytes as a text, without the mark that some editors put in front."""
    try:
        return data.decode("utf-8-sig")
    except UnicodeDecodeError as error:
        raise Wrong(f"{where}: line {data.count(10, 0, error.start) + 1}: no UTF-8") from None


def file_text(path):
    """The text of a file."""
    try:
        with open(path, "rb") as file:
            return decoded(file.read(), path)
    except OSError as error:
        raise Wrong(f"{path}: {error.strerror}") from None


def input_text():
    """The text of standard input."""
    try:
        return decoded(sys.stdin.buffer.read(), "standard input")
    except (AttributeError, OSError):
        raise Wrong("standard input: it can't be read") from None


def json_value(text, where, first=1):
    """The value of a JSON text, whose first line has the number `first`."""
    def refuse(word):
        raise ValueError(f"{word} is no value")
    try:
        return json.loads(text, parse_constant=refuse)
    except json.JSONDecodeError as error:
        raise Wrong(f"{where}: line {first + error.lineno - 1}, column {error.colno}: no JSON: {error.msg}") from None
    except (ValueError, RecursionError) as error:
        raise Wrong(f"{where}: line {first}: no JSON that can be read: {error}") from None


def has_form(value, form, at):
    """Refuses a value without the form, by its path. A set has words, a tuple a form for each item, a list one for all."""
    kind = type(form) if isinstance(form, (list, dict, tuple)) else str if isinstance(form, set) else form
    if not isinstance(value, list if kind is tuple else kind) or (kind is int and isinstance(value, bool)):
        raise Wrong(f"{at}: not {KINDS[kind]}")
    if isinstance(form, set) and value not in form:
        raise Wrong(f"{at}: none of " + ", ".join(sorted(form)))
    if isinstance(form, tuple):
        if len(value) != len(form):
            raise Wrong(f"{at}: not {KINDS[tuple]}")
        for number, (item, inner) in enumerate(zip(value, form)):
            has_form(item, inner, f"{at}[{number}]")
    if isinstance(form, list):
        for number, item in enumerate(value):
            has_form(item, form[0], f"{at}[{number}]")
    if isinstance(form, dict):
        inner = {key.rstrip("?"): part for key, part in form.items()}
        for key in value.keys() - inner.keys():
            raise Wrong(f"{at}: the key {json.dumps(key)} is none of " + ", ".join(inner))
        for key in form:
            if key in value.keys() or key.rstrip("?") in value.keys():
                has_form(value[key.rstrip("?")], form[key], f"{at}.{key.rstrip('?')}")
            elif not key.endswith("?"):
                raise Wrong(f"{at}: no key {json.dumps(key)}")


def catalogue_of(path):
    """The catalogue of a file: that of an input, on its first line, or one alone, over as many lines as it takes."""
    text = file_text(path)
    lines = [(number, line) for number, line in enumerate(text.split("\n"), 1) if line.strip(" \t\r")]
    if not lines:
        raise Wrong(f"{path}: empty, where a catalogue is needed")
    number, line = lines[0]
    try:
        catalogue = json_value(line, path, number)
    except Wrong:
        catalogue = json_value(text, path)
    has_form(catalogue, CATALOGUE, f"{path}: line {number}: $")
    return {section.rstrip("?"): catalogue.get(section.rstrip("?"), []) for section in CATALOGUE}
