#!/usr/bin/env python3
"""Says in words what the program printed.

    python3 tools/explain.py < examples/voting_show.expected
    ./sstore - run < examples/refused/c04.jsonl | python3 tools/explain.py examples/refused/c04.jsonl
    python3 tools/explain.py status 9

Reads a report, or the one line of a refusal, from standard input. Of a refused input it says what is wrong and, where INPUT is
given, shows the place: the value at the path, or the SQL text with a caret under the fault. Of a report it counts the outcomes,
and says each request and each step that was not done. Status 0: done; 1: a file or a line is wrong; 2: the options are.
"""
import collections
import json
import re

from shared import Wrong, decoded, end, input_text, json_value, options

STATUS = {
    0: "done: all requests are answered and nothing is left to run",
    1: "usage: the words are no command, which `./sstore --help` lists; nothing was read",
    2: "input: the input is refused, and nothing has run",
    3: "read fault: standard input could not be read to its end, and nothing has run",
    4: "write fault: all ran, but the report could not be written to its end",
    5: "disk fault: the disk failed, or another process has the folder; a `stopped` line says which entries are on it",
    6: "no memory: there was not enough for the run as a whole; a `stopped` line says which entries are on the disk",
    7: "foreign: the folder's files are no store; nothing has run, and they were left as they are",
    8: "other catalogue: the folder is a store of another catalogue; use another folder, or give the stored catalogue",
    9: "limit: the list is full; what is answered with list_full has not run",
    11: "other mode: the folder is a store of the other mode of recovery; use another folder, or ask for the stored mode (--recovery)",
    12: "differs: an audit found that the report is not that of a run of its script",
    70: "of the script sstore: the program was not built, and what it printed says why",
    127: "of the script sstore: the toolchain's command rt is not on the path",
}
CODES = {
    "L2": "a line has more than 1,048,576 bytes",
    "L3": "the input has more than 67,108,864 bytes",
    "L4": "the line is no JSON",
    "C1": "the value at this path is not what may stand there",
    "C2": "this name is there twice",
    "C3": "nothing that may stand there has this name",
    "C4": "a SQL text is refused, or the values of an insert don't fit",
    "C5": "this procedure leads back to itself by the streams that it emits",
    "C6": "an INSERT of this trigger leads back to its own window, or from a window of batches to one that isn't later",
    "C7": "this SQL names a table that the procedure's touch set does not allow",
    "C8": "this stream has not the ends that it needs, a trigger is on it that may not be, or it is of another workflow",
    "C9": "the owner of this window is a call procedure, or SQL of another procedure than its owner names it",
    "C10": "there are too many of these",
    "N1": "the value at this path is not what may stand among nests, which have two to eight procedures each",
    "N2": "no border or interior procedure has this name",
    "N3": "this is in nests twice, or the name of a nest that is a procedure's or another nest's too",
    "N4": "a later member of this nest takes what none before it emits, or a stream goes from one of it to members and to others",
    "N5": "the members of this nest have several touch sets",
    "N6": "a member of this nest owns a window of batches",
    "C11": "the line is no request",
    "C12": "no call procedure, no border stream, or for an install no procedure, has that name",
    "C13": "the arguments, or a row, have another number of values or another type, or a text has more than 255 bytes",
    "C14": "a push has more than 1,024 rows",
    "C15": "the catalogue with this body in the place of the procedure's own would be refused",
    "C16": "a nest has its own body and gets no other",
}
SQL = {
    "S1": "no token begins here",
    "S2": "the number is too great, or a letter stands right behind it",
    "S3": "the text is not closed, or has more than 255 bytes",
    "S4": "nothing of the grammar goes on so",
    "S5": "nothing in scope has this name, or two sources have it",
    "S6": "this is of another type than is needed here",
    "S7": "a column of the key may not be set",
    "S8": "the number of values, items or columns is another one, or one is named that isn't there",
    "S9": "the query is aggregated, and this column is not grouped",
}
ABORT = {
    "raised": "an abort_if came true, with the code",
    "key_taken": "a row has this key, in the table",
    "overflow": "a number is outside of 64 bits",
    "divide_by_zero": "a divisor is 0",
    "not_one_row": "the query of an abort_if gave none or several rows",
    "empty_aggregate": "MIN or MAX of nothing",
    "text_too_long": "|| gives more than 255 bytes",
    "table_full": "1,000,000 rows are in the table",
    "batch_full": "a batch would have over 1,024 rows, of the stream",
    "reply_full": "a reply would have over 1,024 rows",
    "window_full": "no more units fit the window",
}
ANSWER = {
    "no_memory": "there was no memory for it; it changed nothing",
    "list_full": "the list had no place for it; it changed nothing",
    "halted": "the disk had failed before; it changed nothing",
}
CHECK = {
    1: "is no line of a report, or another one had to stand there",
    2: "is not what the first entry of that client and index calls for",
    3: "is no entry that can run there, or not with that place and outcome",
    4: "is not what the entries leave in the tables",
    5: "counts other than the entries, or a step is pending behind them",
}
WITHOUT_RUN = {"usage": 1, "read_fault": 3, "disk_fault": 5, "no_memory": 6, "foreign": 7, "other_catalog": 8, "other_mode": 11}


def counted(count, noun):
    """A number with its noun."""
    return f"{count} {noun}" + ("" if count == 1 else "s")


def texts_of(catalogue, name, number):
    """What has this number in the procedures and triggers of this name: a text of SQL, or a step that has none."""
    for procedure in catalogue.get("procedures", []):
        if procedure["name"] == name:
            steps = [inner for step in procedure["body"] for inner in (step, *step.get("body", []))]
            texts = [steps[number][key] for key in ("abort_if", "return", "sql") if key in steps[number]]
            yield f"procedure {name}, step {number}", (texts or [None])[0], json.dumps(steps[number], ensure_ascii=False)
    for trigger in catalogue.get("triggers", []):
        if trigger["name"] == name and number < len(trigger["sql"]):
            yield f"trigger {name}, statement {number}", trigger["sql"][number], ""


def as_catalogue(value):
    """A catalogue, or of an install one that has the procedure with this body alone."""
    return {"procedures": [{"name": value["install"], "body": value["body"]}]} if "install" in value else value


def shown_sql(text, rest):
    """The place of a refusal of SQL: the text and, where an offset is told, a caret under it."""
    for owner, sql, step in texts_of(as_catalogue(json.loads(text)), rest[0], rest[1]):
        yield f"    {owner}:"
        yield "    " + re.sub(r"\s", " ", sql or step)
        if sql and rest[3:]:
            yield "    " + " " * len(sql.encode()[: rest[3]].decode(errors="ignore")) + "^ " + SQL[rest[2]]
        elif rest[2:]:
            yield "    " + SQL[rest[2]]


def shown_value(text, path):
    """The place of a refusal by its path: what stands there. In an install the procedure has its number in the catalogue."""
    line = json.loads(text)
    value = as_catalogue(line)
    within = path if value is line else re.sub(r"^\$\.procedures\[\d+\]", "$.procedures[0]", path)
    for key, number in re.findall(r"\.([^.\[]+)|\[(\d+)\]", within):
        value = value[key] if key else value[int(number)]
    shown = json.dumps(value, ensure_ascii=False)
    yield f"    {path} is {shown[:200]}" + (" .." if shown[200:] else "")


def shown_nests(text, name):
    """The nests that have this name, or a member that has it."""
    for nest in json.loads(text)["nests"]:
        if name == nest["name"] or name in nest["procedures"]:
            yield "    " + json.dumps(nest, ensure_ascii=False)


def place_of(lines, number, code, rest):
    """The place of a refusal in the input, or nothing where it isn't there."""
    text = lines[number - 1] if 0 < number <= len(lines) else ""
    try:
        if code in ("C4", "C7"):
            yield from shown_sql(text, rest)
        elif code in ("C1", "N1"):
            yield from shown_value(text, rest[0])
        elif code in ("N2", "N3", "N4", "N5", "N6"):
            yield from shown_nests(text, rest[0])
        elif code in ("L4", "C11", "C12", "C13", "C14", "C16") and text:
            yield "    " + text[:200] + (" .." if text[200:] else "")
    except (AttributeError, IndexError, KeyError, TypeError, ValueError, RecursionError):
        yield "    (the line of the input has no such place: is it the input that was refused?)"


def refusal(line, lines):
    """What an `input` line says, in some lines."""
    _, number, first, *rest = line
    code, *rest = rest if first == "C15" else (first, *rest)
    said = f"line {number}: " + (f"C15: {CODES[first]}: " if first == "C15" else "") + f"{code}: {CODES[code]}" + (f": {rest[0]}" if rest else "")
    if code == "C4" and not lines:
        said += f", {'step or statement'} {rest[1]}, byte {rest[3]}: {rest[2]}: {SQL[rest[2]]}"
    elif code == "C7" and not lines:
        said += f", step or statement {rest[1]}"
    return [said, *(place_of(lines, number, code, rest) if lines else [])]


def outcome(out):
    """An outcome in words."""
    if out[0] == "aborted":
        return f"aborted, {ABORT[out[1]]}" + (f" {out[2]}" if len(out) > 2 else "")
    if out[0] in ("duplicate", "gap"):
        return f"a {out[0]}: {out[1]} is the number that comes next"
    if out[0] != "done":
        raise ValueError
    return "done" + (f", with {counted(len(out[1]), 'row')}" if out[1] else "")


def of_request(line, counts):
    """What a `reply` line says, and whether the request was done."""
    _, number, place, *rest = line
    listed = isinstance(place, int)
    counts[rest[0][0] if listed else place] += 1
    return f"line {number}: {outcome(rest[0]) if listed else ANSWER[place]}", listed and rest[0][0] == "done"


def explained(line, lines, counts, says_all):
    """What a line of a report says, where it is said by itself; else it is counted."""
    word = line[0]
    if word == "input":
        yield from refusal(line, lines)
    elif word == "reply":
        said, is_done = of_request(line, counts)
        if says_all or not is_done:
            yield said
    elif word == "step":
        is_done = line[4][0] == "done"
        counts["steps done" if is_done else "steps aborted"] += 1
        if not is_done:
            yield f"place {line[1]}: {line[2]} on batch {line[3]}: {outcome(line[4])}"
    elif word == "table":
        counts[counted(int(line[2]), "row").split()[1] + " of " + line[1]] = int(line[2])
    elif word == "stopped":
        yield f"stopped: {STATUS[line[1]]}; what is on the disk ends at place {line[2]}"
    elif word == "voter":
        yield "{:d} votes asked for, {:d} pushes done, {:d} steps, {:d} entries".format(*line[1:5])
    elif word == "audit" and line[1] == "yes":
        yield f"the report is right, and has {int(line[2]):,} entries"
    elif word == "audit":
        yield f"the report is not right: line {int(line[3])} {CHECK[line[2]]}"
    elif word in WITHOUT_RUN:
        at = f": byte {line[2]} of {['selector', 'gen1', 'gen2'][line[1]]} is the first that can't be" if word == "foreign" else ""
        yield STATUS[WITHOUT_RUN[word]] + at
    elif word == "done":
        counts["entry" if line[1] == 1 else "entries"] = int(line[1])
    elif word not in ("call", "push", "install", "row"):
        raise ValueError


def explain(text, lines, says_all):
    """What a report says, in lines, with its counts at the end."""
    counts, word = collections.Counter(), ""
    for number, piece in enumerate(text.split("\n"), 1):
        if not piece.strip():
            continue
        line = json_value(piece, "standard input", number)
        if not isinstance(line, list) or not line:
            raise Wrong(f"standard input: line {number}: no array, which each line of a report is")
        word = line[0]
        try:
            yield from explained(line, lines, counts, says_all)
        except (AttributeError, IndexError, KeyError, TypeError, ValueError):
            raise Wrong(f"standard input: line {number}: no line of a report: {piece[:100]}") from None
    if not word:
        raise Wrong("standard input: empty, where a report is needed")
    if word in ("reply", "call", "push", "install", "step", "table", "row"):
        yield "the report breaks off: neither a `done` line nor a `stopped` line ends it"
    if counts:
        yield ", ".join(f"{count} {name}" for name, count in counts.items())


def input_lines(path):
    """The lines of an input, which need not be UTF-8."""
    try:
        with open(path, "rb") as file:
            return file.read().decode(errors="replace").split("\n")
    except OSError as error:
        raise Wrong(f"{path}: {error.strerror}") from None


def main():
    parser = options(__doc__)
    parser.add_argument("words", nargs="*", metavar="INPUT", help="the input that was run; or the word `status` and a number")
    parser.add_argument("--all", action="store_true", help="say every reply")
    asked = parser.parse_args()
    if asked.words[:1] == ["status"] and len(asked.words) == 2:
        found = [said for number, said in STATUS.items() if asked.words[1] == str(number)]
        print(found[0] if found else parser.error(f"{asked.words[1]} is no status: they are " + ", ".join(map(str, STATUS))))
        return
    if len(asked.words) > 1:
        parser.error("one INPUT at most, or `status` and a number")
    lines = input_lines(asked.words[0]) if asked.words else []
    for said in explain(input_text(), lines, asked.all):
        print(said)


if __name__ == "__main__":
    end(main)
