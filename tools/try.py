#!/usr/bin/env python3
"""Tries the tools on the examples and on bad input.

    python3 tools/try.py

A case is a command, its standard input, its status, and what a line has: one of standard output where the status is 0, else
the first of standard error, which is the only one then unless the options are wrong. Prints each case that is wrong, and `N right, M wrong`. Status 0: none is wrong;
1: one is; 2: wrong options.
"""
import os
import subprocess
import sys
import tempfile

from shared import end, options

TOP = os.path.dirname(os.path.dirname(os.path.abspath(__file__)))
TABLE, ROW = '{"tables":[{"name":"t","columns":[["k","int"],["s","text"]],"key":["k"],"part":0}]', '[["k","int"],["s","text"]]'
# The store of docs/STORE.md, whose two entries are in one group: what stands in front of its image, in the new form and in an older one, and the rest.
HEAD, OLDER = "5353544f5245320a 00 0000000000000000 0000000000000003", "5353544f5245310a 0000000000000000 0000000000000003"
LOG = "696d67 01 0000003d 00000002 01030000000000000005000202000000000000000007"
LOG += "01026869 020000000000000000010004027331000000000000000900010100ffffffffffffffff 00"
FILES = {  # in a folder of their own, $T
    "empty": "",
    "blank": "\n \n",
    "text": "nope\n",
    "latin": b"\xff\xfe\n",
    "none.json": "{}",
    "other.json": '{"tabels":[]}',
    "short.json": '{"procedures":[{"name":"p"}]}',
    "typed.json": '{"tables":[{"name":"t","columns":[["k","real"]],"key":["k"]}]}',
    "deep.json": "[" * 100000,
    "ok.json": TABLE + f',"streams":[{{"name":"in","columns":{ROW}}},{{"name":"on","columns":{ROW}}}],"procedures":['
    f'{{"name":"c","kind":"call","args":{ROW},"touch":"all",\n"body":[]}},{{"name":"z","kind":"call","touch":"all","body":[]}},'
    '{"name":"b","kind":"border","inputs":["in"],"touch":"all","body":[{"emit":"on","sql":"SELECT k, s FROM in"}]}]}',
    "install.jsonl": '{"procedures":[{"name":"c","kind":"call","touch":{"part":0},"body":[]}]}\n{"call":"c","args":[]}\n{"client":1,"install":"c","body":[{"return":"SELECT x FROM t"},{"sql":7}]}\n'
    '{"install":"nope","body":[]}\n{"install":"c","body":7}\n{"install":"c","body":[{"return_all":"u"},{"return":"SELECT y FROM u"}]}\n',
    "nests.json": '{"streams":[{"name":"s","columns":[["k","int"]]},{"name":"l","columns":[["k","int"]]}],"procedures":['
    '{"name":"a","kind":"border","inputs":["s"],"touch":{"part":0},"body":[{"emit":"l","sql":"SELECT k FROM s"}]},{"name":"b","kind":"interior","inputs":["l"],"touch":"all","body":[]},'
    '{"name":"c","kind":"interior","inputs":["l"],"touch":"all","body":[]}],"nests":[{"name":"n","procedures":["a","nope","b","b"]},{"name":"m","procedures":["b","c"]},{"name":"e","procedures":["gone"]}]}',
    "jsonschema.py": "raise ImportError",
    "store/selector": b"\0",
    "store/gen1": bytes.fromhex(HEAD + LOG),
    "older/selector": b"\0",
    "older/gen1": bytes.fromhex(OLDER + LOG),
    "mode/selector": b"\0",
    "mode/gen1": bytes.fromhex(HEAD.replace(" 00 ", " 02 ") + LOG),
    "new/selector": "",
    "begun/selector": b"\0",
    "begun/gen1": b"SSTO",
    "wrong/selector": b"\0",
    "wrong/gen1": "no store at all, but longer than a head",
    "long/selector": b"\0\0",
    "group/selector": b"\1",
    "group/gen2": bytes.fromhex(HEAD.replace("03", "00") + "01 00000001 00000000"),
    "older_group/selector": b"\1",
    "older_group/gen2": bytes.fromhex(OLDER.replace("03", "00") + "01 00000001 00000000"),
    "bare/file": "",
}
CALL, PUSH = "csv_in.py $T/ok.json --call c", "csv_in.py $T/ok.json --push in"
CASES = [
    *((f"{tool} --help", "", 0, f"usage: {tool}") for tool in ("check_schemas.py", "csv_in.py", "docs.py", "draw.py", "explain.py", "watch.py")),
    *((f"{tool} --nope", "", 2, "usage: ") for tool in ("check_schemas.py", "csv_in.py", "docs.py", "draw.py", "explain.py", "watch.py")),
    *((f"draw.py $T/{name}", "", 1, said) for name, said in (
        ("gone", "gone: No such file"), ("", "Is a directory"), ("empty", "empty, where"), ("blank", "empty, where"),
        ("text", "line 1, column 1: no JSON"), ("latin", "line 1: no UTF-8"), ("none.json", "no procedure"), ("deep.json", "no JSON"),
        ("other.json", '$: the key "tabels"'), ("short.json", '$.procedures[0]: no key "kind"'), ("typed.json", "[0].columns[0][1]: none of int, text"))),
    ("draw.py examples/telemetry.jsonl", "", 0, "clients"),
    ("draw.py --svg examples/telemetry.jsonl", "", 0, "<svg xmlns"),
    ("draw.py --streams examples/bank.jsonl", "", 1, "no procedure"),
    ("draw.py --installed examples/hotfix.jsonl", "", 0, "as line 8 installs it"),
    ("draw.py --installed $T/install.jsonl", "", 1, "line 3: $.body[1].sql: not a text"),
    *(("draw.py examples/voting_nest.jsonl", "", 0, said) for said in ("└─ votes_in ─> vote", "┌─ vote", "│      nest, part 0", "│  leaderboard", "│  recorded: validate ─> leaderboard")),
    ("draw.py --svg examples/voting_nest.jsonl", "", 0, '<rect class="nest"'),
    *(("draw.py --streams $T/nests.json", "", 0, said) for said in ("   └─ l ─> m", "│      nest, part 0 and all parts", "│  l: a ─> b", "│  c")),
    *(("draw.py --svg $T/nests.json", "", 0, said) for said in ('<rect class="nest"', "</svg>")),
    *((f"draw.py examples/refused/{name}.jsonl", "", 0, said) for name, said in (("n01", "┌─ both"), ("n03", "┌─ others"), ("n04", "   └─ told ─> note"))),
    (CALL, "7,a\n", 0, '{"call":"c","args":[7,"a"]}'),
    (CALL + " --client 7 --header", "s,more,k\n\"b,\n\",x,-9223372036854775808\n", 0, '{"client":7,"call":"c","args":[-9223372036854775808,"b,\\n"]}'),
    (PUSH + " --seq 5 --rows 1 --source me", "7,a\n8,b\n", 0, '{"push":"in","source":"me","seq":5,"rows":[[7,"a"]]}'),
    (PUSH + " --rows 1024", "7,a\n" * 1024, 0, '{"push":"in","source":"csv","seq":0'),
    *((CALL, given, 1, said) for given, said in (
        ("", "no rows"), ("7\n", "row 1 (line 1): 1 values, in place of 2"), ("7,a\n\n8,b,c\n", "row 2 (line 3): 3 values"),
        ("x,a\n", 'column k: "x" is no Int'), ("9223372036854775808,a\n", "outside of 64 bits"), ("-9223372036854775809,a\n", "outside of 64 bits"),
        ("9" * 5000 + ",a\n", "outside of 64 bits"), ("1_0,a\n", "is no Int"), ("1.0,a\n", "is no Int"), ('1,"a\n', "line 1: no CSV"),
        ("1," + "é" * 128 + "\n", "column s: a text of 256 bytes"), (b"1,\xff\n", "line 1: no UTF-8"))),
    (CALL + " --header", "k,t\n1,a\n", 1, "the column s 0 times"),
    (CALL + " --header", "k,s\n", 1, "no rows"),
    (PUSH + " --rows 1024", "7," + "a" * 255 + "\n", 0, '{"push":"in"'),
    ("csv_in.py examples/voting_show.jsonl --push doomed", "1,2\n", 1, "no border stream doomed"),
    ("csv_in.py $T/ok.json --call b", "1,a\n", 1, "no call procedure b"),
    ("csv_in.py $T/ok.json --call z", "1,a\n", 1, "has no arguments"),
    ("csv_in.py $T/gone --call c", "1,a\n", 1, "No such file"),
    (PUSH + " --rows 1024", ("7," + "\1" * 255 + "\n") * 1024, 1, "bytes, where 1048576 are the most"),
    (PUSH + " --seq 9223372036854775807 --rows 1", "7,a\n8,b\n", 1, "row 2 (line 2): the number of its batch"),
    *((command, "", 2, "usage: ") for command in (
        CALL + " --client 8", CALL + " --rows 5", PUSH + " --rows 0", PUSH + " --rows 1025", PUSH + " --seq -1", PUSH + " --source A", PUSH + " --call c")),
    ("explain.py", "@examples/stored_run.expected", 0, "line 4: aborted, a row has this key, in the table acct"),
    ("explain.py --all", "@examples/stored_run.expected", 0, "line 2: done"),
    ("explain.py", '["audit","yes",12]', 0, "the report is right, and has 12 entries"),
    ("explain.py", '["audit","no",4,27]', 0, "the report is not right: line 27 is not what the entries leave"),
    ("explain.py examples/refused/c04.jsonl", '["input",1,"C4","free",0,"S5",30]', 0, "line 1: C4"),
    ("explain.py examples/bank.jsonl", '["input",1,"C4","nope",0,"S5",30]', 0, "line 1: C4"),
    ("explain.py", '["input",3,"C15","C1","$.procedures[0].body[1].sql"]', 0, "line 3: C15: the catalogue with this body in the place of the procedure's own would be refused: C1: "),
    ("explain.py $T/install.jsonl", '["input",3,"C15","C1","$.procedures[0].body[1].sql"]', 0, "    $.procedures[0].body[1].sql is 7"),
    ("explain.py $T/install.jsonl", '["input",6,"C15","C4","c",1,"S5",7]', 0, "           ^ nothing in scope has this name"),
    ("explain.py $T/install.jsonl", '["input",3,"C15","C1","$.procedures[0].body[7]"]', 0, "(the line of the input has no such place"),
    *((f"explain.py examples/refused/{name}.jsonl", said, 0, shown) for name, said, shown in (
        ("n01", '["input",1,"N1","$.nests[0].procedures"]', '    $.nests[0].procedures is ["hear"]'), ("n02", '["input",1,"N2","look"]', '    {"name": "both", "procedures": ["hear", "look"]}'),
        ("n03", '["input",1,"N3","tell"]', '    {"name": "others", "procedures": ["tell", "note"]}'), ("n04", '["input",1,"N4","both"]', "line 1: N4: a later member"),
        ("n05", '["input",1,"N5","both"]', "line 1: N5: the members"), ("n06", '["input",1,"N6","both"]', "line 1: N6: a member"), ("c16", '["input",3,"C16"]', '    {"install":"both","body":[]}'),
        ("c01", '["input",1,"N4","both"]', "(the line of the input has no such place"))),
    ("explain.py", '["input",3,"C16"]', 0, "line 3: C16: a nest has its own body and gets no other"),
    ("explain.py", '["install",0,0,0,["done",[]]]\n["done",1]', 0, "1 entry"),
    ("explain.py", '["install",0,0,0,["done",[]]]', 0, "the report breaks off"),
    ("explain.py", '["voter",4,4,12,23]', 0, "4 votes asked for, 4 pushes done, 12 steps, 23 entries"),
    ("explain.py", '["foreign",1,3]', 0, "byte 3 of gen1"),
    ("explain.py", '["reply",2,"halted",1]\n["stopped",5,0]', 0, "line 2: the disk had failed"),
    ("explain.py status 9", "", 0, "limit"),
    ("explain.py status 10", "", 2, "usage: "),
    ("explain.py status x", "", 2, "usage: "),
    ("explain.py a b", "", 2, "usage: "),
    *(("explain.py", given, 1, said) for given, said in (
        ("", "empty, where a report"), ("nope\n", "line 1, column 1: no JSON"), ('["done",1]\n7\n', "line 2: no array"), ("[]\n", "line 1: no array"),
        ('["nope"]\n', "no line of a report"), ('["reply",2]\n', "no line of a report"), ('["reply",2,0,["aborted","nope"]]\n', "no line of a report"),
        ('["input",1,"C99"]\n', "no line of a report"), ('["input",1,"C15"]\n', "no line of a report"), (b"\xff\n", "line 1: no UTF-8"))),
    ("explain.py $T/gone", '["done",1]', 1, "gone: No such file"),
    *((f"watch.py $T/{name} --once", "", 0, "2 entries") for name in ("store", "older")),
    ("watch.py $T/store --every 0.1 --seconds 0.3", "", 0, "2 entries"),
    *((f"watch.py $T/{name} --once", "", 1, said) for name, said in (
        ("gone", "gone: no folder"), ("text", "text: no folder"), ("bare", "bare: no store"), ("new", "new: no store"), ("begun", "begun: no store"),
        ("wrong", "gen1: no generation"), ("mode", "gen1: no generation"), ("long", "selector: more than one byte"),
        ("group", "gen2: byte 26 begins no group"), ("older_group", "gen2: byte 25 begins no group"))),
    *((f"watch.py $T/store {words}", "", 2, "usage: ") for words in ("--every 0", "--every nan", "--seconds x")),
    *((f"docs.py {name}", "", 0, first) for name, first in (("crates", "# The crates"), ("items", "# The crates"), ("laws", "# The laws"))),
    ("docs.py nope", "", 2, "usage: "),
    ("check_schemas.py", "", 1, "the package jsonschema is missing"),
]
CLOSED = ["docs.py items", "draw.py examples/bank.jsonl", "explain.py --all", "watch.py $T/store", CALL]  # read by nobody


def started(command, folder, given, output):
    """A tool at work, whose package jsonschema can't be found."""
    words = command.replace("$T", folder).split()
    data = open(os.path.join(TOP, given[1:]), "rb").read() if given[:1] == "@" else given if isinstance(given, bytes) else given.encode()
    return subprocess.run([sys.executable, os.path.join(TOP, "tools", words[0]), *words[1:]], input=data, cwd=TOP, stdout=output,
                          stderr=subprocess.PIPE, env={**os.environ, "PYTHONPATH": folder, "COLUMNS": "200"}, timeout=120)


def is_right(case, folder):
    """Whether a case comes out as it says."""
    command, given, status, said = case
    done = started(command, folder, given, subprocess.PIPE)
    told = (done.stdout if status == 0 else done.stderr).decode()
    is_one = not done.stderr if status == 0 else status == 2 or told.count("\n") == 1
    lines = told.split("\n")
    return done.returncode == status and any(said in line for line in (lines if status == 0 else lines[:1])) and is_one and b"Traceback" not in done.stderr


def is_quiet(command, folder):
    """Whether a tool ends with status 1, and says nothing, where nobody reads what it prints."""
    reader, writer = os.pipe()
    os.close(reader)
    done = started(command, folder, "7,a\n" if command == CALL else "@examples/bank.expected", writer)
    os.close(writer)
    return done.returncode == 1 and not done.stderr


def main():
    options(__doc__).parse_args()
    with tempfile.TemporaryDirectory() as folder:
        for name, text in FILES.items():
            os.makedirs(os.path.dirname(os.path.join(folder, name)), exist_ok=True)
            with open(os.path.join(folder, name), "wb") as file:
                file.write(text if isinstance(text, bytes) else text.encode())
        wrong = [case[0] + f", which should say {case[3]!r}" for case in CASES if not is_right(case, folder)]
        wrong += [f"{command}, read by nobody" for command in CLOSED if not is_quiet(command, folder)]
    print("\n".join([*wrong, f"{len(CASES) + len(CLOSED) - len(wrong)} right, {len(wrong)} wrong"]))
    return 1 if wrong else 0


if __name__ == "__main__":
    end(main)
