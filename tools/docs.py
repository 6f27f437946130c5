#!/usr/bin/env python3
"""Documents that are made from the sources, and a check of the others.

    python3 tools/docs.py crates    what each crate is for, what it stands on and who uses it, and the head of its page
    python3 tools/docs.py items     the same with each item that its root hands on, and the first sentence of its page
    python3 tools/docs.py laws      each law, which is the contract of a function that does nothing, with what it says
    python3 tools/docs.py check     what is wrong in the documents, a line for each fault

`check` finds a page that is too long; a link, or a path in backticks, that names no file; a command without the word for its
store; a name in backticks that isn't in the crate for which it stands; an example that isn't the case of its name; and a module
that its crate's root page doesn't list. Status 0: done, nothing is wrong; 1: something is, or a file is missing; 2: wrong options.
"""
import argparse
import glob
import os
import re

from shared import Wrong, end, file_text, options

TOP = os.environ.get("TOP", os.path.dirname(os.path.dirname(os.path.abspath(__file__))))
FURTHER = ["examples/README.md", "examples/refused/README.md"]
LONGEST_README, LONGEST_PAGE = 12000, 30000  # in bytes
FOLDERS = "docs|bench|examples|tools|schemas|crates|wrong_bodies"
SOURCES, INPUTS = (".md", ".py", ".rt", ".antt", ".cases"), (".jsonl", ".json", ".expected")  # the endings of names that are held against files


def read(*path):
    return file_text(os.path.join(TOP, *path))


def exists(*path):
    return os.path.exists(os.path.join(TOP, *path))


def crates():
    """Of each crate its layer, purpose and libraries, in the order of crates.txt."""
    found, layer, purpose = {}, "", ""
    for number, line in enumerate(read("crates.txt").split("\n"), 1):
        if re.match(r"# \d", line):
            layer = line[2:].strip()
        elif line.startswith("#"):
            purpose = line[2:].strip()
        elif line.strip():
            head, _, tail = line.partition(":")
            if not head.strip():
                raise Wrong(f"crates.txt: line {number}: no name in front of the colon")
            found[head.split()[0]] = (layer, purpose, tail.split())
    return found


def sources(crate, kinds=("src",), ends=(".rt",)):
    """The files of a crate, each with its text."""
    for kind in kinds:
        for folder, _, files in os.walk(os.path.join(TOP, "crates", crate, kind)):
            for file in sorted(files):
                if file.endswith(ends):
                    yield os.path.join(folder, file), file_text(os.path.join(folder, file))


def root(crate):
    """The name and the text of a crate's root file."""
    for name in ("lib.rt", "main.rt"):
        if exists("crates", crate, "src", name):
            return f"crates/{crate}/src/{name}", read("crates", crate, "src", name)
    raise Wrong(f"crates.txt: {crate} has no crates/{crate}/src/lib.rt and no main.rt")


def sentence(text):
    """The first sentence of a doc comment."""
    text = " ".join(text.split())
    stop = re.search(r"[.:](\s|$)", text)
    return (text[: stop.start()] if stop else text).rstrip(".")


def uncommented(lines):
    """The text of the lines of a comment."""
    return " ".join(line.strip()[3:].strip() for line in lines.strip().split("\n"))


def documented(crate):
    """Of each public item of a crate the first sentence of its page."""
    found = {}
    pattern = r"((?:^[ \t]*///.*\n)+)(?:[ \t]*#\[.*\]\n)*[ \t]*pub (?:const |unsafe )?(?:fn|struct|enum|trait|type|const) (\w+)"
    for _, text in sources(crate):
        for item in re.finditer(pattern, text, re.M):
            found.setdefault(item[2], sentence(uncommented(item[1])))
    return found


def exports(crate):
    """The names that a crate's root hands on, in order."""
    names = []
    for use in re.finditer(r"pub use ([^;]+);", root(crate)[1]):
        inside = re.search(r"\{(.*)\}", use[1], re.S)
        names += re.findall(r"\w+", inside[1]) if inside else [use[1].split("::")[-1].strip()]
    return [name for name in dict.fromkeys(names) if name != "self"]


def page(crate):
    """The first two paragraphs of a crate's root file, up to its list of modules."""
    head = re.match(r"(?://!.*\n)*", root(crate)[1])[0]
    kept = [part for part in re.split(r"//!\s*\n", head)[:2] if part and not part.startswith(("//! - ", "//! ```", "//! Source"))]
    return "\n\n".join(uncommented(part) for part in kept)


def quoted(names):
    """Names in backticks."""
    return ", ".join(f"`{name}`" for name in names)


def print_crates(has_items):
    """Prints what each crate is for, and where it is asked for each item."""
    print("# The crates\n\nMade by `tools/docs.py` from crates.txt and the sources; change those.\n")
    layer, found = "", crates()
    for crate, (its_layer, purpose, libraries) in found.items():
        if its_layer != layer:
            layer = its_layer
            print(f"## {layer}\n")
        users = quoted(other for other in found if crate in found[other][2]) or "none"
        print(f"### `{crate}`\n\n{purpose[:1].upper() + purpose[1:]}. Stands on {quoted(libraries) or 'std'}. Used by {users}.\n\n{page(crate)}\n")
        said = documented(crate) if has_items else {}
        for name in exports(crate) if has_items else []:
            print(f"- `{name}`" + (f": {said[name][:1].lower() + said[name][1:]}" if said.get(name) else ""))
        if has_items:
            print()


def print_laws():
    """Prints the laws, crate by crate."""
    print("# The laws\n\nMade by `tools/docs.py`: each is the contract of a function that does nothing.\n")
    pattern = r"((?:^///.*\n)+)(?:#\[.*\]\n)*pub fn (\w+)[^{;]*?\n((?:[ \t]+(?:requires|ensures).*\n)+)\{\s*\}"
    for crate in crates():
        lines = [f"- `{law[2]}`: {uncommented(law[1])}" for _, text in sources(crate) for law in re.finditer(pattern, text, re.M)]
        if lines:
            print(f"## `{crate}`\n\n" + "\n".join(lines) + "\n")


def pages():
    """The names of the documents, each with its text."""
    for name in ["README.md", *FURTHER, *sorted("docs/" + file for file in os.listdir(os.path.join(TOP, "docs")) if file.endswith(".md"))]:
        yield name, read(name)


def words_of(found):
    """Of each crate the words of its files, and the crates below it with itself."""
    words, below = {}, {}
    for crate, (_, _, libraries) in found.items():  # lowest first
        texts = [part for pair in sources(crate, ("src", "specs", "proofs"), (".rt", ".antt")) for part in pair]
        words[crate] = set(re.findall(r"\w+", " ".join(texts)))
        below[crate] = {crate}.union(*(below.get(library, ()) for library in libraries))
    return words, below


def is_there(path, name, files):
    """Whether a path of a document is one of the repository: from its top, from crates/, or from where the document is."""
    places = ["", "crates/", os.path.dirname(name) + "/"]
    if "/" not in path.rstrip("/"):
        return path in files or any(exists(place + path) for place in places)
    return any(glob.glob(os.path.join(TOP, place, path + ending)) for place in places for ending in ("", ".rt", ".antt", ".md"))


def paths_in(line, name):
    """What a line names as a path of the repository: a link, a path of its folders, or in backticks. Words in capitals stand for others, and inputs
    without a folder are a reader's own but in the pages of examples."""
    endings = SOURCES + INPUTS if name.startswith("examples/") else SOURCES
    yield from (link for link in re.findall(r"\]\(([^)#\s]+)[^)]*\)", line) if not re.match(r"\w+:", link))
    yield from re.findall(rf"(?<![\w/`.])(?:docs|examples|tools|bench|schemas)/[\w./-]*\w", line)
    for text in re.findall(r"`([^`]+)`", line):
        for word in text.split():
            word = re.sub(r"^(\.\.?/)+", "", word.strip(",;:()<>\"'"))
            is_path = re.fullmatch(rf"(?:{FOLDERS}|ss_\w+)/[\w.*/-]*", word) or (re.fullmatch(r"[\w-]+\.\w+", word) and word.endswith(endings))
            if is_path and not re.search(r"(^|/)[A-Z]+(/|\.(?!md)|$)", word):
                yield word


def faults_of_size(name, text):
    """A page that is too long."""
    most = LONGEST_README if name == "README.md" else LONGEST_PAGE
    if len(text.encode()) > most and name != "examples/refused/README.md":
        yield f"{name}: {len(text.encode())} bytes, and {most} are the most"


def faults_of_names(name, line, words, below):
    """Names in backticks that aren't in the crates for which a line says them."""
    head = re.match(r"^(?:\| |- )((?:`ss_\w+`(?:, )?)+)", line)
    if head and name.startswith("docs/ARCH"):
        reach = set().union(*(below.get(crate, ()) for crate in re.findall(r"ss_\w+", head[1])))
        known = set().union(*(words[crate] for crate in reach))
        for word in re.findall(r"`([A-Za-z_]\w{3,})`", line):
            if known and word not in known and not word.startswith("ss_"):
                yield f"`{word}` isn't in {head[1]}"
        for word, crate in re.findall(r"`(\w+)` (?:in|of) `(ss_\w+)", line):
            if crate in words and word not in words[crate]:
                yield f"`{word}` isn't in {crate}"
    for word, crate in re.findall(r"`(\w+)` in `(ss_\w+)/", line):
        if crate in words and word not in words[crate]:
            yield f"`{word}` isn't in {crate}"


def faults_of_pages(found):
    """What is wrong in the documents."""
    words, below = words_of(found)
    files = {file for folder in FOLDERS.split("|") for _, _, inside in os.walk(os.path.join(TOP, folder)) for file in inside}
    for name, text in pages():
        yield from faults_of_size(name, text)
        for number, line in enumerate(text.split("\n"), 1):
            for path in paths_in(line, name):
                if not is_there(path, name, files):
                    yield f"{name}:{number}: no {path}"
            for _ in re.findall(r"\./sstore (?:run|recover|voter)\b", line):
                yield f"{name}:{number}: a command without the word for its store"
            yield from (f"{name}:{number}: {fault}" for fault in faults_of_names(name, line, words, below))


def faults_of_roots(found):
    """Modules that a crate's root page doesn't list."""
    for crate in found:
        name, text = root(crate)
        listed = set(re.findall(r"\w+", " ".join(re.findall(r"`([^`]*)`", re.match(r"((?://!.*\n)*)", text)[1]))))
        for module in re.findall(r"^(?:pub )?mod (\w+);", text, re.M):
            if module not in listed and module != "tests":
                yield f"{name}: its page doesn't list `{module}`"


def faults_of_examples():
    """Examples that aren't the case of their name, be they files or links to it."""
    for folder, front in (("examples", ""), ("examples/refused", "refused_")):
        for name in sorted(os.listdir(os.path.join(TOP, folder))):
            case = "crates/ss_cases/data/" + front + name
            if not name.endswith((".jsonl", ".expected")):
                continue
            if not exists(folder, name) or not exists(case) or read(folder, name) != read(case):
                yield f"{folder}/{name} isn't the case of its name"


def check():
    """Prints what is wrong, each fault once."""
    found = crates()
    faults = list(dict.fromkeys([*faults_of_pages(found), *faults_of_roots(found), *faults_of_examples()]))
    print("\n".join(faults) or "all names and paths are there")
    return 1 if faults else 0


def main():
    commands = {"crates": lambda: print_crates(False), "items": lambda: print_crates(True), "laws": print_laws, "check": check}
    parser = options(__doc__)
    parser.add_argument("command", choices=commands, help=argparse.SUPPRESS)
    try:
        return commands[parser.parse_args().command]()
    except FileNotFoundError as error:
        raise Wrong(f"{error.filename}: {error.strerror}") from None


if __name__ == "__main__":
    end(main)
