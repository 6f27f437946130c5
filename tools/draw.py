#!/usr/bin/env python3
"""Draws the workflows of a catalogue, in text for a terminal or as SVG for a browser.

    python3 tools/draw.py examples/telemetry.jsonl
    python3 tools/draw.py --svg examples/telemetry.jsonl > telemetry.svg
    python3 tools/draw.py --installed examples/hotfix.jsonl

CATALOGUE is an input, or a file with the catalogue alone. It is drawn as it is written, or with the bodies that the input's
requests install, each later one in place of those before it, in the order of lines. Streams are arrows from who feeds them to who takes them; of each
procedure it says what it touches, reads and writes, with its windows and triggers. A nest is one box round its members, with the
streams between them in it. What SQL names is found by its words alone, so it may be drawn of a catalogue that is still refused.
Status 0: done; 1: the file is wrong; 2: the options are.
"""
import html
import re

from shared import STEP, Wrong, catalogue_of, end, file_text, has_form, json_value, options

CLIENTS, NOBODY = "clients", "nobody"
LETTER, LINE, PAD, GAP = 7.3, 17, 9, 26  # the width of a letter, the height of a line, the space in a box and between boxes
STYLE = "text{font:12px monospace;fill:#222}.name{font-weight:bold}rect{fill:#f4f6fa;stroke:#567}path{fill:none;stroke:#567}rect.nest{fill:#fff;stroke-width:2}"


def texts_of(step):
    """The SQL of a step and of its inner steps; of the two short forms what they come to."""
    yield from ("INSERT INTO " + step[key] for key in ("insert",) if key in step)
    yield from ("SELECT FROM " + step[key] for key in ("return_all",) if key in step)
    yield from (step[key] for key in ("sql", "abort_if", "return") if key in step)
    for inner in step.get("body", []):
        yield from texts_of(inner)


def uses_of(texts, tables):
    """What SQL texts read and write among these tables, a line each."""
    text = re.sub("'[^']*'", "''", " ; ".join(texts))
    written = set(re.findall(r"\b(?:INSERT\s+INTO|UPDATE|DELETE\s+FROM)\s+([a-z]\w*)", text)) & tables
    read = set(re.findall(r"\b(?:FROM|JOIN)\s+([a-z]\w*)", re.sub(r"\bDELETE\s+FROM\b", "", text))) & tables
    return [word + ", ".join(sorted(names)) for word, names in (("reads ", read), ("writes ", written)) if names]


def touched(touch):
    """A touch set in words."""
    if isinstance(touch, dict) and "multi" in touch:
        return "parts " + ", ".join(map(str, touch["multi"] if isinstance(touch["multi"], list) else []))
    if isinstance(touch, dict) and "arg" in touch:
        return f"partition of {touch['arg']}"
    return f"part {touch.get('part')}" if isinstance(touch, dict) else "all parts"


def lines_of(procedure, catalogue, feeds):
    """What a drawing says of a procedure, in lines: what it touches and uses, its windows, and the triggers that run in it."""
    tables = {table["name"] for table in catalogue["tables"]}
    lines = [f"{procedure['kind']}, {touched(procedure['touch'])}" + (f", as line {procedure['line']} installs it" if "line" in procedure else "")]
    lines += uses_of([text for step in procedure["body"] for text in texts_of(step)], tables)
    mine = [name for name, emitters in feeds.items() if procedure["name"] in emitters]
    for window in catalogue["windows"]:
        if window["owner"] == procedure["name"]:
            mine.append(window["name"])
            lines.append(f"window {window['name']}: {window['size']} {window['unit']}, slides by {window['slide']}")
    for trigger in catalogue["triggers"]:
        if trigger["on"] in mine:
            lines += [f"trigger {trigger['name']} on {trigger['on']}"] + ["  " + use for use in uses_of(trigger["sql"], tables)]
    return lines


def feeds_of(catalogue):
    """Of each stream who emits to it."""
    feeds = {stream["name"]: [] for stream in catalogue["streams"]}
    for procedure in catalogue["procedures"]:
        for name in dict.fromkeys(step["emit"] for step in procedure["body"] if "emit" in step):
            feeds.setdefault(name, []).append(procedure["name"])
    return feeds


def links_of(catalogue, feeds):
    """The arrows: who feeds, the stream, who takes."""
    takers = {name: [p["name"] for p in catalogue["procedures"] if name in p.get("inputs", [])] for name in feeds}
    return [(f, name, t) for name in feeds for f in feeds[name] or [CLIENTS] for t in takers[name] or [NOBODY]]


class Nest:
    """A box round the boxes of members: what it says of itself, the boxes, and the arrows between them."""

    def __init__(self, lines, boxes, links):
        self.lines, self.boxes, self.links = lines, boxes, links


def members_of(catalogue, names):
    """Of each member of a nest that is drawn its nest. Who is named twice is in the first."""
    found = {}
    for nest in catalogue["nests"]:
        for name in nest["procedures"]:
            if name in names:
                found.setdefault(name, nest["name"])
    return found


def nested(boxes, links, nests, catalogue):
    """The boxes and arrows of a drawing in which members, whose nests are given, stand inside of these."""
    touch = {p["name"]: touched(p["touch"]) for p in catalogue["procedures"]}
    members = {nest["name"]: [name for name in dict.fromkeys(nest["procedures"]) if nests.get(name) == nest["name"]] for nest in catalogue["nests"][::-1]}
    outer = {}
    for name, lines in boxes.items():
        nest = nests.get(name)
        if nest is None:
            outer[name] = lines
        elif name == members[nest][0]:  # the nest's place
            inside = [link for link in links if nests.get(link[0]) == nest and nests.get(link[2]) == nest]
            touches = dict.fromkeys(touch[member] for member in members[nest])
            outer[nest] = Nest([f"nest, {' and '.join(touches)}"], {member: boxes[member] for member in members[nest]}, inside)
    seen = [(nests.get(f, f), stream, nests.get(t, t)) for f, stream, t in links if f not in nests or nests[f] != nests.get(t)]
    return outer, list(dict.fromkeys(seen))


def tree(node, links, seen, front=""):
    """The arrows from a node on, in lines that are indented by what leads there."""
    mine = [link for link in links if link[0] == node]
    for number, (_, stream, taker) in enumerate(mine, 1):
        is_last, again = number == len(mine), taker in seen
        yield front + ("└─ " if is_last else "├─ ") + f"{stream} ─> {taker}" + (" (as above)" if again else "")
        seen.add(taker)
        if not again:
            yield from tree(taker, links, seen, front + ("   " if is_last else "│  "))


def tables_of(catalogue):
    """A line for each table: its name and where it is."""
    return [f"table {t['name']}, " + (f"split by {t['by']}" if "by" in t else f"part {t.get('part')}") for t in catalogue["tables"]]


def in_text(boxes, links, tables):
    """The drawing for a terminal."""
    seen = set()
    for root in sorted({link[0]: 0 for link in links}, key=lambda feeder: feeder != CLIENTS):
        if root not in seen:  # what no client reaches is fed by itself
            seen.add(root)
            yield from [root, *tree(root, links, seen), ""]
    for name, box in boxes.items():
        yield from framed(name, box) if isinstance(box, Nest) else [name, *("    " + line for line in box)]
    yield from ["", *tables] if tables else []


def framed(name, nest):
    """A nest for a terminal: its members behind a line at the left, and the streams between them."""
    yield from [f"┌─ {name}", *("│      " + line for line in nest.lines)]
    for member, lines in nest.boxes.items():
        yield from [f"│  {member}", *("│      " + line for line in lines)]
    yield from (f"│  {stream}: {feeder} ─> {taker}" for feeder, stream, taker in nest.links)
    yield "└─"


def back_links(links):
    """The arrows that lead back to where they come from, which an accepted catalogue has none of."""
    back, done = set(), set()

    def walk(node, path):
        for link in links:
            if link[0] == node and link[2] in path:
                back.add(link)
            elif link[0] == node and link[2] not in done:
                walk(link[2], path | {link[2]})
        done.add(node)
    for feeder, _, _ in links:
        if feeder not in done:
            walk(feeder, {feeder})
    return back


def columns_of(boxes, links):
    """The boxes of the workflows in columns, each behind those that feed it; an arrow that passes a column has a point there."""
    depth, back = {link[0]: 0 for link in links if link[0] == CLIENTS}, back_links(links)
    depth.update({node: 1 for link in links for node in link[::2] if node != CLIENTS})
    for _ in boxes:  # no path is longer
        for feeder, _, taker in (link for link in links if link not in back):
            depth[taker] = max(depth[taker], depth[feeder] + 1)
    columns, arrows = [[node for node in depth if depth[node] == at] for at in range(max(depth.values()) + 1)], []
    for feeder, stream, taker in links:
        points = [(feeder, stream, taker, at) for at in range(depth[feeder] + 1, depth[taker])]
        for point in points:
            columns[point[3]].append(point)
        arrows.append((stream, [feeder, *points, taker]))
    return [column for column in columns if column], arrows


def size_of(name, box):
    """The width and height of a box, or of a nest with all that is in it."""
    lines = box.lines if isinstance(box, Nest) else box
    width, height = max(map(len, [name, *lines])) * LETTER + 2 * PAD, (len(lines) + 1) * LINE + 2 * PAD
    if isinstance(box, Nest):
        _, _, wide, high = inside_of(box)
        width, height = max(width, wide), height + high
    return width, height


def inside_of(nest):
    """The arrows between members, where each member is, and the width and height that they take."""
    columns, arrows = columns_of(nest.boxes, nest.links) if nest.links else ([], [])
    apart = [name for name in nest.boxes if not any(name in column for column in columns)]  # where the nest is still refused
    at, height = placed([*columns, *([apart] if apart else [])], nest.boxes, max((len(link[1]) for link in nest.links), default=0))
    return arrows, at, max(left + width for left, _, width, _ in at.values()) + PAD, height


def placed(columns, boxes, widest):
    """Of each box and point its left, top, width and height, and the height of all."""
    at, left, sizes = {}, PAD, {n: size_of(n, boxes.get(n, [])) if isinstance(n, str) else (0, LINE) for c in columns for n in c}
    height = max(sum(sizes[n][1] + GAP for n in column) for column in columns)
    for column in columns:
        width, top = max((sizes[n][0] for n in column), default=0), PAD + (height - sum(sizes[n][1] + GAP for n in column)) / 2
        for node in column:
            at[node] = (left, top, sizes[node][0] or width, sizes[node][1])
            top += sizes[node][1] + GAP
        left += width + widest * LETTER + 2 * GAP
    return at, height


def in_rows(names, boxes, top, most):
    """Of each call its left, top, width and height, in rows, and where the last row ends."""
    at, left, high = {}, PAD, 0
    for name in names:
        width, height = size_of(name, boxes[name])
        if left > PAD and left + width > most:
            left, top, high = PAD, top + high + GAP, 0
        at[name] = (left, top, width, height)
        left, high = left + width + GAP, max(high, height)
    return at, top + high + GAP


def box_in_svg(name, box, place):
    """A box with its lines, and of a nest the members inside."""
    left, top, width, height = place
    lines, kind = (box.lines, ' class="nest"') if isinstance(box, Nest) else (box, "")
    yield f'<rect{kind} x="{left:.0f}" y="{top:.0f}" width="{width:.0f}" height="{height:.0f}" rx="5"/>'
    for number, line in enumerate([name, *lines]):
        kind = "" if number else ' class="name"'
        indent = (len(line) - len(line.lstrip())) * LETTER
        yield f'<text{kind} x="{left + PAD + indent:.0f}" y="{top + PAD + LINE * (number + 0.7):.0f}">{html.escape(line.strip())}</text>'
    if isinstance(box, Nest):
        arrows, at, _, _ = inside_of(box)
        yield f'<g transform="translate({left:.0f} {top + (len(lines) + 1) * LINE + PAD:.0f})">'
        yield from drawn_in_svg(arrows, at, box.boxes)
        yield "</g>"


def drawn_in_svg(arrows, at, boxes):
    """Arrows, and the boxes that they lead to."""
    ports = ports_of(arrows, at)
    for stream, stops in arrows:
        yield from arrow_in_svg(stream, stops, at, ports)
    for name in (node for node in at if isinstance(node, str)):
        yield from box_in_svg(name, boxes.get(name, []), at[name])


def arrow_in_svg(stream, stops, at, ports):
    """An arrow through its stops, with its stream's name at the beginning. Arrows at one box part by their ports."""
    for number, (here, there) in enumerate(zip(stops, stops[1:])):
        (left, top, width, height), (to, its_top, _, its_height) = at[here], at[there]
        x, y = left + width, top + height * ports[here, "out", stream, stops[-1]]
        end_y = its_top + its_height * ports[there, "in", stream, stops[0]]
        bend, tip = (to - x) / 2, ' marker-end="url(#tip)"' if there == stops[-1] else ""
        bend, low = (bend, 0) if bend > 0 else (3 * GAP, height + its_height)  # one that leads back goes below the boxes
        yield f'<path d="M{x:.0f} {y:.0f} C{x + bend:.0f} {y + low:.0f} {to - bend:.0f} {end_y + low:.0f} {to:.0f} {end_y:.0f}"{tip}/>'
        if here != stops[-1] and not isinstance(here, str):
            yield f'<path d="M{left:.0f} {y:.0f} H{x:.0f}"/>'
        if number == 0:
            yield f'<text x="{x + PAD:.0f}" y="{y - 5:.0f}">{html.escape(stream)}</text>'


def ports_of(arrows, at):
    """Of each end of an arrow how far down its box it is, from 0 to 1: in the order in which the boxes at the other ends stand."""
    ends = {}
    for stream, stops in arrows:
        for here, there in zip(stops, stops[1:]):
            ends.setdefault((here, "out"), []).append((at[there][1], stream, stops[-1]))
            ends.setdefault((there, "in"), []).append((at[here][1], stream, stops[0]))
    return {(*node, *end[1:]): (number + 1) / (len(all_of) + 1) for node, all_of in ends.items() for number, end in enumerate(sorted(all_of))}


def in_svg(boxes, links, tables):
    """The drawing for a browser: workflows from left to right, the calls in rows below, and the tables."""
    columns, arrows = columns_of(boxes, links) if links else ([[]], [])
    at, top = placed(columns, boxes, max((len(link[1]) for link in links), default=0))
    most = max([900.0] + [left + width for left, _, width, _ in at.values()])
    below, top = in_rows([name for name in boxes if name not in at], boxes, PAD + top, most)
    at.update(below)
    width = max([200 * bool(tables)] + [left + width for left, _, width, _ in at.values()]) + PAD
    height = top + LINE * (len(tables) + 1)
    yield f'<svg xmlns="http://www.w3.org/2000/svg" width="{width:.0f}" height="{height:.0f}"><style>{STYLE}</style>'
    yield '<defs><marker id="tip" markerWidth="9" markerHeight="8" refX="8" refY="4" orient="auto">'
    yield '<path d="M0 0 L8 4 L0 8 z" style="fill:#567"/></marker></defs>'
    yield f'<rect width="{width:.0f}" height="{height:.0f}" style="fill:#fff;stroke:none"/>'
    yield from drawn_in_svg(arrows, at, boxes)
    for number, line in enumerate(tables):
        yield f'<text x="{PAD}" y="{top + LINE * (number + 0.7):.0f}">{html.escape(line)}</text>'
    yield "</svg>"


def installed(path, catalogue):
    """Gives procedures the bodies that requests of an input install, and notes their lines."""
    procedures, is_behind = {p["name"]: p for p in catalogue["procedures"]}, False
    for number, line in enumerate(file_text(path).split("\n"), 1):
        request = json_value(line, path, number) if is_behind and line.strip(" \t\r") else None
        is_behind = is_behind or bool(line.strip(" \t\r"))
        if isinstance(request, dict) and "install" in request:
            has_form(request, {"install": {*procedures}, "body": [STEP], "client?": int}, f"{path}: line {number}: $")
            procedures[request["install"]].update(body=request["body"], line=number)


def main():
    parser = options(__doc__)
    parser.add_argument("catalogue", metavar="CATALOGUE", help="an input, or a file with the catalogue alone")
    parser.add_argument("--installed", action="store_true", help="draw procedures with the bodies that the input installs")
    parser.add_argument("--svg", action="store_true", help="make SVG, which a browser shows")
    parser.add_argument("--streams", action="store_true", help="leave out calls and tables")
    asked = parser.parse_args()
    catalogue = catalogue_of(asked.catalogue)
    if asked.installed:
        installed(asked.catalogue, catalogue)
    feeds = feeds_of(catalogue)
    kept = [p for p in catalogue["procedures"] if p["kind"] != "call" or not asked.streams]
    boxes = {p["name"]: lines_of(p, catalogue, feeds) for p in kept}
    if not boxes:
        raise Wrong(f"{asked.catalogue}: the catalogue has no procedure to draw")
    tables = [] if asked.streams else tables_of(catalogue)
    boxes, links = nested(boxes, links_of(catalogue, feeds), members_of(catalogue, boxes), catalogue)
    for line in (in_svg if asked.svg else in_text)(boxes, links, tables):
        print(line)


if __name__ == "__main__":
    end(main)
