#!/usr/bin/env python3
"""Draws the map of crates, docs/crates.svg, from crates.txt alone: a box for each crate, in the box of its group; along a line what stands higher
leans on what stands lower.

usage: tools/make/crate_map.py            writes the drawing
       tools/make/crate_map.py --check    the drawing is that of crates.txt
"""
import random
import sys
import textwrap
from functools import cache
from html import escape
from math import fsum
from pathlib import Path

ROOT = Path(__file__).resolve().parents[2]
MAP = ROOT / "docs/crates.svg"
# nearly every crate names these: lines to them are drawn within their own group alone
HUBS = ("bson", "laws")
# of the orders of columns that were tried first the one that ends plainest
SEED = 11
COLOURS = ("#64748b", "#2b6c99", "#0f766e", "#4d7c0f", "#a16207", "#be5a12", "#be123c", "#7e22ce", "#475569", "#1d4ed8", "#78716c")
WIDTH, MARGIN, PAD, BEND, HEAD, TITLE, NAME, LINE, TRACK = 1100, 14, 9, 28, 130, 16, 24, 13, 8
STYLE = (
    "text{font:11px sans-serif;fill:#334155}.head{font-size:17px;font-weight:bold;fill:#1d2630}.name{font-size:13px;font-weight:bold;fill:#1d2630}"
    ".title{font-weight:bold;fill:#ffffff}.middle{text-anchor:middle}.line{fill:none;stroke-width:1.6}"
)


# ---- crates.txt


def read(text):
    """Of each crate its group, those that it names, and what it is."""
    group, names, what, label, above = {}, {}, {}, "", ""
    for line in text.splitlines():
        code, _, comment = line.partition("#")
        comment = comment.strip()
        if comment.startswith("----"):
            label, comment = comment.strip("- "), ""
        elif code:
            line, _, named = code.partition(":")
            crate = line.split()[0]
            group[crate], names[crate], what[crate] = label, named.split(), comment or above
        above = "" if code else comment
    return group, names, what


def leaning(group, names):
    """Of each crate those to which a line leads: without the hubs, and without what another of them leans on."""
    lower = {c: [d for d in ds if d in group and (d not in HUBS or group[d] == group[c])] for c, ds in names.items()}

    @cache
    def under(crate):
        return {d for e in lower[crate] for d in (e, *under(e))}

    return {c: [d for d in ds if not any(d in under(e) for e in ds)] for c, ds in lower.items()}


def knotted(group, lower):
    """Crates of a group that lean on the same, and on which the same lean, are tied to these by a knot below them and one above."""
    twins = {}
    for c, ds in lower.items():
        users = [u for u in lower if c in lower[u]]
        twins.setdefault((group[c], tuple(ds), tuple(users)), []).append(c)
    for (label, ds, users), crates in twins.items():
        if len(crates) > 1 < len(ds):
            knot = "below " + crates[0]
            group[knot], lower = label, lower | {knot: list(ds)} | {c: [knot] for c in crates}
        if len(crates) > 1 < len(users):
            knot = "above " + crates[0]
            group[knot], lower = label, lower | {knot: crates} | {u: [knot, *(d for d in lower[u] if d not in crates)] for u in users}
    return lower


def rows_of(lower):
    """The row of each crate, 0 the lowest: above all that it leans on; one that leans on nothing just below the first that leans on it."""

    @cache
    def row(crate):
        return 1 + max(map(row, lower[crate]), default=-1)

    users = {d: [row(c) for c in lower if d in lower[c]] for d in lower}
    return {c: min(users[c]) - 1 if users[c] and not ds else row(c) for c, ds in lower.items()}


# ---- what stands in each row


class Item:
    """A crate, a knot, or where a line passes a row: how wide, and where its middle is."""

    def __init__(self, row, text=()):
        self.row, self.text, self.x, self.near = row, text, 0.0, []
        self.width = max(8.6 * len(text[0]), 6.1 * max(map(len, text[1:]), default=0)) + 10 if text else TRACK


class Column:
    """A group, or a line that passes rows beside the groups: no other column stands among its items."""

    def __init__(self, label, items):
        self.label, self.x, self.items, self.rows = label, 0.0, items, {}
        for item in items:
            self.rows.setdefault(item.row, []).append(item)
        self.low, self.high = min(self.rows), max(self.rows)
        inner = max(fsum(i.width + PAD for i in row) - PAD for row in self.rows.values())
        self.width = max(inner + 2 * PAD, min(222, 7 * len(label) + 20)) if label else inner
        self.title = textwrap.wrap(label, int(self.width / 6.6))


def tracks_of(edges, group):
    """Lines that pass rows beside the groups, together from one crate to those of a group, or from these to one: the most at a time."""
    tracks = []
    while edges:
        ends = [end for c, d in edges for end in ((c, group[d]), (group[c], d))]
        end = max(ends, key=ends.count)
        tracks.append([(c, d) for c, d in edges if end in ((c, group[d]), (group[c], d))])
        edges = [edge for edge in edges if edge not in tracks[-1]]
    return tracks


def columns_of(group, lower, items):
    """The columns, and each line as the items on its way, from below."""
    ways, slots, far = {}, {}, []
    for c, ds in lower.items():
        for d in ds:
            passed = range(items[d].row + 1, items[c].row)
            if passed and group[c] != group[d]:
                far.append((c, d))
            ways[c, d] = [slots.setdefault((d, group[c], r), Item(r)) for r in passed if group[c] == group[d]]
    inside = [*((items[c], group[c]) for c in lower), *((item, label) for (_, label, _), item in slots.items())]
    columns = [Column(label, [i for i, l in inside if l == label]) for label in dict.fromkeys(group.values())]
    for edges in tracks_of(far, group):
        low, high = min(items[d].row for _, d in edges) + 1, max(items[c].row for c, _ in edges)
        columns.append(Column("", [Item(r) for r in range(low, high)]))
        for c, d in edges:
            ways[c, d] = [i for i in columns[-1].items if items[d].row < i.row < items[c].row]
    return columns, [[items[d], *way, items[c]] for (c, d), way in ways.items()]


def tie(columns, lines):
    """Each item to those next to it on a line, and each column to those of others."""
    for line in lines:
        for a, b in zip(line, line[1:]):
            a.near.append(b)
            b.near.append(a)
    for c in columns:
        c.ties = [(i, n) for i in c.items for n in i.near if n not in c.items] or [(c.items[0], c.items[0])]


# ---- where it stands


def bounds(columns, k, page):
    """How far to the left and to the right a column can stand between those beside it."""
    c, low, high = columns[k], MARGIN, page - MARGIN
    for i, o in enumerate(columns):
        if i != k and o.low <= c.high and c.low <= o.high:
            if i < k:
                low = max(low, o.x + o.width + PAD)
            else:
                high = min(high, o.x - PAD)
    return low, high - c.width


def between(low, x, high):
    return max(low, min(x, high)) if low <= high else (low + high) / 2


def mean(numbers):
    return fsum(numbers) / len(numbers)


def spread(column):
    """The items of a column as near to what they are tied to as those beside them allow."""
    pad = PAD if column.label else 0
    for row in column.rows.values():
        for k, item in enumerate(row):
            low = row[k - 1].x + row[k - 1].width / 2 + PAD if k else column.x + pad
            high = row[k + 1].x - row[k + 1].width / 2 - PAD if k + 1 < len(row) else column.x + column.width - pad
            item.x = between(low + item.width / 2, mean([i.x for i in item.near] or [item.x]), high - item.width / 2)


def place(columns):
    """All to the left, and the items of each row one beside the other; how wide a page it takes."""
    for k, c in enumerate(columns):
        c.x = max([MARGIN, *(o.x + o.width + PAD for o in columns[:k] if o.low <= c.high and c.low <= o.high)])
        for row in c.rows.values():
            x = c.x + (c.width - fsum(i.width + PAD for i in row) + PAD) / 2
            for item in row:
                item.x = x + item.width / 2
                x += item.width + PAD
    return max(WIDTH, round(max(c.x + c.width for c in columns)) + MARGIN)


def settle(columns, page, times):
    """Each column as near to what it is tied to as those beside it allow, in turns from either end."""
    for t in range(times):
        for k in sorted(range(len(columns)), reverse=t % 2 == 0):
            c = columns[k]
            low, high = bounds(columns, k, page)
            x = between(low, c.x + mean([b.x - a.x for a, b in c.ties]), high)
            for item in c.items:
                item.x += x - c.x
            c.x = x
            spread(c)


def cost(page, lines):
    """How far lines go aside, how often they cross, and how much wider the page is."""
    pieces = sorted({(a.row, a.x, b.x) for line in lines for a, b in zip(line, line[1:])})
    crossed = sum(p[0] == q[0] and p[2] > q[2] and p[1] < q[1] for i, p in enumerate(pieces) for q in pieces[i + 1 :])
    return fsum(abs(a - b) for _, a, b in pieces) + 60 * crossed + 100 * (page - WIDTH)


def tried(columns, lines):
    page = place(columns)
    settle(columns, page, 6)
    return cost(page, lines)


def moves(columns):
    """Each way to put a column elsewhere in their order, or an item elsewhere in its row."""
    for row in (columns, *(row for c in columns for row in c.rows.values())):
        for k in range(len(row)):
            for j in range(len(row)):
                if k != j:
                    yield row, k, j


def arrange(columns, lines):
    """Changes the order, from one by chance, as long as that makes the drawing plainer; how wide a page it takes."""
    chance = random.Random(SEED)
    columns.sort(key=lambda _: chance.random())
    best, before = tried(columns, lines), None
    while best != before:
        before = best
        for row, k, j in moves(columns):
            row.insert(j, row.pop(k))
            now = tried(columns, lines)
            if now < best - 0.001:
                best = now
            else:
                row.insert(k, row.pop(j))
    page = place(columns)
    settle(columns, page, 200)
    return page


def mirror(columns, page):
    for c in columns:
        c.x = page - c.x - c.width
        for item in c.items:
            item.x = page - item.x


# ---- the drawing


def heights(columns, items):
    """For each row where lines bend above it, its upper and its lower edge, and where lines bend below it; and where all ends."""
    y, edges = HEAD, {}
    for r in range(max(i.row for i in items.values()), -1, -1):
        titles = [len(c.title) for c in columns if c.label and c.high == r]
        top = y + (PAD + TITLE * max(titles) + 4 if titles else 0)
        low = top + max([NAME + LINE * (len(i.text) - 1) for i in items.values() if i.row == r and i.text])
        end = low + (PAD if any(c.label and c.low == r for c in columns) else 0)
        edges[r] = (y, top, low, end)
        y = end + BEND
    return edges, y - BEND + MARGIN


def curve(line, edges, colour):
    """A line upward: straight beside each row and its titles, bent between rows."""
    parts = [f"M{line[0].x:.0f} {edges[line[0].row][1]}"]
    for a, b in zip(line, line[1:]):
        y, z = edges[a.row][0], edges[b.row][3]
        parts.append(f"V{y} C{a.x:.0f} {(y + z) / 2:.0f} {b.x:.0f} {(y + z) / 2:.0f} {b.x:.0f} {z}")
    parts.append(f"V{edges[line[-1].row][2]}")
    return f'<path class="line" stroke="{colour}" d="{" ".join(parts)}"/>'


def group_box(c, edges, colour):
    y, z = edges[c.high][1] - PAD - TITLE * len(c.title) - 4, edges[c.low][2] + PAD
    box = f'<rect x="{c.x:.0f}" y="{y}" width="{c.width:.0f}" height="{z - y}" rx="6" fill="{colour}" fill-opacity="0.10" stroke="{colour}"/>'
    bar = [f'<rect x="{c.x:.0f}" y="{y}" width="{c.width:.0f}" height="{TITLE * len(c.title) + 4}" rx="6" fill="{colour}"/>']
    bar += [f'<text class="title" x="{c.x + 8:.0f}" y="{y + TITLE * k + 14}">{escape(t)}</text>' for k, t in enumerate(c.title)]
    return box, "\n".join(bar)


def crate_box(item, edges, colour, dashed):
    _, y, z, _ = edges[item.row]
    dash = ' stroke-dasharray="5 3"' if dashed else ""
    x, frame = item.x - item.width / 2, f'fill="#ffffff" stroke="{colour}"{dash}'
    out = [f'<rect x="{x:.0f}" y="{y}" width="{item.width:.0f}" height="{z - y}" rx="4" {frame}/>']
    for k, t in enumerate(item.text):
        out.append(f'<text class="{"middle" if k else "name middle"}" x="{item.x:.0f}" y="{y + 16 + LINE * k + (2 if k else 0)}">{escape(t)}</text>')
    return "<g><title>" + escape(": ".join((item.text[0], " ".join(item.text[1:])))) + "</title>" + "\n".join(out) + "</g>"


def knot(item, edges, colour):
    _, y, z, _ = edges[item.row]
    dot = f'<circle cx="{item.x:.0f}" cy="{(y + z) / 2:.0f}" r="4" fill="{colour}"/>'
    return f'<path class="line" stroke="{colour}" d="M{item.x:.0f} {z} V{y}"/>{dot}'


def listed(crates):
    return " and ".join([", ".join(crates[:-1]), crates[-1]] if len(crates) > 1 else crates) or "none"


def notes(names, apart):
    """What the drawing leaves out; `apart` are the crates that do not name the hubs."""

    @cache
    def reached(crate):
        return {crate, *(e for d in names.get(crate, ()) for e in reached(d))}

    through = [c for c in apart if reached(c) & set(HUBS)]
    neither = [c for c in apart if c not in through]
    outside = [d for d in dict.fromkeys(sum(names.values(), [])) if d not in names]
    outward = [c for c in names if set(outside) & set(names[c])]
    yield "Along a line the crate that stands higher leans on the one that stands lower; at a dot all above it lean on all below it."
    yield "What a crate names besides, and leans on through another crate too, is not drawn again."
    yield f"Nor are {listed(HUBS)}, which each crate names but for those with a dashed frame: {listed(through)} lean on them through others,"
    yield f"{listed(neither)} on neither." + (f" {listed(outside)} are the toolchain's: {listed(outward)} name them." if outside else "")


def drawing(text):
    group, names, what = read(text)
    apart = [c for c in names if c not in HUBS and not set(HUBS) <= set(names[c])]
    lower = knotted(group, leaning(group, names))
    rows = rows_of(lower)
    items = {c: Item(rows[c], (c, *textwrap.wrap(what[c], 24)) if c in what else ()) for c in lower}
    columns, lines = columns_of(group, lower, items)
    tie(columns, lines)
    first = columns[0]
    width = arrange(columns, lines)
    if first.x > width / 2:
        mirror(columns, width)
    edges, height = heights(columns, items)
    colours = dict(zip(dict.fromkeys(group.values()), COLOURS * len(group)))
    colour = {items[c]: colours[label] for c, label in group.items()}
    boxes, bars = zip(*(group_box(c, edges, colours[c.label]) for c in columns if c.label))
    curves = [curve(line, edges, colour[line[0]]) for line in lines]
    crates = [crate_box(i, edges, colour[i], c in apart) if i.text else knot(i, edges, colour[i]) for c, i in items.items()]
    said = [f'<text x="{MARGIN}" y="{54 + 16 * k}">{escape(t)}</text>' for k, t in enumerate(notes(names, apart))]
    head = f'<text class="head" x="{MARGIN}" y="30">The crates, in their groups, and which leans on which</text>'
    return "\n".join([
        f'<svg xmlns="http://www.w3.org/2000/svg" width="{width}" height="{height}" viewBox="0 0 {width} {height}" role="img">',
        "<title>The crates, in their groups, and which leans on which</title>",
        f"<style>{STYLE}</style>",
        f'<rect width="{width}" height="{height}" fill="#ffffff"/>',
        *(head, *said, *boxes, *curves, *bars, *crates),
        "</svg>\n",
    ])


def main():
    made = drawing((ROOT / "crates.txt").read_text())
    if "--check" not in sys.argv[1:]:
        MAP.write_text(made)
    differs = not MAP.exists() or MAP.read_text() != made
    print("the map of crates" + ("; docs/crates.svg differs" if differs else ""))
    sys.exit(1 if differs else 0)


if __name__ == "__main__":
    main()
