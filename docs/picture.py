#!/usr/bin/env python3
"""Draws docs/crates.svg from crates.txt, docs/call.svg and docs/callers.svg. Needs no package.

    docs/picture.py           writes the pictures
    docs/picture.py --check   tells whether they are what this script makes
"""
import math, os, sys
from functools import lru_cache

docs = os.path.dirname(os.path.abspath(__file__))
root = os.path.dirname(docs)

# kind: fill, border, what the legend says
KINDS = {
    "shared": ("#ececec", "#5a5a5a", "shared: numbers, complexes, sheets, the law, rows"),
    "u1": ("#d4e6f9", "#2464a8", "U(1)"),
    "z2": ("#fde0c5", "#b85a17", "Z2 (su2)"),
    "exports": ("#d5efd8", "#2c7a45", "exports: the static library"),
    "programs": ("#e8def6", "#6a45b0", "text, programs, worked cases"),
}
U1 = "law_check cycles walker cursor enumeration hilbert shifts plaquettes hamiltonian moves entries csr lanczos electric wilson".split()
PROGRAMS = "lines refusals pages streams basis recorded recorded_fields replay cases".split()
FONT = 'font-family="Helvetica, Arial, sans-serif"'


def kind_of(name):
    if name == "zibrotka" or name.endswith("exports"):
        return "exports"
    if name in PROGRAMS or name.endswith("_recorded"):
        return "programs"
    if name.startswith("su2_"):
        return "z2"
    return "u1" if name in U1 else "shared"


# ---- the crates and their layers
def read_crates():
    """Each crate with the crates of this repository that its line names."""
    lines = {}
    with open(os.path.join(root, "crates.txt"), encoding="utf-8") as f:
        for line in f:
            name, colon, named = line.split("#")[0].partition(":")
            if colon:
                lines[name.split()[0]] = named.split()
    return {name: {d for d in named if d in lines} for name, named in lines.items()}


def reduced(crates):
    """Only the dependencies that do not follow from others."""

    @lru_cache(None)
    def below(name):
        return frozenset(crates[name]).union(*(below(d) for d in crates[name]))

    return {name: sorted(d for d in deps if not any(d in below(e) for e in deps if e != d)) for name, deps in crates.items()}


def layers_of(arrows):
    """A layer for each crate, above all that it stands on; crates then move to where their arrows are short."""

    @lru_cache(None)
    def lowest(name):
        return 1 + max((lowest(d) for d in arrows[name]), default=-1)

    layer = {name: lowest(name) for name in arrows}
    users = {name: [u for u in arrows if name in arrows[u]] for name in arrows}
    for _ in range(len(arrows)):
        for name in sorted(arrows):
            if len(users[name]) >= len(arrows[name]) and users[name]:
                layer[name] = min(layer[u] for u in users[name]) - 1
    return layer


# ---- the layout: a long arrow has a bend in each layer that it goes through
def with_bends(arrows, layer):
    rows = [[] for _ in range(max(layer.values()) + 1)]
    for name in sorted(layer, key=lambda n: (list(KINDS).index(kind_of(n)), n)):
        rows[layer[name]].append(name)
    down, chains = {name: [] for name in layer}, []
    for name in sorted(arrows):
        for d in arrows[name]:
            chain = [name]
            for k in range(layer[name] - 1, layer[d], -1):
                bend = (name, d, k)
                rows[k].append(bend)
                down[bend] = []
                down[chain[-1]].append(bend)
                chain.append(bend)
            down[chain[-1]].append(d)
            chains.append(chain + [d])
    up = {node: [] for node in down}
    for node, below in down.items():
        for d in below:
            up[d].append(node)
    return rows, down, up, chains


def crossings(rows, down):
    total = 0
    for k in range(1, len(rows)):
        at = {node: i for i, node in enumerate(rows[k - 1])}
        ends = [sorted(at[d] for d in down[node]) for node in rows[k]]
        for i in range(len(ends)):
            for j in range(i):
                total += sum(1 for a in ends[j] for b in ends[i] if a > b)
    return total


def ordered(rows, down, up):
    """The order in each layer, by the mean place of the neighbours, then by swaps; the best that is seen."""
    best, fewest = [row[:] for row in rows], crossings(rows, down)
    for turn in range(60):
        indices = range(1, len(rows)) if turn % 2 == 0 else range(len(rows) - 2, -1, -1)
        for k in indices:
            other, near = (rows[k - 1], down) if turn % 2 == 0 else (rows[k + 1], up)
            at = {node: i for i, node in enumerate(other)}
            mean = {node: sum(at[m] for m in near[node]) / len(near[node]) if near[node] else i for i, node in enumerate(rows[k])}
            rows[k].sort(key=lambda node: mean[node])
        changed = True
        while changed:
            changed = False
            for row in rows:
                for i in range(len(row) - 1):
                    if swap_gain(row[i], row[i + 1], rows, down, up) > 0:
                        row[i], row[i + 1] = row[i + 1], row[i]
                        changed = True
        now = crossings(rows, down)
        if now < fewest:
            best, fewest = [row[:] for row in rows], now
    return best


def swap_gain(a, b, rows, down, up):
    gain = 0
    for near in (down, up):
        if near[a] and near[b]:
            other = next(row for row in rows if near[a][0] in row)
            at = {node: i for i, node in enumerate(other)}
            for m in near[a]:
                for n in near[b]:
                    gain += (at[m] > at[n]) - (at[m] < at[n])
    return gain


def width(node):
    return 7.4 * len(node) + 22 if isinstance(node, str) else 10


def spread(row, wanted, weight):
    """Places as near to the wanted ones as the widths allow, by pooling neighbours that push each other."""
    offset, total = [], 0.0
    for i, node in enumerate(row):
        total += 0 if i == 0 else (width(row[i - 1]) + width(node)) / 2 + 18
        offset.append(total)
    pools = []
    for i, node in enumerate(row):
        pools.append([wanted[node] - offset[i], weight(node), 1])
        while len(pools) > 1 and pools[-2][0] > pools[-1][0]:
            x, w, n = pools.pop()
            y, v, m = pools[-1]
            pools[-1] = [(x * w + y * v) / (w + v), w + v, n + m]
    places = [x for x, _, n in pools for _ in range(n)]
    return {node: places[i] + offset[i] for i, node in enumerate(row)}


def placed(rows, down, up):
    x = {}
    for row in rows:
        x.update(spread(row, {node: 120.0 * i for i, node in enumerate(row)}, lambda n: 1))
    for turn in range(200):
        for row in rows if turn % 2 == 0 else reversed(rows):
            wanted = {}
            for node in row:
                near = down[node] + up[node]
                wanted[node] = math.fsum(x[m] for m in near) / len(near) if near else x[node]
            x.update(spread(row, wanted, lambda n: 1 if isinstance(n, str) else 4))
    left = min(x[node] - width(node) / 2 for node in x)
    return {node: x[node] - left + 30 for node in x}


# ---- drawing
def text(x, y, words, size=13, anchor="middle", colour="#1a1a1a", weight="normal"):
    words = words.replace("&", "&amp;").replace("<", "&lt;").replace(">", "&gt;")
    return f'<text x="{x:.0f}" y="{y:.0f}" font-size="{size}" text-anchor="{anchor}" fill="{colour}" font-weight="{weight}">{words}</text>'


def box(x, y, w, h, fill, border):
    return f'<rect x="{x:.0f}" y="{y:.0f}" width="{w:.0f}" height="{h:.0f}" rx="5" fill="{fill}" stroke="{border}" stroke-width="1.4"/>'


def arrow_head(x, y, colour):
    return f'<path d="M{x:.0f} {y:.0f} l-4 -8 h8 z" fill="{colour}"/>'


def svg(w, h, title, parts):
    head = f'<svg xmlns="http://www.w3.org/2000/svg" viewBox="0 0 {w:.0f} {h:.0f}" width="{w:.0f}" height="{h:.0f}" {FONT}>'
    return "\n".join([head, f"<title>{title}</title>", f'<rect width="{w:.0f}" height="{h:.0f}" fill="#ffffff"/>', *parts, "</svg>", ""])


def crates_picture():
    arrows = reduced(read_crates())
    layer = layers_of(arrows)
    rows, down, up, chains = with_bends(arrows, layer)
    rows = ordered(rows, down, up)
    x = placed(rows, down, up)
    gap, box_height, top = 84, 28, 110
    y = {node: top + gap * (len(rows) - 1 - k) for k, row in enumerate(rows) for node in row}
    lines, heads, boxes = [], [], []
    for chain in chains:
        colour = KINDS[kind_of(chain[0])][1]
        faint = ' stroke-dasharray="4 4" opacity="0.55"' if chain[0] == "cases" else ' opacity="0.8"'
        px, py = x[chain[0]], y[chain[0]] + box_height / 2
        path = [f"M{px:.0f} {py:.0f}"]
        for node in chain[1:]:
            qx, qy = x[node], y[node] - (box_height / 2 + 8 if isinstance(node, str) else 0)
            path.append(f"C{px:.0f} {py + gap * 0.42:.0f} {qx:.0f} {qy - gap * 0.42:.0f} {qx:.0f} {qy:.0f}")
            px, py = qx, qy
        lines.append(f'<path d="{" ".join(path)}" fill="none" stroke="{colour}" stroke-width="1.3"{faint}/>')
        heads.append(arrow_head(px, py + 8, colour))
    for name in layer:
        fill, border, _ = KINDS[kind_of(name)]
        w = width(name)
        boxes += [box(x[name] - w / 2, y[name] - box_height / 2, w, box_height, fill, border), text(x[name], y[name] + 5, name)]
    right = max(x[node] + width(node) / 2 for node in x) + 30
    legend = [text(30, 34, "The crates", 20, "start", weight="bold")]
    legend.append(text(30, 56, "An arrow goes from a crate to one that it stands on. What follows from other arrows is not drawn. The arrows of cases are dashed.", 13, "start"))
    at = 30
    for fill, border, words in KINDS.values():
        legend += [box(at, 68, 18, 14, fill, border), text(at + 25, 80, words, 13, "start")]
        at += 25 + 6.6 * len(words) + 28
    return svg(max(right, at), top + gap * (len(rows) - 1) + 40, "The crates and what they stand on", legend + lines + heads + boxes)


# ---- a call: what is done, what comes of it, where it stands, what is refused there
STEPS = [
    ("sheet bytes", "11 + 2E + 3T bytes", None, None),
    ("read_sheet", "makes a record: V, E, T, the edges, the triangles, and L", "sheet", "1 to 6"),
    ("judge", "accepts the complex; a call on a record begins here", "acceptance", "4, 5, 7, 8, 9"),
    ("prepare", "U(1): tree, free edges, cycles. Z2: closing edges, their loops", "enumeration; su2_even_sets", "10"),
    ("the call's own tests", "lengths, numbers, floats, room, band; states are counted if need be", "the call's crate", "12 to 17"),
    ("walk", "goes over the states; only now lists are written", "walker, cursor; su2_masks", None),
    ("lists and value", "basis, matrix, row lists, product or expectation", "lent by the caller", None),
]


def call_picture():
    grey, blue, red = KINDS["shared"], KINDS["u1"], ("#fbd9d9", "#a32a2a")
    left, w, h, gap, top = 40, 520, 54, 84, 76
    parts = [text(left, 36, "What flows through a call", 20, "start", weight="bold")]
    parts.append(text(left, 58, "A refusal is one number, the smallest that holds; every lent list then stays as it was.", 13, "start"))
    for k, (name, words, where, refused) in enumerate(STEPS):
        y = top + gap * k
        fill, border, _ = grey if k in (0, len(STEPS) - 1) else blue
        parts += [box(left, y, w, h, fill, border), text(left + 14, y + 23, name, 15, "start", weight="bold"), text(left + 14, y + 43, words, 12.5, "start")]
        if where:
            parts.append(text(left + w - 12, y + 23, where, 12, "end", "#444444"))
        if k + 1 < len(STEPS):
            x = left + 60
            parts += [f'<path d="M{x} {y + h} V{y + gap - 8}" stroke="#333333" stroke-width="1.6" fill="none"/>', arrow_head(x, y + gap, "#333333")]
        if refused:
            parts.append(f'<path d="M{left + w} {y + h / 2:.0f} H{left + w + 62}" stroke="{red[1]}" stroke-width="1.6" fill="none"/>')
            parts.append(f'<path d="M{left + w + 70} {y + h / 2:.0f} l-8 -4 v8 z" fill="{red[1]}"/>')
            parts += [box(left + w + 70, y + 11, 150, 32, *red), text(left + w + 145, y + 32, f"refused {refused}", 13)]
    return svg(left + w + 70 + 150 + 40, top + gap * (len(STEPS) - 1) + h + 30, "What flows through a call", parts)


# ---- what stands on the exported calls: who calls, through what, in which form the library comes
CALLERS = [
    ("C", "include/zibrotka.h", "libzibrotka.a, libzibrotka.so"),
    ("Rust", "bindings/rust", "libzibrotka.a"),
    ("Python", "bindings/python", "libzibrotka.so"),
    ("the page", "web", "zibrotka.wasm"),
]


def callers_picture():
    green, blue, grey = KINDS["exports"], KINDS["u1"], KINDS["shared"]
    left, w, h, gap, top = 40, 190, 46, 40, 76
    ys = [top, top + 120, top + 240]
    wide = len(CALLERS) * w + (len(CALLERS) - 1) * gap
    parts = [text(left, 36, "What stands on the exported calls", 20, "start", weight="bold")]
    parts.append(text(left, 58, "Above the line nothing is proved; it hands over what it is given, judges types, lengths and overlaps, and is tested.", 13, "start"))
    for k, (who, through, form) in enumerate(CALLERS):
        x = left + k * (w + gap)
        middle = x + w / 2
        parts += [box(x, ys[0], w, h, grey[0], grey[1]), text(middle, ys[0] + 20, who, 15, weight="bold"), text(middle, ys[0] + 37, through, 12)]
        parts += [box(x, ys[1], w, h, blue[0], blue[1]), text(middle, ys[1] + 28, form, 12)]
        for y in ys[:2]:
            parts += [f'<path d="M{middle:.0f} {y + h} V{y + 112}" stroke="#333333" stroke-width="1.6" fill="none"/>', arrow_head(middle, y + 120, "#333333")]
    line = (ys[1] + h + ys[2]) / 2 - 6
    parts.append(f'<path d="M{left - 20} {line:.0f} H{left + wide + 20}" stroke="#a32a2a" stroke-width="1.4" stroke-dasharray="6 5" fill="none"/>')
    parts += [box(left, ys[2], wide, h + 10, green[0], green[1]), text(left + wide / 2, ys[2] + 23, "crates/zibrotka: the exported calls", 15, weight="bold")]
    parts.append(text(left + wide / 2, ys[2] + 43, "proved; compiled once, to one LLVM module", 13))
    return svg(left * 2 + wide, ys[2] + h + 40, "What stands on the exported calls", parts)


PICTURES = {"crates.svg": crates_picture, "call.svg": call_picture, "callers.svg": callers_picture}


def main():
    wrong = 0
    for name, draw in PICTURES.items():
        picture = draw()
        path = os.path.join(docs, name)
        if sys.argv[1:] != ["--check"]:
            with open(path, "w", encoding="utf-8") as f:
                f.write(picture)
            continue
        with open(path, encoding="utf-8") as f:
            if f.read() != picture:
                wrong = 1
                print(f"docs/{name} is not what docs/picture.py makes: run it")
    return wrong


if __name__ == "__main__":
    sys.exit(main())
