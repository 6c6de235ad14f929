#!/usr/bin/env python3
"""Draws the crates by layer: docs/crates.svg is what it writes.

usage, at the top of the repository: docs/crates.py

The layers are those of crates.txt, its comment lines, the lowest first. A line of the drawing is left out where it
follows from others. Boxes of a row, and the places where a line crosses it, are ordered by the middle of what they are
joined with.
"""

import re
import sys

WIDTH, LEFT, RIGHT = 1300, 190, 1280
BOX, HEIGHT, ROW, BAND_GAP, TOP = 126, 32, 62, 16, 64
BENT = 16
COLOURS = [
    ("#eeeeee", "#777777"),
    ("#e9e4f5", "#6d5aa6"),
    ("#dcecf7", "#39739f"),
    ("#e8f3dc", "#5f8f3d"),
    ("#fdf3d0", "#a08a2a"),
    ("#fde9d9", "#b4703a"),
]
MONO = "Menlo, Consolas, DejaVu Sans Mono, monospace"


def read_crates():
    """Returns the layers, lowest first, each a title and its crates; and what each crate stands on, of these."""
    layers, below = [], {}
    with open("crates.txt", encoding="utf-8") as file:
        for line in file:
            if line.startswith("# "):
                layers.append((line[2:].strip(), []))
            elif ":" in line:
                name, _, rest = line.partition(":")
                layers[-1][1].append(name)
                below[name] = rest.split()
    return layers, {name: [lower for lower in lowers if lower in below] for name, lowers in below.items()}


def reaches(below, upper, lower):
    return any(middle == lower or reaches(below, middle, lower) for middle in below[upper])


def needed(below):
    """Returns the lines that follow from no others."""
    return [
        (upper, lower)
        for upper, lowers in below.items()
        for lower in lowers
        if not any(reaches(below, middle, lower) for middle in lowers if middle != lower)
    ]


def rows_of(crates, below):
    """Returns the rows of a layer, lowest first: a crate stands above those of its layer that it stands on."""
    height = {}

    def level(name):
        if name not in height:
            height[name] = max((level(lower) + 1 for lower in below[name] if lower in crates), default=0)
        return height[name]

    rows = {}
    for name in crates:
        rows.setdefault(level(name), []).append(name)
    return [rows[number] for number in sorted(rows)]


def bend(lines, rows):
    """Puts a point into each row that a line crosses. Returns the lines as their points from above, and their joints."""
    row_of = {name: number for number, row in enumerate(rows) for name in row}
    routes, joints = [], []
    for upper, lower in lines:
        points = [upper]
        for number in range(row_of[upper] - 1, row_of[lower], -1):
            point = (upper, lower, number)
            rows[number].append(point)
            points.append(point)
        points.append(lower)
        routes.append(((upper, lower), points))
        joints += list(zip(points, points[1:]))
    return routes, joints


def is_box(point):
    return isinstance(point, str)


def space(one, other):
    """Returns how far apart the middles of two neighbours are at least."""
    return sum(BOX / 2 if is_box(point) else 2 for point in (one, other)) + (18 if is_box(one) and is_box(other) else BENT / 2)


def spread(row, wanted):
    """Returns places for a row's points in their order, near those that are wanted."""
    places = []
    for at, point in enumerate(row):
        least = LEFT + BOX / 2 if at == 0 else places[-1] + space(row[at - 1], point)
        places.append(max(least, wanted[point]))
    most = RIGHT - BOX / 2
    for at in range(len(row) - 1, -1, -1):
        places[at] = min(places[at], most)
        if at:
            most = places[at] - space(row[at - 1], row[at])
    return places


def place(rows, joints):
    """Returns where the middle of each point is."""
    joined = {}
    for upper, lower in joints:
        joined.setdefault(upper, []).append(lower)
        joined.setdefault(lower, []).append(upper)
    across = {}
    for row in rows:
        step = (RIGHT - LEFT) / (len(row) + 1)
        for at, point in enumerate(row):
            across[point] = LEFT + step * (at + 1)
    for sweep in range(60):
        order = rows if sweep % 2 == 0 else rows[::-1]
        for row in order:
            wanted = {}
            for point in row:
                others = [across[other] for other in joined.get(point, [])]
                wanted[point] = sum(others) / len(others) if others else across[point]
            row.sort(key=lambda point: wanted[point])
            for point, at in zip(row, spread(row, wanted)):
                across[point] = at
    return across


def wrapped(title, most=20):
    lines = [""]
    for word in (title[0].upper() + title[1:]).split():
        if lines[-1] and len(lines[-1]) + len(word) >= most:
            lines.append("")
        lines[-1] = f"{lines[-1]} {word}".strip()
    return lines


def draw(layers, below):
    bands = [(title, rows_of(crates, below)) for title, crates in layers]
    rows = [row for _, band in bands for row in band]
    colour_of = {name: COLOURS[number][1] for number, (_, crates) in enumerate(layers) for name in crates}
    routes, joints = bend(needed(below), rows)
    across = place(rows, joints)

    down, tops, y = {}, [], TOP
    for number in range(len(bands) - 1, -1, -1):
        band = bands[number][1]
        height = max(len(band) * ROW, 18 * len(wrapped(bands[number][0]))) + 2
        tops.append((number, y, height))
        for at, row in enumerate(reversed(band)):
            for point in row:
                down[point] = y + BAND_GAP + at * ROW
        y += height + BAND_GAP
    total = y

    out = [
        f'<svg xmlns="http://www.w3.org/2000/svg" viewBox="0 0 {WIDTH} {total}" width="{WIDTH}" height="{total}" '
        'font-family="Helvetica, Arial, sans-serif" font-size="14" fill="#222222" role="img" '
        'aria-labelledby="title description">',
        '<title id="title">The crates of raidzx by layer</title>',
        '<desc id="description">Each box is a crate. A line from a box down to another says that the upper crate stands '
        "on the lower one.</desc>",
        f'<rect width="{WIDTH}" height="{total}" fill="#ffffff"/>',
        '<text x="20" y="28" font-size="19" font-weight="bold">The crates by layer</text>',
        '<text x="20" y="50">A line downwards reads “stands on”. What follows from other lines is left out, and so are '
        "the crates of the kit.</text>",
    ]
    for number, top, height in tops:
        fill, dark = COLOURS[number]
        out.append(f'<rect x="10" y="{top}" width="1280" height="{height}" rx="6" fill="{fill}"/>')
        for at, text in enumerate(wrapped(bands[number][0])):
            out.append(f'<text x="22" y="{top + 29 + 18 * at}" font-weight="bold" fill="{dark}">{text}</text>')
    for (upper, lower), points in routes:
        path = [f"M{across[points[0]]:.0f} {down[points[0]] + HEIGHT}"]
        for point in points[1:-1]:
            path.append(f"L{across[point]:.0f} {down[point]} L{across[point]:.0f} {down[point] + HEIGHT}")
        path.append(f"L{across[points[-1]]:.0f} {down[points[-1]]}")
        out.append(
            f'<path d="{" ".join(path)}" fill="none" stroke="{colour_of[upper]}" stroke-width="1.4" '
            f'stroke-linejoin="round"><title>{upper} stands on {lower}</title></path>'
        )
    for name in below:
        x, y = across[name], down[name]
        out.append(
            f'<rect x="{x - BOX / 2:.0f}" y="{y}" width="{BOX}" height="{HEIGHT}" rx="5" fill="#ffffff" '
            f'stroke="{colour_of[name]}" stroke-width="1.4"/>'
        )
        out.append(
            f'<text x="{x:.0f}" y="{y + 21}" text-anchor="middle" font-family="{MONO}" font-size="13">{name}</text>'
        )
    out.append("</svg>")
    return "\n".join(out) + "\n"


if __name__ == "__main__":
    sys.stdout.reconfigure(encoding="utf-8")
    sys.stdout.write(draw(*read_crates()))
