#!/usr/bin/env python3
"""Draws docs/pictures/speed.svg from the first table of bench/RESULTS.md.

    python3 tools/pictures.py

tools/pages.py compares the picture with the table.
"""

import html
import re

from tree import TOP

PICTURE, RESULTS = TOP / "docs/pictures/speed.svg", TOP / "bench/RESULTS.md"
FONT = 'font-family="Helvetica, Arial, sans-serif" font-size="14"'
INK, GROUND = "#1f2a37", "#ffffff"
# Of bars: ours, and two others.
BARS = ("#1a4f8b", "#b35900", "#6b7685")
# The dark variant of each colour, for readers whose system is dark.
DARK = {INK: "#e4e8ee", GROUND: "#14181d", **dict(zip(BARS, ("#7fb2f0", "#e39a4f", "#9aa5b3")))}


def text(x, y, words, weight="normal"):
    place = f'x="{x}" y="{y}" text-anchor="start" fill="{INK}" font-weight="{weight}"'
    return f"<text {place}>{html.escape(words)}</text>"


def box(x, y, width, height, colour):
    return f'<rect x="{x}" y="{y}" width="{width}" height="{height}" fill="{colour}"/>'


def svg(width, height, title, parts):
    size = f'width="{width}" height="{height}" viewBox="0 0 {width} {height}"'
    head = f'<svg xmlns="http://www.w3.org/2000/svg" {size} {FONT} role="img">'
    rules = (f'[fill="{light}"] {{ fill: {dark} }}' for light, dark in DARK.items())
    style = f"<style>@media (prefers-color-scheme: dark) {{ {' '.join(rules)} }}</style>"
    ground = box(0, 0, width, height, GROUND)
    lines = [head, f"<title>{html.escape(title)}</title>", style, ground, *parts, "</svg>"]
    return "".join(f"{line}\n" for line in lines)


def cells_of(row):
    return [cell.strip() for cell in row.strip("|").split("|")]


def setting(costs):
    """Returns costs in the form that readers know: `65536, 3, 1` is `64 MiB, t = 3, p = 1`."""
    memory, passes, lanes = map(int, costs.split(","))
    size = f"{memory / 1024:.3g} MiB" if memory >= 1024 else f"{memory} KiB"
    return f"{size}, t = {passes}, p = {lanes}"


def drawn():
    """Draws a group of bars for each row of the table, in milliseconds."""
    table = re.search(r"^(\|.*)\n\|-.*\n((?:\|.*\n)+)", RESULTS.read_text(), re.M)
    rows = [cells_of(row)[:4] for row in table[2].splitlines()]
    names = ["Rigzumal", *(head.partition(",")[0] for head in cells_of(table[1])[2:4])]
    longest = max(float(cell) for _, *times in rows for cell in times if cell)
    parts = [text(12, 30, "one Argon2id hash", weight="bold")]
    for at, (name, colour) in enumerate(zip(names, BARS)):
        parts += [box(200 + 130 * at, 19, 12, 12, colour), text(218 + 130 * at, 30, name)]
    y = 50
    for costs, *times in rows:
        parts.append(text(12, y + 14, setting(costs)))
        for colour, time in zip(BARS, times):
            if time:
                width = round(float(time) / longest * 480)
                parts += [box(200, y, width, 16, colour), text(206 + width, y + 13, f"{time} ms")]
                y += 19
        y += 14
    return svg(780, y, "Milliseconds of one Argon2id hash: less is better", parts)


def check():
    """Yields the fault of a picture that isn't of the table."""
    is_new = PICTURE.read_text() == drawn()
    yield None if is_new else "docs/pictures/speed.svg differs: run tools/pictures.py"


if __name__ == "__main__":
    PICTURE.write_text(drawn())
