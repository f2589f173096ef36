#!/usr/bin/env python3
"""Draws docs/almanac.svg, the layout of a block of an almanac file: its 512 bytes in rows of 64, and below them the 52
bytes of a day.

  python3 docs/make_almanac_svg.py"""
import pathlib

HERE = pathlib.Path(__file__).resolve().parent
CELL, ROW, LEFT, TOP, WIDE = 11, 30, 60, 40, 64
INK, HEAD, DAY, OTHER, ZERO, SUM = "#222222", "#9ecae1", "#fdd49e", "#fee8c8", "#eeeeee", "#a1d99b"
# What stands in a block: from which byte, how many, its name and its colour.
BLOCK = [(0, 4, "index", HEAD), (4, 4, "days", HEAD), *((8 + 52 * place, 52, f"day {place}", (DAY, OTHER)[place % 2]) for place in range(9)),
         (476, 32, "32 zeros", ZERO), (508, 4, "sum", SUM)]
MEANS = ["Sun", "Moon", "apogee", "node", "Mars", "Mercury", "Jupiter", "Venus", "Saturn"]
PLACE = [(0, 4, "day", HEAD), *((4 + 4 * body, 4, name, DAY) for body, name in enumerate(MEANS)), (40, 4, "true Sun", OTHER), (44, 4, "true Moon", OTHER),
         *((48 + limb, 1, name, SUM) for limb, name in enumerate(["tithi", "nakshatra", "yoga", "karana"]))]


def text(x, y, words, anchor="middle", size=11, turn=""):
    return f'<text x="{x}" y="{y}" font-size="{size}" text-anchor="{anchor}"{turn} fill="{INK}">{words}</text>'


def box(x, y, width, height, colour):
    return f'<rect x="{x}" y="{y}" width="{width}" height="{height}" fill="{colour}" stroke="{INK}" stroke-width="0.7"/>'


shapes = [text(LEFT, 22, "A block: 512 bytes, 64 in a row", "start", 14)]
for row in range(8):
    shapes.append(text(LEFT - 8, TOP + ROW * row + 19, str(WIDE * row), "end"))
for start, count, name, colour in BLOCK:
    parts = []
    while count:
        row, column = divmod(start, WIDE)
        now = min(count, WIDE - column)
        parts.append((LEFT + CELL * column, TOP + ROW * row, CELL * now))
        start, count = start + now, count - now
    shapes += [box(x, y, width, ROW - 4, colour) for x, y, width in parts]
    x, y, width = max(parts, key=lambda part: part[2])
    shapes.append(text(x + width / 2, y + 17, name))
top = TOP + 8 * ROW + 50
step = WIDE * CELL / 52
shapes.append(text(LEFT, top - 12, "A day: 52 bytes, mean places from the Sun's to Saturn's", "start", 14))
for start, count, name, colour in PLACE:
    x, width = LEFT + step * start, step * count
    shapes.append(box(round(x, 1), top, round(width, 1), 26, colour))
    if count == 4:
        shapes.append(text(round(x + width / 2, 1), top + 17, name, size=10))
    else:
        at = f"{round(x + width / 2 + 4, 1)} {top + 34}"
        shapes.append(text(*at.split(), name, "start", 10, f' transform="rotate(60 {at})"'))
    if count == 4:
        shapes.append(text(round(x, 1), top + 42, str(start), "start", 9))
width, height = LEFT + WIDE * CELL + 60, top + 110
(HERE / "almanac.svg").write_text(
    f'<svg xmlns="http://www.w3.org/2000/svg" width="{width}" height="{height}" viewBox="0 0 {width} {height}" font-family="sans-serif">\n'
    + f'<rect width="{width}" height="{height}" fill="white"/>\n' + "\n".join(shapes) + "\n</svg>\n", encoding="utf-8")
