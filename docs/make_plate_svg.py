#!/usr/bin/env python3
"""Draws docs/plate.svg, the plate of one day as the engravers cut it, from what the program `engraving` prints.

  python3 docs/make_plate_svg.py    after `./build engraving`"""
import pathlib
import subprocess

HERE = pathlib.Path(__file__).resolve().parent
DAY = 33649
WIDTH, ROW, TOP = 460, 34, 104
BRASS, EDGE, CUT = "#d8b365", "#8c6d31", "#3b2d10"
COLUMNS = (200, 270, 340, 410)


def text(x, y, words, anchor="end", size=19, spacing=0):
    return f'<text x="{x}" y="{y}" font-size="{size}" text-anchor="{anchor}" letter-spacing="{spacing}" fill="{CUT}">{words}</text>'


printed = subprocess.run([HERE.parent / "target/bin/engraving"], input=f"{DAY}\n", capture_output=True, text=True, check=True).stdout
rows = [line.split() for line in printed.splitlines()[1:]]
height = TOP + ROW * len(rows) + 16
shapes = [
    f'<rect x="6" y="6" width="{WIDTH - 12}" height="{height - 12}" rx="14" fill="{BRASS}" stroke="{EDGE}" stroke-width="3"/>',
    f'<rect x="16" y="16" width="{WIDTH - 32}" height="{height - 32}" rx="8" fill="none" stroke="{EDGE}"/>',
    *(f'<circle cx="{x}" cy="{y}" r="4" fill="{EDGE}"/>' for x in (27, WIDTH - 27) for y in (27, height - 27)),
    text(WIDTH // 2, 52, "MEAN PLACES", "middle", 21, 4),
    text(WIDTH // 2, 76, f"DAY {DAY}", "middle", 15, 3),
]
for number, (name, *parts) in enumerate(rows):
    y = TOP + ROW * number + 14
    shapes.append(text(44, y, name.upper(), "start", 17, 1))
    shapes += [text(x, y, part + mark) for x, part, mark in zip(COLUMNS, parts, "°′″‴")]
(HERE / "plate.svg").write_text(
    f'<svg xmlns="http://www.w3.org/2000/svg" width="{WIDTH}" height="{height}" viewBox="0 0 {WIDTH} {height}" font-family="Georgia, serif">\n'
    + "\n".join(shapes) + "\n</svg>\n", encoding="utf-8")
