#!/usr/bin/env python3
"""Draws docs/drift.svg: how far the mean Sun, Moon and Moon's apogee are from the older books' over eleven centuries,
from what the program `drift` prints for single days.

  python3 docs/make_drift_svg.py    after `./build drift`

Five days of each cycle of 4016 are asked for, its first and its last among them, since a drift leaps where a cycle
turns. The years below come from the program too: it names a date's day."""
import pathlib
import subprocess

HERE = pathlib.Path(__file__).resolve().parent
PROGRAM = HERE.parent / "target/bin/drift"
LAST = 401599
WIDE, LEFT, RIGHT, TALL, GAP, TOP = 740, 70, 720, 150, 46, 40
INK, SOFT = "#222222", "#cccccc"
PANELS = [("sun", "Sun", "#b3741e", 25, 5), ("moon", "Moon", "#2f6f9f", 90, 15), ("apogee", "Moon's apogee", "#7a3b8f", 420, 60)]


def drift(first, last):
    """The three lines for a span: of each body the distance in minutes of arc, and the day."""
    printed = subprocess.run([PROGRAM], input=f"{first} {last}\n".encode(), stdout=subprocess.PIPE, check=True).stdout.decode().splitlines()
    assert printed[0] == "body numerator divisor day date", printed
    rows = [line.split() for line in printed[1:]]
    return {body: (int(numerator) / int(divisor) / 60, int(day)) for body, numerator, divisor, day, _ in rows}


def text(x, y, words, anchor="middle", size=12, weight="normal"):
    return f'<text x="{x:.1f}" y="{y:.1f}" font-size="{size}" text-anchor="{anchor}" fill="{INK}" font-weight="{weight}">{words}</text>'


def line(x1, y1, x2, y2, colour):
    return f'<line x1="{x1:.1f}" y1="{y1:.1f}" x2="{x2:.1f}" y2="{y2:.1f}" stroke="{colour}" stroke-width="1"/>'


def across(day):
    return LEFT + (RIGHT - LEFT) * day / LAST


def drawn():
    asked = [drift(day, day) for day in (4016 * cycle + within for cycle in range(100) for within in (0, 1004, 2008, 3012, 4015))]
    years = {1520: 0} | {year: drift(f"{year}-1-1", f"{year}-1-1")["sun"][1] for year in range(1600, 2601, 100)}
    whole = drift(0, LAST)
    parts = [text(LEFT, 22, "The mean places and the older books': how far apart, in minutes of arc", "start", 14, "bold")]
    for place, (body, name, colour, most, step) in enumerate(PANELS):
        top = TOP + place * (TALL + GAP)
        foot = top + TALL
        up = lambda minutes: foot - TALL * minutes / most
        for minutes in range(0, most + 1, step):
            parts += [line(LEFT, up(minutes), RIGHT, up(minutes), SOFT), text(LEFT - 8, up(minutes) + 4, f"{minutes}′", "end")]
        for year, day in years.items():
            parts += [line(across(day), foot, across(day), foot + 5, INK), text(across(day), foot + 18, year)]
        parts += [line(LEFT, foot, RIGHT, foot, INK), line(LEFT, top, LEFT, foot, INK)]
        points = " ".join(f"{across(row[body][1]):.1f},{up(row[body][0]):.2f}" for row in asked)
        parts.append(f'<polyline points="{points}" fill="none" stroke="{colour}" stroke-width="1.2"/>')
        far = whole[body][0]
        parts.append(text(LEFT + 12, top + 18, f"{name}: at most {int(far)}′ {round(far % 1 * 60)}″ over all days", "start", 13))
    high = TOP + len(PANELS) * (TALL + GAP)
    return f'<svg xmlns="http://www.w3.org/2000/svg" viewBox="0 0 {WIDE} {high}" font-family="sans-serif">\n<rect width="{WIDE}" height="{high}" fill="white"/>\n' + "\n".join(parts) + "\n</svg>\n"


(HERE / "drift.svg").write_text(drawn(), encoding="utf-8")
