#!/usr/bin/env python3
"""Draws docs/lunar-months.svg: the month starts of a year in both editions, from what the program `lunar_month` prints.

  python3 docs/make_lunar_months_svg.py    after `./build lunar_month`

The year is one in which two months start a day apart. From its last day on the program is asked for the latest month
start, then for that of the day before it, and so back to the year's first day."""
import pathlib
import subprocess

HERE = pathlib.Path(__file__).resolve().parent
PROGRAM = HERE.parent / "target/bin/lunar_month"
FIRST, LAST = "1524-4-1", "1525-3-31"
WIDE, LEFT, RIGHT, TOP, TALL, GAP = 760, 96, 744, 62, 54, 34
INK, SOFT, COLOURS, APART = "#222222", "#cccccc", {1: "#2f6f9f", 2: "#7a3b8f"}, "#c8452c"
MONTHS = ["January", "February", "March", "April", "May", "June", "July", "August", "September", "October", "November", "December"]


def month(day, edition):
    """The number of a day, and of the latest month start at or before it its place, its day and its date."""
    asked = f"{day} {edition}\n".encode()
    heading, printed = subprocess.run([PROGRAM], input=asked, stdout=subprocess.PIPE, check=True).stdout.decode().splitlines()
    assert heading == "day date turns turn date", heading
    number, _, turns, start, date = printed.split()
    return int(number), int(turns), int(start), date


def starts(first, last, edition):
    """The month starts from one day to another, earliest first."""
    found, day = [], last
    while True:
        _, turns, start, date = month(day, edition)
        if start < first:
            return found[::-1]
        found.append((turns, start, date))
        day = start - 1


def text(x, y, words, anchor="middle", size=12, weight="normal", colour=INK):
    return f'<text x="{x:.1f}" y="{y:.1f}" font-size="{size}" text-anchor="{anchor}" fill="{colour}" font-weight="{weight}">{words}</text>'


def line(x1, y1, x2, y2, colour, width=1):
    return f'<line x1="{x1:.1f}" y1="{y1:.1f}" x2="{x2:.1f}" y2="{y2:.1f}" stroke="{colour}" stroke-width="{width}"/>'


def drawn():
    first, last = month(FIRST, 1)[0], month(LAST, 1)[0]
    across = lambda day: LEFT + (RIGHT - LEFT) * (day - first) / (last + 1 - first)
    rows = {edition: starts(first, last, edition) for edition in (1, 2)}
    high = TOP + 2 * (TALL + GAP) + 12
    parts = [text(LEFT, 24, f"The month starts from {FIRST} to {LAST}", "start", 14, "bold")]
    for year, name in [(1524, place) for place in range(4, 13)] + [(1525, place) for place in range(1, 4)]:
        day = month(f"{year}-{name}-1", 1)[0]
        parts += [line(across(day), TOP - 10, across(day), high - 10, SOFT), text(across(day) + 3, TOP - 14, MONTHS[name - 1][:3], "start")]
    for place, (edition, found) in enumerate(rows.items()):
        top = TOP + place * (TALL + GAP)
        others = {start for _, start, _ in rows[3 - edition]}
        parts += [text(LEFT - 12, top + TALL / 2 + 4, f"edition {edition}", "end", 13), line(LEFT, top + TALL, RIGHT, top + TALL, INK)]
        for turns, start, date in found:
            colour = COLOURS[edition] if start in others else APART
            parts += [line(across(start), top, across(start), top + TALL, colour, 3), text(across(start) + 4, top + 12, turns, "start", 11, colour=colour)]
            parts.append(text(across(start), top + TALL + 15, "-".join(date.split("-")[1:]), size=11, colour=colour))
    return f'<svg xmlns="http://www.w3.org/2000/svg" viewBox="0 0 {WIDE} {high}" font-family="sans-serif">\n<rect width="{WIDE}" height="{high}" fill="white"/>\n' + "\n".join(parts) + "\n</svg>\n"


(HERE / "lunar-months.svg").write_text(drawn(), encoding="utf-8")
