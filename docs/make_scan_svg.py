#!/usr/bin/env python3
"""Draws docs/scan.svg, the scan of the worked query, from what the program scan_days writes (its stored output, to
which every check holds it).

  python3 docs/make_scan_svg.py

The drawing reckons no longitude and no jump: days, longitudes, matches and next days are the program's. A Sun lower
than on the visit before has passed 0, so a circle is put on, and a jump that ends past the last day is drawn as far as
the picture goes."""
import pathlib

HERE = pathlib.Path(__file__).resolve().parent
STORED = HERE.parent / "crates/scan_days/stdout"
CIRCLE = 1296000
LEFT, RIGHT, WIDE, HIGH = 40, 920, 960, 530

INK, SOFT, ARC, JUMP, HIT = "#222222", "#888888", "#f2c14e", "#2f6f9f", "#b3261e"


def read():
    """The query and the visits; each visit gets its longitude along the unrolled line."""
    rows = [[int(word) for word in line.split()] for line in STORED.read_text().splitlines()]
    first, last, start, width = rows[0]
    visits, circles, before = [], 0, -1
    for day, sun, matches, following in rows[1:]:
        circles += sun < before
        before = sun
        visits.append({"day": day, "at": circles * CIRCLE + sun, "matches": matches, "next": following})
    return first, last, start, width, visits


def text(x, y, words, size=13, anchor="middle", fill=INK, weight="normal"):
    return f'<text x="{x:.1f}" y="{y:.1f}" font-size="{size}" text-anchor="{anchor}" fill="{fill}" font-weight="{weight}">{words}</text>'


def line(x1, y1, x2, y2, colour=INK, width=1.0):
    return f'<line x1="{x1:.1f}" y1="{y1:.1f}" x2="{x2:.1f}" y2="{y2:.1f}" stroke="{colour}" stroke-width="{width}"/>'


def band(x1, x2, y, tall):
    return f'<rect x="{x1:.1f}" y="{y:.1f}" width="{max(x2 - x1, 3):.1f}" height="{tall}" fill="{ARC}"/>'


def dot(x, y, matches):
    return f'<circle cx="{x:.1f}" cy="{y:.1f}" r="5" fill="{HIT if matches else "white"}" stroke="{HIT if matches else INK}" stroke-width="1.6"/>'


def leap(x1, x2, y, rise, end=True):
    head = ' marker-end="url(#head)"' if end else ' stroke-dasharray="5 4"'
    return f'<path d="M {x1:.1f} {y - 7:.1f} Q {(x1 + x2) / 2:.1f} {y - 7 - 2 * rise:.1f} {x2:.1f} {y - 7:.1f}" fill="none" stroke="{JUMP}" stroke-width="1.6"{head}/>'


def days(n):
    return f"{n} day" + ("s" if n > 1 else "")


def degrees(seconds):
    return f"{seconds / 3600:.2f}°"


def whole(first, last, start, width, visits):
    """The whole span on one line: the Sun unrolled, an arc at each circle, the jumps above."""
    y, low = 150, visits[0]["at"]
    high = visits[-1]["at"] + CIRCLE
    scale = (RIGHT - LEFT) / (high - low)
    at = lambda place: LEFT + (place - low) * scale
    parts = [text(LEFT, 28, f"The mean Sun, unrolled: days {first} to {last}, arc from {degrees(start)}, {degrees(width)} wide", 15, "start", weight="bold")]
    turn = start
    while turn < high:
        if turn >= low:
            parts += [band(at(turn), at(turn + width), y - 14, 28), text(at(turn), y + 50, "the arc", 12, fill=SOFT)]
        turn += CIRCLE
    parts.append(line(LEFT, y, RIGHT, y))
    for this, that in zip(visits, visits[1:]):
        far = that["day"] - this["day"]
        if far > 1:
            parts += [leap(at(this["at"]), at(that["at"]), y, 14 if far < 100 else 48), text((at(this["at"]) + at(that["at"])) / 2, y - (32 if far < 100 else 66), days(far), 12, fill=JUMP)]
    end = visits[-1]
    parts += [leap(at(end["at"]), RIGHT, y, 48, False), text((at(end["at"]) + RIGHT) / 2, y - 66, f"to day {end['next']}, past the last: the end", 12, fill=JUMP)]
    for visit in visits:
        parts.append(dot(at(visit["at"]), y, visit["matches"]))
    named = [(visits[:1], "middle", -4), (visits[1:3], "start", -6), (visits[3:], "middle", 0)]
    return parts + [text(at(some[-1]["at"]) + aside, y + 32, ", ".join(str(visit["day"]) for visit in some), 12, anchor) for some, anchor, aside in named]


def close(y, heading, centre, width, before, visits):
    """The days next to one arc, at a larger scale."""
    low, high = centre - 12 * 3600, centre + 4 * 3600
    scale = (RIGHT - LEFT) / (high - low)
    at = lambda place: LEFT + (place - low) * scale
    parts = [text(LEFT, y - 58, heading, 13, "start", weight="bold"), band(at(centre), at(centre + width), y - 14, 28), line(LEFT, y, RIGHT, y)]
    for degree in range(-12, 5):
        parts += [line(at(centre + degree * 3600), y + 14, at(centre + degree * 3600), y + 19, SOFT), text(at(centre + degree * 3600), y + 33, f"{degree % 360}°", 10, fill=SOFT)]
    shown = [visit for visit in visits if low <= visit["at"] <= high]
    if before:
        parts += [leap(LEFT, at(shown[0]["at"]), y, 20), text(LEFT, y - 30, f"from day {before['day']}: g = {CIRCLE - before['at'] % CIRCLE}″, so {shown[0]['day'] - before['day']} days", 12, "start", JUMP)]
    for this, that in zip(shown, shown[1:]):
        far = that["day"] - this["day"]
        words = f"g = {CIRCLE - this['at'] % CIRCLE}″, so {days(far)}" if far > 1 else "1 day"
        parts += [leap(at(this["at"]), at(that["at"]), y, 20 if far > 1 else 12), text((at(this["at"]) + at(that["at"])) / 2, y - (34 if far > 1 else 26), words, 12, fill=JUMP)]
    out = shown[-1]
    parts += [leap(at(out["at"]), RIGHT, y, 14, False), text(RIGHT, y - 30, f"to day {out['next']}", 12, "end", JUMP)]
    for visit in shown:
        parts += [dot(at(visit["at"]), y, visit["matches"]), text(at(visit["at"]), y + 54, f"day {visit['day']}", 12, fill=HIT if visit["matches"] else INK)]
    return parts


def picture():
    first, last, start, width, visits = read()
    assert start == 0 and len(visits) == 5, "the layout is for the worked query"
    parts = whole(first, last, start, width, visits)
    parts += close(310, "Near the first arc", CIRCLE, width, None, visits)
    parts += close(456, "Near the second arc, a year later", 2 * CIRCLE, width, visits[2], visits)
    head = f'<marker id="head" viewBox="0 0 8 8" refX="7" refY="4" markerWidth="7" markerHeight="7" orient="auto"><path d="M 0 0 L 8 4 L 0 8 z" fill="{JUMP}"/></marker>'
    return "\n".join([f'<svg xmlns="http://www.w3.org/2000/svg" viewBox="0 0 {WIDE} {HIGH}" font-family="sans-serif">', f"<defs>{head}</defs>", f'<rect width="{WIDE}" height="{HIGH}" fill="white"/>', *parts, "</svg>"]) + "\n"


(HERE / "scan.svg").write_text(picture(), encoding="utf-8")
