#!/usr/bin/env python3
"""Recomputes every K, D and p/q of the nine bodies, the constants of the two equations, the tables of the five planets
and the older books' circles and days, from the numbers and formulas that sources 002 and 000 print, and compares them
with the definitions in the crates' specs/. And holds the thirds, largest corrections and places that the sources print
to the tables', by what docs/sources.md says of each: that it agrees, or by how much it misses.

  python3 docs/check_sources.py

Prints a line for each comparison and exits with 1 if one differs. Exact fractions throughout."""
import pathlib
import re
import sys
from fractions import Fraction as F

ROOT = pathlib.Path(__file__).resolve().parent.parent
TABLE = ROOT / "crates/longitudes/specs/Longitudes.antt"
EQUATIONS = ROOT / "crates/panchanga/specs/TrueLongitudes.antt"
PLANETS = ROOT / "crates/planets/specs/Tables.antt"
OLDER = ROOT / "crates/older_motions/specs/OlderMotions.antt"

# Source 002. K (kṣepaka) and D (dhruvaka) of its table 1 in degrees, minutes and seconds; the terms of its formula for
# the motion a day, in degrees; the value that it prints beside the formula, in degrees, minutes, seconds and thirds.
SOURCE_002 = [
    ("Sun", (349, 41), (1, 49, 11), (F(1), -F(1, 70), -F(1, 150 * 60)), (0, 59, 8, 10)),
    ("Moon", (349, 6), (3, 46, 11), (F(14), -F(14, 17), -F(1, 140 * 60)), (13, 10, 34, 52)),
    ("Moon's apogee", (167, 33), (272, 45), (F(1, 9), F(1, 70 * 60)), (0, 6, 40, 52)),
    ("Moon's node", (27, 38), (212, 50), (F(1, 19), F(1, 45 * 60)), (0, 3, 10, 52)),
    ("Mars", (307, 8), (55, 32), (F(10, 19), -F(10, 73 * 60)), (0, 31, 26, 31)),
    ("Mercury's anomaly", (269, 33), (123, 27), (F(3), F(3, 28), -F(10, 38 * 60)), (3, 6, 24, 8)),
    ("Jupiter", (212, 16), (26, 18), (F(1, 12), -F(1, 70 * 60)), (0, 4, 59, 8)),
    ("Venus' anomaly", (230, 9), (44, 2), (F(3, 5), F(3, 181)), (0, 36, 59, 40)),
    ("Saturn", (285, 21), (225, 42), (F(1, 30), F(1, 156 * 60)), (0, 2, 0, 22)),
]

# Source 000: D of its table 6 and K of its table 7, with signs of 30 degrees in front.
SOURCE_000 = [
    ((11, 19, 41), (0, 1, 49, 11)),
    ((11, 19, 6), (0, 3, 46, 11)),
    ((5, 17, 33), (9, 2, 45)),
    ((0, 27, 38), (7, 2, 50)),
    ((10, 7, 8), (1, 25, 32)),
    ((8, 29, 33), (4, 3, 27)),
    ((7, 2, 16), (0, 26, 18)),
    ((7, 20, 9), (1, 14, 2)),
    ((9, 15, 21), (7, 15, 42)),
]

# The two readings that paper 01 settles, both as source 000 has them.
MERCURY_TERMS = (F(3), F(3, 28), -F(1, 38 * 60))
BACKWARDS = {"Moon's node"}

# Source 002's equations of the centre, with b the bhuja in degrees over `part`: (whole − b) b / (first − (whole − b) b
# / second) degrees. Its table 3: the Sun's apogee.
EQUATIONS_002 = {"true_sun": (9, 20, 57, 9), "moon_alone": (6, 30, 56, 20)}
SUN_APOGEE = (78,)

# The older books. Source 000's table 4: circles in a Kalpa, days in a Mahāyuga, a thousandth of one. Source 003's
# tables 6.1 and 6.2: circles and days in a Kalpa; of the Sūryasiddhānta's days it prints two digits too few, and what
# is held are its diurnal revolutions of stars less the Sun's circles.
OLDER_BOOKS = [
    ("sun", (4320000000, 1577916450), (4320000000, 1577916450000)),
    ("moon", (57753300000, 1577916450), (57753300000, 1577916450000)),
    ("apogee", (488203000, 1577917828), (488203000, 1582237828000 - 4320000000)),
]

# What docs/sources.md says of the thirds that 002 prints: rounded down, rounded to the nearest, or neither.
PRINTED_THIRDS = ["down", "nearest", "neither", "neither", "down", "down", "down", "down", "neither"]

# Source 000's tables 8 and 9: mean places of two days, (C, A), in degrees, minutes and seconds, and by how many seconds
# each is more than the table's, rounded to the nearest.
PLACES_000 = {
    (8, 1521): [((34, 13, 41), 0), ((200, 10, 19), -3), ((314, 11, 16), -2608), ((44, 21, 6), 3), ((299, 55, 13), 0), ((47, 14, 50), 0), ((128, 15, 16), 0), ((95, 41, 36), 0), ((330, 36, 45), 0)],
    (43, 2033): [((115, 9, 59), -1), ((334, 31, 31), 2), ((184, 42, 18), -3485), ((128, 2, 49), 0), ((64, 33, 30), 0), ((197, 7, 48), 1), ((330, 17, 58), 1), ((310, 12, 47), 1), ((8, 14, 4), 2)],
}

# Source 002's tables 4, 5 and 3 of the five planets: śīghrāṅkas, mandāṅkas and mandocca in degrees.
PLANETS_002 = [
    ("Mars", [0, 58, 117, 174, 228, 279, 325, 365, 393, 400, 368, 249, 0], [0, 29, 57, 85, 109, 124, 130], 120),
    ("Mercury", [0, 41, 81, 117, 150, 178, 199, 212, 212, 195, 155, 89, 0], [0, 12, 21, 28, 33, 35, 36], 210),
    ("Jupiter", [0, 25, 47, 68, 85, 98, 106, 108, 102, 89, 66, 36, 0], [0, 14, 27, 39, 48, 55, 57], 180),
    ("Venus", [0, 63, 126, 186, 246, 302, 354, 402, 440, 461, 443, 326, 0], [0, 6, 11, 13, 14, 15, 15], 90),
    ("Saturn", [0, 15, 28, 39, 48, 54, 57, 57, 53, 45, 33, 18, 0], [0, 19, 40, 60, 77, 89, 93], 240),
]

# Its tables 6 and 7: the largest śīghraphala with the degrees where it is reached, and the largest mandaphala, where it
# has one; and by how many seconds each is more than the row's largest entry.
LARGEST_SIGHRA = [((40, 0), (135, 135), 0), ((21, 12), (105, 120), 0), ((10, 48), (105, 105), 0), ((46, 6), (135, 135), 0), ((5, 42), (90, 105), 0)]
LARGEST_MANDA = [((13, 36), 2160), ((5, 42), 7560), ((1, 30), -15120), None, ((9, 18), 0)]

# Its section IV: the true places of 28 February 2025, (45, 3699), in degrees and minutes, and by how many minutes each
# is more than ours.
PLACES_002 = [((107, 9), 1476), ((355, 21), 1524), ((72, 12), 1353), ((10, 48), 1788), ((350, 42), 1704)]

# Thirds by which a value that 002 prints may miss its own formula; see docs/sources.md.
THIRDS = 4

failed = False


def same(what, found, wanted):
    global failed
    good = found == wanted
    failed |= not good
    print(f"{'same' if good else 'DIFFERS'}: {what}: {found}" + ("" if good else f", not {wanted}"))


def seconds(angle):
    """Degrees, minutes and seconds, as many as are given, in seconds of arc; thirds are left out."""
    return sum(n * unit for n, unit in zip(angle, (3600, 60, 1)))


def table():
    """The rows (K, D, p, q) of the meaning's table."""
    row = re.compile(r"record \{ K = (\d+); D = (\d+); p = (pos (\d+)|neg_ℤ \(pos (\d+)\)); q = (\d+) \}")
    text = TABLE.read_text(encoding="utf-8")
    text = text[text.index("table =") : text.index("∷ []")]
    return [(int(k), int(d), int(f) if f else -int(b), int(q)) for k, d, _, f, b, q in row.findall(text)]


def motions():
    for name, k, d, terms, printed in SOURCE_002:
        if name == "Mercury's anomaly":
            terms = MERCURY_TERMS
        motion = sum(terms) * 3600
        yield name, seconds(k), seconds(d), -motion if name in BACKWARDS else motion, printed


def rows():
    found = table()
    same("rows of the table", len(found), 9)
    for (name, k, d, motion, printed), (k0, d0), (K, D, p, q) in zip(motions(), SOURCE_000, found):
        same(f"{name}: K", K, k)
        same(f"{name}: D", D, d)
        same(f"{name}: K in 000", seconds((30 * k0[0] + k0[1], *k0[2:])), k)
        same(f"{name}: D in 000", seconds((30 * d0[0] + d0[1], *d0[2:])), d)
        same(f"{name}: p/q in lowest terms", (p, q), (motion.numerator, motion.denominator))
        same(f"{name}: whole seconds of the value printed", seconds(printed), int(abs(motion)))
        miss = seconds(printed) * 60 + printed[3] - abs(motion) * 60
        same(f"{name}: the value printed is within {THIRDS} thirds", abs(miss) <= THIRDS, True)


def mercury():
    name, _, _, terms, printed = SOURCE_002[5]
    miss = seconds(printed) - sum(terms) * 3600
    same(f"{name}: the term as printed misses the value by over 14 seconds", miss > 14, True)


def thirds():
    for (name, _, _, _, printed), (_, _, p, q), said in zip(SOURCE_002, table(), PRINTED_THIRDS):
        exact = F(abs(p), q) * 60 % 60
        rounded = "down" if printed[3] == exact // 1 else "nearest" if printed[3] == (exact + F(1, 2)) // 1 else "neither"
        same(f"{name}: the thirds printed, {printed[3]} for {float(exact):.2f}, are rounded", rounded, said)


def places():
    for (C, A), printed in PLACES_000.items():
        for (name, *_), (K, D, p, q), (angle, more) in zip(SOURCE_002, table(), printed):
            nearest = (K - C * D + F(A * p, q) + F(1, 2)) // 1 % 1296000
            same(f"{name} on ({C}, {A}): seconds that 000 has more", seconds(angle) - nearest, more)


def value(word, text):
    """A number, or that of a definition; None for a parameter."""
    found = re.search(rf"^{word} = (\d+)$", text, re.M)
    return int(word) if word.isdigit() else int(found[1]) if found else None


def equations():
    """In seconds, with s the bhuja and R = (part × 3600)²: 3600 × second × Q / (first × second × R − Q), Q = s ×
    (648000 − s)."""
    text = EQUATIONS.read_text(encoding="utf-8")
    for name, (part, whole, first, second) in EQUATIONS_002.items():
        found = [value(word, text) for word in re.search(rf"^{name} .*= true_longitude (\w+) (\w+) (\w+)", text, re.M).groups()]
        unit = part * 3600
        same(f"{name}: half a circle", whole * unit, 648000)
        same(f"{name}: scale", found[0], 3600 * second)
        same(f"{name}: divisor", found[1], first * second * unit**2)
        if name == "true_sun":
            same("the Sun's apogee", found[2], seconds(SUN_APOGEE))


def planet_tables():
    """The rows of the meaning's two tables, and the apogees."""
    text = PLANETS.read_text(encoding="utf-8")
    lists = {}
    for name in ("sighra_table", "manda_table", "planet_apogees"):
        body = text[text.index(f"{name} =") :].split("\n\n")[0]
        rows = re.findall(r"((?:\d+ ∷ )+)\[\]", body)
        lists[name] = [[int(n) for n in re.findall(r"\d+", row)] for row in rows]
    return lists["sighra_table"], lists["manda_table"], lists["planet_apogees"][0]


def on_line(row, arc):
    """The exact line, rounded down to a second."""
    at, past = divmod(arc, 54000)
    rise = F((row[at + 1] - row[at]) * past, 54000) if past else 0
    return (row[at] + rise) * 360 // 1


def true_place(planet, C, A):
    sighra, manda, apogee = (part[planet] for part in planet_tables())
    mean = [(K - C * D + F(A * p, q)) // 1 % 1296000 for K, D, p, q in table()]
    sun, own = mean[0], mean[4 + planet]
    place, first = (sun, own) if planet in (1, 3) else (own, (sun - own) % 1296000)

    def sign(anomaly):
        return 1 if anomaly <= 648000 else -1

    def half(anomaly):
        return min(anomaly, 1296000 - anomaly)

    halved = sign(first) * (on_line(sighra, half(first)) // 2)
    anomaly = (apogee - place - halved) % 1296000
    centre = sign(anomaly) * on_line(manda, min(half(anomaly), 648000 - half(anomaly)))
    second = (first - centre) % 1296000
    return (place + centre + sign(second) * on_line(sighra, half(second))) % 1296000


def planets():
    sighra, manda, apogees = planet_tables()
    for planet, (name, sizes, centres, apogee) in enumerate(PLANETS_002):
        same(f"{name}: śīghra row", sighra[planet], sizes)
        same(f"{name}: manda row", manda[planet], centres)
        same(f"{name}: apogee", apogees[planet], seconds((apogee,)))
        angle, (first, last), more = LARGEST_SIGHRA[planet]
        reached = [15 * i for i, entry in enumerate(sizes) if entry == max(sizes)]
        same(f"{name}: seconds that 002's largest śīghraphala is more", seconds(angle) - 360 * max(sizes), more)
        same(f"{name}: where it is reached", (reached[0], reached[-1]), (first, last))
        if LARGEST_MANDA[planet]:
            angle, more = LARGEST_MANDA[planet]
            same(f"{name}: seconds that 002's largest mandaphala is more", seconds(angle) - 360 * max(centres), more)
        angle, more = PLACES_002[planet]
        same(f"{name} on (45, 3699): minutes that 002 has more", (seconds(angle) - true_place(planet, 45, 3699) // 60 * 60) // 60 % 21600, more)


def older():
    text = OLDER.read_text(encoding="utf-8")
    for name, (circles, days), (circles_003, days_003) in OLDER_BOOKS:
        found = re.search(rf"^{name}_motion = .*circles = (\d+); days = (\d+)", text, re.M)
        same(f"{name}: circles and days of 000", tuple(map(int, found.groups())), (circles // 1000, days))
        same(f"{name}: circles and days of 003", tuple(map(int, found.groups())), (circles_003 // 1000, days_003 // 1000))


rows()
mercury()
thirds()
places()
equations()
planets()
older()
print("the table is the sources'" if not failed else "the table is NOT the sources'")
sys.exit(failed)
