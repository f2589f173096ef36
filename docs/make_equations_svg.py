#!/usr/bin/env python3
"""Draws docs/equations.svg, the equations of the Sun and the Moon, from what the host's calls hand back: a dot for each
day of the first year, and the two of day 33649.

  python3 docs/make_equations_svg.py    after `./build host`

The drawing reckons no longitude and no equation: an anomaly is a difference of two longitudes that were handed back,
and so is an equation."""
import pathlib
import subprocess
import tempfile

HERE = pathlib.Path(__file__).resolve().parent
ROOT = HERE.parent
CIRCLE, WORKED = 1296000, 33649
LEFT, RIGHT, TOP, BOTTOM = 60, 700, 40, 300
INK, SOFT, SUN, MOON = "#222222", "#888888", "#d98200", "#2f6f9f"
PROGRAM = """
#include <stdio.h>
#include "grahalaghava.h"

static void show(uint32_t day)
{
    printf("%u %u %u %u %u\\n", (unsigned)graha_mean_sun(day), (unsigned)graha_true_sun(day), (unsigned)graha_mean_moon(day),
           (unsigned)graha_true_moon(day), (unsigned)graha_moon_apogee(day));
}

int main(void)
{
    for (uint32_t day = 0; day < 365; day++)
        show(day);
    show(%d);
}
"""


def days():
    """Of each day the Sun's and the Moon's anomaly and equation."""
    with tempfile.TemporaryDirectory() as folder:
        source, built = pathlib.Path(folder, "days.c"), pathlib.Path(folder, "days")
        source.write_text(PROGRAM.replace("%d", str(WORKED)))
        subprocess.run(["cc", "-I", ROOT / "include", "-o", built, source, ROOT / "target/staticlib/libhost.a"], check=True)
        lines = subprocess.run([built], check=True, capture_output=True, text=True).stdout.splitlines()
    for mean_sun, true_sun, mean_moon, true_moon, apogee in (map(int, line.split()) for line in lines):
        yield [((280800 - mean_sun) % CIRCLE, signed(true_sun - mean_sun)), ((apogee - mean_moon) % CIRCLE, signed(true_moon - mean_moon))]


def signed(difference):
    """The short way round."""
    return (difference + CIRCLE // 2) % CIRCLE - CIRCLE // 2


def at(anomaly, equation):
    middle = (TOP + BOTTOM) / 2
    return LEFT + (RIGHT - LEFT) * anomaly / CIRCLE, middle - equation / 3600 * (BOTTOM - TOP) / 12


def text(x, y, words, anchor="middle", fill=INK, size=13):
    return f'<text x="{x:.0f}" y="{y:.0f}" font-size="{size}" text-anchor="{anchor}" fill="{fill}">{words}</text>'


def line(x1, y1, x2, y2, colour):
    return f'<line x1="{x1:.0f}" y1="{y1:.0f}" x2="{x2:.0f}" y2="{y2:.0f}" stroke="{colour}"/>'


def dots(points, colour):
    marks = "".join("M{:.1f} {:.1f}h0".format(*at(*point)) for point in points)
    return f'<path d="{marks}" stroke="{colour}" stroke-width="2.6" stroke-linecap="round" fill="none"/>'


def ring(point, colour, words, dx, dy):
    x, y = at(*point)
    return f'<circle cx="{x:.1f}" cy="{y:.1f}" r="6" fill="none" stroke="{colour}" stroke-width="1.6"/>' + text(x + dx, y + dy, words, "start", colour, 12)


def drawn():
    *year, worked = days()
    parts = [text((LEFT + RIGHT) / 2, 22, "The equations of the Sun and the Moon by the anomaly x, in seconds of arc", size=15)]
    for degrees in (-5, 0, 5):
        y = at(0, degrees * 3600)[1]
        parts += [line(LEFT, y, RIGHT, y, SOFT), text(LEFT - 8, y + 4, f"{degrees:+d}°" if degrees else "0", "end", SOFT)]
    quarters = ["s = x", "s = 648000 − x", "s = x − 648000", "s = 1296000 − x"]
    for quarter in range(5):
        x = at(quarter * CIRCLE // 4, 0)[0]
        parts += [line(x, TOP, x, BOTTOM, SOFT), text(x, BOTTOM + 18, f"{quarter * CIRCLE // 4}", fill=SOFT)]
        if quarter < 4:
            parts.append(text(x + (RIGHT - LEFT) / 8, BOTTOM + 38, quarters[quarter]))
    eighth = (RIGHT - LEFT) / 8
    parts += [text(LEFT + 3 * eighth, BOTTOM - 8, "added", fill=SOFT), text(LEFT + 7 * eighth, TOP + 14, "subtracted", fill=SOFT)]
    parts += [dots([sun for sun, _ in year], SUN), dots([moon for _, moon in year], MOON)]
    sun, moon = worked
    parts += [ring(sun, SUN, f"Sun, day {WORKED}: +{sun[1]}", 10, 23), ring(moon, MOON, f"Moon, day {WORKED}: +{moon[1]}", 10, -14)]
    body = "\n".join(parts)
    return f'<svg xmlns="http://www.w3.org/2000/svg" viewBox="0 0 740 350" font-family="sans-serif">\n<rect width="740" height="350" fill="white"/>\n{body}\n</svg>\n'


(HERE / "equations.svg").write_text(drawn(), encoding="utf-8")
