#!/usr/bin/env python3
"""Draws docs/planets.svg: how far each true planet is from its mean place, round the circle of its first anomaly, from
what the host's calls hand back for all days.

  python3 docs/make_planets_svg.py    after `./build host`

The drawing reckons no correction: for each degree of the anomaly it has the least and the largest difference of two
places that were handed back. Between the two lies what the manda correction does; their bends at every 15 degrees are
the entries of the sighra table."""
import pathlib
import subprocess
import tempfile

HERE = pathlib.Path(__file__).resolve().parent
ROOT = HERE.parent
LEFT, RIGHT, TOP, HIGH, GAP = 60, 700, 46, 120, 26
INK, SOFT = "#222222", "#999999"
PLANETS = [("Mars", "#b5432e"), ("Mercury", "#3d7d6e"), ("Jupiter", "#b57d1c"), ("Venus", "#7a4d9c"), ("Saturn", "#47698c")]
PROGRAM = """
#include <stdio.h>
#include "grahalaghava.h"

enum { CIRCLE = 1296000, DAYS = 401600 };

static int32_t forwards(uint32_t to, uint32_t from)
{
    return (int32_t)((to + CIRCLE - from) % CIRCLE);
}

static void show(uint32_t (*own)(uint32_t), uint32_t (*place)(uint32_t), int inner)
{
    int32_t least[360], most[360];
    for (int degree = 0; degree < 360; degree++) {
        least[degree] = CIRCLE;
        most[degree] = -CIRCLE;
    }
    for (uint32_t day = 0; day < DAYS; day++) {
        uint32_t sun = graha_mean_sun(day);
        int32_t anomaly = inner ? (int32_t)own(day) : forwards(sun, own(day));
        int32_t by = (forwards(place(day), inner ? sun : own(day)) + CIRCLE / 2) % CIRCLE - CIRCLE / 2;
        if (by < least[anomaly / 3600])
            least[anomaly / 3600] = by;
        if (by > most[anomaly / 3600])
            most[anomaly / 3600] = by;
    }
    for (int degree = 0; degree < 360; degree++)
        printf("%d %d ", (int)least[degree], (int)most[degree]);
    printf("\\n");
}

int main(void)
{
    show(graha_mean_mars, graha_true_mars, 0);
    show(graha_mercury_anomaly, graha_true_mercury, 1);
    show(graha_mean_jupiter, graha_true_jupiter, 0);
    show(graha_venus_anomaly, graha_true_venus, 1);
    show(graha_mean_saturn, graha_true_saturn, 0);
}
"""


def bands():
    """Of each planet the least and the largest correction, for each degree."""
    with tempfile.TemporaryDirectory() as folder:
        source, built = pathlib.Path(folder, "bands.c"), pathlib.Path(folder, "bands")
        source.write_text(PROGRAM)
        subprocess.run(["cc", "-O2", "-I", ROOT / "include", "-o", built, source, ROOT / "target/staticlib/libhost.a"], check=True)
        lines = subprocess.run([built], check=True, capture_output=True, text=True).stdout.splitlines()
    for line in lines:
        numbers = list(map(int, line.split()))
        yield numbers[0::2], numbers[1::2]


def text(x, y, words, anchor="middle", fill=INK, size=13):
    return f'<text x="{x:.0f}" y="{y:.0f}" font-size="{size}" text-anchor="{anchor}" fill="{fill}">{words}</text>'


def line(x1, y1, x2, y2, width=0.6):
    return f'<line x1="{x1:.1f}" y1="{y1:.1f}" x2="{x2:.1f}" y2="{y2:.1f}" stroke="{SOFT}" stroke-width="{width}"/>'


def panel(number, name, colour, least, most):
    top = TOP + number * (HIGH + GAP)
    middle = top + HIGH / 2
    reach = max(map(abs, least + most)) / 3600
    degrees = next(step for step in (5, 10, 20, 40) if 2 * step > reach)

    def at(degree, by):
        return LEFT + (RIGHT - LEFT) * (degree + 0.5) / 360, middle - by / 3600 / reach * HIGH / 2

    parts = [line(LEFT + (RIGHT - LEFT) * step / 24, top, LEFT + (RIGHT - LEFT) * step / 24, top + HIGH, 1.2 if step % 6 == 0 else 0.4) for step in range(25)]
    for shown in (-degrees, 0, degrees):
        y = at(0, shown * 3600)[1]
        parts += [line(LEFT, y, RIGHT, y), text(LEFT - 8, y + 4, f"{shown:+d}°" if shown else "0", "end", SOFT)]
    round_trip = [at(degree, by) for degree, by in enumerate(most)] + [at(degree, by) for degree, by in reversed(list(enumerate(least)))]
    points = " ".join(f"{x:.1f},{y:.1f}" for x, y in round_trip)
    parts.append(f'<polygon points="{points}" fill="{colour}" fill-opacity="0.25" stroke="{colour}" stroke-width="1.2" stroke-linejoin="round"/>')
    parts.append(text(RIGHT - 6, top + 16, name, "end", colour, 15))
    return parts


def drawn():
    parts = [text((LEFT + RIGHT) / 2, 24, "How far each planet is from its mean place, by its first śīghra anomaly: all 401,600 days", size=15)]
    for number, ((name, colour), (least, most)) in enumerate(zip(PLANETS, bands())):
        parts += panel(number, name, colour, least, most)
    bottom = TOP + 5 * (HIGH + GAP) - GAP
    parts += [text(LEFT + (RIGHT - LEFT) * quarter / 4, bottom + 20, f"{90 * quarter}°", fill=SOFT) for quarter in range(5)]
    high = bottom + 34
    body = "\n".join(parts)
    return f'<svg xmlns="http://www.w3.org/2000/svg" viewBox="0 0 740 {high}" font-family="sans-serif">\n<rect width="740" height="{high}" fill="white"/>\n{body}\n</svg>\n'


(HERE / "planets.svg").write_text(drawn(), encoding="utf-8")
