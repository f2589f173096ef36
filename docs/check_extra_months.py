#!/usr/bin/env python3
"""Counts when the quotient of a Saka date has counted its year's extra month already, and how far the true Sun's
entries into signs are from the mean Sun's, and holds what docs/saka.md and docs/signs.md say of both to the count.

A lunar month goes from new moon to new moon, by the true Sun and Moon of docs/rules.md (sections 4 and 5, edition 1),
between two sunrises on a straight line. A month in which the true Sun enters no sign is extra, and has the name of the
one behind it; Caitra is the month in which the Sun enters Meṣa. A day's date is its year, the number of its month's
name, the tithis elapsed at sunrise, and its weekday.

  python3 docs/check_extra_months.py    prints a line for each sentence that a page has not, then the count of those
                                        that it has, and exits with 1 where one is missing"""
import bisect
import collections
import pathlib
import re
import sys

ROOT = pathlib.Path(__file__).resolve().parent.parent
CIRCLE, HALF, SIGN, CYCLE, DAYS = 1296000, 648000, 108000, 4016, 401600
YEARS = range(1442, 1742)


def rows():
    """K, D, p and q of the Sun, the Moon and the Moon's apogee, from the meaning's table."""
    text = (ROOT / "crates/longitudes/specs/Longitudes.antt").read_text(encoding="utf-8")
    found = re.findall(r"record \{ K = (\d+); D = (\d+); p = pos (\d+); q = (\d+) \}", text)
    return [tuple(map(int, row)) for row in found[:3]]


def mean(row, day):
    k, d, p, q = row
    cycle, within = divmod(day, CYCLE)
    return ((k - cycle * d) * q + within * p) // q % CIRCLE


def true(place, apogee, scale, divisor):
    x = (apogee - place) % CIRCLE
    bhuja = min(x % HALF, HALF - x % HALF)
    product = bhuja * (HALF - bhuja)
    equation = scale * product // (divisor - product)
    return (place + (equation if x <= HALF else -equation)) % CIRCLE


SUN, MOON, APOGEE = rows()
mean_suns = [mean(SUN, day) for day in range(DAYS)]
suns = [true(place, 280800, 32400, 538526880000) for place in mean_suns]
moons = [true(mean(MOON, day), mean(APOGEE, day), 72000, 522547200000) for day in range(DAYS)]
ahead = [(moon - sun) % CIRCLE for sun, moon in zip(suns, moons)]
tithis = [way // 43200 for way in ahead]


def new_moons():
    """The day before each new moon, and the sign in which the true Sun stands at it."""
    for day in range(DAYS - 1):
        if ahead[day + 1] < ahead[day]:
            way = (ahead[day + 1] - ahead[day]) % CIRCLE
            gone = suns[day] * way + (CIRCLE - ahead[day]) * ((suns[day + 1] - suns[day]) % CIRCLE)
            yield day, gone // way % CIRCLE // SIGN


def months():
    """Each lunar month of a year: its year, the number of its name from 0, Caitra, whether it is extra, and its
    days."""
    found, year, before = list(new_moons()), YEARS[0], 0
    for (day, sign), (end, following) in zip(found, found[1:]):
        name = (sign + 1) % 12
        year += name == 0 and before != 0
        before = name
        yield year, name, sign == following, range(day + 1, end + 1)


def reckoned(year, name, tithi, weekday, more):
    """The rule's day with the quotient and so many more, and the quotient's remainder."""
    cycle, left = divmod(year - 1442, 11)
    quotient, remainder = divmod(12 * left + name + 2 * cycle + 10, 33)
    tithis_gone = 30 * (12 * left + name + quotient + more) + tithi + cycle // 6
    day = CYCLE * cycle + tithis_gone - tithis_gone // 64
    near = [other for other in (day - 1, day, day + 1) if other % 7 == weekday and quotient + more >= 0]
    return (near or [None])[0], remainder


def count():
    """Of the days before, in and after their year's extra month, and of years without one: how many the rule hits
    without the mark, with it and with one month more, by which remainders, and how often the tithi at sunrise tells."""
    years = collections.defaultdict(list)
    for month in months():
        years[month[0]].append(month)
    number, remainders = collections.Counter(), collections.defaultdict(set)
    for year in YEARS:
        extra = [days[0] for _, _, is_extra, days in years[year] if is_extra]
        for _, name, is_extra, days in years[year]:
            where = "without" if not extra else "in" if is_extra else "before" if days[0] < extra[0] else "after"
            for day in days:
                answers = {more: reckoned(year, name, tithis[day], day % 7, more) for more in (0, -1, 1)}
                hits = [more for more, (answer, _) in answers.items() if answer == day]
                number[where] += 1
                for more in hits:
                    number[where, more] += 1
                    remainders[where, more].add(answers[more][1])
                told = [answers[more][0] for more in (0, -1) if answers[more][0] is not None and tithis[answers[more][0]] == tithis[day]]
                number["told"] += told == [day]
                number["told wrong"] += bool(told) and told != [day]
                number["all"] += 1
    return number, remainders


def entries(places):
    """The days on which a sign is entered, by sign."""
    found = collections.defaultdict(list)
    for day in range(1, DAYS):
        if places[day] // SIGN != places[day - 1] // SIGN:
            found[places[day] // SIGN].append(day)
    return found


def later():
    """By how many days the true Sun's entry into each sign is later than the mean Sun's."""
    by_true, found = entries(suns), collections.defaultdict(collections.Counter)
    for sign, days in entries(mean_suns).items():
        for day in days:
            at = bisect.bisect(by_true[sign], day)
            nearest = min(by_true[sign][max(at - 1, 0):at + 1], key=lambda other: abs(other - day))
            found[sign][nearest - day] += 1
    return found


def span(numbers):
    """Consecutive numbers, in words."""
    numbers = sorted(numbers)
    assert numbers == list(range(numbers[0], numbers[-1] + 1))
    return f"{numbers[0]} to {numbers[-1]}"


def hundredths(part, whole):
    return f"{(100 * part + whole // 2) // whole} of 100"


number, remainders = count()
before, after = number["before"], number["after"]
apart = collections.Counter((tithis[day + 28] - tithis[day]) % 30 for day in range(DAYS - 28))
signs = later()
every = sum(signs.values(), collections.Counter())
assert number["told wrong"] == 0
SENTENCES = [
    ("docs/saka.md", f"{before:,} days stand before their year's extra month"),
    ("docs/saka.md", f"without the mark the rule hits {number['before', 0]:,} of them, {hundredths(number['before', 0], before)}"),
    ("docs/saka.md", f"with it {number['before', -1]:,}, {hundredths(number['before', -1], before)}"),
    ("docs/saka.md", f"by 33 is {span(remainders['before', -1])}"),
    ("docs/saka.md", f"by 33 is {span(remainders['before', 0])}"),
    ("docs/saka.md", f"on {number['without', -1]:,} of their {number['without']:,} days"),
    ("docs/saka.md", f"each with a remainder of {span(remainders['without', -1])}"),
    ("docs/saka.md", f"Of the {after:,} days after it the rule without the mark hits {number['after', 0]:,}, {hundredths(number['after', 0], after)}"),
    ("docs/saka.md", f"one month more would hit {number['after', 1]:,}, {hundredths(number['after', 1], after)}"),
    ("docs/saka.md", f"moves a day's tithi on by {' or '.join(map(str, sorted(apart)))}"),
    ("docs/saka.md", f"of all {number['all']:,} days it told {number['told']:,} right and none wrong"),
    ("docs/signs.md", f"from {-min(every)} days earlier to {max(every)} days later"),
    ("docs/signs.md", f"of the {sum(every.values()):,} entries {every[0]:,} are on the same day"),
]
missing = 0
for page, sentence in SENTENCES:
    if sentence not in re.sub(r"\s+", " ", (ROOT / page).read_text(encoding="utf-8")):
        print(f"{page} does not say: {sentence}")
        missing += 1
print(f"{len(SENTENCES) - missing} sentences on extra months and signs hold, {missing} do not")
sys.exit(bool(missing))
