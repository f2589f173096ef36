//! Dates as libraries write them: the calendar both ways, on all days and on dates far around; and,
//! from `iso_text`, their lines.

use crate::calls::*;
use crate::checks::Checks;
use crate::random::Random;
use crate::reference::almanac::Almanac;
use crate::reference::civil::Date;
use crate::reference::days::LAST_DAY;
use crate::reference::iso::IsoDates;
use crate::reference::refusal::Answer;

use super::{iso_text, WIDTH_EDGES};

/// An answer as the bridge gives it: the refusal in the upper half, the number in the lower.
pub fn halves(answer: Answer<u32>) -> u64 {
    match answer {
        Ok(number) => u64::from(number),
        Err(refusal) => u64::from(refusal) << 32,
    }
}

/// Day 22845 is 15 October 1582, the first whose civil date is Gregorian.
const FIRST_GREGORIAN: usize = 22_845;

/// "Its Julian Day Number is 2,276,316" (paper 01, "Days, cycles and weekdays"), of day 0.
const EPOCH_JULIAN_DAY: i64 = 2_276_316;

/// The Julian Day Number of a Gregorian date, after Fliegel and Van Flandern (1968): quotients are cut
/// towards zero.
fn julian_day(Date { year, month, day }: Date) -> i64 {
    let [year, month, day] = [year, month, day].map(i64::from);
    let before = (month - 14) / 12;
    day - 32_075 + 1461 * (year + 4800 + before) / 4 + 367 * (month - 2 - before * 12) / 12
        - 3 * ((year + 4900 + before) / 100) / 4
}

/// The reference by itself: every day's date, once more by its Julian Day Number and from the civil
/// date, which it is from 15 October 1582 on. Before that it is the Julian date ten days later, there
/// being no century between; and the last ten are the days that the civil calendar lost.
fn laws(checks: &mut Checks, almanac: &Almanac, iso: &IsoDates) {
    let days = almanac.days();
    let all = || "all days".to_string();
    checks.same("the number of dates", all, days.len(), iso.dates().len());
    for (number, date) in iso.dates().iter().enumerate() {
        let input = || format!("day {number}");
        let expected = EPOCH_JULIAN_DAY + number as i64;
        checks.same("its Julian Day Number", input, expected, julian_day(*date));
        let by_civil = if number >= FIRST_GREGORIAN {
            days[number].date
        } else if number + 10 < FIRST_GREGORIAN {
            days[number + 10].date
        } else {
            Date {
                year: 1582,
                month: 10,
                day: (number + 10 - FIRST_GREGORIAN + 5) as u32,
            }
        };
        checks.same("its date by the civil one", input, by_civil, *date);
        let back = iso.number_of(*date);
        checks.same("its day", input, Ok(number as u32), back);
    }
}

/// Dates that the request or its rules name, and the day or refusal of each.
const NAMED: [(u32, u32, u32, Answer<u32>); 24] = [
    (1520, 3, 29, Ok(0)),
    (2619, 10, 13, Ok(LAST_DAY)),
    (1520, 3, 28, Err(2)),
    (2619, 10, 14, Err(2)),
    (1582, 10, 4, Ok(22_834)),
    (1582, 10, 5, Ok(22_835)),
    (1582, 10, 14, Ok(22_844)),
    (1582, 10, 15, Ok(22_845)),
    (1612, 5, 14, Ok(33_649)),
    (2000, 1, 1, Ok(175_229)),
    (0, 1, 1, Err(2)),
    (0, 2, 29, Err(2)),
    (1, 1, 1, Err(2)),
    (1, 2, 29, Err(1)),
    (4, 2, 29, Err(2)),
    (100, 2, 29, Err(1)),
    (400, 2, 29, Err(2)),
    (1500, 2, 29, Err(1)),
    (1520, 2, 29, Err(2)),
    (1600, 2, 29, Ok(29_191)),
    (1700, 2, 29, Err(1)),
    (9999, 12, 31, Err(2)),
    (9999, 12, 32, Err(1)),
    (u32::MAX, 2, 29, Err(1)),
];

fn named(checks: &mut Checks, iso: &IsoDates) {
    for (year, month, day, expected) in NAMED {
        let input = || format!("year {year}, month {month}, day {day}");
        let came = iso.number_of(Date { year, month, day });
        checks.same("a date that is named", input, expected, came);
    }
}

fn compare_date(checks: &mut Checks, iso: &IsoDates, year: u32, month: u32, day: u32) {
    let input = || format!("year {year}, month {month}, day {day}");
    let expected = halves(iso.number_of(Date { year, month, day }));
    let came = bridge_iso_day(year, month, day);
    checks.same("bridge_iso_day", input, expected, came);
}

/// Months 0 to 13, days 0 to 32.
fn compare_year(checks: &mut Checks, iso: &IsoDates, year: u32) {
    for month in 0..=13 {
        for day in 0..=32 {
            compare_date(checks, iso, year, month, day);
        }
    }
}

fn dates_to_days(checks: &mut Checks, iso: &IsoDates) {
    for year in 0..=2700 {
        compare_year(checks, iso, year);
    }
    for year in WIDTH_EDGES
        .into_iter()
        .chain([4000, 9999, 10_000])
        .chain(u32::MAX - 96..=u32::MAX)
    {
        compare_year(checks, iso, year);
    }
    for year in [0, 1520, 1582, 2000, 2619, u32::MAX] {
        for edge in WIDTH_EDGES {
            for small in 0..=31 {
                compare_date(checks, iso, year, edge, small);
                compare_date(checks, iso, year, edge.wrapping_add(small), 1);
                compare_date(checks, iso, year, small, edge);
                compare_date(checks, iso, year, 1, edge.wrapping_add(small));
            }
        }
    }
    let mut random = Random::from_seed();
    for _ in 0..100_000 {
        let (month, day) = (random.below(14), random.below(33));
        compare_date(checks, iso, random.number(), month, day);
        let [year, month, day] = [(); 3].map(|()| random.number());
        compare_date(checks, iso, year, month, day);
    }
}

fn compare_day(checks: &mut Checks, iso: &IsoDates, number: u32) {
    let date = iso.date_of(number);
    let joined = date.map(|date| date.year * 10_000 + date.month * 100 + date.day);
    let input = || format!("day {number}");
    checks.same(
        "bridge_iso_date",
        input,
        halves(joined),
        bridge_iso_date(number),
    );
}

fn days_to_dates(checks: &mut Checks, iso: &IsoDates) {
    for number in (0..=LAST_DAY + 1000).chain(WIDTH_EDGES) {
        compare_day(checks, iso, number);
    }
    let mut random = Random::from_seed();
    for _ in 0..10_000 {
        compare_day(checks, iso, random.number());
    }
}

pub fn run(checks: &mut Checks, almanac: &Almanac) {
    let iso = IsoDates::from_first();
    laws(checks, almanac, &iso);
    named(checks, &iso);
    dates_to_days(checks, &iso);
    days_to_dates(checks, &iso);
    iso_text::run(checks, &iso);
}
