//! The calls that take a civil date: every year, month and day about the table and far around it,
//! dates that don't exist included, and the edges of 32 bits.

use crate::calls::*;
use crate::checks::Checks;
use crate::random::Random;
use crate::reference::almanac::Almanac;
use crate::reference::civil::Date;
use crate::reference::refusal::result_number;

use super::WIDTH_EDGES;

fn compare(checks: &mut Checks, almanac: &Almanac, year: u32, month: u32, day: u32) {
    let input = || format!("year {year}, month {month}, day {day}");
    let number = almanac.number_of(Date { year, month, day });
    checks.same(
        "graha_date_result",
        input,
        result_number(&number),
        graha_date_result(year, month, day),
    );
    checks.same(
        "graha_date_day",
        input,
        number.unwrap_or(0),
        graha_date_day(year, month, day),
    );
}

/// Months 0 to 13, days 0 to 32.
fn compare_year(checks: &mut Checks, almanac: &Almanac, year: u32) {
    for month in 0..=13 {
        for day in 0..=32 {
            compare(checks, almanac, year, month, day);
        }
    }
}

pub fn run(checks: &mut Checks, almanac: &Almanac) {
    for year in 0..=3000 {
        compare_year(checks, almanac, year);
    }
    for year in WIDTH_EDGES.into_iter().chain(4_294_967_200..=4_294_967_295) {
        compare_year(checks, almanac, year);
    }
    for year in [0, 1520, 1582, 2000, 2619, u32::MAX] {
        for edge in WIDTH_EDGES {
            for small in 0..=31 {
                compare(checks, almanac, year, edge, small);
                compare(checks, almanac, year, edge.wrapping_add(small), 1);
                compare(checks, almanac, year, small, edge);
                compare(checks, almanac, year, 1, edge.wrapping_add(small));
            }
        }
    }
    let mut random = Random::from_seed();
    for _ in 0..100_000 {
        let (month, day) = (random.below(14), random.below(33));
        compare(checks, almanac, random.number(), month, day);
    }
}
