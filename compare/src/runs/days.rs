//! Every call that takes a day, on all days of the table and on many outside it; but the star planets',
//! which `planets` compares.

use crate::calls::*;
use crate::checks::Checks;
use crate::random::Random;
use crate::reference::almanac::{Almanac, Day};
use crate::reference::days::LAST_DAY;
use crate::reference::edition::Edition;
use crate::reference::panchanga::Elements;
use crate::reference::refusal::result_number;

use super::WIDTH_EDGES;

/// A call, and where the second program has the same number.
type DayCall = (&'static str, extern "C" fn(u32) -> u32, fn(&Day) -> u32);

/// The host's calls are edition 1.
fn elements(day: &Day) -> &Elements {
    day.elements(Edition::First)
}

const DAY_CALLS: [DayCall; 30] = [
    ("graha_day_year", graha_day_year, |day| day.date.year),
    ("graha_day_month", graha_day_month, |day| day.date.month),
    ("graha_day_of_month", graha_day_of_month, |day| day.date.day),
    ("graha_day_cycle", graha_day_cycle, |day| day.pair.cycle),
    ("graha_day_within", graha_day_within, |day| day.pair.within),
    ("graha_day_weekday", graha_day_weekday, |day| day.weekday),
    ("graha_mean_sun", graha_mean_sun, |day| day.mean[0]),
    ("graha_mean_moon", graha_mean_moon, |day| day.mean[1]),
    ("graha_moon_apogee", graha_moon_apogee, |day| day.mean[2]),
    ("graha_moon_node", graha_moon_node, |day| day.mean[3]),
    ("graha_mean_mars", graha_mean_mars, |day| day.mean[4]),
    ("graha_mercury_anomaly", graha_mercury_anomaly, |day| {
        day.mean[5]
    }),
    ("graha_mean_jupiter", graha_mean_jupiter, |day| day.mean[6]),
    ("graha_venus_anomaly", graha_venus_anomaly, |day| {
        day.mean[7]
    }),
    ("graha_mean_saturn", graha_mean_saturn, |day| day.mean[8]),
    ("graha_mean_sun_thirds", graha_mean_sun_thirds, |day| {
        day.thirds[0]
    }),
    ("graha_mean_moon_thirds", graha_mean_moon_thirds, |day| {
        day.thirds[1]
    }),
    (
        "graha_moon_apogee_thirds",
        graha_moon_apogee_thirds,
        |day| day.thirds[2],
    ),
    ("graha_moon_node_thirds", graha_moon_node_thirds, |day| {
        day.thirds[3]
    }),
    ("graha_mean_mars_thirds", graha_mean_mars_thirds, |day| {
        day.thirds[4]
    }),
    (
        "graha_mercury_anomaly_thirds",
        graha_mercury_anomaly_thirds,
        |day| day.thirds[5],
    ),
    (
        "graha_mean_jupiter_thirds",
        graha_mean_jupiter_thirds,
        |day| day.thirds[6],
    ),
    (
        "graha_venus_anomaly_thirds",
        graha_venus_anomaly_thirds,
        |day| day.thirds[7],
    ),
    (
        "graha_mean_saturn_thirds",
        graha_mean_saturn_thirds,
        |day| day.thirds[8],
    ),
    ("graha_true_sun", graha_true_sun, |day| elements(day).sun),
    ("graha_true_moon", graha_true_moon, |day| elements(day).moon),
    ("graha_tithi", graha_tithi, |day| elements(day).tithi),
    ("graha_nakshatra", graha_nakshatra, |day| {
        elements(day).nakshatra
    }),
    ("graha_yoga", graha_yoga, |day| elements(day).yoga),
    ("graha_karana", graha_karana, |day| elements(day).karana),
];

fn compare(checks: &mut Checks, almanac: &Almanac, number: u32) {
    let input = || format!("day {number}");
    let day = almanac.day(number);
    checks.same(
        "graha_day_result",
        input,
        result_number(&day),
        graha_day_result(number),
    );
    for (name, call, field) in &DAY_CALLS {
        checks.same(name, input, day.map_or(0, field), call(number));
    }
}

pub fn run(checks: &mut Checks, almanac: &Almanac) {
    for number in 0..=LAST_DAY + 1000 {
        compare(checks, almanac, number);
    }
    for edge in WIDTH_EDGES {
        compare(checks, almanac, edge);
    }
    let mut random = Random::from_seed();
    for _ in 0..10_000 {
        compare(checks, almanac, random.number());
    }
}
