//! A mean place's whole seconds, left-over and divisor, over the bridge: of every body on all days
//! of the table and on many numbers outside it.

use crate::calls::*;
use crate::checks::Checks;
use crate::random::Random;
use crate::reference::almanac::Almanac;
use crate::reference::days::LAST_DAY;
use crate::reference::longitudes::{longitudes, Longitude, SATURN};
use crate::reference::motions::{added_up, Exact};
use crate::reference::refusal::{result_number, Answer, NO_SUCH_BODY};

use super::WIDTH_EDGES;

const CALLS: [(&str, extern "C" fn(u32, u32) -> u32); 4] = [
    ("bridge_longitude_result", bridge_longitude_result),
    ("bridge_longitude_seconds", bridge_longitude_seconds),
    ("bridge_longitude_remainder", bridge_longitude_remainder),
    ("bridge_longitude_divisor", bridge_longitude_divisor),
];

/// The mean place of a body that the bridge knows by this number: a body above 8 is refused first.
fn expected(almanac: &Almanac, body: u32, number: u32) -> Answer<Longitude> {
    if body as usize > SATURN {
        return Err(NO_SUCH_BODY);
    }
    let day = almanac.day(number)?;
    Ok(longitudes(day.pair)[body as usize])
}

fn compare(checks: &mut Checks, body: u32, number: u32, expected: &Answer<Longitude>) {
    let input = || format!("body {body}, day {number}");
    let [seconds, left_over, divisor] = match expected {
        Ok(longitude) => [longitude.seconds, longitude.left_over, longitude.divisor],
        Err(_) => [0; 3],
    };
    let numbers = [result_number(expected), seconds, left_over, divisor];
    for ((name, call), expected) in CALLS.iter().zip(numbers) {
        checks.same(name, input, expected, call(body, number));
    }
}

/// What L2 says of the numbers that came, by places that were added up day by day: "the left-over
/// below it, and the two together equal to the exact place reduced by whole circles"; and the
/// thirds, "left-over × 60 / divisor, rounded down".
fn together(checks: &mut Checks, body: u32, number: u32, exact: &Exact, thirds: u32) {
    let input = || format!("body {body}, day {number}");
    let [_, seconds, left_over, divisor] = CALLS.map(|(_, call)| i128::from(call(body, number)));
    checks.same("the divisor", input, exact.divisor, divisor);
    let below = left_over < divisor;
    checks.same("the left-over is below the divisor", input, true, below);
    let parts = seconds * divisor + left_over;
    checks.same("seconds × divisor + left-over", input, exact.place, parts);
    let came = left_over * 60 / divisor;
    checks.same("left-over × 60 / divisor", input, i128::from(thirds), came);
}

fn every_day(checks: &mut Checks, almanac: &Almanac) {
    let mut days = 0;
    for (number, places) in (0..).zip(added_up()) {
        let day = &almanac.days()[number as usize];
        for (body, longitude) in (0..).zip(longitudes(day.pair)) {
            compare(checks, body, number, &Ok(longitude));
            let exact = &places[body as usize];
            together(checks, body, number, exact, day.thirds[body as usize]);
        }
        days += 1;
    }
    let table = || "the table".to_string();
    checks.same("the days added up", table, LAST_DAY + 1, days);
}

/// Numbers that are no days, and bodies above 8 on days and on such numbers.
fn outside(checks: &mut Checks, almanac: &Almanac) {
    let mut random = Random::from_seed();
    let drawn: Vec<u32> = (0..10_000).map(|_| random.number()).collect();
    let behind = LAST_DAY + 1..=LAST_DAY + 1000;
    for number in behind.chain(WIDTH_EDGES).chain(drawn) {
        for body in 0..=10 {
            let expected = expected(almanac, body, number);
            compare(checks, body, number, &expected);
        }
    }
    let edges = [0, 1, 4015, 4016, LAST_DAY, LAST_DAY + 1, u32::MAX];
    let drawn: Vec<u32> = (0..1000).map(|_| random.below(LAST_DAY + 1)).collect();
    for number in edges.into_iter().chain(drawn) {
        let bodies = (9..=20).chain(WIDTH_EDGES).chain([random.number()]);
        for body in bodies {
            let expected = expected(almanac, body, number);
            compare(checks, body, number, &expected);
        }
    }
}

pub fn run(checks: &mut Checks, almanac: &Almanac) {
    every_day(checks, almanac);
    outside(checks, almanac);
}
