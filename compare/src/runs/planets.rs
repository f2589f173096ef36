//! The true places of the five star planets, each by its call and all together over the bridge, on
//! all days of the table and on many numbers outside it.

use crate::calls::*;
use crate::checks::Checks;
use crate::random::Random;
use crate::reference::almanac::Almanac;
use crate::reference::days::LAST_DAY;
use crate::reference::refusal::result_number;

use super::WIDTH_EDGES;

/// In the paper's order, which numbers the planets for the bridge.
const CALLS: [(&str, extern "C" fn(u32) -> u32); 5] = [
    ("graha_true_mars", graha_true_mars),
    ("graha_true_mercury", graha_true_mercury),
    ("graha_true_jupiter", graha_true_jupiter),
    ("graha_true_venus", graha_true_venus),
    ("graha_true_saturn", graha_true_saturn),
];

fn compare(checks: &mut Checks, almanac: &Almanac, number: u32) {
    let input = || format!("day {number}");
    let expected = almanac.day(number).map(|day| day.planets);
    let result = result_number(&expected);
    let came = bridge_planets_result(number);
    checks.same("bridge_planets_result", input, result, came);
    let places = expected.unwrap_or([0; 5]);
    for ((planet, (name, call)), place) in (0..).zip(CALLS).zip(places) {
        checks.same(name, input, place, call(number));
        let input = || format!("day {number}, planet {planet}");
        let came = bridge_planets_place(number, planet);
        checks.same("bridge_planets_place", input, place, came);
    }
}

/// Numbers that are no days: those next behind the table, at the edges of 32 bits, any, and those
/// whose low bits are a day's.
fn outside(checks: &mut Checks, almanac: &Almanac, random: &mut Random) {
    let behind = LAST_DAY + 1..=LAST_DAY + 1000;
    for number in behind.chain(WIDTH_EDGES) {
        compare(checks, almanac, number);
    }
    for _ in 0..10_000 {
        compare(checks, almanac, random.number());
        let day = random.below(LAST_DAY + 1);
        compare(checks, almanac, day | 1 << random.between(19, 31));
    }
}

/// Numbers above 4 are no planets, on days and on numbers that are none.
fn no_planets(checks: &mut Checks, random: &mut Random) {
    let edges = [0, 1, 4015, 4016, LAST_DAY, LAST_DAY + 1, u32::MAX];
    let drawn = [(); 1000].map(|()| random.below(LAST_DAY + 1));
    for number in edges.into_iter().chain(drawn) {
        let any = random.between(5, u32::MAX - 1);
        for planet in (5..=20).chain(WIDTH_EDGES).chain([any]) {
            let input = || format!("day {number}, planet {planet}");
            let came = bridge_planets_place(number, planet);
            checks.same("bridge_planets_place", input, 0, came);
        }
    }
}

pub fn run(checks: &mut Checks, almanac: &Almanac) {
    let mut random = Random::from_seed();
    for number in 0..=LAST_DAY {
        compare(checks, almanac, number);
    }
    outside(checks, almanac, &mut random);
    no_planets(checks, &mut random);
}
