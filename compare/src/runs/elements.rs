//! The elements of a day in an edition, over the bridge: all together and each alone, on all days of
//! the table and on many numbers outside it, in editions that there are and that there aren't.

use crate::calls::*;
use crate::checks::Checks;
use crate::random::Random;
use crate::reference::almanac::Almanac;
use crate::reference::days::LAST_DAY;
use crate::reference::panchanga::Elements;
use crate::reference::refusal::{result_number, Answer, NO_SUCH_BODY};

use super::{EDITIONS, NO_EDITIONS, WIDTH_EDGES};

/// A call for one of the elements, and where the second program has the same number.
type TogetherCall = (
    &'static str,
    extern "C" fn(u32, u32) -> u32,
    fn(&Elements) -> u32,
);

const TOGETHER: [TogetherCall; 6] = [
    ("bridge_elements_sun", bridge_elements_sun, |all| all.sun),
    ("bridge_elements_moon", bridge_elements_moon, |all| all.moon),
    ("bridge_elements_tithi", bridge_elements_tithi, |all| {
        all.tithi
    }),
    (
        "bridge_elements_nakshatra",
        bridge_elements_nakshatra,
        |all| all.nakshatra,
    ),
    ("bridge_elements_yoga", bridge_elements_yoga, |all| all.yoga),
    ("bridge_elements_karana", bridge_elements_karana, |all| {
        all.karana
    }),
];

/// The element that the single calls know by this number.
fn single(which: u32, expected: Answer<&Elements>) -> Answer<u32> {
    let element: fn(&Elements) -> u32 = match which {
        0 => |all| all.tithi,
        1 => |all| all.nakshatra,
        2 => |all| all.yoga,
        3 => |all| all.karana,
        _ => return Err(NO_SUCH_BODY),
    };
    expected.map(element)
}

fn compare_together(checks: &mut Checks, edition: u32, number: u32, expected: Answer<&Elements>) {
    let input = || format!("edition {edition}, day {number}");
    let result = result_number(&expected);
    let came = bridge_elements_result(edition, number);
    checks.same("bridge_elements_result", input, result, came);
    for (name, call, element) in &TOGETHER {
        let expected = expected.map_or(0, element);
        checks.same(name, input, expected, call(edition, number));
    }
}

fn compare_single(
    checks: &mut Checks,
    which: u32,
    edition: u32,
    number: u32,
    expected: Answer<&Elements>,
) {
    let input = || format!("element {which}, edition {edition}, day {number}");
    let expected = single(which, expected);
    let came = bridge_element_result(which, edition, number);
    checks.same(
        "bridge_element_result",
        input,
        result_number(&expected),
        came,
    );
    let came = bridge_element_number(which, edition, number);
    checks.same("bridge_element_number", input, expected.unwrap_or(0), came);
}

fn compare_moon(checks: &mut Checks, edition: u32, number: u32, expected: Answer<&Elements>) {
    let input = || format!("edition {edition}, day {number}");
    let came = bridge_moon_result(edition, number);
    checks.same("bridge_moon_result", input, result_number(&expected), came);
    let came = bridge_moon_number(edition, number);
    let expected = expected.map_or(0, |elements| elements.moon);
    checks.same("bridge_moon_number", input, expected, came);
}

fn compare(checks: &mut Checks, almanac: &Almanac, edition: u32, number: u32) {
    let expected = almanac.elements(edition, number);
    compare_together(checks, edition, number, expected);
    compare_moon(checks, edition, number, expected);
    for which in 0..=5 {
        compare_single(checks, which, edition, number, expected);
    }
}

/// Both editions, and the first four numbers that are none.
fn every_day(checks: &mut Checks, almanac: &Almanac) {
    let editions = EDITIONS.iter().chain(&NO_EDITIONS[..4]);
    for edition in editions {
        for number in 0..=LAST_DAY + 1000 {
            compare(checks, almanac, *edition, number);
        }
    }
}

/// Editions at the edges and any, on days and on numbers that are none: 14 comes before 2.
fn other_editions(checks: &mut Checks, almanac: &Almanac, random: &mut Random) {
    let days = [0, 1, 4015, 4016, 33_649, LAST_DAY, LAST_DAY + 1, u32::MAX];
    let drawn = [(); 40].map(|()| random.below(LAST_DAY + 1));
    let any = [(); 40].map(|()| random.number());
    let numbers = [&days[..], &WIDTH_EDGES, &drawn, &any].concat();
    let editions = (0..=300).chain(NO_EDITIONS).chain(WIDTH_EDGES).chain(any);
    for edition in editions {
        for number in &numbers {
            compare(checks, almanac, edition, *number);
        }
    }
}

/// Numbers that are no element's, in each kind of edition and on each kind of day.
fn other_elements(checks: &mut Checks, almanac: &Almanac, random: &mut Random) {
    let any = [(); 40].map(|()| random.number());
    let edges = [0, 33_649, LAST_DAY, LAST_DAY + 1, u32::MAX];
    for which in (6..=300).chain(WIDTH_EDGES).chain(any) {
        for edition in EDITIONS.into_iter().chain(NO_EDITIONS) {
            let drawn = [random.below(LAST_DAY + 1), random.one_of(almanac.parted())];
            for number in edges.into_iter().chain(drawn) {
                let expected = almanac.elements(edition, number);
                compare_single(checks, which, edition, number, expected);
            }
        }
    }
}

pub fn run(checks: &mut Checks, almanac: &Almanac) {
    let mut random = Random::from_seed();
    every_day(checks, almanac);
    for edition in EDITIONS {
        for _ in 0..10_000 {
            compare(checks, almanac, edition, random.number());
        }
    }
    other_editions(checks, almanac, &mut random);
    other_elements(checks, almanac, &mut random);
}
