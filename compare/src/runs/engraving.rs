//! The program `engraving`, run on many inputs.

use std::collections::BTreeMap;

use crate::checks::Checks;
use crate::reference::almanac::Almanac;
use crate::reference::plate::{numbers, plate};

use super::day_input::Program;

const ENGRAVING: Program = Program {
    path: "target/bin/engraving",
    printed: plate,
};

/// How many digits the numbers of a plate have in all.
fn width(plate: &[[u32; 4]; 9]) -> u32 {
    let digits = |number: &u32| number.checked_ilog10().unwrap_or(0) + 1;
    plate.as_flattened().iter().map(digits).sum()
}

/// For each width that a plate has, the first and the last day.
fn of_each_width(almanac: &Almanac) -> Vec<usize> {
    let mut ends: BTreeMap<u32, [usize; 2]> = BTreeMap::new();
    for (number, day) in almanac.days().iter().enumerate() {
        let [_, last] = ends.entry(width(&numbers(day))).or_insert([number; 2]);
        *last = number;
    }
    ends.into_values().flatten().collect()
}

/// For each body, the days on which its place is the smallest and the largest.
fn at_circle_ends(almanac: &Almanac) -> Vec<usize> {
    let bodies = 0..9;
    let ends = bodies.flat_map(|body| {
        let place = |number: &usize| {
            let day = &almanac.days()[*number];
            (day.mean[body], day.thirds[body])
        };
        let days = 0..almanac.days().len();
        [days.clone().min_by_key(place), days.max_by_key(place)]
    });
    ends.flatten().collect()
}

pub fn run(checks: &mut Checks, almanac: &Almanac) {
    ENGRAVING.compare_inputs(checks, almanac);
    let days = [of_each_width(almanac), at_circle_ends(almanac)].concat();
    for number in days {
        ENGRAVING.compare(checks, almanac, format!("{number}\n").as_bytes());
    }
}
