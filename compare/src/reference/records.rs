//! Paper 02, "L1. A month at one go": the record of a day, and rows of records filled together.

use super::almanac::Almanac;
use super::edition::Edition;
use super::panchanga::Elements;
use super::refusal::Answer;

/// The names of a record's fields, in their order: its day number, and "the others": "weekday, nine
/// mean places, true Sun and Moon, limbs".
pub const FIELDS: [&str; 17] = [
    "day",
    "weekday",
    "sun",
    "moon",
    "apogee",
    "node",
    "mars",
    "mercury",
    "jupiter",
    "venus",
    "saturn",
    "true_sun",
    "true_moon",
    "tithi",
    "nakshatra",
    "yoga",
    "karana",
];

pub type Record = [u32; FIELDS.len()];

/// The field that the desk has filled in: "each with its day number".
pub const DAY: usize = 0;

/// What "a single call would leave"; 2 for a number that is no day.
pub fn record(almanac: &Almanac, edition: Edition, number: u32) -> Answer<Record> {
    let day = almanac.day(number)?;
    let [sun, moon, apogee, node, mars, mercury, jupiter, venus, saturn] = day.mean;
    let Elements {
        sun: true_sun,
        moon: true_moon,
        tithi,
        nakshatra,
        yoga,
        karana,
    } = *day.elements(edition);
    Ok([
        number,
        day.weekday,
        sun,
        moon,
        apogee,
        node,
        mars,
        mercury,
        jupiter,
        venus,
        saturn,
        true_sun,
        true_moon,
        tithi,
        nakshatra,
        yoga,
        karana,
    ])
}

/// A lent row as the call leaves it: each record is that of its day, "whichever records stand beside
/// it, the same day twice included", in an edition, "one for all its records" (L8). Refused is the row
/// as a whole, with 14 "before all others", and with 2 "if any day is out of range"; then "no record"
/// is "touched".
pub fn filled(almanac: &Almanac, edition: u32, row: &[Record]) -> Answer<Vec<Record>> {
    let edition = Edition::numbered(edition)?;
    let days = row.iter().map(|lent| lent[DAY]);
    days.map(|day| record(almanac, edition, day)).collect()
}
