//! Searches and looks on every day whose limbs differ from edition to edition: asked for a limb that
//! it has in one of them, the day fits in that edition alone.

use crate::checks::Checks;
use crate::random::Random;
use crate::reference::almanac::{Almanac, Day};
use crate::reference::days::LAST_DAY;
use crate::reference::edition::Edition;
use crate::reference::search::{set_of, Query, WEEKDAY};

use super::{general_search, look, EDITIONS, NO_EDITIONS};

/// For a day, each limb that differs from edition to edition: which of a query's sets asks for it, and
/// its number in either.
pub fn differing(day: &Day) -> impl Iterator<Item = (usize, [u32; 2])> {
    let [first, second] = [Edition::First, Edition::Second].map(|edition| day.numbers(edition));
    let limbs = (WEEKDAY + 1..5).map(move |limb| (limb, [first[limb], second[limb]]));
    limbs.filter(|(_, [first, second])| first != second)
}

/// A query's search, and its look at a day and at those beside it, in both editions and one that there
/// isn't.
fn compare(
    checks: &mut Checks,
    almanac: &Almanac,
    random: &mut Random,
    query: &mut Query,
    day: u32,
) {
    let none = random.one_of(&NO_EDITIONS);
    for edition in EDITIONS.into_iter().chain([none]) {
        query.edition = edition;
        general_search::compare(checks, almanac, random, query);
        let days = [day.saturating_sub(1), day, day + 1];
        look::compare(checks, almanac, random, query, days);
    }
}

/// The second program's own answer: the day fits in the edition whose limb is asked.
fn fits_in(almanac: &Almanac, query: &Query, day: u32) -> [bool; 2] {
    EDITIONS.map(|edition| {
        let mut query = query.clone();
        query.edition = edition;
        let look = query.look(almanac, day).expect("the query is well-formed");
        look.matches
    })
}

pub fn run(checks: &mut Checks, almanac: &Almanac) {
    let mut random = Random::from_seed();
    for day in almanac.parted().iter().copied() {
        for (limb, numbers) in differing(&almanac.days()[day as usize]) {
            for (number, fits) in numbers.into_iter().zip([[true, false], [false, true]]) {
                let beside = random.one_of(&[0, 0, 1, 20]);
                let span = (day.saturating_sub(beside), LAST_DAY.min(day + beside));
                let mut query = Query::without_conditions(span.0, span.1);
                query.sets[limb] = Some(set_of(&[number]));
                let input = || format!("day {day}, {query:?}");
                let came = fits_in(almanac, &query, day);
                checks.same("the day fits in one edition", input, fits, came);
                compare(checks, almanac, &mut random, &mut query, day);
            }
        }
    }
}
