//! P1 over the bridge, by searches, looks and reasons: sets of every size for each limb, and numbers that
//! are none; the true Moon of either edition; true places beside the mean ones; and queries for the true
//! Sun beside those that ask for the mean Sun in wider arcs too, most of all where it is as far from the
//! mean Sun as it ever comes.

use crate::checks::Checks;
use crate::random::Random;
use crate::reference::almanac::{Almanac, Day};
use crate::reference::days::LAST_DAY;
use crate::reference::edition::Edition;
use crate::reference::exact::short_way;
use crate::reference::longitudes::{JUPITER, MARS, MOON, SATURN, SUN};
use crate::reference::planets::{TRUE_MARS, TRUE_MOON, TRUE_SUN};
use crate::reference::search::{Arc, Arcs, Query, LARGEST_EQUATION, RANGES, TITHI};

use super::queries::{random_arc, random_span, whole_set, Span};
use super::{general_search, look, reasons, EDITIONS};

const CIRCLE: u32 = 1_296_000;

/// A query's search, and its looks and reasons on some days.
fn compare(
    checks: &mut Checks,
    almanac: &Almanac,
    random: &mut Random,
    query: &Query,
    days: impl IntoIterator<Item = u32> + Clone,
) {
    general_search::compare(checks, almanac, random, query);
    look::compare(checks, almanac, random, query, days.clone());
    reasons::compare(checks, almanac, random, query, days);
}

fn query_in(edition: u32, (first, last): Span) -> Query {
    let mut query = Query::without_conditions(first, last);
    query.edition = edition;
    query
}

/// A set of so many numbers.
fn set_of_size(random: &mut Random, at: usize, size: u32) -> u32 {
    let (mut left, mut set) = (whole_set(at), 0);
    while u32::count_ones(set) < size {
        let bit = 1 << random.below(32);
        set |= left & bit;
        left &= !bit;
    }
    set
}

/// Each number alone, also such as are none, and with all that there are; all but each, all below it and
/// all from it on; and some of each size.
fn sets_of(random: &mut Random, at: usize) -> Vec<u32> {
    let (least, largest) = RANGES[at];
    let all = whole_set(at);
    let mut sets = vec![0, all, u32::MAX, !all];
    for bit in (0..32).map(|number| 1 << number) {
        let below = bit - 1;
        sets.extend([bit, all | bit, all & !bit, below, all & below, all & !below]);
    }
    for size in 1..=largest + 1 - least {
        sets.extend([(); 6].map(|()| set_of_size(random, at, size)));
    }
    sets
}

/// Over a month or so, in which a limb has each of its numbers, and in a few days.
fn sets(checks: &mut Checks, almanac: &Almanac, random: &mut Random, edition: u32) {
    for at in TITHI..5 {
        for set in sets_of(random, at) {
            let days = random.one_of(&[3, 31, 60]);
            let first = random.below(LAST_DAY - days);
            let mut query = query_in(edition, (first, first + days));
            query.sets[at] = Some(set);
            if random.once_in(4) {
                let other = random.between(TITHI as u32, 4) as usize;
                query.sets[other] = Some(whole_set(other));
            }
            compare(checks, almanac, random, &query, first..first + 8);
        }
    }
}

/// Where a body stands, in either edition.
fn places(day: &Day, body: usize) -> [u32; 2] {
    [Edition::First, Edition::Second].map(|edition| day.place(body, edition))
}

/// Days by one second of the true Moon in one edition, asked for in both: they fit in that edition, and
/// in the other one only if the Moons agree. By the reference alone too.
fn moons(checks: &mut Checks, almanac: &Almanac, random: &mut Random) {
    // The Moon passes 0 from edition to edition on two of them, and on two it stays.
    let chosen = [12_022, 13_334, 455, 820];
    let drawn = [(); 400].map(|()| random.below(LAST_DAY + 1));
    for day in chosen.into_iter().chain(drawn) {
        let moons = places(&almanac.days()[day as usize], TRUE_MOON);
        for (asked, edition) in [0, 1].into_iter().flat_map(|at| EDITIONS.map(|e| (at, e))) {
            let mut query = query_in(edition, (day, day));
            query.arcs[TRUE_MOON] = Arcs::one(Arc::new(moons[asked], 1));
            let found = query.search(almanac).expect("the query is well-formed");
            let fits = moons[asked] == moons[edition as usize - 1];
            let input = || format!("day {day}, {query:?}");
            checks.same("the Moon's edition", input, fits, found.matching == [day]);
            compare(checks, almanac, random, &query, [day]);
        }
    }
}

/// The mean places beside those true ones that have one.
const BESIDE: [(usize, usize); 5] = [
    (SUN, TRUE_SUN),
    (MOON, TRUE_MOON),
    (MARS, TRUE_MARS),
    (JUPITER, TRUE_MARS + 2),
    (SATURN, TRUE_MARS + 4),
];

/// One second of the mean place, and of the true one, asked of either and of both.
fn means(checks: &mut Checks, almanac: &Almanac, random: &mut Random, edition: Edition) {
    for (mean, body) in BESIDE {
        for day in [(); 30].map(|()| random.below(LAST_DAY + 1)) {
            let own = &almanac.days()[day as usize];
            let [at_mean, at_body] =
                [mean, body].map(|body| Arcs::one(Arc::new(own.place(body, edition), 1)));
            for (of_mean, of_body) in [
                (Arcs::NONE, at_mean),
                (Arcs::NONE, at_body),
                (at_mean, at_body),
                (at_body, at_mean),
            ] {
                let mut query = query_in(edition.number(), (day, day));
                query.arcs[mean] = of_mean;
                query.arcs[body] = of_body;
                compare(checks, almanac, random, &query, [day]);
            }
        }
    }
}

/// The query for the true Sun, and the one that asks for the mean Sun in wider arcs too. By the
/// reference alone they have the same days.
fn compare_haste(checks: &mut Checks, almanac: &Almanac, random: &mut Random, query: &Query) {
    let hastened = query.hastened();
    let [days, hastened_days] = [query, &hastened].map(|query| {
        let found = query.search(almanac).expect("the query is well-formed");
        found.matching
    });
    let input = || format!("{query:?}");
    checks.same("the wider arcs", input, days, hastened_days);
    for query in [query, &hastened] {
        general_search::compare(checks, almanac, random, query);
    }
}

/// Arcs at a place: it is their first second or their last. Some are narrow, and some just so wide that
/// they become the whole circle, or a second less.
pub fn arcs_at(place: u32) -> Vec<Arc> {
    let nearly = CIRCLE - 2 * LARGEST_EQUATION;
    let widths = [1, 2, 3600, nearly - 1, nearly];
    let ends = widths
        .into_iter()
        .flat_map(|width| [(0, width), (width - 1, width)]);
    ends.map(|(before, width)| Arc::new((place + CIRCLE - before) % CIRCLE, width))
        .collect()
}

/// The days on which the true Sun is so far from the mean Sun, ahead of it or behind.
pub fn days_apart(almanac: &Almanac, apart: i64) -> Vec<u32> {
    let sun_apart = |day: &Day| short_way(day.mean[SUN], day.place(TRUE_SUN, Edition::First));
    let days = (0..).zip(almanac.days());
    days.filter(|(_, day)| sun_apart(day) == apart)
        .map(|(number, _)| number)
        .collect()
}

/// Days on which the Sun's equation is the largest that there is, or a second less: with one second
/// too few on a side of the arc the walk would pass some of them.
fn edges(checks: &mut Checks, almanac: &Almanac, random: &mut Random) {
    let largest = i64::from(LARGEST_EQUATION);
    for apart in [largest, largest - 1, -largest, 1 - largest] {
        let days = days_apart(almanac, apart);
        for day in [(); 30].map(|()| random.one_of(&days)) {
            let place = almanac.days()[day as usize].place(TRUE_SUN, Edition::First);
            for arc in arcs_at(place) {
                let beside = random.one_of(&[0, 1, 20, 400]);
                let span = (day.saturating_sub(beside), LAST_DAY.min(day + beside));
                let mut query = query_in(random.one_of(&EDITIONS), span);
                let other = Arc::new((arc.start + CIRCLE / 2) % CIRCLE, 3600);
                query.arcs[TRUE_SUN] = random.one_of(&[
                    Arcs::one(arc),
                    Arcs::second_alone(arc),
                    Arcs::two(arc, other),
                    Arcs::two(other, arc),
                ]);
                compare_haste(checks, almanac, random, &query);
            }
        }
    }
}

/// Any arcs, also such as become the whole circle or all but a few seconds of it; over some years, and a
/// few over the whole table.
fn haste(checks: &mut Checks, almanac: &Almanac, random: &mut Random) {
    let nearly = CIRCLE - 2 * LARGEST_EQUATION;
    for round in 0..300 {
        let most = if round % 60 == 0 { LAST_DAY + 1 } else { 1500 };
        let mut query = query_in(random.one_of(&EDITIONS), random_span(random, most));
        let [mut one, mut two] = [random_arc(random), random_arc(random)];
        if round % 3 == 0 {
            one.width = random.between(nearly - 2, nearly + 2);
            two.width = random.one_of(&[1, 3600, nearly - 1]);
        }
        query.arcs[TRUE_SUN] = random.one_of(&[
            Arcs::one(one),
            Arcs::second_alone(one),
            Arcs::two(one, two),
            Arcs::two(two, one),
        ]);
        if random.once_in(2) {
            query.sets[TITHI] = Some(set_of_size(random, TITHI, 3));
        }
        compare_haste(checks, almanac, random, &query);
    }
}

pub fn run(checks: &mut Checks, almanac: &Almanac) {
    let mut random = Random::from_seed();
    for edition in EDITIONS {
        sets(checks, almanac, &mut random, edition);
    }
    moons(checks, almanac, &mut random);
    for edition in [Edition::First, Edition::Second] {
        means(checks, almanac, &mut random, edition);
    }
    edges(checks, almanac, &mut random);
    haste(checks, almanac, &mut random);
}
