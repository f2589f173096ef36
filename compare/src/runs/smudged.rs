//! Paper 02's L9 over the bridge, by searches and looks: every set of weekdays and numbers that are
//! none; two arcs of a body in every way beside each other and about a day's place; two starts ahead of
//! the Sun and behind it; and walks with two Sun arcs over many years, for which the limit is made.

use crate::checks::Checks;
use crate::random::Random;
use crate::reference::almanac::Almanac;
use crate::reference::days::LAST_DAY;
use crate::reference::edition::Edition;
use crate::reference::longitudes::SUN;
use crate::reference::planets::TRUE_SUN;
use crate::reference::search::{Arc, Arcs, Query, WEEKDAY};

use super::queries::{random_arc, random_span, Span};
use super::{general_search, look, EDITIONS};

const CIRCLE: u32 = 1_296_000;

fn query_in(edition: u32, (first, last): Span) -> Query {
    let mut query = Query::without_conditions(first, last);
    query.edition = edition;
    query
}

/// Every number of ten bits as a set, and numbers at and about each higher bit: few of them are sets.
/// Alone, and with conditions that every day meets.
fn sets(checks: &mut Checks, almanac: &Almanac, random: &mut Random, edition: u32) {
    let about = |bit: u32| {
        let power = 1 << bit;
        [power - 1, power, power + 1, power + 64, power + 127]
    };
    for set in (0..1024).chain((10..32).flat_map(about)).chain([u32::MAX]) {
        let first = random.below(LAST_DAY - 20);
        let mut query = query_in(edition, (first, first + random.below(20)));
        query.sets[WEEKDAY] = Some(set);
        if random.once_in(2) {
            query.arcs[SUN] = Arcs::one(Arc::new(random.below(CIRCLE), CIRCLE));
        }
        general_search::compare(checks, almanac, random, &query);
        look::compare(checks, almanac, random, &query, first..first + 8);
    }
}

/// Arcs at a place and beside it, by how far before it they start: some hold it as their first second
/// or their last, some end just before it or start just behind it, and some are the whole circle.
fn arcs_about(place: u32) -> Vec<Arc> {
    let mut arcs = Vec::new();
    for before in [0, 1, 3599, 3600, 648_000, CIRCLE - 1] {
        let start = (place + CIRCLE - before) % CIRCLE;
        arcs.extend([1, 2, 3600, CIRCLE].map(|width| Arc::new(start, width)));
    }
    arcs
}

/// The days on which a body stands first and last in the circle, and any day.
fn days_of(almanac: &Almanac, random: &mut Random, body: usize, edition: Edition) -> [u32; 3] {
    let place = |day: &u32| almanac.days()[*day as usize].place(body, edition);
    let [first, last] = [
        (0..=LAST_DAY).min_by_key(place),
        (0..=LAST_DAY).max_by_key(place),
    ];
    let days = [first, last].map(|day| day.expect("the table has days"));
    [days[0], days[1], random.below(LAST_DAY + 1)]
}

/// Each two of the arcs about a place, for each body, so that they overlap, touch, leave out the place
/// alone, are the same, or one is within the other, and in many cases cross 0; and each of them alone,
/// first and second. True places have every third pair.
fn arcs(checks: &mut Checks, almanac: &Almanac, random: &mut Random) {
    for body in 0..16 {
        let edition = random.one_of(&[Edition::First, Edition::Second]);
        for day in days_of(almanac, random, body, edition) {
            let about = arcs_about(almanac.days()[day as usize].place(body, edition));
            let mut all = Vec::new();
            for one in &about {
                all.extend([Arcs::one(*one), Arcs::second_alone(*one)]);
                all.extend(about.iter().map(|two| Arcs::two(*one, *two)));
            }
            for arcs in all.into_iter().step_by(if body < TRUE_SUN { 1 } else { 3 }) {
                let behind = random.one_of(&[0, 1, 3, 30]);
                let span = (day.saturating_sub(behind), LAST_DAY.min(day + behind));
                let mut query = query_in(edition.number(), span);
                query.arcs[body] = arcs;
                general_search::compare(checks, almanac, random, &query);
                let days = [day.saturating_sub(1), day, day + 1];
                look::compare(checks, almanac, random, &query, days);
            }
        }
    }
}

/// Where a second start may be, by seconds ahead of the Sun, if the first is `ahead`: as far, a second
/// or a jump beside it, as far behind the Sun, a second behind it, and halfway to the first.
fn other_starts(ahead: u32) -> [u32; 8] {
    [
        ahead,
        ahead - 1,
        ahead + 1,
        ahead.saturating_sub(3549),
        ahead + 3549,
        CIRCLE - ahead,
        CIRCLE - 1,
        ahead / 2,
    ]
}

/// Looks from days outside two narrow Sun arcs: the one starts at each multiple of 3549 seconds ahead,
/// or a second beside that, and the other at the same start, nearer, farther or behind; in any order.
fn jumps(checks: &mut Checks, almanac: &Almanac, random: &mut Random, edition: u32) {
    let days = [0, 4015, LAST_DAY - 366, LAST_DAY];
    let drawn = [(); 2].map(|()| random.below(LAST_DAY + 1));
    for day in days.into_iter().chain(drawn) {
        let place = almanac.days()[day as usize].mean[SUN];
        let mut query = query_in(edition, (random.below(day + 1), LAST_DAY));
        let multiples = (1..=365).map(|times| 3549 * times);
        for ahead in multiples.flat_map(|multiple| multiple - 1..=multiple + 1) {
            for other in other_starts(ahead) {
                let [one, two] = [ahead, other].map(|ahead| Arc::new((place + ahead) % CIRCLE, 1));
                query.arcs[SUN] = random.one_of(&[Arcs::two(one, two), Arcs::two(two, one)]);
                look::compare(checks, almanac, random, &query, [day]);
            }
        }
    }
}

/// Two Sun arcs: narrow ones, opposite, near each other and the same; about 0; touching; overlapping; one
/// within the other.
const SUN_ARCS: [[(u32, u32); 2]; 11] = [
    [(0, 1), (648_000, 1)],
    [(324_000, 1), (972_000, 1)],
    [(0, 1), (0, 1)],
    [(0, 1), (1, 1)],
    [(500_000, 1), (503_549, 1)],
    [(640_000, 1), (1_294_000, 3600)],
    [(1_295_999, 2), (647_999, 2)],
    [(0, 3600), (648_000, 3600)],
    [(1_292_400, 3600), (0, 3600)],
    [(1_294_000, 3600), (1_296, 3600)],
    [(90_000, 7200), (91_000, 100)],
];

/// Two halves of the circle, and nearly so; the whole circle and a second of it.
const WIDE_SUN_ARCS: [[(u32, u32); 2]; 3] = [
    [(1_000_000, 648_000), (352_000, 648_000)],
    [(1_000_000, 600_000), (352_001, 600_000)],
    [(77, CIRCLE), (640_000, 1)],
];

/// Spans of just so many whole 360 days, and a day less and more.
fn spans_of_360(random: &mut Random, most: u32) -> [Span; 3] {
    [0, 1, 2].map(|more| {
        let days = 360 * random.between(1, most) - 1 + more;
        let first = random.below(LAST_DAY + 1 - days);
        (first, first + days - 1)
    })
}

/// Searches, and walks made of looks, with two Sun arcs and nothing else; and with a set of weekdays.
fn compare_long(
    checks: &mut Checks,
    almanac: &Almanac,
    random: &mut Random,
    arcs: [Arc; 2],
    span: Span,
) {
    let [one, two] = arcs;
    let mut query = query_in(random.one_of(&EDITIONS), span);
    query.arcs[SUN] = random.one_of(&[Arcs::two(one, two), Arcs::two(two, one)]);
    general_search::compare(checks, almanac, random, &query);
    look::compare_walk(checks, almanac, random, &query);
    query.sets[WEEKDAY] = Some(random.between(1, 127));
    general_search::compare(checks, almanac, random, &query);
}

/// Walks over the whole table and many years, with wide arcs over some years; and with any arcs over up
/// to a hundred years.
fn long_walks(checks: &mut Checks, almanac: &Almanac, random: &mut Random) {
    let arcs = |arcs: [(u32, u32); 2]| arcs.map(|(start, width)| Arc::new(start, width));
    for narrow in SUN_ARCS.map(arcs) {
        compare_long(checks, almanac, random, narrow, (0, LAST_DAY));
        for span in spans_of_360(random, 300) {
            compare_long(checks, almanac, random, narrow, span);
        }
    }
    for wide in WIDE_SUN_ARCS.map(arcs) {
        for span in spans_of_360(random, 30) {
            compare_long(checks, almanac, random, wide, span);
        }
    }
    for _ in 0..100 {
        let any = [random_arc(random), random_arc(random)];
        let span = random_span(random, 36_525);
        compare_long(checks, almanac, random, any, span);
    }
}

pub fn run(checks: &mut Checks, almanac: &Almanac) {
    let mut random = Random::from_seed();
    for edition in EDITIONS {
        sets(checks, almanac, &mut random, edition);
        jumps(checks, almanac, &mut random, edition);
    }
    arcs(checks, almanac, &mut random);
    long_walks(checks, almanac, &mut random);
}
