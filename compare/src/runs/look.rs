//! The look, over the bridge: whether a day fits and which day the walk takes next, for days in the
//! span and outside it; what it refuses, and in which order; and the walk made of looks.

use std::collections::BTreeSet;

use crate::calls::*;
use crate::checks::Checks;
use crate::random::Random;
use crate::reference::almanac::Almanac;
use crate::reference::days::LAST_DAY;
use crate::reference::edition::Edition;
use crate::reference::longitudes::{MOON, SUN};
use crate::reference::planets::TRUE_SUN;
use crate::reference::refusal::{result_number, Answer, BAD_INPUT};
use crate::reference::search::{set_of, Arc, Arcs, Look, Query, KARANA, NAKSHATRA, TITHI, WEEKDAY};

use super::queries::{
    arc_ahead, at_range_ends, random_arc, random_span, spoil, Kind, Span, REFUSED_ARCS,
    REFUSED_SPANS,
};
use super::query_bytes::{encode, other_lengths, shown};
use super::{EDITIONS, NO_EDITIONS, WIDTH_EDGES};

/// The three numbers of a look.
struct Came {
    result: u32,
    matches: u32,
    next: u32,
}

fn look(query: &[u8], day: u32) -> Came {
    let (bytes, length) = (query.as_ptr(), query.len());
    unsafe {
        Came {
            result: bridge_examine_result(bytes, length, day),
            matches: bridge_examine_matches(bytes, length, day),
            next: bridge_examine_next(bytes, length, day),
        }
    }
}

/// One look. Where it is accepted, the next day is later, so that no walk goes on for ever.
fn compare_bytes(checks: &mut Checks, expected: &Answer<Look>, query: &[u8], day: u32) -> Came {
    let input = || format!("day {day}, {}", shown(query));
    let (matches, next) = match expected {
        Ok(look) => (u32::from(look.matches), look.next),
        Err(_) => (0, 0),
    };
    let came = look(query, day);
    let result = result_number(expected);
    checks.same("bridge_examine_result", input, result, came.result);
    checks.same("bridge_examine_matches", input, matches, came.matches);
    checks.same("bridge_examine_next", input, next, came.next);
    if came.result == 0 {
        checks.same("the next day is later", input, true, came.next > day);
    }
    came
}

pub fn compare(
    checks: &mut Checks,
    almanac: &Almanac,
    random: &mut Random,
    query: &Query,
    days: impl IntoIterator<Item = u32>,
) {
    let bytes = encode(random, query);
    for day in days {
        compare_bytes(checks, &query.look(almanac, day), &bytes, day);
    }
}

/// Days in a span, about its ends and outside it, days of the table's ends, and numbers that are no
/// days.
pub fn days_about(random: &mut Random, (first, last): Span) -> BTreeSet<u32> {
    let mut days = BTreeSet::from([0, LAST_DAY, LAST_DAY + 1, u32::MAX]);
    for end in [first, last] {
        days.extend([end, end.wrapping_sub(1), end.wrapping_add(1)]);
    }
    if first <= last {
        let inside = last.saturating_sub(first).saturating_add(1);
        days.extend([(); 3].map(|()| first + random.below(inside)));
    }
    days.extend([
        random.below(LAST_DAY + 1),
        first.saturating_sub(random.below(400)),
        last.saturating_add(random.below(400)),
        random.one_of(&WIDTH_EDGES),
        random.number(),
    ]);
    days
}

/// Combinations of conditions given and not given, and spans moved off a day that meets them
/// all: it fits no more, and is followed as before.
fn combinations(checks: &mut Checks, almanac: &Almanac, random: &mut Random, kind: Kind) {
    for given in kind.combinations(random) {
        let mut query = kind.draw(random, almanac, given, 400);
        let days = days_about(random, (query.first, query.last));
        compare(checks, almanac, random, &query, days);
        let found = query.search(almanac).expect("the query is well-formed");
        let Some(day) = found.matching.first().copied() else {
            continue;
        };
        let beside = random.below(400);
        let spans = [
            (day, day),
            (0, day.saturating_sub(1)),
            (day.saturating_sub(1 + beside), day.saturating_sub(1)),
            (LAST_DAY.min(day + 1), LAST_DAY),
            (LAST_DAY.min(day + 1), LAST_DAY.min(day + 1 + beside)),
        ];
        for (first, last) in spans {
            (query.first, query.last) = (first, last);
            let days = [day.saturating_sub(1), day, day + 1];
            compare(checks, almanac, random, &query, days);
        }
    }
}

/// All days of the table, and some numbers behind it, by a few queries each; and by one whose edition
/// there isn't.
fn every_day(checks: &mut Checks, almanac: &Almanac, random: &mut Random) {
    let mut queries = [
        Query::of_host(0, LAST_DAY, Arc::new(1_295_000, 3600), 3),
        Query::of_host(200_000, 200_729, Arc::new(640_000, 1), 0),
        Query::without_conditions(4015, 401_000),
        Query::without_conditions(LAST_DAY, LAST_DAY),
        Query::without_conditions(0, LAST_DAY),
        Query::without_conditions(0, LAST_DAY),
    ];
    queries[2].sets[NAKSHATRA] = Some(set_of(&[7]));
    queries[2].arcs[3] = Arcs::one(Arc::new(1_200_000, 200_000));
    let last = almanac.days()[LAST_DAY as usize].elements(Edition::First);
    queries[3].sets[TITHI] = Some(set_of(&[last.tithi]));
    queries[3].arcs[SUN] = Arcs::one(Arc::new(0, 1_296_000));
    queries[4].sets[WEEKDAY] = Some(set_of(&[0, 1, 4]));
    queries[4].arcs[SUN] = Arcs::two(Arc::new(640_000, 3600), Arc::new(1_295_000, 3600));
    queries[4].arcs[MOON] = Arcs::two(Arc::new(1_200_000, 500_000), Arc::new(700_000, 100_000));
    // Each true place is outside its arc on one day of seven or so.
    queries[5].sets[KARANA] = Some(set_of(&[1, 2, 3, 4, 5, 6, 8]));
    for (body, start) in (TRUE_SUN..16).zip([0, 1_200_000, 300_000, 900_000, 5, 640_000, 77]) {
        queries[5].arcs[body] = Arcs::one(Arc::new(start, 1_111_111));
    }
    let mut every_day = |query: &Query| {
        compare(checks, almanac, random, query, 0..=LAST_DAY + 1000);
        compare(checks, almanac, random, query, WIDTH_EDGES);
    };
    for query in &mut queries {
        for edition in EDITIONS {
            query.edition = edition;
            every_day(query);
        }
    }
    queries[0].edition = 3;
    every_day(&queries[0]);
}

/// Arcs that start at each multiple of 3549 seconds ahead of a day's mean Sun and a second beside
/// it, where the rounding up tells; and so far ahead as can be.
fn jumps(checks: &mut Checks, almanac: &Almanac, random: &mut Random, edition: u32) {
    let days = [
        0,
        4015,
        4016,
        33_649,
        LAST_DAY - 366,
        LAST_DAY - 1,
        LAST_DAY,
    ];
    let drawn = [(); 5].map(|()| random.below(LAST_DAY + 1));
    for day in days.into_iter().chain(drawn) {
        let place = almanac.days()[day as usize].mean[SUN];
        let mut query = Query::without_conditions(random.below(day + 1), LAST_DAY);
        query.edition = edition;
        let multiples = (1..=365).map(|times| 3549 * times);
        for ahead in multiples.chain([1_295_999]) {
            for beside in [0, 1, 1_295_999] {
                let start = (place + ahead + beside) % 1_296_000;
                query.arcs[SUN] = Arcs::one(Arc::new(start, 1));
                compare(checks, almanac, random, &query, [day]);
            }
        }
    }
}

/// Each end of each condition's range and the first value past it, with every kind of span and of
/// day, in editions that there are and that there aren't: of several faults 14 comes before 2, 2
/// before 5, and 5 before 6.
fn order(checks: &mut Checks, almanac: &Almanac, random: &mut Random) {
    let sound = [
        (0, 0),
        (1000, 1400),
        (LAST_DAY, LAST_DAY),
        (0, LAST_DAY),
        (5, LAST_DAY),
    ];
    for span in sound.into_iter().chain(REFUSED_SPANS) {
        let mut queries = vec![Query::without_conditions(span.0, span.1)];
        queries.extend(at_range_ends(span, 0));
        queries.extend(at_range_ends(span, 1));
        for arc in REFUSED_ARCS {
            queries.extend([0, 6].map(|weekday| Query::of_host(span.0, span.1, arc, weekday)));
        }
        for mut query in queries {
            for edition in EDITIONS.into_iter().chain(NO_EDITIONS) {
                let mut days = days_about(random, span);
                days.extend([999, 1000, 1200, 1400, 1401, LAST_DAY + 2, 1 << 31]);
                query.edition = edition;
                compare(checks, almanac, random, &query, days);
            }
        }
    }
}

/// Any conditions, some of them ill-formed, often with the span or the edition.
fn refused(checks: &mut Checks, almanac: &Almanac, random: &mut Random, kind: Kind) {
    for _ in kind.rounds(4000) {
        let given = kind.any(random);
        let mut query = kind.draw(random, almanac, given, 400);
        spoil(random, &mut query);
        let days = days_about(random, (query.first, query.last));
        compare(checks, almanac, random, &query, days);
    }
}

/// Bytes that are no query: 3 and zeros, for any day.
fn no_queries(checks: &mut Checks, random: &mut Random) {
    for bytes in other_lengths(random) {
        for day in [0, 5, 9, 10, LAST_DAY, LAST_DAY + 1, u32::MAX] {
            compare_bytes(checks, &Err(BAD_INPUT), &bytes, day);
        }
    }
}

/// The walk made of looks, from the first day until past the last: its days, the fitting ones, and
/// the numbers of both, which the search gives too.
pub fn compare_walk(checks: &mut Checks, almanac: &Almanac, random: &mut Random, query: &Query) {
    let bytes = encode(random, query);
    let found = query.search(almanac).expect("the query is well-formed");
    let (mut visited, mut matching) = (Vec::new(), Vec::new());
    let mut day = query.first;
    while day <= query.last {
        let came = compare_bytes(checks, &query.look(almanac, day), &bytes, day);
        visited.push(day);
        if came.matches == 1 {
            matching.push(day);
        }
        day = came.next;
    }
    let input = || shown(&bytes);
    let [length, looked] = [bridge_length, bridge_looked]
        .map(|call| unsafe { call(bytes.as_ptr(), bytes.len()) as usize });
    checks.same("the fitting days' number", input, matching.len(), length);
    checks.same("the walk's length", input, visited.len(), looked);
    checks.same("the fitting days", input, found.matching, matching);
    checks.same("the walk's days", input, found.visited, visited);
}

/// Short walks with any conditions, and long ones with few.
fn drawn_walks(checks: &mut Checks, almanac: &Almanac, random: &mut Random, kind: Kind) {
    for round in kind.rounds(3000) {
        let given = match round % 3 {
            0 => kind.any(random),
            1 => kind.any(random) | 1 << 4,
            _ => kind.few(random) | 1 << 4,
        };
        let most = if round % 100 == 0 { LAST_DAY + 1 } else { 1000 };
        let query = kind.draw(random, almanac, given, most);
        compare_walk(checks, almanac, random, &query);
    }
}

/// Walks with one Sun arc, whose start is a whole number of jumps ahead or anywhere, and over the whole
/// table.
fn walks(checks: &mut Checks, almanac: &Almanac, random: &mut Random, edition: u32) {
    for _ in 0..1000 {
        let (first, last) = random_span(random, 2000);
        let mut query = Query::without_conditions(first, last);
        query.edition = edition;
        query.arcs[SUN] = Arcs::one(if random.once_in(3) {
            random_arc(random)
        } else {
            arc_ahead(random, almanac, first)
        });
        compare_walk(checks, almanac, random, &query);
    }
    let mut query = Query::without_conditions(0, LAST_DAY);
    query.edition = edition;
    compare_walk(checks, almanac, random, &query);
    for (start, width) in [(0, 1), (0, 3600), (1_295_000, 108_000), (77, 1_296_000)] {
        query.arcs[SUN] = Arcs::one(Arc::new(start, width));
        compare_walk(checks, almanac, random, &query);
    }
}

pub fn run(checks: &mut Checks, almanac: &Almanac) {
    let mut random = Random::from_seed();
    for kind in Kind::all().into_iter().chain(Kind::half_read()) {
        combinations(checks, almanac, &mut random, kind);
        refused(checks, almanac, &mut random, kind);
        drawn_walks(checks, almanac, &mut random, kind);
    }
    for edition in EDITIONS {
        jumps(checks, almanac, &mut random, edition);
        walks(checks, almanac, &mut random, edition);
    }
    every_day(checks, almanac, &mut random);
    order(checks, almanac, &mut random);
    no_queries(checks, &mut random);
}
