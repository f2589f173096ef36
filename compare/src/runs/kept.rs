//! Searches with just as many matching days as the library keeps while it counts, with one more or
//! less, with about twice as many, with none and with one; each with lists about these lengths, and in
//! both editions. Days that were lost, or came twice, where the kept ones end would show here.

use std::collections::{BTreeMap, BTreeSet};

use crate::checks::Checks;
use crate::random::Random;
use crate::reference::almanac::Almanac;
use crate::reference::days::LAST_DAY;
use crate::reference::longitudes::{MOON, SUN};
use crate::reference::planets::{TRUE_MOON, TRUE_SUN};
use crate::reference::search::{set_of, Arc, Query, KARANA, NAKSHATRA, TITHI, WEEKDAY, YOGA};

use super::general_search::BridgeSearch;
use super::host_search::HostSearch;
use super::queries::{most_entries, Span};
use super::query_bytes::encode;
use super::searches::{compare_lists, with_tails, SearchCalls};
use super::{EDITIONS, NO_EDITIONS};

/// So many matching days the library keeps while it counts. No answer depends on it: the comparison
/// only chooses its cases by it.
const KEPT: usize = 176;

/// How many days of a span are to match.
const COUNTS: [usize; 8] = [
    0,
    1,
    KEPT - 1,
    KEPT,
    KEPT + 1,
    2 * KEPT - 1,
    2 * KEPT,
    2 * KEPT + 1,
];

const DEGREE: u32 = 3600;
const CIRCLE: u32 = 1_296_000;

const NODE: usize = 3;
const MARS: usize = 4;
const MERCURY: usize = 5;
const JUPITER: usize = 6;
const VENUS: usize = 7;
const SATURN: usize = 8;

/// Which of the table's matching days a span takes, one after another. Its last kept day is here its
/// KEPTth, or its last if it takes fewer.
#[derive(Clone, Copy)]
enum Place {
    /// The table's first.
    Start,
    /// The table's last.
    End,
    /// The next after the last kept day comes as soon as anywhere.
    Soon,
    /// The next after the last kept day comes as late as anywhere.
    Late,
    /// The next after the span's last comes as late as anywhere.
    Quiet,
    /// The last kept day is the last before this cycle.
    Cycle(u32),
}

use Place::*;

const ANYWHERE: [Place; 7] = [Start, End, Soon, Late, Quiet, Cycle(1), Cycle(58)];

impl Place {
    /// Where among all matching days the first of `count` stands; none if they are too few.
    fn begins(self, matching: &[u32], count: usize) -> Option<usize> {
        let kept = count.min(KEPT);
        let latest = matching.len().checked_sub(count)?;
        // For each place to begin at, how far the next day is behind the last of `taken`.
        let gaps = |taken: usize| {
            (0..=latest).filter_map(move |from| {
                let before = (from + taken).checked_sub(1)?;
                Some((matching.get(from + taken)? - matching[before], from))
            })
        };
        let from = match self {
            Start => 0,
            End => latest,
            Soon => gaps(kept).min()?.1,
            Late => gaps(kept).max()?.1,
            Quiet => gaps(count).max()?.1,
            Cycle(cycle) => matching
                .partition_point(|day| *day < 4016 * cycle)
                .checked_sub(kept)?,
        };
        (from <= latest).then_some(from)
    }
}

/// Spans in which just `count` days match, from the one at `from` on: the shortest, one that ends a
/// day later, and the longest.
fn spans(matching: &[u32], from: usize, count: usize) -> Vec<Span> {
    let taken = &matching[from..from + count];
    let earliest = from.checked_sub(1).map_or(0, |before| matching[before] + 1);
    let end = *matching.get(from + count).unwrap_or(&(LAST_DAY + 1));
    let first = *taken.first().unwrap_or(&earliest);
    let last = *taken.last().unwrap_or(&earliest);
    let longest = (earliest, end.saturating_sub(1));
    let mut spans = vec![(first, last), (first, last + 1), longest];
    spans.retain(|(first, last)| first <= last && *last < end);
    spans
}

/// Spans at these places with each count of matching days, or with all days that match where they are
/// too few; and the count.
fn cut(almanac: &Almanac, conditions: &Query, places: &[Place]) -> BTreeMap<Span, usize> {
    let found = conditions
        .search(almanac)
        .expect("the query is well-formed");
    let matching = found.matching;
    let all = matching.len().min(2 * KEPT + 1);
    let mut cut = BTreeMap::new();
    for place in places {
        for count in COUNTS.into_iter().chain([all]) {
            if let Some(from) = place.begins(&matching, count) {
                let spans = spans(&matching, from, count);
                cut.extend(spans.into_iter().map(|span| (span, count)));
            }
        }
    }
    cut
}

/// The entries of the lists for a span of so many days, of which `count` match: none; about `count`;
/// about KEPT; halfway from `count` to the days; one fewer than the days; and one for each.
fn entries(count: usize, days: usize) -> BTreeSet<usize> {
    let mut entries = BTreeSet::from([0, (count + days) / 2, days - 1, days]);
    for number in [count, KEPT] {
        entries.extend(number.saturating_sub(1)..=number + 1);
    }
    entries
}

fn compare<C: SearchCalls>(
    checks: &mut Checks,
    almanac: &Almanac,
    query: &Query,
    count: usize,
    calls: &C,
) {
    let expected = query.search(almanac);
    let matching = expected.as_ref().map(|found| found.matching.len());
    checks.same("the cut span", || calls.input(), Ok(count), matching);
    let days = most_entries((query.first, query.last));
    let lengths = with_tails(entries(count, days));
    compare_lists(checks, calls, &expected, lengths);
}

/// Over the host's call.
fn host(checks: &mut Checks, almanac: &Almanac, sun: Arc, weekday: u32, places: &[Place]) {
    let conditions = Query::of_host(0, LAST_DAY, sun, weekday);
    for ((first, last), count) in cut(almanac, &conditions, places) {
        let query = Query::of_host(first, last, sun, weekday);
        let calls = HostSearch {
            first,
            last,
            sun,
            weekday,
        };
        compare(checks, almanac, &query, count, &calls);
    }
}

/// Over the bridge; and each span once more in an edition that there isn't.
fn bridge(
    checks: &mut Checks,
    almanac: &Almanac,
    random: &mut Random,
    conditions: Query,
    places: &[Place],
) {
    let spans = cut(almanac, &conditions, places);
    let mut query = conditions.clone();
    for (span, count) in spans {
        (query.first, query.last) = span;
        query.edition = conditions.edition;
        let bytes = encode(random, &query);
        compare(checks, almanac, &query, count, &BridgeSearch { bytes });
        query.edition = random.one_of(&NO_EDITIONS);
        let bytes = encode(random, &query);
        let lengths = with_tails([0, count, KEPT]);
        let refused = query.search(almanac);
        compare_lists(checks, &BridgeSearch { bytes }, &refused, lengths);
    }
}

/// A weekday all the year; in half the year, so that the walk jumps; and in a few degrees. Of a
/// weekday with the Sun in a given degree the table has some 160 days, so that all of them are kept:
/// KEPT and twice as many need wider arcs.
fn host_searches(checks: &mut Checks, almanac: &Almanac) {
    let searches: [(Arc, u32, &[Place]); 10] = [
        (Arc::new(0, CIRCLE), 0, &ANYWHERE),
        (Arc::new(77, CIRCLE), 2, &ANYWHERE),
        (Arc::new(640_000, CIRCLE), 4, &ANYWHERE),
        (Arc::new(1_295_999, CIRCLE), 6, &ANYWHERE),
        (Arc::new(1_000_000, CIRCLE / 2), 3, &ANYWHERE),
        (Arc::new(0, DEGREE), 0, &[Start, Late]),
        (Arc::new(1_294_000, DEGREE), 3, &[Start, Late]),
        (Arc::new(640_000, DEGREE), 5, &[Start, Late]),
        (Arc::new(0, 3 * DEGREE / 2), 1, &[End, Soon, Late]),
        (Arc::new(1_294_000, 5 * DEGREE / 2), 6, &[Start, Soon, Late]),
    ];
    for (sun, weekday, places) in searches {
        host(checks, almanac, sun, weekday, places);
    }
}

fn any_day() -> Query {
    Query::without_conditions(0, LAST_DAY)
}

/// A body that stands twice has two arcs.
fn with_arcs(arcs: &[(usize, Arc)]) -> Query {
    let mut query = any_day();
    for (body, arc) in arcs {
        let arcs = &mut query.arcs[*body];
        if arcs.first.is_none() {
            arcs.first = Some(*arc);
        } else {
            arcs.second = Some(*arc);
        }
    }
    query
}

/// All days; one in a week or a month; runs of days with a fortnight to 29 years between them; Sun arcs
/// of one day in most years, of two, and of some KEPT; sets of weekdays and two arcs of a body; and sets of
/// limbs and true places.
fn general_searches(checks: &mut Checks, almanac: &Almanac, edition: u32) {
    let mut weekday = any_day();
    weekday.sets[WEEKDAY] = Some(set_of(&[2]));
    let mut weekdays = any_day();
    weekdays.sets[WEEKDAY] = Some(set_of(&[0, 1, 6]));
    let mut tithi = any_day();
    tithi.sets[TITHI] = Some(set_of(&[14]));
    let mut nakshatra = any_day();
    nakshatra.sets[NAKSHATRA] = Some(set_of(&[7]));
    let mut yoga = any_day();
    yoga.sets[YOGA] = Some(set_of(&[18]));
    let moon = (MOON, Arc::new(900_000, CIRCLE / 2));
    let node = (NODE, Arc::new(1_200_000, 300_000));
    let mars = (MARS, Arc::new(50, 800_000));
    let mercury = (MERCURY, Arc::new(1_000_000, 800_000));
    let jupiter = (JUPITER, Arc::new(1_290_000, 60_000));
    let venus = (VENUS, Arc::new(50, 1_000_000));
    let saturn = |width| (SATURN, Arc::new(50, width));
    let sun = |start, width| (SUN, Arc::new(start, width));
    let mut smudged = with_arcs(&[sun(0, 2 * DEGREE), sun(640_000, 3 * DEGREE)]);
    smudged.sets[WEEKDAY] = Some(set_of(&[1, 3, 4]));
    let two_moons = [moon, (MOON, Arc::new(300_000, 100_000))];
    let two_suns = [sun(1_295_000, DEGREE), sun(640_000, DEGREE)];
    let mut limbs = any_day();
    limbs.sets[TITHI] = Some(set_of(&[13, 14, 29]));
    limbs.sets[KARANA] = Some(set_of(&[1, 7, 9, 10]));
    let true_moon = (TRUE_MOON, Arc::new(1_200_000, CIRCLE / 2));
    let true_suns = [
        sun(636_000, 5 * DEGREE),
        (TRUE_SUN, Arc::new(640_000, DEGREE)),
    ];
    let searches: [(Query, &[Place]); 21] = [
        (any_day(), &ANYWHERE),
        (weekday, &ANYWHERE),
        (tithi, &[Cycle(7)]),
        (nakshatra, &[End]),
        (yoga, &[Start]),
        (with_arcs(&[moon]), &ANYWHERE),
        (with_arcs(&[node]), &[Soon, Late, Quiet]),
        (with_arcs(&[jupiter]), &[Soon, Late, Quiet]),
        (with_arcs(&[saturn(30_000)]), &[Late]),
        (with_arcs(&[mars, mercury, venus]), &ANYWHERE),
        (with_arcs(&[sun(1_295_000, DEGREE)]), &[Soon, Late]),
        (with_arcs(&[sun(50, 2 * DEGREE)]), &[Soon, Late]),
        (with_arcs(&[sun(640_000, 3548 * KEPT as u32)]), &ANYWHERE),
        (with_arcs(&[sun(0, 30 * DEGREE), saturn(100_000)]), &[Quiet]),
        (weekdays, &[Cycle(7)]),
        (with_arcs(&two_moons), &[Late]),
        (with_arcs(&two_suns), &[Soon, Late]),
        (smudged, &[Soon, Late]),
        (limbs, &[Cycle(7)]),
        (with_arcs(&[true_moon]), &[Late]),
        (with_arcs(&true_suns), &[Soon, Late]),
    ];
    let mut random = Random::from_seed();
    for (mut conditions, places) in searches {
        conditions.edition = edition;
        bridge(checks, almanac, &mut random, conditions, places);
    }
}

pub fn run(checks: &mut Checks, almanac: &Almanac) {
    host_searches(checks, almanac);
    for edition in EDITIONS {
        general_searches(checks, almanac, edition);
    }
}
