//! Why a day isn't in a query's list, over the bridge: the reason with its numbers, or that the day fits,
//! for days in the span and outside it; what is refused, and in which order; and for every day of many
//! spans that just the days which the search lists are said to fit. Each case of the answer is counted.

use std::collections::BTreeMap;

use crate::calls::*;
use crate::checks::Checks;
use crate::random::Random;
use crate::reference::almanac::{Almanac, Day};
use crate::reference::days::LAST_DAY;
use crate::reference::edition::Edition;
use crate::reference::longitudes::{MOON, SUN};
use crate::reference::reasons::{of_arcs, of_set, why, Asked, Reason, Why};
use crate::reference::refusal::{
    result_number, Answer, BAD_CONDITION, BAD_INPUT, LAST_BEFORE_FIRST, NO_SUCH_EDITION,
    OUT_OF_RANGE,
};
use crate::reference::search::{set_of, Arc, Arcs, Query, RANGES, WEEKDAY};

use super::look::days_about;
use super::parted::differing;
use super::queries::{
    arc_around, at_range_ends, random_arc, random_width, spoil, whole_set, Kind, Span,
    REFUSED_SPANS,
};
use super::query_bytes::{arcs_in, encode, numbers, other_lengths, shown};
use super::{EDITIONS, NO_DAYS, NO_EDITIONS};

/// The conditions' numbers go from 1 to this one; 0 is said where the day fits.
pub const LAST_CONDITION: u32 = 23;

/// Each case has to be reached so many times.
const OFTEN: u64 = 500;

/// Numbers behind those of the values asked; the low bytes of some are one's.
const BEHIND: [u32; 7] = [6, 7, 8, 256, 65_537, (1 << 31) + 2, u32::MAX];

/// A case of the answer.
#[derive(Clone, Copy, PartialEq, Eq, PartialOrd, Ord, Debug)]
enum Case {
    /// By edition; the condition is 0 where the day fits.
    Accepted {
        edition: u32,
        condition: u32,
    },
    /// The arcs that shut a day out, and which of the two are given.
    Arcs {
        body: usize,
        given: [bool; 2],
    },
    Refused(u32),
}

/// How often each case was reached.
struct Reached(BTreeMap<Case, u64>);

impl Reached {
    fn count(&mut self, answer: &Answer<Why>) {
        let mut add = |case| *self.0.entry(case).or_default() += 1;
        let Why { edition, reason } = match answer {
            Ok(why) => why,
            Err(refusal) => return add(Case::Refused(*refusal)),
        };
        add(Case::Accepted {
            edition: edition.number(),
            condition: reason.map_or(0, |reason| reason.condition),
        });
        if let Some(Asked::Arcs(body, arcs)) = reason.map(|reason| reason.asked) {
            let given = [arcs.first, arcs.second].map(|arc| arc.is_some());
            add(Case::Arcs { body, given });
        }
    }

    fn compare(&self, checks: &mut Checks) {
        let accepted = EDITIONS.into_iter().flat_map(|edition| {
            (0..=LAST_CONDITION).map(move |condition| Case::Accepted { edition, condition })
        });
        let arcs = (0..16).flat_map(|body| {
            let forms = [[true, false], [false, true], [true, true]];
            forms.map(|given| Case::Arcs { body, given })
        });
        let refused = [
            NO_SUCH_EDITION,
            OUT_OF_RANGE,
            BAD_INPUT,
            LAST_BEFORE_FIRST,
            BAD_CONDITION,
        ];
        for case in accepted.chain(arcs).chain(refused.map(Case::Refused)) {
            let times = self.0.get(&case).copied().unwrap_or(0);
            let input = || format!("{case:?}, {times} times");
            checks.same("a case is reached often", input, true, times >= OFTEN);
        }
    }
}

/// What all runs of this part have in hand.
struct Run<'a> {
    checks: &'a mut Checks,
    almanac: &'a Almanac,
    random: Random,
    reached: Reached,
}

/// The six values asked. What stands in an arc that isn't given is told as it stands in the query.
fn values(asked: Asked, query: &[u8]) -> [u32; 6] {
    match asked {
        Asked::From(value) | Asked::To(value) | Asked::Set(_, value) => [value, 0, 0, 0, 0, 0],
        Asked::Arcs(body, arcs) => {
            let values = |arc: Option<Arc>, [start, width]: [u32; 2]| match arc {
                Some(arc) => [1, arc.start, arc.width],
                None => [0, start, width],
            };
            let standing = arcs_in(query, body);
            let first = values(arcs.first, standing[0]);
            let second = values(arcs.second, standing[1]);
            [
                first[0], first[1], first[2], second[0], second[1], second[2],
            ]
        }
    }
}

/// The days of the search's own list.
fn listed(checks: &mut Checks, query: &[u8]) -> Vec<u32> {
    let (bytes, length) = (query.as_ptr(), query.len());
    let mut list = vec![0; 4 * unsafe { bridge_length(bytes, length) } as usize];
    let result = unsafe { bridge_search(bytes, length, list.as_mut_ptr(), list.len()) };
    checks.same("bridge_search", || shown(query), 0, result);
    numbers(&list)
}

/// One day. True if it is said to fit.
fn compare_bytes(checks: &mut Checks, expected: &Answer<Why>, query: &[u8], day: u32) -> bool {
    let reason = expected.as_ref().ok().and_then(|why| why.reason);
    let condition = reason.map_or(0, |reason| reason.condition);
    let asked = reason.map_or([0; 6], |reason| values(reason.asked, query));
    let found = reason.map_or(0, |reason| reason.found);
    let edition = expected.as_ref().map_or(0, |why| why.edition.number());
    let (bytes, length) = (query.as_ptr(), query.len());
    let input = || format!("day {day}, {}", shown(query));
    let behind = BEHIND[day as usize % BEHIND.len()];
    unsafe {
        let result = bridge_why_result(bytes, length, day);
        let condition_came = bridge_why_condition(bytes, length, day);
        let value = |index| bridge_why_asked(bytes, length, day, index);
        checks.same("bridge_why_result", input, result_number(expected), result);
        checks.same(
            "bridge_why_edition",
            input,
            edition,
            bridge_why_edition(bytes, length, day),
        );
        checks.same("bridge_why_condition", input, condition, condition_came);
        checks.same(
            "bridge_why_asked",
            input,
            asked,
            [0, 1, 2, 3, 4, 5].map(value),
        );
        let input_behind = || format!("index {behind}, {}", input());
        checks.same("bridge_why_asked", input_behind, 0, value(behind));
        checks.same(
            "bridge_why_found",
            input,
            found,
            bridge_why_found(bytes, length, day),
        );
        result == 0 && condition_came == 0
    }
}

/// For other parts: some days, without counting what is reached.
pub fn compare(
    checks: &mut Checks,
    almanac: &Almanac,
    random: &mut Random,
    query: &Query,
    days: impl IntoIterator<Item = u32>,
) {
    let bytes = encode(random, query);
    for day in days {
        compare_bytes(checks, &why(almanac, query, day), &bytes, day);
    }
}

impl Run<'_> {
    /// One day. True if it is said to fit.
    fn compare_bytes(&mut self, expected: &Answer<Why>, query: &[u8], day: u32) -> bool {
        self.reached.count(expected);
        compare_bytes(self.checks, expected, query, day)
    }

    fn compare(&mut self, query: &Query, days: impl IntoIterator<Item = u32>) {
        let bytes = encode(&mut self.random, query);
        for day in days {
            let expected = why(self.almanac, query, day);
            self.compare_bytes(&expected, &bytes, day);
        }
    }

    /// Every day of the span, and some on each side: those that fit are those that the search lists.
    fn compare_span(&mut self, query: &Query) {
        let bytes = encode(&mut self.random, query);
        let listed = listed(self.checks, &bytes);
        let mut fitting = Vec::new();
        for day in query.first.saturating_sub(3)..=query.last + 3 {
            let expected = why(self.almanac, query, day);
            if self.compare_bytes(&expected, &bytes, day) {
                fitting.push(day);
            }
        }
        let input = || shown(&bytes);
        self.checks
            .same("the days that fit", input, listed, fitting);
    }

    /// Days that fit, and days of which each condition in turn is the first that they don't meet. A third
    /// of them has limbs that differ from edition to edition.
    fn chosen(&mut self, edition: u32) {
        for condition in 0..=LAST_CONDITION {
            for _ in 0..700 {
                let (query, day) = shutting_out(&mut self.random, self.almanac, edition, condition);
                let why = why(self.almanac, &query, day).expect("the query is well-formed");
                let came = why.reason.map_or(0, |reason: Reason| reason.condition);
                let input = || format!("day {day}, {query:?}");
                self.checks
                    .same("the first that isn't met", input, condition, came);
                let any = self.random.below(LAST_DAY + 1);
                let span = [query.first, query.last];
                let days = [day - 1, day, day + 1, any];
                self.compare(&query, days.into_iter().chain(span));
            }
        }
    }

    /// Any conditions, half of the time few, on days in the span and about it.
    fn drawn(&mut self, kind: Kind) {
        for round in kind.rounds(3000) {
            let given = kind.any(&mut self.random);
            let few = kind.few(&mut self.random);
            let given = if round % 2 == 0 { given } else { few };
            let query = kind.draw(&mut self.random, self.almanac, given, 400);
            let days = days_about(&mut self.random, (query.first, query.last));
            self.compare(&query, days);
        }
    }

    /// Any conditions, some of them ill-formed, often with the span or the edition.
    fn refused(&mut self, kind: Kind) {
        for _ in 0..1000 {
            let given = kind.any(&mut self.random);
            let mut query = kind.draw(&mut self.random, self.almanac, given, 400);
            spoil(&mut self.random, &mut query);
            let days = days_about(&mut self.random, (query.first, query.last));
            self.compare(&query, days);
        }
    }

    /// Short spans with any conditions, and longer ones with one or two.
    fn spans(&mut self, kind: Kind) {
        for round in kind.rounds(600) {
            let few = kind.few(&mut self.random);
            let (given, most) = match round % 30 {
                0 => (few, 8000),
                1..=10 => (few, 400),
                _ => (kind.any(&mut self.random), 100),
            };
            let query = kind.draw(&mut self.random, self.almanac, given, most);
            self.compare_span(&query);
        }
    }

    /// The whole table, and numbers that are no days, by a few queries.
    fn every_day(&mut self) {
        let mut query = Query::without_conditions(0, LAST_DAY);
        query.sets[WEEKDAY] = Some(set_of(&[0, 1, 4]));
        query.arcs[SUN] = Arcs::two(Arc::new(640_000, 36_000), Arc::new(1_295_000, 36_000));
        self.compare_span(&query);
        // Each body is outside its arcs on one day of five or so.
        query = Query::without_conditions(0, LAST_DAY);
        query.edition = 2;
        for (body, arcs) in query.arcs[..9].iter_mut().enumerate() {
            let [first, second] = [0, 650_000]
                .map(|more| Arc::new((140_000 * body as u32 + more) % 1_296_000, 520_000));
            *arcs = Arcs::two(first, second);
        }
        query.arcs[MOON] = Arcs::second_alone(Arc::new(700_000, 1_040_000));
        self.compare_span(&query);
        for edition in EDITIONS.into_iter().chain(NO_EDITIONS) {
            query.edition = edition;
            self.compare(&query, NO_DAYS);
        }
    }

    /// Each end of each condition's range and the first value past it, with every kind of span and of
    /// day, in editions that there are and that there aren't: of several faults 14 comes before 2, 2
    /// before 5, and 5 before 6.
    fn order(&mut self) {
        let sound: [Span; 3] = [(0, 0), (1000, 1400), (5, LAST_DAY)];
        for span in sound.into_iter().chain(REFUSED_SPANS) {
            let mut queries = vec![Query::without_conditions(span.0, span.1)];
            queries.extend(at_range_ends(span, 0));
            queries.extend(at_range_ends(span, 1));
            for mut query in queries {
                let none = self.random.one_of(&NO_EDITIONS);
                let no_day = self.random.one_of(&NO_DAYS);
                for edition in EDITIONS.into_iter().chain([none]) {
                    query.edition = edition;
                    self.compare(&query, [0, 999, 1200, 1401, LAST_DAY, no_day]);
                }
            }
        }
    }

    /// Every day whose limbs differ from edition to edition, asked for a limb of either: it fits in that
    /// edition, and in the other one that limb shuts it out.
    fn parted(&mut self) {
        for day in self.almanac.parted().iter().copied() {
            for (limb, numbers) in differing(&self.almanac.days()[day as usize]) {
                for (number, edition) in numbers
                    .into_iter()
                    .flat_map(|number| EDITIONS.map(|edition| (number, edition)))
                {
                    let mut query = Query::without_conditions(0, LAST_DAY);
                    query.edition = edition;
                    query.sets[limb] = Some(set_of(&[number]));
                    self.compare(&query, [day]);
                }
            }
        }
    }

    /// Bytes that are no query: 3 and zeros, for any day.
    fn no_queries(&mut self) {
        for bytes in other_lengths(&mut self.random) {
            for day in [0, 9, 10, LAST_DAY + 1] {
                self.compare_bytes(&Err(BAD_INPUT), &bytes, day);
            }
        }
    }
}

/// A span before which a day is (condition 1), behind which it is (2), or that holds it.
fn span_for(random: &mut Random, day: u32, condition: u32) -> Span {
    let beside = random.one_of(&[0, 1, 400, LAST_DAY]);
    let [before, behind] = [day, LAST_DAY - day].map(|most| random.below(beside.min(most) + 1));
    match condition {
        1 => {
            let first = (day + 1 + behind).min(LAST_DAY);
            (first, random.between(first, LAST_DAY))
        }
        2 => {
            let last = (day - 1).saturating_sub(before);
            (random.between(0, last), last)
        }
        _ => (day - before, day + behind),
    }
}

/// A set with a number, or without it; never an empty one. Often it has one number alone, and if that
/// isn't the day's own its neighbour.
fn set_for(random: &mut Random, at: usize, own: u32, met: bool) -> u32 {
    let (least, largest) = RANGES[at];
    let count = largest + 1 - least;
    let more = random.number() & random.one_of(&[0, whole_set(at)]) & random.number();
    let any = random.between(1, count - 1);
    let ahead = random.one_of(&[1, count - 1, any]);
    if met {
        set_of(&[own]) | more
    } else {
        let other = least + (own - least + ahead) % count;
        set_of(&[other]) | more & !set_of(&[own])
    }
}

/// An arc that doesn't hold a place; often it starts or ends just beside it.
fn arc_without(random: &mut Random, place: u32) -> Arc {
    let width = random_width(random).min(1_295_999);
    let most = 1_296_000 - width;
    let any = random.between(1, most);
    let ahead = random.one_of(&[1, most, any]);
    Arc::new((place + ahead) % 1_296_000, width)
}

/// One or two arcs that hold a place, or that don't.
fn arcs_for(random: &mut Random, place: u32, met: bool) -> Arcs {
    let (arc, other) = if met {
        (arc_around(random, place), random_arc(random))
    } else {
        (arc_without(random, place), arc_without(random, place))
    };
    match random.below(4) {
        0 => Arcs::one(arc),
        1 => Arcs::second_alone(arc),
        2 => Arcs::two(arc, other),
        _ => Arcs::two(other, arc),
    }
}

/// P1: karana stands before the arcs of mean places in the order in which conditions are tested.
fn place_in_order(condition: u32) -> u32 {
    match condition {
        7..=15 => condition + 1,
        16 => 7,
        _ => condition,
    }
}

/// A query and a day that it shuts out, first by the condition of this number; or, with 0, a day that
/// fits. What comes before that condition is met or not given, and what comes behind may be anything.
pub fn shutting_out(
    random: &mut Random,
    almanac: &Almanac,
    edition: u32,
    condition: u32,
) -> (Query, u32) {
    let parted = random.one_of(almanac.parted());
    let any = random.below(LAST_DAY + 1);
    let number = random.one_of(&[parted, any, any]).clamp(1, LAST_DAY - 1);
    let day: &Day = &almanac.days()[number as usize];
    let named = Edition::numbered(edition).expect("an edition");
    let (first, last) = span_for(random, number, condition);
    let mut query = Query::without_conditions(first, last);
    query.edition = edition;
    // None where it isn't given, else whether it is met.
    let met = |random: &mut Random, other: u32| match random.below(3) {
        _ if other == condition => Some(false),
        0 => None,
        1 => Some(true),
        _ => Some(condition == 0 || place_in_order(other) < place_in_order(condition)),
    };
    for (at, own) in day.numbers(named).into_iter().enumerate() {
        query.sets[at] = met(random, of_set(at)).map(|met| set_for(random, at, own, met));
    }
    for body in 0..16 {
        if let Some(met) = met(random, of_arcs(body)) {
            query.arcs[body] = arcs_for(random, day.place(body, named), met);
        }
    }
    (query, number)
}

pub fn run(checks: &mut Checks, almanac: &Almanac) {
    let mut run = Run {
        checks,
        almanac,
        random: Random::from_seed(),
        reached: Reached(BTreeMap::new()),
    };
    for edition in EDITIONS {
        run.chosen(edition);
    }
    for kind in Kind::all().into_iter().chain(Kind::half_read()) {
        run.drawn(kind);
        run.refused(kind);
        run.spans(kind);
    }
    run.every_day();
    run.order();
    run.parted();
    run.no_queries();
    let Run {
        checks, reached, ..
    } = run;
    reached.compare(checks);
}
