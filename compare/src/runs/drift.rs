//! The drift from the older books, over the bridge: of all three bodies on every day alone and over
//! spans of every kind; and the program `drift`.

use std::collections::BTreeSet;

use crate::calls::*;
use crate::checks::Checks;
use crate::random::Random;
use crate::reference::almanac::Almanac;
use crate::reference::days::{LAST_CYCLE, LAST_DAY};
use crate::reference::drift::{largest, Distances, Drift, MOTIONS};
use crate::reference::exact::CIRCLE;
use crate::reference::motions::added_up;
use crate::reference::refusal::result_number;

use super::queries::{random_span, Span, REFUSED_SPANS};
use super::span_input::Program;
use super::{NO_DAYS, WIDTH_EDGES};

/// What is said of a body that isn't one of the three, and with a refusal.
const NOTHING: Drift = Drift {
    numerator: 0,
    divisor: 0,
    day: 0,
};

fn came((first, last): Span, body: u32) -> Drift {
    Drift {
        numerator: bridge_drift_numerator(first, last, body),
        divisor: bridge_drift_divisor(first, last, body),
        day: bridge_drift_day(first, last, body),
    }
}

/// The result, and all numbers of each of the three bodies.
fn compare(checks: &mut Checks, distances: &Distances, span: Span) {
    let expected = distances.drifts(span);
    let input = || format!("{span:?}");
    let result = bridge_drift_result(span.0, span.1);
    let name = "bridge_drift_result";
    checks.same(name, input, result_number(&expected), result);
    for (body, expected) in (0..).zip(expected.unwrap_or([NOTHING; 3])) {
        let input = || format!("{span:?}, body {body}");
        checks.same("bridge_drift", input, expected, came(span, body));
    }
}

/// The distances once more, by places that are added up day by day, document 002's and the older
/// motion's. Both are counted in parts of the divisor.
fn added_distances(checks: &mut Checks, distances: &Distances) {
    for (at, motion) in MOTIONS.iter().enumerate() {
        let circle = CIRCLE * motion.divisor();
        let a_day = motion.circles * CIRCLE * (motion.divisor() / motion.days);
        let mut older = None;
        for (number, places) in added_up().enumerate() {
            let place = places[motion.body].place * motion.days;
            let motion_place = older.unwrap_or(place);
            let ahead = (place - motion_place).rem_euclid(circle);
            let behind = (motion_place - place).rem_euclid(circle);
            let input = || format!("body {at}, day {number}");
            let came = i128::from(distances.of_body(at)[number]);
            checks.same("the distance", input, ahead.min(behind), came);
            older = Some((motion_place + a_day) % circle);
        }
    }
}

/// Over all days: the whole seconds, and the day. No two days of a body are equally far; of two that
/// were, the first would count.
fn over_all(checks: &mut Checks, distances: &Distances) {
    let all = distances.drifts((0, LAST_DAY)).expect("a sound span");
    let seconds = all.map(|drift| (drift.numerator / drift.divisor, drift.day));
    let expected = [1230, 4750, 23_214].map(|seconds| (seconds, LAST_DAY));
    let table = || "all days".to_string();
    checks.same("the whole seconds, and the day", table, expected, seconds);
    for at in 0..MOTIONS.len() {
        let different = BTreeSet::from_iter(distances.of_body(at)).len();
        let days = distances.of_body(at).len();
        checks.same("no two equally far", table, days, different);
    }
    let first = largest(7, &[3, 5, 4, 5, 0]);
    checks.same(
        "the first of two",
        || "days 8 and 10".to_string(),
        (5, 8),
        first,
    );
}

/// Spans that end on, before or behind the last day before a turn, where the distance of the Moon and
/// its apogee falls; and all short ones over some turns.
fn turns(checks: &mut Checks, distances: &Distances) {
    for turn in (1..=LAST_CYCLE).map(|cycle| 4016 * cycle) {
        for before in [1, 2, 3, 30, 400] {
            for behind in [0, 1, 2, 30, 400] {
                compare(checks, distances, (turn - before, turn - 1 + behind));
                compare(checks, distances, (turn, turn + behind));
            }
        }
    }
    for turn in [1, 2, 50, LAST_CYCLE].map(|cycle| 4016 * cycle) {
        for first in turn - 12..turn + 12 {
            for last in first..turn + 12 {
                compare(checks, distances, (first, last));
            }
        }
    }
}

/// The days behind a turn on which a body is again as far as it was on the last day before: spans that
/// end about them.
fn overtaken(checks: &mut Checks, distances: &Distances) {
    for at in 0..MOTIONS.len() {
        let distances_of = distances.of_body(at);
        for turn in (1..=LAST_CYCLE).map(|cycle| 4016 * cycle) {
            let peak = distances_of[turn as usize - 1];
            let farther = |day: &u32| distances_of[*day as usize] > peak;
            let Some(day) = (turn..=LAST_DAY).find(farther) else {
                continue;
            };
            for last in day.max(turn + 1) - 1..=LAST_DAY.min(day + 1) {
                compare(checks, distances, (turn - 1, last));
                compare(checks, distances, (turn - 5, last));
            }
        }
    }
}

/// Every day alone, and some days at the start and the end of the table.
fn days(checks: &mut Checks, distances: &Distances) {
    for day in 0..=LAST_DAY {
        compare(checks, distances, (day, day));
    }
    for days in 1..=40 {
        compare(checks, distances, (0, days));
        compare(checks, distances, (LAST_DAY - days, LAST_DAY));
    }
}

/// Refused spans, of which some are reversed too; any numbers; and bodies that are none of the three,
/// over sound spans and refused ones.
fn refused(checks: &mut Checks, distances: &Distances) {
    let mut random = Random::from_seed();
    let ends: Vec<u32> = [0, 5, 4016, LAST_DAY].into_iter().chain(NO_DAYS).collect();
    let mut spans = Vec::from(REFUSED_SPANS);
    let is_refused = |(first, last): Span| first > last || last > LAST_DAY;
    for first in &ends {
        spans.extend(ends.iter().map(|last| (*first, *last)));
    }
    for _ in 0..2000 {
        let [one, other] = [(); 2].map(|()| random.below(LAST_DAY + 1));
        let (earlier, later) = (one.min(other), one.max(other) + 1);
        spans.push((random.number(), random.number()));
        spans.push((later, earlier));
        spans.push((one, random.number()));
    }
    spans.retain(|span| is_refused(*span));
    for span in spans.into_iter().chain([(0, 0), (5, 9), (4010, 4020)]) {
        compare(checks, distances, span);
        for body in (3..=9).chain(WIDTH_EDGES).chain([random.number()]) {
            if body > 2 {
                let input = || format!("{span:?}, body {body}");
                checks.same("bridge_drift", input, NOTHING, came(span, body));
            }
        }
    }
}

fn random_spans(checks: &mut Checks, distances: &Distances) {
    let mut random = Random::from_seed();
    for _ in 0..4000 {
        compare(checks, distances, random_span(&mut random, 1000));
    }
    for _ in 0..200 {
        compare(checks, distances, random_span(&mut random, 20_000));
    }
    for _ in 0..4 {
        compare(checks, distances, random_span(&mut random, LAST_DAY + 1));
    }
    compare(checks, distances, (0, LAST_DAY));
}

/// Numbers of each width, and the whole table.
fn program(checks: &mut Checks, almanac: &Almanac, distances: &Distances) {
    let drift = Program {
        path: "target/bin/drift",
        printed: &|input| distances.printed(almanac, input).into_bytes(),
    };
    let mut spans = vec![(0, 0), (1, 1), (0, LAST_DAY), (1, LAST_DAY - 1)];
    spans.extend((0..19).map(|power| (0, 1 << power)));
    spans.extend([1, 2, 50, 99].map(|cycle| (4016 * cycle - 1, 4016 * cycle)));
    drift.compare_inputs(checks, almanac, &spans);
}

pub fn run(checks: &mut Checks, almanac: &Almanac) {
    let distances = Distances::of(almanac);
    added_distances(checks, &distances);
    over_all(checks, &distances);
    days(checks, &distances);
    turns(checks, &distances);
    overtaken(checks, &distances);
    refused(checks, &distances);
    random_spans(checks, &distances);
    program(checks, almanac, &distances);
}
