//! Entries into signs, by the mean Sun and by the true one: the host's calls over spans of every kind,
//! with lists about the length that is needed, and the program `signs`.

use std::collections::BTreeMap;
use std::ptr::null_mut;

use crate::calls::*;
use crate::checks::Checks;
use crate::random::Random;
use crate::reference::almanac::Almanac;
use crate::reference::days::{LAST_CYCLE, LAST_DAY};
use crate::reference::edition::Edition;
use crate::reference::longitudes::SUN;
use crate::reference::motions::added_up;
use crate::reference::panchanga::Elements;
use crate::reference::places::Places;
use crate::reference::refusal::{Answer, LIST_TOO_SHORT};
use crate::reference::search::{Arc, Arcs};
use crate::reference::signs::{entries, printed, sign, SIGN, WORD};
use crate::reference::true_places::once_more;

use super::queries::{most_entries, random_span, Span, REFUSED_SPANS};
use super::searches::{compare_list, list_lengths};
use super::span_input::Program;
use super::NO_DAYS;

/// So many there are in all days, of the mean Sun and of the true one.
const ALL: usize = 13_194;

/// The entries of one of the two Suns: the calls that list them, and what is said of the list of all
/// days.
struct Entries {
    places: Places,
    list: (
        &'static str,
        unsafe extern "C" fn(u32, u32, *mut u8, usize) -> u32,
    ),
    length: (&'static str, extern "C" fn(u32, u32) -> u32),
    /// The first entry into sign 0, and the second.
    first: [u32; 2],
    /// How many months there are of each number of days.
    months: &'static [(u32, usize)],
    /// The entries on the first day of a cycle.
    at_turns: [u32; 3],
}

/// L10's. "Days on both sides": on day 11 the Sun is first seen in the arc from 0, and on day 376 again.
const MEAN: Entries = Entries {
    places: Places::Mean,
    list: ("graha_sign_entries", graha_sign_entries),
    length: ("graha_sign_entries_length", graha_sign_entries_length),
    first: [11, 376],
    months: &[(30, 7411), (31, 5782)],
    at_turns: [108_432, 240_960, 373_488],
};

/// P2's: "2,231 months of 29 days, 4,663 of 30, 4,581 of 31, 1,718 of 32".
const TRUE: Entries = Entries {
    places: Places::True,
    list: ("graha_true_sign_entries", graha_true_sign_entries),
    length: (
        "graha_true_sign_entries_length",
        graha_true_sign_entries_length,
    ),
    first: [9, 374],
    months: &[(29, 2231), (30, 4663), (31, 4581), (32, 1718)],
    at_turns: [112_448, 176_704, 369_472],
};

/// The entries of all days.
fn all_entries(almanac: &Almanac, places: Places) -> Vec<u32> {
    entries(almanac, places, (0, LAST_DAY)).expect("a sound span")
}

/// The days of each month: from an entry to the next.
fn months(list: &[u32]) -> impl Iterator<Item = u32> + '_ {
    let neighbours = list.iter().zip(&list[1..]);
    neighbours.map(|(earlier, later)| later - earlier)
}

impl Entries {
    /// Both calls, with a list of each of these lengths in bytes.
    fn compare_lists(
        &self,
        checks: &mut Checks,
        span: Span,
        expected: &Answer<Vec<u32>>,
        lengths: impl IntoIterator<Item = usize>,
    ) {
        let input = || format!("{span:?}");
        let (first, last) = span;
        let days = expected.as_deref().map_err(|refusal| *refusal);
        let need = days.map_or(0, <[u32]>::len) as u32;
        let (name, call) = self.length;
        checks.same(name, input, need, call(first, last));
        let (name, call) = self.list;
        for length in lengths {
            let call =
                |list: &mut [u8]| unsafe { call(first, last, list.as_mut_ptr(), list.len()) };
            compare_list(checks, name, input, call, days, length);
        }
    }

    /// With lists of no entry, one short of the need, exact, one over, each with tails, and of many more;
    /// and with no list at all.
    fn compare(&self, checks: &mut Checks, almanac: &Almanac, span: Span) {
        let expected = entries(almanac, self.places, span);
        let need = expected.as_ref().map_or(0, Vec::len);
        let most = most_entries(span).min(need + 1000);
        self.compare_lists(checks, span, &expected, list_lengths(need, most));
        let result = match expected {
            Ok(_) if need == 0 => 0,
            Ok(_) => LIST_TOO_SHORT,
            Err(refusal) => refusal,
        };
        let (name, call) = self.list;
        let came = unsafe { call(span.0, span.1, null_mut(), 0) };
        let input = || format!("{span:?}, no list");
        checks.same(name, input, result, came);
    }

    /// One list that suffices and one that is an entry short or, with no entry, has only a tail; both
    /// with tails that change from span to span.
    fn compare_shortly(&self, checks: &mut Checks, almanac: &Almanac, span: Span) {
        let expected = entries(almanac, self.places, span);
        let need = expected.as_ref().map_or(0, Vec::len);
        let turn = (span.0 + span.1) as usize;
        let enough = 4 * (need + turn % 2) + turn / 2 % 4;
        let short = 4 * need.saturating_sub(1) + turn % 4;
        self.compare_lists(checks, span, &expected, [enough, short]);
    }

    /// What L10 and P2 say of the list, held against the reference by itself: "each once, earliest first,
    /// that the signs entered follow one another in a circle", and how far neighbours are apart, "all
    /// cycles included". Here a sign is an arc of the search.
    fn laws(&self, checks: &mut Checks, almanac: &Almanac) {
        let table = || format!("all days, {:?}", self.places);
        let list = all_entries(almanac, self.places);
        checks.same("the number of entries", table, ALL, list.len());
        let first = [list[0], list[12]];
        checks.same("the first entries into sign 0", table, self.first, first);
        let place = |number: u32| self.places.of(&almanac.days()[number as usize], SUN);
        for (entry, entered) in list.iter().zip((0..12).cycle()) {
            let input = || format!("day {entry}, {:?}", self.places);
            let came = sign(self.places, &almanac.days()[*entry as usize]);
            checks.same("the signs follow one another", input, entered, came);
            let arc = Arcs::one(Arc::new(108_000 * entered, 108_000));
            let came = [entry - 1, *entry].map(|day| place(day).map(|place| arc.allow(place)));
            let expected = [Some(false), Some(true)];
            checks.same("the arc is entered", input, expected, came);
        }
        let turns: Vec<u32> = list.iter().copied().filter(|day| day % 4016 == 0).collect();
        checks.same(
            "the entries at turns",
            table,
            &self.at_turns[..],
            &turns[..],
        );
        let mut lengths = BTreeMap::new();
        for days in months(&list) {
            *lengths.entry(days).or_insert(0) += 1;
        }
        let expected = BTreeMap::from_iter(self.months.iter().copied());
        checks.same("the months by their days", table, expected, lengths);
    }

    /// The sign of every day once more, from the Sun's places reckoned another way.
    fn signs_once_more(
        &self,
        checks: &mut Checks,
        almanac: &Almanac,
        suns: impl Iterator<Item = u32>,
    ) {
        for (number, (day, sun)) in almanac.days().iter().zip(suns).enumerate() {
            let input = || format!("day {number}, {:?}", self.places);
            let came = sign(self.places, day);
            checks.same("the sign", input, sun / SIGN, came);
        }
    }

    /// All spans that begin and end at most two days from an entry, or from each fifth one of the true Sun
    /// at most four, past the mean Sun's; and that from each entry to the next and to the day before it.
    fn about_entries(&self, checks: &mut Checks, almanac: &Almanac) {
        let list = all_entries(almanac, self.places);
        for (at, entry) in list.iter().enumerate() {
            let far = self.places == Places::True && at % 5 == 0;
            let reach = if far { 4 } else { 2 };
            for first in entry - reach..=entry + reach {
                for last in first..=entry + reach {
                    self.compare_shortly(checks, almanac, (first, last));
                }
            }
        }
        for (entry, next) in list.iter().zip(&list[1..]) {
            self.compare_shortly(checks, almanac, (*entry, *next));
            self.compare_shortly(checks, almanac, (*entry, next - 1));
        }
    }

    /// All spans over each turn of a cycle that begin and end at most a month from it; and longer ones.
    fn about_turns(&self, checks: &mut Checks, almanac: &Almanac) {
        for turn in (1..=LAST_CYCLE).map(|cycle| 4016 * cycle) {
            for first in turn - 32..=turn {
                for last in turn - 1..=turn + 32 {
                    self.compare_shortly(checks, almanac, (first, last));
                }
            }
            for days in [100, 400, 4015] {
                self.compare(checks, almanac, (turn - days, turn));
                self.compare(checks, almanac, (turn - 1, turn - 1 + days));
            }
        }
    }

    /// Spans at the ends of the table, and the whole of it.
    fn at_ends(&self, checks: &mut Checks, almanac: &Almanac) {
        for days in 0..=80 {
            self.compare(checks, almanac, (0, days));
            self.compare(checks, almanac, (LAST_DAY - days, LAST_DAY));
        }
        for span in [(0, LAST_DAY), (1, LAST_DAY), (0, LAST_DAY - 1)] {
            self.compare(checks, almanac, span);
        }
    }

    /// Refused spans: every combination of days and numbers that are none, of which some are reversed too;
    /// and any numbers.
    fn refused(&self, checks: &mut Checks, almanac: &Almanac) {
        let mut random = Random::from_seed();
        let ends: Vec<u32> = [0, 5, 4016, LAST_DAY].into_iter().chain(NO_DAYS).collect();
        for first in &ends {
            for last in &ends {
                self.compare(checks, almanac, (*first, *last));
            }
        }
        for span in REFUSED_SPANS {
            self.compare(checks, almanac, span);
        }
        for _ in 0..2000 {
            self.compare(checks, almanac, (random.number(), random.number()));
            let [one, other] = [(); 2].map(|()| random.below(LAST_DAY + 1));
            self.compare(checks, almanac, (one.max(other), one.min(other)));
            self.compare(checks, almanac, (one, random.number()));
        }
    }

    fn random_spans(&self, checks: &mut Checks, almanac: &Almanac) {
        let mut random = Random::from_seed();
        for round in 0..8000 {
            let most = if round % 200 == 0 { LAST_DAY + 1 } else { 3000 };
            self.compare(checks, almanac, random_span(&mut random, most));
        }
    }
}

/// P2: the true Sun's entries another way. Its sign hangs on the mean Sun's seconds alone, so that of
/// all seconds of the circle there are twelve at which the sign is another than a second before; the
/// entries are the first days on which the mean Sun, unrolled over all circles, has come to these.
fn by_mean_sun(checks: &mut Checks, almanac: &Almanac) {
    let sign_at = |mean: u32| {
        let mean = [mean, 0, 0, 0, 0, 0, 0, 0, 0];
        Elements::of(&mean, Edition::First).sun / SIGN
    };
    let signs: Vec<u32> = (0..1_296_000).map(sign_at).collect();
    let before = signs.iter().cycle().skip(1_295_999);
    let pairs = (0..).zip(signs.iter().zip(before));
    let starts: Vec<u64> = pairs
        .filter(|(_, (sign, before))| sign != before)
        .map(|(second, _)| second)
        .collect();
    let circle = || "the whole circle".to_string();
    checks.same("the seconds of an entry", circle, 12, starts.len());

    let mut circles = 0;
    let mut unrolled: Vec<u64> = Vec::new();
    let suns = added_up().map(|places| places[SUN].place / places[SUN].divisor);
    for sun in suns {
        let at = 1_296_000 * circles + sun as u64;
        let passed = unrolled.last().is_some_and(|before| at < *before);
        circles += u64::from(passed);
        unrolled.push(at + 1_296_000 * u64::from(passed));
    }
    let all = (0..=circles).flat_map(|circle| starts.iter().map(move |at| 1_296_000 * circle + at));
    let behind = all.filter(|at| *at > unrolled[0]);
    let days: Vec<u32> = behind
        .map(|at| unrolled.partition_point(|sun| *sun < at) as u32)
        .filter(|day| *day <= LAST_DAY)
        .collect();
    let table = || "all days".to_string();
    let list = all_entries(almanac, Places::True);
    checks.same("the entries by the mean Sun", table, list, days);
}

/// How many days the true Sun enters each sign before the mean Sun or behind it.
fn beside_the_mean(checks: &mut Checks, almanac: &Almanac) {
    let [by_mean, by_true] =
        [Places::Mean, Places::True].map(|places| all_entries(almanac, places));
    let mut apart = BTreeMap::new();
    for (mean_day, true_day) in by_mean.into_iter().zip(by_true) {
        let days = i64::from(true_day) - i64::from(mean_day);
        *apart.entry(days).or_insert(0) += 1;
    }
    let expected = [
        (-3, 277),
        (-2, 3156),
        (-1, 2244),
        (0, 1857),
        (1, 2228),
        (2, 3132),
        (3, 300),
    ];
    let table = || "all entries".to_string();
    checks.same(
        "the days behind the mean Sun's",
        table,
        BTreeMap::from(expected),
        apart,
    );
}

/// P2: in the year 1612 "the mean Sun enters Meṣa on 10 April, the true one on 8 April"; and all of the
/// true Sun's entries of that year, reckoned apart from both programs.
fn worked(checks: &mut Checks, almanac: &Almanac) {
    let by_mean = "day date weekday sign\n33615 1612-4-10 tuesday 0\n";
    let by_true = "day date weekday sign\n33613 1612-4-8 sunday 0\n";
    let year = "day date weekday sign\n\
                33523 1612-1-9 monday 9\n\
                33552 1612-2-7 tuesday 10\n\
                33582 1612-3-8 thursday 11\n\
                33613 1612-4-8 sunday 0\n\
                33644 1612-5-9 wednesday 1\n\
                33675 1612-6-9 saturday 2\n\
                33707 1612-7-11 wednesday 3\n\
                33738 1612-8-11 saturday 4\n\
                33769 1612-9-11 tuesday 5\n\
                33800 1612-10-12 friday 6\n\
                33829 1612-11-10 saturday 7\n\
                33859 1612-12-10 monday 8\n";
    for (input, expected) in [
        ("1612-4-1 1612-4-30\n", by_mean),
        ("1612-4-1 1612-4-30 true\n", by_true),
        ("1612-1-1 1612-12-31 true\n", year),
        ("9 5 true\n", "refused 5\n"),
        ("1582-10-5 401600 true\n", "refused 1\n"),
        ("1612-1-1 401600 true\n", "refused 2\n"),
        ("true 1612-1-1 1612-12-31\n", "refused 3\n"),
    ] {
        let came = printed(almanac, input.as_bytes());
        checks.same_lines("signs", || input.to_string(), expected, &came);
    }
}

/// Lines of each width that there is: days of one digit and of six, weekdays, signs; and of three
/// entries at turns of cycles, of either Sun.
fn program(checks: &mut Checks, almanac: &Almanac) {
    let signs = Program {
        path: "target/bin/signs",
        printed: &|input| printed(almanac, input).into_bytes(),
    };
    let spans = [
        (0, 10),
        (0, 11),
        (10, 11),
        (11, 11),
        (11, 40),
        (11, 41),
        (401_583, 401_599),
        (401_582, 401_599),
        (108_431, 108_432),
        (108_432, 108_432),
        (240_959, 240_990),
        (373_400, 373_500),
        (100, 1100),
        (9_900, 10_100),
        (99_900, 100_100),
        (0, 8),
        (0, 9),
        (8, 9),
        (9, 9),
        (9, 39),
        (9, 40),
        (401_584, 401_599),
        (401_585, 401_599),
        (112_447, 112_448),
        (112_448, 112_448),
        (176_703, 176_735),
        (369_400, 369_500),
        (0, LAST_DAY),
    ];
    signs.compare_inputs(checks, almanac, &spans);
    signs.compare_word(checks, almanac, WORD, &spans);
}

pub fn run(checks: &mut Checks, almanac: &Almanac) {
    let mean_suns = added_up().map(|places| (places[SUN].place / places[SUN].divisor) as u32);
    MEAN.signs_once_more(checks, almanac, mean_suns);
    let true_suns = once_more().map(|places| places[SUN]);
    TRUE.signs_once_more(checks, almanac, true_suns);
    by_mean_sun(checks, almanac);
    beside_the_mean(checks, almanac);
    worked(checks, almanac);
    for entries in [MEAN, TRUE] {
        entries.laws(checks, almanac);
        entries.about_entries(checks, almanac);
        entries.about_turns(checks, almanac);
        entries.at_ends(checks, almanac);
        entries.refused(checks, almanac);
        entries.random_spans(checks, almanac);
    }
    program(checks, almanac);
}
