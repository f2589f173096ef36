//! The host's search: a Sun arc and a weekday, both always.

use crate::calls::*;
use crate::checks::Checks;
use crate::random::Random;
use crate::reference::almanac::Almanac;
use crate::reference::days::{LAST_CYCLE, LAST_DAY};
use crate::reference::longitudes::SUN;
use crate::reference::search::{Arc, Query};

use super::queries::{
    arc_ahead, arc_around, most_entries, random_arc, random_span, Span, REFUSED_ARCS, REFUSED_SPANS,
};
use super::searches::{self, SearchCalls};

#[derive(Debug)]
pub struct HostSearch {
    pub first: u32,
    pub last: u32,
    pub sun: Arc,
    pub weekday: u32,
}

impl SearchCalls for HostSearch {
    const NAMES: [&'static str; 3] = ["graha_search", "graha_search_length", "graha_search_looked"];

    fn search(&self, list: &mut [u8]) -> u32 {
        let (bytes, count) = (list.as_mut_ptr(), list.len());
        unsafe {
            graha_search(
                self.first,
                self.last,
                self.sun.start,
                self.sun.width,
                self.weekday,
                bytes,
                count,
            )
        }
    }

    fn length(&self) -> u32 {
        graha_search_length(
            self.first,
            self.last,
            self.sun.start,
            self.sun.width,
            self.weekday,
        )
    }

    fn looked(&self) -> u32 {
        graha_search_looked(
            self.first,
            self.last,
            self.sun.start,
            self.sun.width,
            self.weekday,
        )
    }

    fn input(&self) -> String {
        format!("{self:?}")
    }
}

fn compare(checks: &mut Checks, almanac: &Almanac, span: Span, sun: Arc, weekday: u32) {
    let (first, last) = span;
    let expected = Query::of_host(first, last, sun, weekday).search(almanac);
    searches::compare(
        checks,
        &HostSearch {
            first,
            last,
            sun,
            weekday,
        },
        &expected,
        most_entries(span),
    );
}

/// Chosen arcs over chosen spans; the paper's own search is among them.
fn chosen(checks: &mut Checks, almanac: &Almanac) {
    let spans = [
        (0, 0),
        (0, 729),
        (4010, 4020),
        (8031, 12049),
        (401000, LAST_DAY),
    ];
    let starts = [0, 1, 647_999, 1_258_860, 1_294_000, 1_295_999];
    let widths = [1, 2, 3548, 3549, 3550, 3600, 648_000, 1_295_999, 1_296_000];
    for span in spans {
        for start in starts {
            for width in widths {
                for weekday in [0, 3, 6] {
                    compare(checks, almanac, span, Arc::new(start, width), weekday);
                }
            }
        }
    }
}

/// The whole span of the table.
fn whole(checks: &mut Checks, almanac: &Almanac) {
    let arcs = [
        (0, 1),
        (0, 3600),
        (1_295_000, 108_000),
        (640_000, 1_295_999),
        (77, 1_296_000),
    ];
    for (weekday, (start, width)) in (1..).zip(arcs) {
        compare(
            checks,
            almanac,
            (0, LAST_DAY),
            Arc::new(start, width),
            weekday,
        );
    }
}

/// Sound, refused and doubly refused spans, arcs and weekdays, in every combination; some of the
/// weekdays are so many bits to the left that a set would come out sound again.
fn refused(checks: &mut Checks, almanac: &Almanac) {
    let spans = [(0, 0), (0, 729), (LAST_DAY, LAST_DAY)]
        .into_iter()
        .chain(REFUSED_SPANS);
    let sound_arcs = [Arc::new(0, 3600), Arc::new(1_295_999, 1_296_000)];
    for span in spans {
        for sun in sound_arcs.into_iter().chain(REFUSED_ARCS) {
            for weekday in [0, 6, 7, 8, 31, 32, 38, 64, 127, 256, 1 << 31, u32::MAX] {
                compare(checks, almanac, span, sun, weekday);
            }
        }
    }
}

/// Walks that come to each turn of a cycle from near and from far, on arcs that start at or about
/// the turn.
fn turns(checks: &mut Checks, almanac: &Almanac) {
    for cycle in 1..=LAST_CYCLE {
        let turn = 4016 * cycle;
        for day in turn - 1..=turn + 1 {
            let start = almanac.days()[day as usize].mean[SUN];
            let weekday = almanac.days()[day as usize].weekday;
            for before in [1, 2, 100, 366] {
                for width in [1, 2, 3549] {
                    let span = (turn - before, turn + 3);
                    compare(checks, almanac, span, Arc::new(start, width), weekday);
                }
            }
        }
    }
}

fn random_searches(checks: &mut Checks, almanac: &Almanac) {
    let mut random = Random::from_seed();
    for round in 0..6000 {
        let most = if round % 200 == 0 { LAST_DAY + 1 } else { 5000 };
        let span = random_span(&mut random, most);
        let target = random.between(span.0, span.1);
        let day = &almanac.days()[target as usize];
        let sun = match round % 3 {
            0 => random_arc(&mut random),
            1 => arc_around(&mut random, day.mean[SUN]),
            _ => arc_ahead(&mut random, almanac, span.0),
        };
        let weekday = if random.once_in(2) {
            day.weekday
        } else {
            random.below(7)
        };
        compare(checks, almanac, span, sun, weekday);
    }
}

pub fn run(checks: &mut Checks, almanac: &Almanac) {
    chosen(checks, almanac);
    whole(checks, almanac);
    refused(checks, almanac);
    turns(checks, almanac);
    random_searches(checks, almanac);
}
