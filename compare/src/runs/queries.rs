//! Spans, sets, arcs and whole queries to search for: at the edges, and random.

use std::ops::Range;

use crate::random::Random;
use crate::reference::almanac::{Almanac, Day};
use crate::reference::days::LAST_DAY;
use crate::reference::edition::Edition;
use crate::reference::longitudes::SUN;
use crate::reference::search::{set_of, Arc, Arcs, Query, KARANA, RANGES, WEEKDAY};

pub use crate::reference::span::Span;

use super::{EDITIONS, NO_EDITIONS};

/// Spans that are refused: with 2 for either end or both, some of them reversed too, and with 5.
pub const REFUSED_SPANS: [Span; 9] = [
    (LAST_DAY + 1, LAST_DAY + 1),
    (0, LAST_DAY + 1),
    (LAST_DAY + 1, 0),
    (u32::MAX, u32::MAX),
    (u32::MAX, 0),
    (1 << 31, 5),
    (1, 0),
    (LAST_DAY, LAST_DAY - 1),
    (LAST_DAY, 0),
];

/// Arcs that are refused with 6, by their start, their width or both.
pub const REFUSED_ARCS: [Arc; 7] = [
    Arc::new(0, 0),
    Arc::new(1_295_999, 1_296_001),
    Arc::new(5, u32::MAX),
    Arc::new(1_296_000, 1),
    Arc::new(u32::MAX, 3600),
    Arc::new(1_296_000, 0),
    Arc::new(1 << 31, 1 << 31),
];

/// Sets of weekdays that are refused with 6: the empty one, and such as have more than the seven.
const REFUSED_SETS: [u32; 12] = [
    0,
    128,
    129,
    255,
    256,
    257,
    65_536,
    65_663,
    1 << 31,
    (1 << 31) + 1,
    (1 << 31) + 127,
    u32::MAX,
];

/// The conditions of a query, by the bits of a number: four sets, the arcs of nine mean places, and
/// behind these, as P1 has them, the arcs of seven true places and the set of karanas.
const KARANA_BIT: usize = 20;

/// How much of a page is left.
#[derive(Clone, Copy, PartialEq)]
enum Form {
    /// One weekday, one number of each limb, and one arc for a body, as before L9.
    Plain,
    /// L9's sets of weekdays and second arcs.
    Smudged,
    /// P1's sets of limbs, karanas and true places too.
    HalfRead,
}

/// Which queries are drawn, in an edition.
#[derive(Clone, Copy)]
pub struct Kind {
    edition: u32,
    form: Form,
}

impl Kind {
    fn of(forms: &[Form]) -> Vec<Kind> {
        let kinds = forms.iter().flat_map(|form| {
            EDITIONS.map(|edition| Kind {
                edition,
                form: *form,
            })
        });
        kinds.collect()
    }

    /// Those without P1's conditions.
    pub fn all() -> Vec<Kind> {
        Kind::of(&[Form::Plain, Form::Smudged])
    }

    pub fn half_read() -> Vec<Kind> {
        Kind::of(&[Form::HalfRead])
    }

    pub fn smudged(self) -> bool {
        self.form != Form::Plain
    }

    /// So many rounds, and half as many with other than plain queries.
    pub fn rounds(self, rounds: u32) -> Range<u32> {
        0..if self.smudged() { rounds / 2 } else { rounds }
    }

    /// How many conditions a query can have.
    pub fn conditions(self) -> u32 {
        if self.form == Form::HalfRead {
            21
        } else {
            13
        }
    }

    /// Every combination of conditions given and not given; of half-read queries, of P1's conditions
    /// alone, each a few times with some of the others.
    pub fn combinations(self, random: &mut Random) -> Vec<u32> {
        if self.form != Form::HalfRead {
            return (0..1 << 13).collect();
        }
        let each = (0..1 << 8).flat_map(|given| [given << 13; 6]);
        each.map(|given| given | random.below(1 << 13) & random.number() & random.number())
            .collect()
    }

    /// Any conditions.
    pub fn any(self, random: &mut Random) -> u32 {
        let any = random.below(1 << self.conditions());
        // All of 21 conditions together are seldom met by any day.
        if self.form == Form::HalfRead && random.once_in(2) {
            any & random.number()
        } else {
            any
        }
    }

    /// One condition or two.
    pub fn few(self, random: &mut Random) -> u32 {
        1 << random.below(self.conditions()) | 1 << random.below(self.conditions())
    }

    /// A query with these conditions, over a span of so many days at most.
    pub fn draw(self, random: &mut Random, almanac: &Almanac, given: u32, most: u32) -> Query {
        let mut query = random_query(random, almanac, self.edition, given, most);
        if self.smudged() {
            smudge(random, almanac, &mut query);
        }
        if self.form == Form::HalfRead {
            for limb in WEEKDAY + 1..5 {
                query.sets[limb] = query.sets[limb].map(|set| smudged_set(random, limb, set));
            }
        }
        query
    }
}

/// The entries of the longest list to lend: one for each day of the span, and some where the span
/// is refused.
pub fn most_entries((first, last): Span) -> usize {
    if first <= last && last <= LAST_DAY {
        (last - first + 1) as usize
    } else {
        10
    }
}

/// A span of at most `most` days: one day, a few, or many, often across a cycle's turn, sometimes
/// at an end of the table.
pub fn random_span(random: &mut Random, most: u32) -> Span {
    let longest = random.one_of(&[1, 3, 40, most / 2, most]).clamp(1, most);
    let days = random.between(1, longest);
    let latest_first = LAST_DAY + 1 - days;
    let first = match random.below(6) {
        0 => 0,
        1 => latest_first,
        2 | 3 => {
            let turn = 4016 * random.between(1, 99);
            turn.saturating_sub(random.between(0, days))
                .min(latest_first)
        }
        _ => random.between(0, latest_first),
    };
    (first, first + days - 1)
}

/// A span moved so that it holds a day.
fn moved_to(random: &mut Random, (first, last): Span, day: u32) -> Span {
    let behind = last - first;
    let first = random.between(day.saturating_sub(behind), day.min(LAST_DAY - behind));
    (first, first + behind)
}

/// A span of at most `most` days, and a day in it: every third time one whose limbs differ from
/// edition to edition.
fn random_target(random: &mut Random, almanac: &Almanac, most: u32) -> (Span, u32) {
    let span = random_span(random, most);
    if random.once_in(3) {
        let day = random.one_of(almanac.parted());
        (moved_to(random, span, day), day)
    } else {
        (span, random.between(span.0, span.1))
    }
}

/// A width, often at an edge.
pub fn random_width(random: &mut Random) -> u32 {
    match random.below(8) {
        0 => 1,
        1 => 2,
        2 => 1_295_999,
        3 => 1_296_000,
        4 => random.between(3540, 3560),
        5 | 6 => random.between(1, 120_000),
        _ => random.between(1, 1_296_000),
    }
}

/// An arc that holds a place, with the place often at one of its ends.
pub fn arc_around(random: &mut Random, place: u32) -> Arc {
    let width = random_width(random);
    let into = match random.below(4) {
        0 => 0,
        1 => width - 1,
        _ => random.below(width),
    };
    Arc::new((place + 1_296_000 - into) % 1_296_000, width)
}

/// An arc anywhere; it crosses 0 as often as chance has it, and every fourth time surely (but for
/// widths of 1).
pub fn random_arc(random: &mut Random) -> Arc {
    let width = random_width(random);
    let start = if random.once_in(4) {
        1_296_000 - random.between(1, width)
    } else {
        random.below(1_296_000)
    };
    Arc::new(start, width)
}

/// A Sun arc whose start is a whole multiple of 3549 seconds ahead of a day's mean Sun, or a second
/// beside: where the walk's rounding matters most.
pub fn arc_ahead(random: &mut Random, almanac: &Almanac, day: u32) -> Arc {
    let place = almanac.days()[day as usize].mean[SUN];
    let multiple = 3549 * random.one_of(&[1, 1, 1, 2, 3, 30, 200, 364]);
    let beside = random.one_of(&[0, 0, 1, 1_295_999]);
    Arc::new(
        (place + multiple + beside) % 1_296_000,
        random.one_of(&[1, 1, 2, 3549]),
    )
}

/// The set of all numbers in a range.
pub fn whole_set(at: usize) -> u32 {
    let (least, largest) = RANGES[at];
    set_of(&Vec::from_iter(least..=largest))
}

/// The set of the day's own number mostly, else of any in range.
fn set_near(random: &mut Random, at: usize, own: u32) -> u32 {
    let (least, largest) = RANGES[at];
    if random.once_in(8) {
        set_of(&[least + random.below(largest + 1 - least)])
    } else {
        set_of(&[own])
    }
}

/// A query in an edition, with the conditions that are the bits of `given`: sets of one number each, and bodies' first
/// arcs. Mostly they are chosen so that one day of the span meets them all; every eighth time they are that day's in
/// either edition.
pub fn random_query(
    random: &mut Random,
    almanac: &Almanac,
    edition: u32,
    given: u32,
    most: u32,
) -> Query {
    let ((first, last), day) = random_target(random, almanac, most);
    let target: &Day = &almanac.days()[day as usize];
    let mut query = Query::without_conditions(first, last);
    query.edition = edition;
    let asked = |condition: usize| given >> condition & 1 == 1;
    let mut named = Edition::numbered(edition).expect("an edition");
    if random.once_in(8) {
        named = random.one_of(&[Edition::First, Edition::Second]);
    }
    let own = target.numbers(named);
    for at in 0..5 {
        let bit = if at == KARANA { KARANA_BIT } else { at };
        query.sets[at] = asked(bit).then(|| set_near(random, at, own[at]));
    }
    for body in 0..16 {
        query.arcs[body].first = asked(4 + body).then(|| match random.below(16) {
            0 => random_arc(random),
            1..=3 if body == SUN => arc_ahead(random, almanac, first),
            _ => arc_around(random, target.place(body, named)),
        });
    }
    query
}

/// An arc that starts so many seconds behind, or before, another's start.
fn arc_from(arc: Arc, seconds: i64, width: u32) -> Arc {
    let start = (i64::from(arc.start) + seconds).rem_euclid(1_296_000);
    Arc::new(start as u32, width)
}

/// An arc in one of the ways that two can stand to each other.
fn arc_beside(random: &mut Random, arc: Arc) -> Arc {
    let width = random_width(random);
    let [into, before] = [arc.width, width].map(|end| random.below(end));
    let (own, other) = (i64::from(arc.width), i64::from(width));
    match random.below(12) {
        // The same; with the same start; with the same end.
        0 => arc,
        1 => arc_from(arc, 0, width),
        2 => arc_from(arc, own - other, width),
        // Touching it, behind and before; and a second away.
        3 => arc_from(arc, own, width),
        4 => arc_from(arc, -other, width),
        5 => arc_from(arc, own + 1, width),
        6 => arc_from(arc, -other - 1, width),
        // Within it; about it; and over its end or its start.
        7 => arc_from(arc, i64::from(into), random.between(1, arc.width - into)),
        8 => arc_from(
            arc,
            -i64::from(before),
            1_296_000.min(arc.width + before + random.below(4000)),
        ),
        9 => arc_from(arc, i64::from(into), width),
        // Opposite; anywhere.
        10 => arc_from(arc, 648_000, width),
        _ => random_arc(random),
    }
}

/// An arc, mostly with another, in either order; at times in the second's place.
fn smudged_arcs(random: &mut Random, arc: Arc, other: Arc) -> Arcs {
    match random.below(8) {
        0 => Arcs::one(arc),
        1 => Arcs::second_alone(arc),
        2..=4 => Arcs::two(arc, other),
        _ => Arcs::two(other, arc),
    }
}

/// A set made of a single number's: the same, all, all others, or some more.
fn smudged_set(random: &mut Random, at: usize, set: u32) -> u32 {
    let all = whole_set(at);
    match random.below(8) {
        0 => set,
        1 => all,
        2 => all - set,
        _ => set | random.number() & random.number() & all,
    }
}

/// L9: gives a query more weekdays, and its bodies one or two arcs.
fn smudge(random: &mut Random, almanac: &Almanac, query: &mut Query) {
    let weekdays = &mut query.sets[WEEKDAY];
    *weekdays = weekdays.map(|set| smudged_set(random, WEEKDAY, set));
    for body in 0..16 {
        if let Some(arc) = query.arcs[body].first {
            let other = match random.below(4) {
                0 if body == SUN => arc_ahead(random, almanac, query.first),
                _ => arc_beside(random, arc),
            };
            query.arcs[body] = smudged_arcs(random, arc, other);
        }
    }
}

/// Queries of one condition each: at the ends of its range, or `past` them by 1. An arc stands first,
/// second and alone, or beside a sound one.
pub fn at_range_ends((first, last): Span, past: u32) -> Vec<Query> {
    let mut queries = Vec::new();
    let mut add = |set: &dyn Fn(&mut Query)| {
        let mut query = Query::without_conditions(first, last);
        set(&mut query);
        queries.push(query);
    };
    for (at, (least, largest)) in RANGES.into_iter().enumerate() {
        let [one, all] = [set_of(&[least]), whole_set(at)];
        add(&|query| query.sets[at] = Some(one * (1 - past)));
        add(&|query| query.sets[at] = Some(all + past * set_of(&[largest + 1])));
        add(&|query| query.sets[at] = Some(set_of(&[largest + past])));
        if at == KARANA {
            add(&|query| query.sets[at] = Some(set_of(&[1 - past])));
            add(&|query| query.sets[at] = Some(all + past));
        }
    }
    for body in 0..16 {
        for (start, width) in [
            (1_295_999 + past, 1),
            (600_000, 1 - past),
            (600_000, 1_296_000 + past),
        ] {
            let (arc, sound) = (Arc::new(start, width), Arc::new(300_000, 3600));
            for arcs in [
                Arcs::one(arc),
                Arcs::second_alone(arc),
                Arcs::two(arc, sound),
                Arcs::two(sound, arc),
            ] {
                add(&|query| query.arcs[body] = arcs);
            }
        }
    }
    queries
}

/// A set that is refused with 6.
fn refused_set(random: &mut Random, at: usize) -> u32 {
    let (least, largest) = RANGES[at];
    let past = 1 << random.between(largest + 1, 31);
    let sound = random.number() & whole_set(at);
    match random.below(6) {
        _ if at == WEEKDAY => random.one_of(&REFUSED_SETS),
        0 => 0,
        1 => past,
        2 => u32::MAX,
        3 if least > 0 => 1,
        4 if least > 0 => sound | 1,
        _ => sound | past,
    }
}

/// Puts one or more of a query's given conditions out of range, or its span, or its edition.
pub fn spoil(random: &mut Random, query: &mut Query) {
    for _ in 0..random.between(1, 3) {
        match random.below(23) {
            at @ 0..=4 => {
                let at = at as usize;
                query.sets[at] = Some(refused_set(random, at));
            }
            5 => (query.first, query.last) = random.one_of(&REFUSED_SPANS),
            6 => query.edition = random.one_of(&NO_EDITIONS),
            body => {
                let arcs = &mut query.arcs[body as usize - 7];
                let refused = Some(random.one_of(&REFUSED_ARCS));
                if random.once_in(2) {
                    arcs.first = refused;
                } else {
                    arcs.second = refused;
                }
            }
        }
    }
}
