//! Paper 02, "L12. How far from the older books"; and what the program `drift` prints, whose form the
//! paper leaves open: a heading, and a line for each of the three bodies.

use super::almanac::Almanac;
use super::catalogue::named;
use super::days::Pair;
use super::exact::{Fraction, CIRCLE};
use super::longitudes::{divisor, exact_place, MOON, MOON_APOGEE, SUN};
use super::page::BODIES;
use super::refusal::Answer;
use super::span::{span_in, well_formed, Span};

/// An older book's motion: so many circles of a body in so many days.
pub struct Motion {
    pub body: usize,
    pub circles: i128,
    pub days: i128,
}

/// "Let the Sun make 4,320,000 and the Moon 57,753,300 circles in 1,577,916,450 days, and the apogee
/// 488,203 in 1,577,917,828."
pub const MOTIONS: [Motion; 3] = [
    Motion {
        body: SUN,
        circles: 4_320_000,
        days: 1_577_916_450,
    },
    Motion {
        body: MOON,
        circles: 57_753_300,
        days: 1_577_916_450,
    },
    Motion {
        body: MOON_APOGEE,
        circles: 488_203,
        days: 1_577_917_828,
    },
];

impl Motion {
    /// "A fraction whose divisor is q times the days just named", of a second of arc.
    pub fn divisor(&self) -> i128 {
        divisor(self.body) * self.days
    }

    /// "From the same epoch place", on a day of this number.
    fn place(&self, number: u32) -> Fraction {
        let a_day = Fraction::new(self.circles * CIRCLE, self.days);
        exact_place(self.body, Pair::EPOCH).plus(a_day.times(i128::from(number)))
    }

    /// The "distance between the exact mean place and that motion, the short way round", counted in
    /// parts of the divisor.
    fn distance(&self, number: u32, pair: Pair) -> u64 {
        let apart = exact_place(self.body, pair).minus(self.place(number));
        let parts = apart.times(self.divisor()).as_whole();
        let circle = CIRCLE * self.divisor();
        let forwards = parts.rem_euclid(circle);
        let short = forwards.min(circle - forwards);
        short.try_into().expect("a circle has fewer parts")
    }
}

/// What is said of one body over a span.
#[derive(Clone, Copy, PartialEq, Eq, Debug)]
pub struct Drift {
    pub numerator: u64,
    pub divisor: u64,
    pub day: u32,
}

/// "The largest", and "the first day on which it is reached", from the distances of days from `first`
/// on.
pub fn largest(first: u32, distances: &[u64]) -> (u64, u32) {
    let largest = *distances.iter().max().expect("a span has a day");
    let days = (first..).zip(distances);
    let reached = days.filter(|(_, distance)| **distance == largest);
    let day = reached.map(|(day, _)| day).min();
    (largest, day.expect("it is reached"))
}

const HEADING: &str = "body numerator divisor day date";

/// The distances of all days, body by body, reckoned once.
pub struct Distances([Vec<u64>; 3]);

impl Distances {
    pub fn of(almanac: &Almanac) -> Distances {
        Distances(MOTIONS.each_ref().map(|motion| {
            let days = (0..).zip(almanac.days());
            days.map(|(number, day)| motion.distance(number, day.pair))
                .collect()
        }))
    }

    pub fn of_body(&self, body: usize) -> &[u64] {
        &self.0[body]
    }

    /// "Over a span, report for each of the three the largest distance [...] and the first day on
    /// which it is reached." "Refusals: 2, 5."
    pub fn drifts(&self, span: Span) -> Answer<[Drift; 3]> {
        well_formed(span)?;
        let (first, last) = span;
        Ok(std::array::from_fn(|at| {
            let span = &self.0[at][first as usize..=last as usize];
            let (numerator, day) = largest(first, span);
            Drift {
                numerator,
                divisor: MOTIONS[at].divisor() as u64,
                day,
            }
        }))
    }

    fn lines(&self, almanac: &Almanac, span: Span) -> Answer<String> {
        let mut text = format!("{HEADING}\n");
        for (motion, drift) in MOTIONS.iter().zip(self.drifts(span)?) {
            let Drift {
                numerator,
                divisor,
                day,
            } = drift;
            let (body, day) = (BODIES[motion.body], named(almanac, day));
            text += &format!("{body} {numerator} {divisor} {day}\n");
        }
        Ok(text)
    }

    /// All that the program prints for an input.
    pub fn printed(&self, almanac: &Almanac, input: &[u8]) -> String {
        let text = span_in(almanac, input).and_then(|span| self.lines(almanac, span));
        text.unwrap_or_else(|refusal| format!("refused {refusal}\n"))
    }
}
